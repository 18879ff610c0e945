"""The commands, in adb's words if adb has them."""
import copy
import difflib
import os
import re
import sys
from collections.abc import Mapping, Sequence
from enum import Enum
from pathlib import Path
from typing import List, Optional

import click
import typer

from amctl import __version__, results, show, words, words_reasons
from amctl.device import Device, Refusal
from amctl.devicefile import DeviceFile, Kind, text_of
from amctl.errors import AmctlError, BadWords
from amctl.find import find_am, is_unproved
from amctl.near import nearest as nearest_of
from amctl.options import CA, USER, Asking, IntentWords, option, with_groups
from amctl.results import Choose
from amctl.weblinks import covers, declared_hosts

NO_COMMAND = re.compile(r"No such command '(.*)'")
REFUSED = 1
WRONG_WORDS = 2
# what `am` takes of one request
MOST_AHEAD = 2**50
LAST_MOMENT = 2**64 - 1

app = typer.Typer(
    add_completion=False,
    no_args_is_help=True,
    pretty_exceptions_enable=False,
    context_settings={"max_content_width": 120},
)


class Kinds(str, Enum):
    activity = "activity"
    service = "service"
    receiver = "receiver"

    @property
    def kind(self) -> Kind:
        return self.value


def _version(is_asked: bool) -> None:
    """Says which client this is and which `am` it uses, and ends."""
    if is_asked:
        print(f"amctl {__version__}")
        am = find_am()
        print(words.program(str(am), is_unproved(am)))
        raise typer.Exit()


@app.callback()
def every_command(
    _: bool = option(False, "--version", callback=_version, is_eager=True, help="Shows the version of this client, and which am it uses.")
) -> None:
    """Asks `am` which app of a simulated Android device gets an intent."""


class Readers(str, Enum):
    androguard = "androguard"
    aapt2 = "aapt2"


KIND = option(Kinds.activity, "--kind", help="What is meant: activity (if left out), service, or receiver of a broadcast.")
OF = option(None, "--of", metavar="PACKAGE", help="Shows the components of this package alone.")
BASELINE = option(None, "--baseline", metavar="FILE", help="The JSON of an earlier run: only what is new is told.")
FORMAT = option("text", "--format", metavar="FORMAT", help="text, json, sarif or junit; text if left out.")
RECEIVER_PERMISSION = option(None, "--receiver-permission", metavar="PERMISSION", help="Receivers must hold it.")


@app.command(epilog="Example: amctl why --device device.toml --as com.browser https://www.photos.example/album/cats")
@with_groups
def why(
    intent: IntentWords,
    asking: Asking,
    kind: Kinds = KIND,
    of: Optional[str] = OF,
    receiver_permission: Optional[str] = RECEIVER_PERMISSION,
    near: bool = option(False, "--near", help="Shows what is reached and the ten nearest misses, and counts the others."),
) -> None:
    """Says of each component whether an intent would reach it, and if not, why, and what would change it."""
    asked = intent.intent()
    with asking.open() as device:
        caller = asking.caller(device)
        found = caller.explain(kind.kind, asked, permission=receiver_permission, of=of)
    rest: Mapping[str, int] = {}
    if near:
        nearest = nearest_of(found, kind.kind, asked, device.file)
        found, rest = nearest.accounts, nearest.rest
    about = words.About(caller.package, kind.kind, asked, device.file)
    if asking.json:
        show.show_json({"accounts": results.to_json(found), **({"rest": rest} if near else {})})
    elif not found:
        print(words.none_of_kind(kind.kind, of))
    else:
        show.show_accounts(show.account_rows(found, about))
        if rest:
            print(words_reasons.rest(rest, about))


@app.command(epilog="Example: amctl start --as com.browser https://www.photos.example/album/cats")
@with_groups
def start(
    intent: IntentWords, asking: Asking, source: Optional[int] = option(None, "--source", help="The activity instance that starts it.")
) -> None:
    """Starts an activity, in a task of its own (NEW_TASK) if no instance starts it."""
    asked = intent.intent()
    if source is None:
        asked = asked.with_flag("NEW_TASK")
    with asking.open() as device:
        found = asking.caller(device).start(asked, source=source)
        if asking.json:
            show.show_json(results.to_json(found))
        elif isinstance(found, Choose):
            print(words.choice(found))
        else:
            print(words.placed(found, device.component_of(found)))


@app.command("start-service", epilog="Example: amctl start-service --as com.browser -n com.photos/.Sync")
@with_groups
def start_service(intent: IntentWords, asking: Asking) -> None:
    """Starts a service, or again one that runs."""
    with asking.open() as device:
        found = asking.caller(device).start_service(intent.intent())
    if asking.json:
        show.show_json(results.to_json(found))
    else:
        print(words.started(found))


@app.command(epilog="Example: amctl broadcast --as com.shop -a org.example.ORDER --ordered")
@with_groups
def broadcast(
    intent: IntentWords,
    asking: Asking,
    ordered: bool = option(False, "--ordered", help="To one receiver after the other."),
    receiver_permission: Optional[str] = RECEIVER_PERMISSION,
) -> None:
    """Broadcasts an intent, and says of each receiver whether it gets it, and if not, why."""
    asked = intent.intent()
    with asking.open() as device:
        caller = asking.caller(device)
        sent = caller.send(asked, permission=receiver_permission, ordered=ordered)
    if asking.json:
        show.show_json(results.to_json(sent))
        return
    about = words.About(caller.package, "receiver", asked, device.file)
    said = [(words.shown(it.to), words.receiver(it, about)) for it in sent.receivers]
    if said:
        show.show_accounts([(name, it.says, it.change) for name, it in said])
    else:
        print(words.NO_RECEIVER.text)


@app.command(epilog="Example: amctl inbox --url http://127.0.0.1:8080 --device device.toml --as com.guard")
@with_groups
def inbox(asking: Asking) -> None:
    """The deliveries and results that wait for an app."""
    with asking.open() as device:
        found = asking.caller(device).inbox()
    if asking.json:
        show.show_json({"items": results.to_json(found)})
    else:
        _table(asking, ("number", "to", "what"), [words.item(it) for it in found])


@app.command(epilog="Example: amctl tasks --url http://127.0.0.1:8080 --device device.toml")
@with_groups
def tasks(asking: Asking) -> None:
    """The tasks from front to back, each with its activities from root to top."""
    with asking.open() as device:
        found = asking.caller(device).tasks()
    if asking.json:
        show.show_json({"tasks": results.to_json(found)})
    else:
        rows = [words.instance(task.task, it) for task in found for it in task.instances]
        _table(asking, ("task", "instance", "component", "intent"), rows)


@app.command(epilog="Example: amctl services --url http://127.0.0.1:8080 --device device.toml")
@with_groups
def services(asking: Asking) -> None:
    """The services that run."""
    with asking.open() as device:
        found = asking.caller(device).services()
    if asking.json:
        show.show_json({"services": results.to_json(found)})
    else:
        _table(asking, ("component", "starts", "intent"), [words.service(it) for it in found])


@app.command(epilog="Example: amctl history --url http://127.0.0.1:8080 --device device.toml --from 64")
@with_groups
def history(asking: Asking, from_: int = option(0, "--from", min=0, help="The number of the first call; 0 if left out.")) -> None:
    """The stored calls from a number on, at most 64."""
    with asking.open() as device:
        found = asking.caller(device).history(from_)
    if asking.json:
        show.show_json({"entries": results.to_json(found), "from": from_})
    else:
        _table(asking, ("number", "moment", "caller", "call"), [words.entry(it, device.file) for it in found])


@app.command(epilog="Example: amctl advance --url http://127.0.0.1:8080 --device device.toml 10000")
@with_groups
def advance(
    asking: Asking,
    by: int = typer.Argument(0, metavar="[MILLISECONDS]", min=0, max=MOST_AHEAD, show_default=False, help="How far; 0, which only asks, if left out."),
) -> None:
    """Moves the moment ahead, lets what is due then be late, and says what is due next."""
    with asking.open() as device:
        found = asking.caller(device).advance(by)
    _done(asking, results.to_json(found), words.advanced(found), is_kept_in_store=False)


@app.command(epilog="Example: amctl install --store rows maps.toml")
@with_groups
def install(
    asking: Asking,
    manifest: Path = typer.Argument(..., metavar="MANIFEST", help="A manifest as a TOML file."),
    key: Optional[str] = option(None, "--key", help="The key of its calls; one is made if left out."),
) -> None:
    """Installs a package by its manifest."""
    text = text_of(manifest)
    with asking.open() as device:
        uid = asking.caller(device).install(text, key=key)
    _done(asking, {"uid": uid}, words.installed(uid))


@app.command(epilog="Example: amctl uninstall --store rows com.maps")
@with_groups
def uninstall(asking: Asking, package: str = typer.Argument(..., metavar="PACKAGE")) -> None:
    """Removes a package with its grants and links."""
    with asking.open() as device:
        asking.caller(device).uninstall(package)
    _done(asking, {}, words.uninstalled(package))


@app.command(epilog="Example: amctl grant --store rows com.news com.mail.permission.SYNC")
@with_groups
def grant(asking: Asking, package: str = typer.Argument(..., metavar="PACKAGE"), permission: str = typer.Argument(..., metavar="PERMISSION")) -> None:
    """Gives a package a permission."""
    with asking.open() as device:
        asking.caller(device).grant(package, permission)
    _done(asking, {}, words.granted(package, permission, True))


@app.command(epilog="Example: amctl revoke --store rows com.news com.mail.permission.SYNC")
@with_groups
def revoke(asking: Asking, package: str = typer.Argument(..., metavar="PACKAGE"), permission: str = typer.Argument(..., metavar="PERMISSION")) -> None:
    """Takes a permission from a package."""
    with asking.open() as device:
        asking.caller(device).grant(package, permission, held=False)
    _done(asking, {}, words.granted(package, permission, False))


@app.command(epilog="Example: amctl link --store rows com.photos www.photos.example")
@with_groups
def link(
    asking: Asking,
    package: str = typer.Argument(..., metavar="PACKAGE"),
    host: str = typer.Argument(..., metavar="HOST"),
    denied: bool = option(False, "--denied", help="Takes the approval back."),
) -> None:
    """Approves a package for the web links of a host."""
    _check_host(host)
    with asking.open() as device:
        asking.caller(device).link(package, host, approved=not denied)
        uncounted = None if denied else _uncounted(device.file, package, host)
    _done(asking, {}, words.linked(package, host, not denied))
    if uncounted:
        print(f"amctl: {uncounted}", file=sys.stderr)


@app.command("force-stop", epilog="Example: amctl force-stop --url http://127.0.0.1:8080 --device device.toml com.photos")
@with_groups
def force_stop(asking: Asking, package: str = typer.Argument(..., metavar="PACKAGE")) -> None:
    """Stops a package and all that it has."""
    with asking.open() as device:
        asking.caller(device).force_stop(package)
    _done(asking, {}, words.stopped(package), is_kept_in_store=False)


@app.command(epilog="Example: amctl visible --device examples/queries.toml --as com.notes geo:1,2")
@with_groups
def visible(intent: IntentWords, asking: Asking, kind: Kinds = KIND) -> None:
    """The components that an intent finds and that a package may see, by the `queries` of its manifest."""
    where = asking.where()
    if where.url is not None:
        raise BadWords(words.VISIBLE_URL)
    with Device.open(where.file(), am=where.am) as device:
        found = device.visible(asking.caller(device).package, kind.kind, intent.intent())
    if asking.json:
        show.show_json({"components": list(found)})
    else:
        print("\n".join(words.shown(it) for it in found) or words.NOTHING_VISIBLE.text)


@app.command(epilog="Example: amctl lint device.toml")
def lint(
    device: Path = typer.Argument(..., metavar="DEVICE", help="The device file."),
    store: Optional[Path] = option(None, "--store", metavar="FILE", help="Looks at what is kept there too."),
    baseline: Optional[Path] = BASELINE,
    severity: str = option("note", "--severity", metavar="SEVERITY", help="Status 1 from this one on: note, warning or error; note if left out."),
    format: str = FORMAT,
    json: bool = option(False, "--json", help="The same as --format json."),
    am: Optional[Path] = option(None, "--am", metavar="PROGRAM", help="The program `am`. Else AM, PATH, or the repository's."),
) -> int:
    """Finds likely mistakes in a device file. Status 1 if there is something."""
    from amctl import lint as linter

    return linter.main(device, store=store, severity=severity, form="json" if json else format, baseline=baseline, am=am)


@app.command(epilog="Example: amctl convert base.apk > device.toml")
def convert(
    inputs: List[str] = typer.Argument(..., metavar="INPUT..", help="APKs, Android manifests, and folders of them."),
    keys: Optional[str] = option(None, "--keys", metavar="FILE", help="Each line has a package and its key; `android` has the system's."),
    grant_all: bool = option(False, "--grant-all", help="Grants each package the permissions that it asks for."),
    facts: Optional[str] = option(None, "--facts", metavar="FILE", help="Gets what `check` needs of each package beside the device file."),
    strict: bool = option(False, "--strict", help="The status is 1 if something is left out."),
    reader: Optional[Readers] = option(None, "--reader", help="What reads binary manifests: androguard, or else aapt2."),
) -> int:
    """Makes one device file of APKs and Android manifests, and says on standard error what it leaves out."""
    from amctl.apps.command import Asked, convert

    return convert(Asked(inputs, keys, grant_all, facts, strict, reader and reader.value))


@app.command(epilog="Example: amctl check gallery.toml --on device.toml")
def check(
    app: Path = typer.Argument(..., metavar="APP", help="The app: a manifest as a TOML file, an APK or an XML manifest."),
    on: Optional[Path] = option(None, "--on", metavar="DEVICE", help="The device file; the app is installed on a copy of that device. Else it is alone."),
    facts: Optional[Path] = option(None, "--facts", metavar="FILE", help="What the converter wrote beside the device file."),
    assetlinks: Optional[Path] = option(None, "--assetlinks", metavar="FILE", help="Statements of Digital Asset Links: which hosts would be approved."),
    history: Optional[Path] = option(None, "--history", metavar="FILE", help="Stored calls, one a line: those of the app are looked at."),
    baseline: Optional[Path] = BASELINE,
    severity: str = option("error", "--severity", metavar="SEVERITY", help="Status 1 from this one on: note, warning or error; error if left out."),
    format: str = FORMAT,
    am: Optional[Path] = option(None, "--am", metavar="PROGRAM", help="The program `am`. Else AM, PATH, or the repository's."),
) -> int:
    """Says before an app is published what it takes, opens and gives away on a device."""
    from amctl import check as checker

    asked = checker.Asked(app, on, facts, assetlinks, history, am)
    return checker.main(asked, severity=severity, form=format, baseline=baseline)


@app.command(epilog="Example: amctl survey apps --on device.toml --each --jobs 4")
def survey(
    folder: Path = typer.Argument(..., metavar="DIR", help="The folder of the apps: APKs, and manifests in XML or TOML."),
    on: Optional[Path] = option(None, "--on", metavar="DEVICE", help="The device file to whose packages the apps are added; none if left out."),
    each: bool = option(False, "--each", help="Each app on a copy of the device of --on, and not all on one."),
    into: Path = option(Path("survey"), "--into", metavar="FOLDER", help="Gets the results; an interrupted survey goes on there. ./survey if left out."),
    jobs: Optional[int] = option(None, "--jobs", min=1, max=256, help="How many jobs run at once; one for each processor if left out."),
    dask: Optional[str] = option(None, "--dask", metavar="ADDRESS", help="A scheduler of Dask, whose workers do the jobs, such as tcp://127.0.0.1:8786."),
    am: Optional[Path] = option(None, "--am", metavar="PROGRAM", help="The program `am`. Else AM, PATH, or the repository's."),
) -> int:
    """Says of all apps of a folder who reaches whom. Status 1 if an app can't be read."""
    from amctl import survey as surveyor

    return surveyor.main(surveyor.Asked(folder, on, each, into, jobs or os.cpu_count() or 1, dask, am))


@app.command(epilog="Example: amctl serve device.toml --port 8080 --workers 8")
def serve(
    device: Path = typer.Argument(..., metavar="DEVICE", help="The device file."),
    port: Optional[int] = option(None, "--port", min=1, max=65535, help="A free one is taken if left out."),
    workers: int = option(4, "--workers", min=1, max=64, help="How many requests are answered at once; 4 if left out."),
    store: Optional[Path] = option(None, "--store", metavar="FILE", help="Keeps what is installed, granted and linked."),
    connections: Optional[int] = option(None, "--connections", min=1, max=1_000_000, help="Each worker takes so many, and ends once they have ended."),
    at: Optional[int] = option(None, "--at", metavar="MOMENT", min=0, max=LAST_MOMENT, help="The clock stands at this moment, in milliseconds."),
    am: Optional[Path] = option(None, "--am", metavar="PROGRAM", help="The program `am`. Else AM, PATH, or the repository's."),
) -> int:
    """Serves a device on 127.0.0.1 until it is stopped."""
    from amctl.serve import Serving, run

    return run(Serving(device, port, workers, store, connections, am, at))


@app.command(epilog="Example: amctl ui --device examples/device.toml")
def ui(
    device: Optional[Path] = option(None, "--device", metavar="FILE", help="The device file: a session of its own, or with --url the server's."),
    url: Optional[str] = option(None, "--url", metavar="URL", help="A server, such as http://127.0.0.1:8080."),
    user: Optional[str] = USER,
    ca: Optional[Path] = CA,
    port: Optional[int] = option(None, "--port", min=1, max=65535, help="The page's port; a free one is taken if left out."),
    open_: bool = option(False, "--open", help="Opens the page in a browser."),
    am: Optional[Path] = option(None, "--am", metavar="PROGRAM", help="The program `am`. Else AM, PATH, or the repository's."),
) -> int:
    """Shows a device on a page of 127.0.0.1, until it is stopped."""
    from amctl.ui.run import run
    from amctl.where import Where

    return run(Where(device, url, am=am, user=user, ca=ca).or_environment(), port, open_)


@app.command("from-phone", epilog="Example: amctl from-phone --serial emulator-5554 --packages com.browser com.photos > device.toml")
def from_phone(
    more: Optional[List[str]] = typer.Argument(None, metavar="[PACKAGES..]", show_default=False, help="More packages behind those of --packages."),
    serial: Optional[str] = option(None, "--serial", metavar="SERIAL", help="The phone, as `adb devices` names it; the only one if left out."),
    packages: List[str] = option([], "--packages", metavar="PACKAGE", help="Which packages; all, and at most 256, if left out."),
    adb: Optional[Path] = option(None, "--adb", metavar="PROGRAM", help="The real adb. Else the one on PATH."),
    kept: Optional[Path] = option(None, "--kept", metavar="FOLDER", help="Where a run that is interrupted goes on. Else a folder among your cached files."),
) -> int:
    """Writes a device file of a real phone's apps to standard output. Status 1 if an app can't be read."""
    from amctl.phone import command

    return command.main(command.Asked(serial, (*packages, *(more or ())), adb, kept))


@app.command(epilog="Example: amctl compare --suite everyday --serial emulator-5554 --device device.toml")
def compare(
    file: Optional[Path] = typer.Argument(None, metavar="[SUITE]", show_default=False, help="A suite: a file of adb's lines, or of questions in TOML."),
    suite: Optional[str] = option(None, "--suite", metavar="NAME", help="A suite of this client's: everyday, a hundred questions made of the device file."),
    serial: Optional[str] = option(None, "--serial", metavar="SERIAL", help="The phone, as `adb devices` names it; the only one if left out."),
    device: Path = option(..., "--device", metavar="FILE", help="The phone's device file, as from-phone writes it."),
    format: str = option("text", "--format", metavar="FORMAT", help="text, json or junit; text if left out."),
    yes: bool = option(False, "--yes", help="Goes on without asking before the first change to the phone."),
    list_: bool = option(False, "--list", help="Prints the suite as adb's lines, and asks nobody."),
    adb: Optional[Path] = option(None, "--adb", metavar="PROGRAM", help="The real adb. Else the one on PATH."),
    am: Optional[Path] = option(None, "--am", metavar="PROGRAM", help="The program `am`. Else AM, PATH, or the repository's."),
) -> int:
    """Asks a real phone and `am` the same, and says where they differ. Status 1 if they do."""
    from amctl.compare import command

    return command.main(command.Asked(device, file, suite, serial, adb, am, format, yes), is_listed=list_)


@app.command(
    epilog="Example: alias adb='amctl adb'; adb shell am start -a android.intent.action.VIEW -d https://www.photos.example/",
    add_help_option=False,
    context_settings={"allow_extra_args": True, "ignore_unknown_options": True, "allow_interspersed_args": False},
)
def adb(words_of_adb: Optional[List[str]] = typer.Argument(None, metavar="WORDS..")) -> int:
    """Takes adb's words, and answers in adb's lines."""
    from amctl import adb as bridge

    return bridge.main(words_of_adb or [])


def main(argv: Sequence[str] | None = None) -> int:
    """Runs a command. The status is 0, 1 for a refusal, and 2 for words or files that can't be used."""
    given = sys.argv[1:] if argv is None else argv
    try:
        _check_words(given)
        # a command that has a status of its own returns it
        status = _with_one(given)(args=list(given), prog_name="amctl", standalone_mode=False)
        sys.stdout.flush()
        return status if isinstance(status, int) else 0
    except Refusal as refused:
        return _failed(refused.told, REFUSED)
    except AmctlError as wrong:
        return _failed(str(wrong), WRONG_WORDS)
    except click.UsageError as usage:
        return _failed(_usage(usage), WRONG_WORDS)
    except click.Abort:
        return _failed("stopped.", WRONG_WORDS)
    except (BrokenPipeError, SystemExit):
        # a reader that stops has what it needs; click exits if it finds that out itself
        _drop_output()
        return 0
    except OSError as fault:
        if fault.filename is None:
            _drop_output()
        return _failed(words.os_fault(fault.strerror or str(fault), fault.filename), WRONG_WORDS)


def _with_one(given: Sequence[str]) -> typer.Typer:
    """The commands, or the asked one alone: typer makes the options of all that it is given, which is a seventh of a start."""
    asked = [it for it in app.registered_commands if it.callback and [it.name or it.callback.__name__] == list(given[:1])]
    one = copy.copy(app)
    one.registered_commands = asked or app.registered_commands
    return one


def _check_words(given: Sequence[str]) -> None:
    for word in given:
        try:
            word.encode()
        except UnicodeEncodeError:
            raise BadWords(words.no_text(ascii(word))) from None


def _drop_output() -> None:
    """What is still to be written would fail again at the end."""
    os.dup2(os.open(os.devnull, os.O_WRONLY), sys.__stdout__.fileno())


def _usage(usage: click.UsageError) -> str:
    """What is wrong with the words, with the command that may have been meant."""
    command = usage.ctx.command_path if usage.ctx else "amctl"
    names = usage.ctx.command.list_commands(usage.ctx) if usage.ctx and isinstance(usage.ctx.command, click.MultiCommand) else []
    unknown = NO_COMMAND.search(usage.format_message())
    near = difflib.get_close_matches(unknown[1], names, 1, 0.5) if unknown else []
    return words.usage(usage.format_message(), command, near[0] if near else None)


def _failed(sentence: str, status: int) -> int:
    print(f"amctl: {sentence}", file=sys.stderr)
    return status


def _table(asking: Asking, columns: Sequence[str], rows: Sequence[Sequence[str]]) -> None:
    if rows:
        show.show_table(columns, rows)
    else:
        print(words.NOTHING_YET if asking.where().url is None else words.NOTHING)


def _done(asking: Asking, reply: Mapping[str, int | None], sentence: str, *, is_kept_in_store: bool = True) -> None:
    where = asking.where()
    if asking.json:
        show.show_json(reply)
    else:
        print(sentence)
    if where.url is None and not (is_kept_in_store and where.store is not None):
        print(f"amctl: {words.NOT_KEPT if is_kept_in_store else words.NOT_KEPT_IN_STORE}", file=sys.stderr)


def _uncounted(file: DeviceFile, package: str, host: str) -> str | None:
    """Why an approval counts for nothing on a phone, as far as the device file tells."""
    of_file = file.package(package)
    if of_file is None or not file.answers_as_phone:
        return None
    declared = declared_hosts(of_file.components)
    return None if host.lower() in declared else words.uncounted(package, host, next((it for it in declared if covers(it, host)), None))


def _check_host(host: str) -> None:
    if not host or "/" in host or ":" in host:
        raise BadWords(words.no_host(host))
