"""The commands: what they print, their statuses, and their help."""
import json
import re
import sys
from collections.abc import Callable
from pathlib import Path

import click
import pytest
import typer

from amctl import Intent, cli, words, words_reasons
from amctl.options import IntentWords
from conftest import EXAMPLES, TOP, Ran, run_python

DEVICE = str(EXAMPLES / "device.toml")
ORDERS = str(EXAMPLES / "orders.toml")
LINK = "https://www.photos.example/album/cats"
NAMES = [
    "adb", "advance", "broadcast", "check", "compare", "convert", "force-stop", "from-phone", "grant", "history", "inbox", "install", "link", "lint", "revoke", "serve", "services",
    "start", "start-service", "survey", "tasks", "ui", "uninstall", "visible", "why",
]  # fmt: skip
SERVICES = """
system_key = "s"
[[package]]
key = "k1"
manifest = { package = "com.one", service = [{ name = ".Sync", exported = true, permission = "p.SYNC", intent-filter = [{ action = ["a.SYNC"] }] }] }
[[package]]
key = "k2"
manifest = { package = "com.two" }
"""
MAPS = 'package = "com.maps"\n[[activity]]\nname = ".Show"\nexported = true\n'


@pytest.fixture
def run(capsys: pytest.CaptureFixture[str], tmp_path: Path, monkeypatch: pytest.MonkeyPatch) -> Callable[..., Ran]:
    """Runs a command in this process, in an empty folder."""
    monkeypatch.chdir(tmp_path)

    def call(*words: str) -> Ran:
        status = cli.main(words)
        printed = capsys.readouterr()
        return Ran(status, printed.out, printed.err)

    return call


@pytest.fixture
def services(tmp_path: Path) -> str:
    file = tmp_path / "services.toml"
    file.write_text(SERVICES, encoding="utf-8")
    return str(file)


def test_why_answers_the_question_of_the_readme(run: Callable[..., Ran]) -> None:
    ran = run("why", "--device", DEVICE, "--as", "com.browser", LINK)
    assert (ran.status, ran.err) == (0, "")
    assert ran.out.splitlines() == [
        "com.browser/.Page      reached",
        "com.browser/.Settings  it has no intent filter, so only its name reaches it",
        "                       -> name it in the intent (`-n com.browser/.Settings`)",
        "com.photos/.Viewer     its filter takes types alone (image/*), and the intent has a URI of the scheme https",
        "                       -> give it a filter with this scheme in `data`, or ask by another URI",
        "com.photos/.Album      not approved for www.photos.example, and no default browser is set",
        '                       -> `amctl link com.photos www.photos.example`, or `browser = "com.photos"` in the device file',
    ]


def test_what_why_says_would_change_it_changes_it(run: Callable[..., Ran], rows: Path) -> None:
    assert run("link", "--device", DEVICE, "--store", str(rows), "com.photos", "www.photos.example").status == 0
    ran = run("why", "--device", DEVICE, "--store", str(rows), "--as", "com.browser", LINK)
    assert "com.photos/.Album      reached" in ran.out
    assert "com.browser/.Page      not approved for www.photos.example, and another app is" in ran.out
    ran = run("link", "--device", DEVICE, "--store", str(rows), "com.photos", "www.photos.example", "--denied")
    assert ran.out == "com.photos is not approved for www.photos.example.\n"
    assert "com.browser/.Page      reached" in run("why", "--device", DEVICE, "--store", str(rows), "--as", "com.browser", LINK).out


def near_device(folder: Path) -> str:
    """Packages whose activities come nearer and nearer to a link, and twelve that are as far as can be."""
    rows = {
        "type": '{ scheme = "https", host = "a.example", path = "/x", mimeType = "a/b" }',
        "path": '{ scheme = "https", host = "a.example", path = "/y" }',
        "host": '{ scheme = "https", host = "b.example" }',
        "scheme": '{ scheme = "geo" }',
        "fits": '{ scheme = "https", host = "a.example" }',
    }
    view, default = '"android.intent.action.VIEW"', '"android.intent.category.DEFAULT"'
    filters = {name: f"action = [{view}], category = [{default}], data = [{row}]" for name, row in rows.items()}
    filters["category"] = f"action = [{view}], data = [{rows['fits']}]"
    filters |= {f"far{it:02}": 'action = ["x.A"]' for it in range(12)} | {"alike": 'action = ["VIEW"]'}
    of_filters = {name: f"exported = true\nintent-filter = [{{ {it} }}]" for name, it in filters.items()}
    of_filters |= {"none": "exported = true", "off": f"enabled = false\n{of_filters['fits']}", "shut": of_filters["fits"].replace("true", "false", 1)}
    packages = (f'[[package]]\nkey = "{it}"\n[package.manifest]\npackage = "com.{it}"\n[[package.manifest.activity]]\nname = ".A"\n' for it in sorted(of_filters))
    text = "".join(head + of_filters[name] + "\n" for head, name in zip(packages, sorted(of_filters)))
    file = folder / "near.toml"
    file.write_text(f'system_key = "s"\nbrowser = "com.fits"\n[[link]]\npackage = "com.fits"\nhost = "a.example"\n{text}', encoding="utf-8")
    return str(file)


def test_the_nearest_misses_come_first_and_the_others_are_counted(run: Callable[..., Ran], tmp_path: Path) -> None:
    device = near_device(tmp_path)
    ran = run("why", "--near", "--device", device, "--as", "com.far00", "https://a.example/x")
    assert (ran.status, ran.err) == (0, "")
    *accounts, rest = [it for it in ran.out.splitlines() if "->" not in it]
    names = [it.partition("/")[0].removeprefix("com.") for it in accounts]
    # by how many tests they passed: all, those of the category, the type, the path, the host, the scheme, and none
    assert names == ["fits", "shut", "category", "type", "path", "host", "scheme", "alike", "far00", "far01", "far02"]
    assert rest == "11 more: 9 whose filters don't list the action, 1 without a filter, 1 not enabled."
    shown = json.loads(run("why", "--near", "--json", "--device", device, "--as", "com.far00", "https://a.example/x").out)
    assert [it["to"].partition("/")[0].removeprefix("com.") for it in shown["accounts"]] == names
    assert shown["rest"] == {"action": 9, "no_filter": 1, "disabled": 1}
    assert "rest" not in json.loads(run("why", "--json", "--device", device, "https://a.example/x").out)


def test_few_misses_are_all_shown(run: Callable[..., Ran]) -> None:
    ran = run("why", "--near", "--device", DEVICE, "--as", "com.browser", LINK)
    assert " more: " not in ran.out and len([it for it in ran.out.splitlines() if "->" not in it]) == 4


def test_what_is_not_shown_has_words_for_every_verdict() -> None:
    assert set(words_reasons.REST) >= {*words_reasons.REASON_ORDER, *words.VERDICTS, "no_filter", "narrowed"} - {"reached", "admitted", "approved", "browser", "general"}


def test_json_is_what_am_writes(run: Callable[..., Ran]) -> None:
    ran = run("why", "--device", DEVICE, "--as", "com.browser", "--json", LINK)
    explained = (EXAMPLES / "explained.http").read_text(encoding="utf-8")
    assert json.loads(ran.out) == json.loads(explained[explained.index("{") :])
    assert ran.out.strip() in explained


def test_why_of_one_package_and_of_receivers(run: Callable[..., Ran]) -> None:
    ran = run("why", "--device", ORDERS, "--kind", "receiver", "--of", "com.shop", "--as", "com.guard", "-a", "org.example.ORDER")
    assert ran.out.splitlines() == [
        "com.shop/.Ledger  it isn't exported, and com.guard is another app",
        "                  -> set `exported = true` on it, or ask as com.shop",
    ]
    assert run("why", "--device", ORDERS, "--kind", "service", "-p", "com.shop").out == "the device has no service.\n"


def test_start_says_what_it_opened(run: Callable[..., Ran]) -> None:
    ran = run("start", "--device", DEVICE, "--as", "com.browser", LINK)
    assert (ran.status, ran.out) == (0, "com.browser/.Page: a new instance (instance 1, task 1)\n")
    assert run("start", "--device", DEVICE, "--json", LINK).out == '{"instance":1,"placed":"fresh","task":1}\n'


def test_a_refusal_is_status_1_and_goes_to_standard_error(run: Callable[..., Ran]) -> None:
    ran = run("start", "--device", DEVICE, "--as", "com.photos", "com.browser/.Settings")
    assert (ran.status, ran.out) == (1, "")
    assert ran.err.startswith("amctl: com.browser/.Settings isn't exported, and com.photos is another app: set `exported = true`")


def test_a_service_needs_its_permission_until_it_is_granted(run: Callable[..., Ran], services: str, rows: Path) -> None:
    where = ("--device", services, "--store", str(rows))
    ran = run("start-service", *where, "--as", "com.two", "-a", "a.SYNC", "-p", "com.one")
    assert (ran.status, ran.out) == (1, "")
    assert "asks its callers for p.SYNC, which com.two doesn't hold: `amctl grant com.two p.SYNC`" in ran.err
    assert run("grant", *where, "com.two", "p.SYNC").out == "com.two holds p.SYNC.\n"
    ran = run("start-service", *where, "--as", "com.two", "-a", "a.SYNC", "-p", "com.one")
    assert (ran.status, ran.out) == (0, "com.one/.Sync runs, started 1 time\n")
    assert run("revoke", *where, "com.two", "p.SYNC").out == "com.two does not hold p.SYNC.\n"
    assert run("start-service", *where, "--as", "com.two", "com.one/.Sync").status == 1


def test_broadcast_says_who_gets_it(run: Callable[..., Ran]) -> None:
    ran = run("broadcast", "--device", ORDERS, "--as", "com.shop", "-a", "org.example.ORDER", "--receiver-permission", "p.X")
    assert ran.out.splitlines() == [
        "com.guard/.Check  it doesn't hold p.X, which the sender asks for",
        "                  -> `amctl grant com.guard p.X`, or send without the permission",
        "com.shop/.Ledger  it doesn't hold p.X, which the sender asks for",
        "                  -> `amctl grant com.shop p.X`, or send without the permission",
    ]
    assert "no receiver's filter passes" in run("broadcast", "--device", ORDERS, "-a", "a.NOTHING").out
    sent = json.loads(run("broadcast", "--device", ORDERS, "--json", "--ordered", "-a", "org.example.ORDER").out)
    assert [it["verdict"] for it in sent["receivers"]] == ["admitted", "admitted"]


def test_install_keeps_and_uninstall_takes(run: Callable[..., Ran], tmp_path: Path, rows: Path) -> None:
    (tmp_path / "maps.toml").write_text(MAPS, encoding="utf-8")
    where = ("--device", DEVICE, "--store", str(rows))
    ran = run("install", *where, "maps.toml")
    assert (ran.status, ran.out, ran.err) == (0, "installed as uid 10002, stopped until one of its activities or services is started.\n", "")
    assert run("start", *where, "--as", "com.maps", "com.maps/.Show").out == "com.maps/.Show: a new instance (instance 1, task 1)\n"
    again = run("install", *where, "maps.toml")
    assert again.status == 1 and "the package's name or key is in use" in again.err
    assert run("uninstall", *where, "com.maps").out == "com.maps is removed, with its grants and links.\n"
    assert run("start", *where, "--as", "com.maps", "com.maps/.Show").status == 2


def test_what_a_session_of_its_own_forgets_is_said(run: Callable[..., Ran]) -> None:
    ran = run("force-stop", "--device", DEVICE, "com.photos")
    assert (ran.status, ran.out) == (0, "com.photos is stopped, with all that it had.\n")
    assert ran.err == "amctl: nothing is kept of this, in a store neither: ask a server by --url.\n"
    assert run("force-stop", "--device", DEVICE, "--store", "rows", "com.photos").err == ran.err
    ran = run("grant", "--device", DEVICE, "com.photos", "p.X")
    assert ran.err == "amctl: nothing is kept of this: give --store FILE, or ask a server by --url.\n"
    for command in ("tasks", "services", "inbox", "history"):
        assert run(command, "--device", DEVICE).out == "nothing, since a session of its own begins with none: ask a server by --url.\n"


def test_json_of_nothing(run: Callable[..., Ran]) -> None:
    printed = [run(command, "--device", DEVICE, "--json").out for command in ("tasks", "services", "inbox", "history")]
    assert printed == ['{"tasks":[]}\n', '{"services":[]}\n', '{"items":[]}\n', '{"entries":[],"from":0}\n']


def test_advance_says_the_moment_and_what_is_due(run: Callable[..., Ran]) -> None:
    ran = run("advance", "--device", ORDERS, "5")
    assert (ran.status, ran.out) == (0, "the moment is 5 ms; no delivery has a deadline.\n")
    assert ran.err == "amctl: nothing is kept of this, in a store neither: ask a server by --url.\n"
    assert run("advance", "--device", ORDERS, "--json").out == '{"due":null,"now":0}\n'
    ran = run("advance", "--device", ORDERS, "--as", "com.shop", "5")
    assert (ran.status, ran.out) == (1, "")
    assert ran.err.startswith("amctl: only the system and the root may ask this, and com.shop is an app")


def test_visible_is_what_the_commands_document_shows(run: Callable[..., Ran]) -> None:
    queries = str(EXAMPLES / "queries.toml")
    assert run("visible", "--device", queries, "--as", "com.notes", "geo:1,2").out == "com.maps/.Show\n"
    assert run("visible", "--device", queries, "--as", "com.notes", "--json", "geo:1,2").out == '{"components":["com.maps/com.maps.Show"]}\n'
    assert "nothing that the package sees" in run("visible", "--device", queries, "--as", "com.notes", "tel:1").out


def test_the_environment_and_the_folder_name_the_device(amctl: Callable[..., Ran], tmp_path: Path, rows: Path) -> None:
    assert amctl("start", LINK, AMCTL_DEVICE=DEVICE).out.startswith("com.browser/.Page")
    (tmp_path / "device.toml").write_text((EXAMPLES / "device.toml").read_text(encoding="utf-8"), encoding="utf-8")
    assert amctl("start", LINK).out.startswith("com.browser/.Page")
    assert amctl("grant", "com.photos", "p.X", AMCTL_STORE=str(rows)).err == ""
    assert rows.is_file()


def test_words_make_an_intent() -> None:
    words = IntentWords(
        target="com.x/.Y", action="a.A", data=None, type="t/x", category=["c.C", "c.D"], component=None, package=None, flag=["NEW_TASK"],
        es=["t=a=b"], el=["n=-5"], ez=["b=true"],
    )  # fmt: skip
    assert words.intent() == Intent(
        action="a.A", component="com.x/.Y", type="t/x", categories=("c.C", "c.D"), flags=("NEW_TASK",), extras={"t": "a=b", "n": -5, "b": True}
    )


def test_a_bare_uri_is_viewed_unless_an_action_is_given(run: Callable[..., Ran]) -> None:
    viewed = run("why", "--device", DEVICE, "--json", LINK).out
    assert run("why", "--device", DEVICE, "--json", "-a", "android.intent.action.VIEW", "-d", LINK).out == viewed
    assert run("why", "--device", DEVICE, "--json", "-a", "a.OTHER", LINK).out != viewed


def test_a_reader_that_stops_is_no_error() -> None:
    for words in ("--help", f"why --device {DEVICE} --json {LINK}"):
        line = f"{sys.executable} -m amctl {words} | true; exit ${{PIPESTATUS[0]}}"
        ran = run_python("-c", f"import subprocess, sys; sys.exit(subprocess.call(['bash', '-c', {line!r}]))")
        assert (ran.status, ran.err) == (0, "")


def test_an_answer_that_finds_no_room_is_said() -> None:
    line = f"{sys.executable} -m amctl why --device {DEVICE} --json {LINK} > /dev/full"
    ran = run_python("-c", f"import subprocess, sys; sys.exit(subprocess.call(['bash', '-c', {line!r}]))")
    assert ran.status == 2
    assert ran.err == "amctl: the answer can't be written (No space left on device): give standard output room.\n"


def test_a_terminal_gets_a_table() -> None:
    """The same answer, if standard output is a terminal."""
    words = f"{sys.executable} -m amctl why --device {DEVICE} --as com.browser {LINK}"
    ran = run_python("-c", f"import os, pty; os.environ['COLUMNS'] = '200'; pty.spawn({words.split()!r})")
    assert "what would change it" in ran.out and "┃" in ran.out
    assert "not approved for www.photos.example" in ran.out


def test_every_command_has_help_with_an_example_that_it_takes() -> None:
    group = typer.main.get_command(cli.app)
    assert isinstance(group, click.Group)
    assert sorted(group.commands) == NAMES
    for name, command in group.commands.items():
        example = re.match(r"Example: (?:alias .*; )?(amctl|adb) (.*)$", command.epilog or "")
        assert example, name
        assert command.help and command.help.endswith(".")
        if example[1] == "amctl":
            first, *words = example[2].split()
            assert first == name
            # the example's options are options, and its words are as many as are wanted
            command.make_context(name, list(words))


def test_the_version_is_the_repository_s(run: Callable[..., Ran]) -> None:
    ran = run("--version")
    assert (ran.status, ran.out.splitlines()[0]) == (0, f"amctl {(TOP / 'VERSION').read_text(encoding='utf-8').strip()}")


def test_help_is_printed() -> None:
    ran = run_python("-m", "amctl", "why", "--help", COLUMNS="200")
    assert ran.status == 0
    assert "Example: amctl why --device device.toml --as com.browser https://www.photos.example/album/cats" in ran.out
    # what isn't a terminal gets no frames, and doesn't wait for who draws them
    assert "─" not in ran.out
