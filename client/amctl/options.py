"""Groups of options that several commands have, and the decorator that gives a command its groups."""
import dataclasses
import functools
import inspect
import re
from collections.abc import Callable, Iterator
from dataclasses import dataclass
from pathlib import Path
from typing import Any, List, Optional, TypeVar

import typer

from amctl import words
from amctl.address import CA_VARIABLE, USER_VARIABLE
from amctl.device import App, Device
from amctl.errors import BadWords
from amctl.intents import Extra, Intent
from amctl.where import DEVICE_VARIABLE, URL_VARIABLE, Where, caller

TRUTHS = {"true": True, "false": False}
LONG = range(-(2**63), 2**63)
WHOLE = re.compile(r"[+-]?[0-9]{1,30}")
Command = TypeVar("Command", bound=Callable[..., Any])


def option(default: Any, *names: str, help: str, metavar: str | None = None, **others: Any) -> Any:
    """An option whose default isn't shown: its help says what is done without it."""
    return typer.Option(default, *names, help=help, metavar=metavar, show_default=False, **others)


USER = option(None, "--user", metavar="NAME:PASSWORD", help=f"Who asks a server that wants a password. Others may see it here, but not in {USER_VARIABLE}.")
CA = option(None, "--ca", metavar="FILE", help=f"The certificate of the authority that an https server is trusted by. Else {CA_VARIABLE}, or the machine's.")


@dataclass(frozen=True)
class Asking:
    """The device that is asked, the caller, and how the answer is written."""

    device: Optional[Path] = option(
        None, "--device", metavar="FILE", help=f"The device file: a session of its own, or with --url the server's. Else {DEVICE_VARIABLE}, or ./device.toml."
    )
    url: Optional[str] = option(None, "--url", metavar="URL", help=f"A server, such as http://127.0.0.1:8080. Else {URL_VARIABLE}.")
    user: Optional[str] = USER
    ca: Optional[Path] = CA
    store: Optional[Path] = option(None, "--store", metavar="FILE", help="Keeps what a session of its own installs, grants and links.")
    as_: Optional[str] = option(None, "--as", metavar="PACKAGE", help="The app that asks; the system if left out.")
    json: bool = option(False, "--json", help="The answer as `am` writes it.")
    am: Optional[Path] = option(None, "--am", metavar="PROGRAM", help="The program `am`. Else AM, PATH, or the repository's.")

    def where(self) -> Where:
        return Where(self.device, self.url, self.store, self.am, self.user, self.ca).or_environment()

    def open(self) -> Device:
        return self.where().open()

    def caller(self, device: Device) -> App:
        return caller(device, self.as_)


@dataclass(frozen=True)
class IntentWords:
    """An intent in adb's words."""

    target: Optional[str] = typer.Argument(None, metavar="[URI|COMPONENT|PACKAGE]", show_default=False, help="A URI to view, a component `com.x/.Y`, or a package.")
    action: Optional[str] = option(None, "-a", "--action", help="The action, such as android.intent.action.SEND.")
    data: Optional[str] = option(None, "-d", "--data", help="The URI.")
    type: Optional[str] = option(None, "-t", "--type", help="The MIME type.")
    category: List[str] = option([], "-c", "--category", help="A category; may be given again.")
    component: Optional[str] = option(None, "-n", "--component", help="The component, `com.x/.Y`.")
    package: Optional[str] = option(None, "-p", "--package", help="The package.")
    flag: List[str] = option([], "-f", "--flag", metavar="NAME", help="A flag by name, such as NEW_TASK; may be given again.")
    es: List[str] = option([], "--es", metavar="KEY=TEXT", help="An extra that is a text.")
    el: List[str] = option([], "--el", metavar="KEY=NUMBER", help="An extra that is a whole number.")
    ez: List[str] = option([], "--ez", metavar="KEY=true|false", help="An extra that is a truth.")

    def intent(self) -> Intent:
        """The intent that the words make, or what is wrong with them."""
        bare = {} if self.target is None else Intent.of(self.target).to_json()
        intent = Intent(
            action=self.action,
            data=self.data,
            type=self.type,
            categories=tuple(self.category),
            component=self.component,
            package=self.package,
            flags=tuple(self.flag),
            extras=dict([*_pairs("--es", self.es, _text), *_pairs("--el", self.el, _long), *_pairs("--ez", self.ez, _truth)]),
        )
        if not bare and intent == Intent():
            raise BadWords(words.NO_INTENT)
        for name, value in bare.items():
            # what an option says comes before what a bare word means, but two targets are a slip
            given = getattr(intent, name)
            if given is not None and name != "action":
                raise BadWords(words.given_twice(name, given, value))
            intent = intent if given is not None else dataclasses.replace(intent, **{name: value})
        return intent


def _pairs(option: str, given: List[str], value_of: Callable[[str, str], Extra]) -> Iterator[tuple[str, Extra]]:
    for word in given:
        key, equals, value = word.partition("=")
        if not equals or not key:
            raise BadWords(words.no_value(option, word))
        yield key, value_of(option, value)


def _text(option: str, value: str) -> Extra:
    return value


def _long(option: str, value: str) -> Extra:
    # Python takes `1_0` and other scripts' digits too
    if not WHOLE.fullmatch(value) or int(value) not in LONG:
        raise BadWords(words.no_number(option, value))
    return int(value)


def _truth(option: str, value: str) -> Extra:
    if value not in TRUTHS:
        raise BadWords(words.no_truth(option, value))
    return TRUTHS[value]


def with_groups(command: Command) -> Command:
    """Gives the command the options of each group among its parameters, one by one, as typer needs them."""
    parameters = list(inspect.signature(command).parameters.values())
    groups = {it.name: it.annotation for it in parameters if dataclasses.is_dataclass(it.annotation)}

    @functools.wraps(command)
    def flat(**given: Any) -> Any:
        made = {name: group(**{it.name: given.pop(it.name) for it in dataclasses.fields(group)}) for name, group in groups.items()}
        return command(**made, **given)

    singles = [it.replace(kind=inspect.Parameter.KEYWORD_ONLY) for it in parameters if it.name not in groups]
    members = [
        inspect.Parameter(it.name, inspect.Parameter.KEYWORD_ONLY, default=it.default, annotation=it.type)
        for group in groups.values()
        for it in dataclasses.fields(group)
    ]
    flat.__signature__ = inspect.Signature([*singles, *members])  # type: ignore[attr-defined]
    flat.__annotations__ = {it.name: it.annotation for it in [*singles, *members]}
    return flat  # type: ignore[return-value]
