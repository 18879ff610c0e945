"""Intents on a command line, and intents as Android prints them."""
import dataclasses
import re
from collections.abc import Callable, Mapping
from dataclasses import dataclass
from urllib.parse import unquote

from amctl import words_adb
from amctl.adb import flags
from amctl.adb.console import NotServed, Thrown
from amctl.adb.options import Words, long_number, number, truth
from amctl.android import LAUNCHER, MAIN
from amctl.devicefile import Kind
from amctl.intents import VIEW, Extra, Intent

# of extras `am` takes texts, whole numbers and truths
LEFT_OUT_EXTRAS = ("--eia", "--eial", "--ela", "--elal", "--ef", "--efa", "--efal", "--eu", "--ecn", "--esa", "--esal")
FIELDS = {"-a": "action", "-d": "data", "-t": "type", "-i": "identifier", "-p": "package"}
EXTRAS: Mapping[str, Callable[[str], Extra]] = {"-e": str, "--es": str, "--ei": number, "--el": long_number, "--ez": truth}
HIDDEN_SCHEMES = ("tel", "sip", "sms", "smsto", "mailto", "nfc")
AUTHORITY = re.compile(r"//([^/?#]*)")
SHORTENED_SCHEMES = ("http", "https", "ftp", "rtsp")


@dataclass(frozen=True)
class AskedIntent:
    """An intent of a command line. Its flags are Android's number, since what a number means depends on what the intent is for."""

    fields: Intent = Intent()
    flags: int = 0
    has_extras: bool = False

    def sent(self, kind: Kind) -> Intent:
        """The intent as `am` takes it."""
        return dataclasses.replace(self.fields, flags=flags.names_of(self.flags, kind))

    def flagged(self, bit: int) -> "AskedIntent":
        return dataclasses.replace(self, flags=self.flags | bit)

    def to(self, component: str) -> "AskedIntent":
        """The intent with the component that it found."""
        return dataclasses.replace(self, fields=dataclasses.replace(self.fields, component=component))

    def __str__(self) -> str:
        return f"Intent {{ {summary(self.fields, self.flags, has_extras=self.has_extras)} }}"


def read_intent(words: Words, other: Callable[[str], bool]) -> AskedIntent:
    """Reads the options of an intent and the bare word after them; `other` takes the options of the command itself."""
    reader = _Reader(words)
    while (option := words.option()) is not None:
        if not reader.take(option) and not other(option):
            raise Thrown.argument(f"Unknown option: {option}")
    return reader.intent(words.bare())


class _Reader:
    def __init__(self, words: Words) -> None:
        self.words = words
        self.given: dict[str, str] = {}
        self.categories: list[str] = []
        self.extras: dict[str, Extra] = {}
        self.flags = 0
        self.has_extras = False

    def take(self, option: str) -> bool:
        """Whether it is an intent's option; if so, it is taken."""
        if option in FIELDS:
            self.given[FIELDS[option]] = self.words.value()
        elif option == "-c":
            self.categories.append(self.words.value())
        elif option == "-n":
            self.given["component"] = component_of(self.words.value())
        elif option == "-f":
            self.flags = number(self.words.value())
        elif option in flags.BY_WORD:
            self.flags |= flags.BY_WORD[option].bit
        else:
            return self._take_extra(option)
        return True

    def _take_extra(self, option: str) -> bool:
        if option in LEFT_OUT_EXTRAS:
            raise NotServed(words_adb.no_typed_extra(option))
        if option == "--selector":
            raise NotServed(words_adb.NO_OPTIONS[option])
        if option not in EXTRAS and option != "--esn":
            return False
        key = self.words.value()
        if option in EXTRAS:
            self.extras[key] = EXTRAS[option](self.words.value())
        # an extra without a value reads like one that isn't there
        self.has_extras = True
        return True

    def intent(self, bare: str | None) -> AskedIntent:
        """What was asked, filled in by the bare word: a URI, a component or a package."""
        if bare is None and not self.given and not self.categories:
            raise Thrown.argument("No intent supplied")
        fields = dataclasses.replace(Intent(extras=self.extras, categories=tuple(dict.fromkeys(self.categories))), **self.given)
        return AskedIntent(fields if bare is None else _filled_in(fields, bare), self.flags, self.has_extras)


def _filled_in(fields: Intent, bare: str) -> Intent:
    if ":" in bare:
        if bare.startswith("android-app:") or "#Intent;" in bare:
            raise NotServed(words_adb.no_intent_uri(bare))
        lacks_data = fields.data is None and fields.type is None
        return dataclasses.replace(fields, action=fields.action or VIEW, data=bare if lacks_data else fields.data)
    # Android drops the launcher's category if an action was given
    categories = fields.categories or (() if fields.action else (LAUNCHER,))
    launched = dataclasses.replace(fields, action=fields.action or MAIN, categories=categories)
    if "/" in bare:
        return dataclasses.replace(launched, component=component_of(bare))
    return dataclasses.replace(launched, package=fields.package or bare)


def component_of(text: str) -> str:
    """`package/class` with the whole class."""
    package, slash, name = text.partition("/")
    if not slash or not name:
        raise Thrown.argument(f"Bad component name: {text}")
    return f"{package}/{package}{name}" if name.startswith(".") else text


def short(component: str) -> str:
    """`package/.Class` if the class begins with the package's name."""
    package, _, name = component.partition("/")
    return f"{package}/{name.removeprefix(package)}" if name.startswith(f"{package}.") else component


def summary(intent: Intent, number: int, *, has_extras: bool = False, safe: bool = True) -> str:
    """An intent's parts as Android prints them, without those that it lacks."""
    data = intent.data if intent.data is None or not safe else safe_uri(intent.data)
    parts = [
        ("act=", intent.action),
        ("cat=", f"[{','.join(sorted(intent.categories, key=_java_hash))}]" if intent.categories else None),
        ("dat=", data),
        ("typ=", intent.type),
        ("id=", intent.identifier),
        ("flg=", hex(number & 0xFFFFFFFF) if number else None),
        ("pkg=", intent.package),
        ("cmp=", short(intent.component) if intent.component else None),
        ("", "(has extras)" if has_extras else None),
    ]
    return " ".join(name + value for name, value in parts if value is not None)


def safe_uri(uri: str) -> str:
    """A URI as Android shows it: without what may be private."""
    scheme, colon, rest = uri.partition(":")
    if not colon:
        return unquote(uri.partition("#")[0])
    opaque = unquote(rest.partition("#")[0])
    if scheme.lower() in HIDDEN_SCHEMES:
        return f"{scheme}:" + "".join(it if it in "-@." else "x" for it in opaque)
    if scheme.lower() in SHORTENED_SCHEMES:
        authority = AUTHORITY.match(rest)
        return f"{scheme}://{authority[1].rpartition('@')[2] if authority else ''}/..."
    return f"{scheme}:{opaque}"


def _java_hash(text: str) -> int:
    """Java's hash of a text, by which Android's set of categories is ordered."""
    found = 0
    for at in range(0, len(units := text.encode("utf-16-be")), 2):
        found = (31 * found + int.from_bytes(units[at : at + 2], "big")) & 0xFFFFFFFF
    return found - (1 << 32) if found >= 1 << 31 else found
