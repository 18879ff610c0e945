"""`pm query-activities`, `query-services`, `query-receivers` and `resolve-activity`."""
from dataclasses import dataclass
from typing import ClassVar

from amctl import words_adb
from amctl.adb.activities import RESOLVER
from amctl.adb.command import Leaves
from amctl.adb.console import Console, NotServed
from amctl.adb.intents import AskedIntent, read_intent, short
from amctl.adb.options import Words, number, user
from amctl.adb.phone import Phone
from amctl.devicefile import Kind

MATCH_DEFAULT_ONLY = 0x10000
PLURALS: dict[Kind, str] = {"activity": "activities", "service": "services", "receiver": "receivers"}
INFOS: dict[Kind, str] = {"activity": "ActivityInfo", "service": "ServiceInfo", "receiver": "ActivityInfo"}


@dataclass(frozen=True)
class Shown:
    """How much is printed of a component: `--brief`, `--components`, or all."""

    is_brief: bool = False
    is_bare: bool = False
    default_only: bool = False

    def lines(self, component: str, kind: Kind, *, is_default: bool) -> tuple[str, ...]:
        package, _, name = component.partition("/")
        # `am` doesn't tell by how much a filter matched
        numbers = f"priority=0 preferredOrder=0 match=0x0 specificIndex=-1 isDefault={str(is_default).lower()}"
        if self.is_bare:
            return (short(component),)
        if self.is_brief:
            return numbers, short(component)
        return numbers, f"{INFOS[kind]}:", f"  name={name}", f"  packageName={package}"


@dataclass(frozen=True)
class Query:
    """`pm query-..`: all that an intent finds."""

    leaves: ClassVar[Leaves] = "nothing"

    kind: Kind
    intent: AskedIntent
    shown: Shown

    @classmethod
    def read(cls, words: Words, name: str) -> "Query":
        kind = next(it for it, plural in PLURALS.items() if name == f"query-{plural}")
        return cls(kind, *_read(words))

    def run(self, phone: Phone, console: Console) -> int:
        found = phone.device.system.query(self.kind, self.intent.fields, default_only=self.shown.default_only)
        plural = PLURALS[self.kind]
        if not found:
            console.say(f"No {plural} found")
            return 0
        if not self.shown.is_bare:
            console.say(f"{len(found)} {plural} found:")
        for index, component in enumerate(found):
            if not self.shown.is_bare:
                console.say(f"  {self.kind.capitalize()} #{index}:")
            indent = "" if self.shown.is_bare else "    "
            for line in self.shown.lines(component, self.kind, is_default=self.shown.default_only):
                console.say(indent + line)
        return 0


@dataclass(frozen=True)
class Resolve:
    """`pm resolve-activity`: the one that a start would open."""

    leaves: ClassVar[Leaves] = "nothing"

    intent: AskedIntent
    shown: Shown

    @classmethod
    def read(cls, words: Words, name: str) -> "Resolve":
        return cls(*_read(words))

    def run(self, phone: Phone, console: Console) -> int:
        component, is_default = self._found(phone, console)
        if component is None:
            console.say("No activity found")
            return 0
        for line in self.shown.lines(component, "activity", is_default=is_default):
            console.say(line)
        return 0

    def _found(self, phone: Phone, console: Console) -> tuple[str | None, bool]:
        """The activity, and whether it has the default category, which a start needs and this command doesn't."""
        system, intent = phone.device.system, self.intent.fields
        if intent.component:
            return next(iter(system.query("activity", intent)), None), False
        accounts = system.explain("activity", intent)
        reached = [str(it.to) for it in accounts if it.verdict == "reached"]
        tied = [str(it.to) for it in accounts if it.verdict == "tied"]
        if reached:
            return reached[0], True
        if tied:
            console.note(words_adb.tie(tied))
            return RESOLVER, True
        found = () if self.shown.default_only else system.query("activity", intent)
        if len(found) > 1:
            console.note(words_adb.first_of(found))
        return (found[0] if found else None), False


def _read(words: Words) -> tuple[AskedIntent, Shown]:
    given: set[str] = set()
    masks = [0]

    def take(option: str) -> bool:
        if option in ("--brief", "--components"):
            given.add(option)
        elif option == "--query-flags":
            masks.append(number(words.value()))
        elif option == "--user":
            user(words.value())
        else:
            return False
        return True

    intent = read_intent(words, take)
    if masks[-1] & ~MATCH_DEFAULT_ONLY:
        raise NotServed(words_adb.no_query_flags(masks[-1]))
    return intent, Shown("--brief" in given, "--components" in given, bool(masks[-1]))
