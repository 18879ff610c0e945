"""`monkey -p PACKAGE 1`, by which scripts start an app whose activity they don't know."""
import itertools
from collections.abc import Sequence
from dataclasses import dataclass
from typing import ClassVar

from amctl import words_adb
from amctl.adb.command import Leaves
from amctl.adb.console import Console, NotServed
from amctl.adb.options import Words
from amctl.adb.phone import Phone
from amctl.android import LAUNCHER, MAIN
from amctl.intents import Intent

ABORTED = 252
CATEGORIES = (LAUNCHER, "android.intent.category.MONKEY")
# those about crashes and touches, of which there are none
HARMLESS = (
    *("-v", "--ignore-crashes", "--ignore-timeouts", "--ignore-security-exceptions", "--ignore-native-crashes"),
    *("--kill-process-after-error", "--monitor-native-crashes", "--randomize-throttle"),
)
WITH_VALUES = (
    *("-s", "--throttle", "--pct-touch", "--pct-motion", "--pct-trackball", "--pct-syskeys", "--pct-nav", "--pct-majornav"),
    *("--pct-appswitch", "--pct-anyevent"),
)


@dataclass(frozen=True)
class Monkey:
    """Its first event is a start of the app, and no other is made here."""

    leaves: ClassVar[Leaves] = "state"

    words: tuple[str, ...]
    packages: tuple[str, ...]
    categories: tuple[str, ...]

    @classmethod
    def read(cls, words: Words, name: str) -> "Monkey":
        given = words.rest()
        found: dict[str, list[str]] = {"-p": [], "-c": []}
        rest = Words(given, name)
        while (option := rest.option()) is not None:
            if option in found:
                found[option].append(rest.value())
            elif option in WITH_VALUES:
                rest.value()
            elif option not in HARMLESS:
                raise NotServed(words_adb.no_option(name, option))
        count = rest.bare()
        if not found["-p"]:
            raise NotServed(words_adb.NO_MONKEY)
        if count != "1":
            raise NotServed(words_adb.no_monkey_count(count or ""))
        return cls(given, tuple(found["-p"]), tuple(found["-c"]) or CATEGORIES)

    def run(self, phone: Phone, console: Console) -> int:
        for word in self.words:
            console.say(f"  bash arg: {word}")
        found = self._found(phone)
        if not found:
            console.say("** No activities found to run, monkey aborted.")
            return ABORTED
        if len(found) > 1:
            console.note(words_adb.first_started(found))
        phone.device.system.start(Intent(action=MAIN, categories=(LAUNCHER,), component=found[0], flags=("NEW_TASK",)))
        console.say("Events injected: 1")
        console.say("## Network stats: elapsed time=0ms (0ms mobile, 0ms wifi, 0ms not connected)")
        return 0

    def _found(self, phone: Phone) -> Sequence[str]:
        intents = (Intent(action=MAIN, categories=(category,), package=package) for category, package in itertools.product(self.categories, self.packages))
        return list(dict.fromkeys(it for intent in intents for it in phone.device.system.query("activity", intent)))
