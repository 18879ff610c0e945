"""`input keyevent`: the keys that do something without a screen."""
from dataclasses import dataclass
from typing import ClassVar

from amctl import words_adb
from amctl.adb.command import Leaves
from amctl.adb.console import Console, NotServed
from amctl.adb.options import Words
from amctl.adb.phone import Phone

BACK = ("4", "BACK")
# a script wakes and unlocks a phone by these before it begins
UNLOCKING = {"82": "MENU", "MENU": "MENU", "224": "WAKEUP", "WAKEUP": "WAKEUP"}
PREFIX = "KEYCODE_"


@dataclass(frozen=True)
class KeyEvents:
    """`input keyevent`, key by key."""

    leaves: ClassVar[Leaves] = "state"

    keys: tuple[str, ...]

    @classmethod
    def read(cls, words: Words, name: str) -> "KeyEvents":
        while (option := words.option()) is not None:
            raise NotServed(words_adb.no_option("input keyevent", option))
        keys = tuple(it.upper().removeprefix(PREFIX) for it in words.rest())
        unserved = next((it for it in keys if it not in (*BACK, *UNLOCKING)), None if keys else "")
        if unserved is not None:
            raise NotServed(words_adb.no_key(unserved))
        return cls(keys)

    def run(self, phone: Phone, console: Console) -> int:
        for key in self.keys:
            if key in BACK:
                phone.device.system.back()
            else:
                console.note(words_adb.no_lock(f"{PREFIX}{UNLOCKING[key]}"))
        return 0
