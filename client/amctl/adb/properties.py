"""`getprop`: what a script asks to see whether the device has started, and what it is."""
from collections.abc import Mapping
from dataclasses import dataclass

PROPERTIES: Mapping[str, str] = {
    "dev.bootcomplete": "1",
    "init.svc.bootanim": "stopped",
    "ro.build.version.codename": "REL",
    "ro.build.version.release": "12",
    "ro.build.version.sdk": "31",
    "sys.boot_completed": "1",
}


@dataclass(frozen=True)
class Properties:
    """The lines of `getprop`. One that isn't there is empty, or has the value that the words give it."""

    lines: tuple[str, ...]

    @classmethod
    def read(cls, words: tuple[str, ...]) -> "Properties":
        if not words:
            return cls(tuple(f"[{name}]: [{value}]" for name, value in PROPERTIES.items()))
        return cls((PROPERTIES.get(words[0]) or " ".join(words[1:2]),))
