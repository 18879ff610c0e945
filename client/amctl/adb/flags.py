"""The flags of intents: their numbers, adb's options for them, and the names that `am` has for them."""
from collections.abc import Iterable
from dataclasses import dataclass
from typing import Literal

from amctl import words_adb
from amctl.adb.console import NotServed
from amctl.devicefile import Kind

Use = Literal["sent", "harmless", "dropped", "left out"]


@dataclass(frozen=True)
class Flag:
    """A flag of Android's.

    One that is `harmless` changes nothing that is simulated; what is `dropped` isn't sent, and said; `am` has a shorter name for
    one that is `sent`.
    """

    name: str
    bit: int
    use: Use = "left out"
    word: str = ""

    @property
    def sent_as(self) -> str:
        return self.name.removeprefix("FLAG_ACTIVITY_").removeprefix("FLAG_RECEIVER_").removeprefix("FLAG_").removesuffix("_PACKAGES")


GENERAL = (
    Flag("FLAG_GRANT_READ_URI_PERMISSION", 0x1, word="--grant-read-uri-permission"),
    Flag("FLAG_GRANT_WRITE_URI_PERMISSION", 0x2, word="--grant-write-uri-permission"),
    Flag("FLAG_FROM_BACKGROUND", 0x4, "harmless"),
    Flag("FLAG_DEBUG_LOG_RESOLUTION", 0x8, "harmless", "--debug-log-resolution"),
    Flag("FLAG_INCLUDE_STOPPED_PACKAGES", 0x20, "sent", "--include-stopped-packages"),
    Flag("FLAG_GRANT_PERSISTABLE_URI_PERMISSION", 0x40, word="--grant-persistable-uri-permission"),
    Flag("FLAG_GRANT_PREFIX_URI_PERMISSION", 0x80, word="--grant-prefix-uri-permission"),
)

ACTIVITY = (
    Flag("FLAG_EXCLUDE_STOPPED_PACKAGES", 0x10, word="--exclude-stopped-packages"),
    Flag("FLAG_ACTIVITY_REQUIRE_DEFAULT", 0x200),
    Flag("FLAG_ACTIVITY_REQUIRE_NON_BROWSER", 0x400),
    Flag("FLAG_ACTIVITY_MATCH_EXTERNAL", 0x800, word="--activity-match-external"),
    Flag("FLAG_ACTIVITY_LAUNCH_ADJACENT", 0x1000, "harmless"),
    Flag("FLAG_ACTIVITY_RETAIN_IN_RECENTS", 0x2000, "harmless"),
    Flag("FLAG_ACTIVITY_TASK_ON_HOME", 0x4000, word="--activity-task-on-home"),
    Flag("FLAG_ACTIVITY_CLEAR_TASK", 0x8000, "sent", "--activity-clear-task"),
    Flag("FLAG_ACTIVITY_NO_ANIMATION", 0x10000, "harmless", "--activity-no-animation"),
    Flag("FLAG_ACTIVITY_REORDER_TO_FRONT", 0x20000, "sent", "--activity-reorder-to-front"),
    Flag("FLAG_ACTIVITY_NO_USER_ACTION", 0x40000, "harmless", "--activity-no-user-action"),
    Flag("FLAG_ACTIVITY_NEW_DOCUMENT", 0x80000, word="--activity-clear-when-task-reset"),
    Flag("FLAG_ACTIVITY_LAUNCHED_FROM_HISTORY", 0x100000, "harmless", "--activity-launched-from-history"),
    # a launcher sets it with each start
    Flag("FLAG_ACTIVITY_RESET_TASK_IF_NEEDED", 0x200000, "dropped", "--activity-reset-task-if-needed"),
    Flag("FLAG_ACTIVITY_BROUGHT_TO_FRONT", 0x400000, "harmless", "--activity-brought-to-front"),
    Flag("FLAG_ACTIVITY_EXCLUDE_FROM_RECENTS", 0x800000, "harmless", "--activity-exclude-from-recents"),
    Flag("FLAG_ACTIVITY_PREVIOUS_IS_TOP", 0x1000000, word="--activity-previous-is-top"),
    Flag("FLAG_ACTIVITY_FORWARD_RESULT", 0x2000000),
    Flag("FLAG_ACTIVITY_CLEAR_TOP", 0x4000000, "sent", "--activity-clear-top"),
    Flag("FLAG_ACTIVITY_MULTIPLE_TASK", 0x8000000, "sent", "--activity-multiple-task"),
    Flag("FLAG_ACTIVITY_NEW_TASK", 0x10000000, "sent"),
    Flag("FLAG_ACTIVITY_SINGLE_TOP", 0x20000000, "sent", "--activity-single-top"),
    Flag("FLAG_ACTIVITY_NO_HISTORY", 0x40000000, word="--activity-no-history"),
)

RECEIVER = (
    # a broadcast leaves stopped packages out without it too
    Flag("FLAG_EXCLUDE_STOPPED_PACKAGES", 0x10, "harmless", "--exclude-stopped-packages"),
    Flag("FLAG_RECEIVER_VISIBLE_TO_INSTANT_APPS", 0x200000, "harmless"),
    Flag("FLAG_RECEIVER_FROM_SHELL", 0x400000, "harmless"),
    Flag("FLAG_RECEIVER_EXCLUDE_BACKGROUND", 0x800000),
    Flag("FLAG_RECEIVER_INCLUDE_BACKGROUND", 0x1000000, word="--receiver-include-background"),
    Flag("FLAG_RECEIVER_BOOT_UPGRADE", 0x2000000),
    Flag("FLAG_RECEIVER_REGISTERED_ONLY_BEFORE_BOOT", 0x4000000),
    Flag("FLAG_RECEIVER_NO_ABORT", 0x8000000, "sent", "--receiver-no-abort"),
    Flag("FLAG_RECEIVER_FOREGROUND", 0x10000000, "sent", "--receiver-foreground"),
    Flag("FLAG_RECEIVER_REPLACE_PENDING", 0x20000000, word="--receiver-replace-pending"),
    Flag("FLAG_RECEIVER_REGISTERED_ONLY", 0x40000000, "sent", "--receiver-registered-only"),
)

NEW_TASK = 0x10000000
FROM_SHELL = 0x400000
BY_WORD = {it.word: it for it in (*GENERAL, *ACTIVITY, *RECEIVER) if it.word}
BITS = {it.sent_as: it.bit for it in (*GENERAL, *ACTIVITY, *RECEIVER) if it.use == "sent"}


def names_of(flags: int, kind: Kind) -> tuple[str, ...]:
    """The names that `am` has for the flags of an intent. One that would change the answer and isn't simulated is refused."""
    own = {"activity": ACTIVITY, "service": (), "receiver": RECEIVER}[kind]
    known = [it for it in (*GENERAL, *own) if it.bit & flags]
    left_out = [it for it in known if it.use == "left out"]
    if left_out:
        raise NotServed(words_adb.no_flag(left_out[0].name, left_out[0].bit))
    unknown = flags & 0xFFFFFFFF & ~sum(it.bit for it in known)
    # a service's intent has only the general flags, and Android looks at no others
    if unknown and kind != "service":
        raise NotServed(words_adb.no_flag("an unknown flag", unknown))
    return tuple(it.sent_as for it in known if it.use == "sent")


def dropped(flags: int) -> tuple[str, ...]:
    """The flags of a start that aren't sent, though they are taken."""
    return tuple(it.name for it in ACTIVITY if it.use == "dropped" and it.bit & flags)


def number_of(names: Iterable[str]) -> int:
    """The number of flags that `am` names."""
    return sum(BITS[it] for it in set(names))
