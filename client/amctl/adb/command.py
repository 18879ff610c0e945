"""What every command of the device's shell is."""
from typing import ClassVar, Literal, Protocol

from amctl.adb.console import Console
from amctl.adb.phone import Phone

# what lasts after a command: nothing, rights, which a store keeps too, or a state, which ends with its session
Leaves = Literal["nothing", "rights", "state"]


class Command(Protocol):
    """What a line asks."""

    leaves: ClassVar[Leaves]

    def run(self, phone: Phone, console: Console) -> int:
        """Prints adb's lines, and gives the exit status."""
