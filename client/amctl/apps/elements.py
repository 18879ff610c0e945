"""What a manifest is once it was read."""
from collections.abc import Callable
from dataclasses import dataclass, field

from amctl.errors import AmctlError

ANDROID = "http://schemas.android.com/apk/res/android"
PLAIN_ATTRIBUTES = frozenset(("package", "split"))
# how many references to other references are followed
LONGEST_CHAIN = 20

# reads the bytes of a package's resources, if it has some
Table = Callable[[], bytes | None]


class InputFault(AmctlError):
    """Why an input can't be read."""


class OutOfTime(InputFault):
    """That reading an input takes too long."""


class Reference(str):
    """A value that refers to a resource which wasn't resolved."""


@dataclass(slots=True)
class Element:
    """An element with its useful attributes: Android's own by their names, and its plain ones."""

    name: str
    attributes: dict[str, str] = field(default_factory=dict)
    plain: dict[str, str] = field(default_factory=dict)
    children: list["Element"] = field(default_factory=list)

    def get(self, name: str) -> str | None:
        """The value of an attribute of Android's, or none."""
        return self.attributes.get(name)

    def all(self, *names: str) -> list["Element"]:
        """The children of these names, in their order."""
        return [child for child in self.children if child.name in names]


class Builder:
    """Builds the tree of elements from their starts and ends."""

    def __init__(self) -> None:
        self.root: Element | None = None
        self.open: list[Element] = []

    def start(self, element: Element) -> None:
        if self.open:
            self.open[-1].children.append(element)
        elif self.root is None:
            self.root = element
        else:
            raise InputFault("malformed XML: it has two roots")
        self.open.append(element)

    def end(self) -> None:
        if not self.open:
            raise InputFault("malformed XML: an element ends that didn't begin")
        self.open.pop()

    def finished(self) -> Element:
        """The root, if everything that began has ended."""
        if self.root is None or self.open:
            raise InputFault("malformed XML: it ends too early")
        return self.root
