"""What can go wrong apart from the device's own refusals; each message says what to do."""


from typing import Any


class AmctlError(Exception):
    """What a caller of this package catches to catch all its errors. One goes from a process to another as it is."""

    @property
    def told(self) -> str:
        """The message as a command says it."""
        return str(self)

    def __reduce__(self) -> tuple[Any, ...]:
        # those with more than a sentence can't be made of their sentence alone
        return _made_again, (type(self), self.args), self.__dict__


def _made_again(kind: type[AmctlError], sentence: tuple[Any, ...]) -> AmctlError:
    return kind.__new__(kind, *sentence)


class NoProgram(AmctlError):
    """`am` isn't where it was looked for."""


class NoServer(AmctlError):
    """Nothing that speaks as `am` does answers at the URL."""


class BadWords(AmctlError):
    """A value that can't be asked, such as a package that the device doesn't have."""


class DeviceFault(AmctlError):
    """The device file can't be used: it can't be read, or `am` refuses it; `refused` is the fault as `am` names it."""

    def __init__(self, sentence: str, refused: str | None = None) -> None:
        super().__init__(sentence)
        self.refused = refused


class NotToml(DeviceFault):
    """The device file isn't TOML from this line and column on, counted from 1; `shown` is the line, without a key."""

    def __init__(self, sentence: str, what: str, line: int, column: int, shown: str) -> None:
        super().__init__(sentence)
        self.what = what
        self.line = line
        self.column = column
        self.shown = shown


class OtherAnswer(AmctlError):
    """An answer that isn't of this client's form, such as another version's."""


class Ended(AmctlError):
    """The program ended in the place of an answer."""

    def __init__(self, status: int, line: str, sentence: str) -> None:
        super().__init__(sentence)
        self.status = status
        self.line = line
