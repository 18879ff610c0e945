"""What a caller asks with: intents, and the filters of registered receivers."""
import dataclasses
from collections.abc import Iterable, Mapping
from dataclasses import dataclass, field
from typing import Any

Extra = str | int | bool

VIEW = "android.intent.action.VIEW"


def texts_of(name: str, given: Iterable[str]) -> tuple[str, ...]:
    """Several texts as a tuple. One text would count letter by letter, so it is refused."""
    if isinstance(given, str):
        raise TypeError(f"{name} takes several texts, and this is one, {given!r}: write ({given!r},).")
    return given if isinstance(given, tuple) else tuple(given)


@dataclass(frozen=True)
class Intent:
    """An intent; what it lacks is None or empty. Flags are named without `FLAG_ACTIVITY_`: `NEW_TASK`."""

    action: str | None = None
    data: str | None = None
    type: str | None = None
    categories: tuple[str, ...] = ()
    component: str | None = None
    package: str | None = None
    flags: tuple[str, ...] = ()
    # a mapping has no hash; intents that are equal have the same one without it
    extras: Mapping[str, Extra] = field(default_factory=dict, hash=False)
    identifier: str | None = None

    def __post_init__(self) -> None:
        for name in ("categories", "flags"):
            object.__setattr__(self, name, texts_of(name, getattr(self, name)))

    @classmethod
    def view(cls, data: str, **others: Any) -> "Intent":
        """An intent to view a URI, as a tap on a link makes it."""
        return cls(action=VIEW, data=data, **others)

    @classmethod
    def of(cls, word: str) -> "Intent":
        """What a bare word means: a URI to view by its colon, a component by its slash, else a package."""
        if ":" in word:
            return cls.view(word)
        return cls(component=word) if "/" in word else cls(package=word)

    @classmethod
    def from_json(cls, fields: Mapping[str, Any]) -> "Intent":
        """The intent of a request or a reply; a field that this client doesn't know is left out."""
        return cls(**{name: value for name, value in fields.items() if name in FIELDS})

    def with_flag(self, flag: str) -> "Intent":
        return self if flag in self.flags else dataclasses.replace(self, flags=(*self.flags, flag))

    def to_json(self) -> dict[str, Any]:
        """The intent as a request has it, without what it lacks."""
        written = {
            "action": self.action,
            "categories": list(self.categories),
            "component": self.component,
            "data": self.data,
            "extras": dict(self.extras),
            "flags": list(self.flags),
            "identifier": self.identifier,
            "package": self.package,
            "type": self.type,
        }
        return {name: value for name, value in written.items() if value not in (None, [], {})}


FIELDS = frozenset(it.name for it in dataclasses.fields(Intent))


def asked_of(intent: Intent | str) -> Intent:
    """An intent as it is asked with: a text is what a bare word means."""
    return Intent.of(intent) if isinstance(intent, str) else intent


@dataclass(frozen=True)
class IntentFilter:
    """The filter of a receiver that registers; rows of `data` have `scheme`, `host` and the like."""

    actions: tuple[str, ...]
    categories: tuple[str, ...] = ()
    data: tuple[Mapping[str, Any], ...] = field(default=(), hash=False)
    priority: int = 0

    def __post_init__(self) -> None:
        for name in ("actions", "categories"):
            object.__setattr__(self, name, texts_of(name, getattr(self, name)))
        if isinstance(self.data, (str, Mapping)):
            raise TypeError(f"data takes several rows, and this is one, {self.data!r}: write ({self.data!r},).")
        object.__setattr__(self, "data", tuple(self.data))

    def to_json(self) -> dict[str, Any]:
        written = {"categories": list(self.categories), "data": [dict(row) for row in self.data], "priority": self.priority}
        return {"actions": list(self.actions), **{name: value for name, value in written.items() if value}}
