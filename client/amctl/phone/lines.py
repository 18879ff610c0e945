"""What adb's lines say. A text of another form is None, so that nobody takes silence for an answer."""
import re
from collections.abc import Iterator
from dataclasses import dataclass

LISTED = re.compile(r"package:(?:(?P<path>/.*)=)?(?P<name>[^=\s]+)(?: uid:(?P<uid>-?\d+)[\d,-]*)?")
PERMISSION = re.compile(r"\s+(\S+): granted=(true|false)\b")
USER = re.compile(r"\s+User (\d+):")
FIELD = re.compile(r"(\w+)=(\S+)")
HOST = re.compile(r"\s+(\S+): (\w+)")
APPROVED = ("verified", "approved", "migrated", "restored", "system_configured", "pre_verified")
# what `enabled=` of dumpsys means; 0 leaves it to the manifest
SETTINGS = {"1": True, "2": False, "3": False, "4": False}
OWNER = "0"


@dataclass(frozen=True)
class Listed:
    """A package of `pm list packages -f -U`."""

    name: str
    uid: int | None = None
    path: str | None = None


def packages_of(text: str) -> tuple[Listed, ...] | None:
    """The packages of `pm list packages`, with or without paths and uids. Warnings of the phone's may stand between them."""
    said = [line.strip() for line in text.splitlines() if line.strip()]
    found = [LISTED.fullmatch(line) for line in said if line.startswith("package:")]
    known = [it for it in found if it is not None]
    if len(known) < len(found) or (said and not known):
        return None
    return tuple(Listed(it["name"], int(it["uid"]) if it["uid"] else None, it["path"]) for it in known)


def paths_of(text: str) -> tuple[str, ...] | None:
    """The files of `pm path`: the base first, as the phone lists them."""
    lines = [line.strip() for line in text.splitlines() if line.strip()]
    if not lines or not all(it.startswith("package:/") for it in lines):
        return None
    return tuple(it.removeprefix("package:") for it in lines)


@dataclass(frozen=True)
class State:
    """What `dumpsys package` says of a package, for the phone's first user."""

    granted: tuple[str, ...]
    switched_on: frozenset[str] = frozenset()
    switched_off: frozenset[str] = frozenset()
    is_stopped: bool = False
    is_hidden: bool = False


def state_of(text: str, package: str) -> State | None:
    """The package's state, with what is granted to the user id that it shares with others."""
    block = list(_block(text, "Packages:", f"Package [{package}] "))
    fields = next((dict(FIELD.findall(line)) for line in block if _user(line) == OWNER), None)
    if fields is None:
        return None
    shared = _block(text, "Shared users:", "SharedUser [")
    return State(
        granted=tuple(dict.fromkeys((*_granted(block), *_granted(list(shared))))),
        switched_on=frozenset(_classes(block, "enabledComponents:", package)),
        switched_off=frozenset(_classes(block, "disabledComponents:", package)),
        is_stopped=fields.get("stopped") == "true",
        is_hidden="true" in (fields.get("hidden"), fields.get("suspended")),
    )


def _block(text: str, section: str, start: str) -> Iterator[str]:
    """The lines of an entry of a section: those below it that are deeper. A section ends where a line isn't indented."""
    in_section = in_block = False
    depth = 0
    for line in text.splitlines():
        if line and not line.startswith(" "):
            in_section, in_block = line.startswith(section), False
        elif in_section and line.lstrip().startswith(start):
            in_block, depth = True, _depth(line)
        elif in_block and line.strip() and _depth(line) <= depth:
            in_block = False
        elif in_block:
            yield line


def _depth(line: str) -> int:
    return len(line) - len(line.lstrip())


def _user(line: str) -> str | None:
    found = USER.match(line)
    return found[1] if found else None


def _granted(block: list[str]) -> Iterator[str]:
    """The permissions that are granted at installation, and to the first user at run time."""
    user = OWNER
    for line in block:
        user = _user(line) or user
        found = PERMISSION.match(line)
        if found and found[2] == "true" and user == OWNER:
            yield found[1]


def _classes(block: list[str], heading: str, package: str) -> Iterator[str]:
    """The classes below a heading of the first user."""
    user, depth = OWNER, None
    for line in block:
        user = _user(line) or user
        if line.strip() == heading and user == OWNER:
            depth = _depth(line)
        elif depth is not None and _depth(line) <= depth:
            depth = None
        elif depth is not None:
            name = line.strip().rpartition("/")[2]
            yield package + name if name.startswith(".") else name


@dataclass(frozen=True)
class Links:
    """What `pm get-app-links` says of a package; the user may have switched the handling of links off."""

    hosts: tuple[str, ...]
    is_allowed: bool = True


def links_of(text: str, package: str) -> Links | None:
    """The hosts for which the package is approved, by the phone or by its first user. One without web links has none."""
    if not text.strip():
        return Links(())
    part, found, is_allowed, user = "", dict[str, None](), True, OWNER
    lines = text.splitlines()
    if not any(line.strip() == f"{package}:" for line in lines):
        return None
    for line in lines:
        said = line.strip()
        user = _user(line) or user
        if said in ("Domain verification state:", "Enabled:", "Disabled:"):
            part = said
        elif said.startswith("Verification link handling allowed:") and user == OWNER:
            is_allowed = said.endswith("true")
        elif part == "Domain verification state:" and (state := HOST.fullmatch(line)):
            found |= {state[1]: None} if state[2] in APPROVED else {}
        elif part == "Enabled:" and user == OWNER and said and not said.endswith(":"):
            found |= {said: None}
    return Links(tuple(found), is_allowed)


def holders_of(text: str, known: frozenset[str]) -> tuple[str, ...] | None:
    """The packages that hold a role, if each line names an installed one."""
    names = tuple(it.strip() for it in text.splitlines() if it.strip())
    return names if all(it in known for it in names) else None


def holders_in_dump(text: str, role: str) -> tuple[str, ...] | None:
    """The same by `dumpsys role`, in which a role is a table."""
    at = text.find(f"name={role}\n")
    if at < 0:
        return None
    table = text[at : text.find("}", at)]
    return tuple(re.findall(r"holders=(\S+)", table))
