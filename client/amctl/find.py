"""Finds the program `am`."""
import os
import shutil
from collections.abc import Mapping
from pathlib import Path

from amctl import words
from amctl.errors import NoProgram

TOP = Path(__file__).resolve().parents[2]
BUILT = TOP / "crates" / "am" / "out" / "am"
# what tools/build_unproved leaves
UNPROVED = TOP / "out" / "am-unproved"


def find_am(given: str | Path | None = None, environment: Mapping[str, str] = os.environ) -> Path:
    """The program that is named, else the variable AM's, the one on PATH, the one that the repository proved, or its unproved one."""
    for source, name in (("--am", given), ("the variable AM", environment.get("AM"))):
        if name:
            return _checked(Path(name), source)
    on_path = shutil.which("am", path=environment.get("PATH"))
    if on_path:
        return Path(on_path)
    for built in (BUILT, UNPROVED):
        if _runs(built):
            return built
    raise NoProgram(words.NO_AM)


def is_unproved(am: Path) -> bool:
    """Whether the program's name says that nothing in it is proved."""
    return am.resolve().name.endswith(UNPROVED.name.removeprefix("am"))


def _checked(path: Path, source: str) -> Path:
    if _runs(path):
        return path
    raise NoProgram(words.no_am(str(path), source, path.exists()))


def _runs(path: Path) -> bool:
    return path.is_file() and os.access(path, os.X_OK)
