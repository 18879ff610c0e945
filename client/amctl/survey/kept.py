"""What was done, in the folder of a survey: it isn't done again, and nothing is left half-written."""
import hashlib
import json
import os
from collections.abc import Mapping
from dataclasses import dataclass
from pathlib import Path
from typing import Any

from amctl import words_survey
from amctl.errors import BadWords
from amctl.find import find_am

DONE = "done"
PART = ".part"


@dataclass(frozen=True)
class Kept:
    folder: Path

    @classmethod
    def open(cls, folder: Path) -> "Kept":
        """The folder of a survey; one with other things in it isn't written to."""
        if folder.exists() and not folder.is_dir():
            raise BadWords(words_survey.no_into(folder))
        if folder.is_dir() and not (folder / DONE).is_dir() and any(folder.iterdir()):
            raise BadWords(words_survey.others_folder(folder))
        (folder / DONE).mkdir(parents=True, exist_ok=True)
        return cls(folder)

    def get(self, key: str) -> dict[str, Any] | None:
        try:
            found = json.loads(self._path(key).read_bytes())
        except FileNotFoundError:
            return None
        except ValueError:
            # someone else wrote there
            return None
        return found if isinstance(found, dict) else None

    def put(self, key: str, found: Mapping[str, Any]) -> None:
        path = self._path(key)
        # a folder with a million entries is slow
        path.parent.mkdir(exist_ok=True)
        _write(path, json.dumps(found, separators=(",", ":")))

    def write_all(self, texts: Mapping[str, str]) -> None:
        """Writes the files that a person reads."""
        for name, text in texts.items():
            _write(self.folder / name, text)

    def _path(self, key: str) -> Path:
        return self.folder / DONE / key[:2] / f"{key}.json"


def _write(path: Path, text: str) -> None:
    """The whole file or none of it, even if this is interrupted."""
    part = path.with_name(path.name + PART)
    part.write_text(text, encoding="utf-8", newline="")
    os.replace(part, path)


def program_mark(am: Path | None) -> str:
    """What tells programs apart: another one may answer otherwise."""
    with find_am(am).open("rb") as program:
        return hashlib.file_digest(program, "sha256").hexdigest()
