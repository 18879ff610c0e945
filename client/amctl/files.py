"""Files that are read as a whole, or why one can't be used."""
import json
from pathlib import Path
from typing import Any

from amctl import words_check
from amctl.errors import BadWords


def read_json(path: Path, what: str, wanted: str) -> Any:
    """A file's JSON, or why it can't be used."""
    try:
        return json.loads(path.read_bytes())
    except OSError as fault:
        raise BadWords(words_check.bad_file(path, what, fault.strerror or str(fault), wanted)) from None
    except ValueError as fault:
        raise BadWords(words_check.bad_file(path, what, str(fault), wanted)) from None
