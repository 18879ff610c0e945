"""The findings of an earlier run, which aren't shown again."""
from pathlib import Path

from amctl import words_check
from amctl.errors import BadWords
from amctl.files import read_json

FORM = "take what an earlier run wrote by `--format json`"


def read_ids(path: Path) -> frozenset[str]:
    document = read_json(path, "a baseline", FORM)
    try:
        return frozenset(str(it["id"]) for it in document["findings"])
    except (KeyError, TypeError) as fault:
        raise BadWords(words_check.bad_file(path, "a baseline", f"{type(fault).__name__} {fault}", FORM)) from None
