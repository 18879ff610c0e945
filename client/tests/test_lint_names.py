"""The likely name among many: the same as by a look at each."""
import random
from collections import Counter

from amctl.lint.names import is_one_off, near_name


def plainly_near(value: str, others: list[str]) -> str | None:
    """The name that was likely meant, by a look at each of the others."""
    names = sorted(set(others) - {value})
    likely = [it for it in names if it.lower() == value.lower()] or [it for it in names if is_one_off(value, it)]
    found = likely or [it for it in names if it.rpartition(".")[2] == value.rpartition(".")[2]]
    return found[0] if found else None


def test_the_likely_name_is_found_without_a_look_at_each() -> None:
    drawn = random.Random(1)
    found = Counter[bool]()
    for _ in range(2000):
        words = ["".join(drawn.choices("abA.", k=drawn.randint(0, 6))) for _ in range(drawn.randint(0, 12))]
        value = "".join(drawn.choices("abA.", k=drawn.randint(0, 6)))
        near = near_name(value, words)
        assert near == plainly_near(value, words), (value, words)
        found[near is None] += 1
    assert min(found.values()) > 200
