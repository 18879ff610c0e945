"""The limits of descriptors and threads, which `amctl serve` looks at before it starts the program."""
import os
import resource
from pathlib import Path

import pytest

from amctl import limits
from amctl.errors import BadWords
from amctl.limits import check_descriptors, check_limits, check_threads, threads_left_to_groups, threads_of
from conftest import EXAMPLES, run_python


class Limits:
    """The limits of this process, which a test sets."""

    def __init__(self, soft: int, hard: int) -> None:
        self.now = soft, hard

    def get(self, which: int) -> tuple[int, int]:
        return self.now

    def set(self, which: int, now: tuple[int, int]) -> None:
        self.now = now


@pytest.fixture
def given(monkeypatch: pytest.MonkeyPatch) -> Limits:
    made = Limits(20, 20)
    monkeypatch.setattr(resource, "getrlimit", made.get)
    monkeypatch.setattr(resource, "setrlimit", made.set)
    return made


@pytest.fixture
def groups(monkeypatch: pytest.MonkeyPatch, tmp_path: Path) -> Path:
    """Two groups of processes, of which this one is in the inner one. No user has a limit."""
    inner = tmp_path / "outer" / "inner"
    inner.mkdir(parents=True)
    (tmp_path / "own").write_text("1:cpu:/elsewhere\n0::/outer/inner\n")
    monkeypatch.setattr(limits, "OWN_GROUP", tmp_path / "own")
    monkeypatch.setattr(limits, "GROUPS", tmp_path)
    monkeypatch.setattr(limits, "threads_left_to_user", lambda workers: None)
    return tmp_path


def limit_threads(group: Path, most: str, used: int) -> None:
    (group / "pids.max").write_text(f"{most}\n")
    (group / "pids.current").write_text(f"{used}\n")


def test_few_descriptors_are_said(given: Limits) -> None:
    with pytest.raises(BadWords, match=r"may have 20 descriptors, and so many workers need 80: raise the limit \(`ulimit -n 80`\), or take --workers 4"):
        check_descriptors(64)
    check_descriptors(4)
    assert given.now == (20, 20)


@pytest.mark.parametrize(("hard", "soft"), [(200, 200), (10_000, 4096), (resource.RLIM_INFINITY, 4096)])
def test_descriptors_are_raised_as_far_as_they_may(given: Limits, hard: int, soft: int) -> None:
    given.now = 20, hard
    check_descriptors(64)
    assert given.now == (soft, hard)


@pytest.mark.parametrize(("soft", "hard"), [(80, 80), (4096, 10_000), (5000, resource.RLIM_INFINITY)])
def test_a_limit_that_is_enough_stays(given: Limits, soft: int, hard: int) -> None:
    given.now = soft, hard
    check_descriptors(64)
    assert given.now == (soft, hard)


def test_no_limit_is_enough(given: Limits) -> None:
    given.now = resource.RLIM_INFINITY, resource.RLIM_INFINITY
    check_descriptors(64)
    assert given.now == (resource.RLIM_INFINITY, resource.RLIM_INFINITY)


def test_few_threads_of_a_user_are_said(given: Limits, monkeypatch: pytest.MonkeyPatch) -> None:
    monkeypatch.setattr(limits, "threads_left_to_groups", lambda: None)
    monkeypatch.setattr(os, "getuid", lambda: 1000)
    monkeypatch.setattr(limits, "threads_of", lambda user: 17)
    with pytest.raises(BadWords, match=r"may start 3 more threads, and 4 workers need as many: raise the limit \(`ulimit -u`, or .*\), or take --workers 3"):
        check_threads(4)
    check_threads(3)
    given.now = 20, 100
    check_threads(4)
    assert given.now == (21, 100)


def test_root_may_have_any_number_of_threads(given: Limits, monkeypatch: pytest.MonkeyPatch) -> None:
    monkeypatch.setattr(limits, "threads_left_to_groups", lambda: None)
    monkeypatch.setattr(os, "getuid", lambda: 0)
    check_threads(64)
    assert given.now == (20, 20)


def test_threads_of_a_user_are_counted() -> None:
    assert threads_of(os.getuid()) >= 1
    assert threads_of(2**32 - 2) == 0


@pytest.mark.parametrize(
    ("outer", "inner", "left"),
    [
        (("max", 5), ("max", 5), None),
        (("max", 5), ("12", 5), 7),
        (("10", 6), ("12", 5), 4),
        (("10", 12), ("max", 5), 0),
        (None, ("12", 5), 7),
        (None, None, None),
    ],
)
def test_each_group_counts(groups: Path, outer: tuple[str, int] | None, inner: tuple[str, int] | None, left: int | None) -> None:
    for group, limit in ((groups / "outer", outer), (groups / "outer" / "inner", inner)):
        if limit is not None:
            limit_threads(group, *limit)
    assert threads_left_to_groups() == left


def test_few_threads_of_a_group_are_said(groups: Path) -> None:
    limit_threads(groups / "outer", "10", 10)
    with pytest.raises(BadWords, match="may start 0 more threads, and 4 workers need as many: .*, or take --workers 1"):
        check_threads(4)


def test_a_system_without_groups_has_no_limit_of_theirs(groups: Path) -> None:
    (groups / "own").unlink()
    assert threads_left_to_groups() is None


def test_this_machine_is_enough_for_one_worker() -> None:
    check_limits(1)


def test_they_are_looked_at_before_anything_is_started() -> None:
    words = "import resource, runpy, sys; resource.setrlimit(resource.RLIMIT_NOFILE, (40, 40)); sys.argv = ['amctl', 'serve', sys.argv[1], '--workers', '64']; runpy.run_module('amctl', run_name='__main__')"
    run = run_python("-c", words, str(EXAMPLES / "orders.toml"))
    assert run.status == 2
    assert "this process may have 40 descriptors, and so many workers need 80" in run.err
