"""Where the program is looked for, and in which order."""
from collections.abc import Callable
from pathlib import Path

import pytest
from conftest import Ran

from amctl import __version__, find
from amctl.errors import NoProgram


@pytest.fixture
def programs(tmp_path: Path) -> dict[str, Path]:
    made = {}
    for name in ("given", "variable", "path", "built", "unproved"):
        (tmp_path / name).mkdir()
        made[name] = tmp_path / name / ("am-unproved" if name == "unproved" else "am")
        made[name].write_text("#!/bin/sh\n", encoding="utf-8")
        made[name].chmod(0o755)
    return made


def test_the_order(programs: dict[str, Path], monkeypatch: pytest.MonkeyPatch) -> None:
    monkeypatch.setattr(find, "BUILT", programs["built"])
    monkeypatch.setattr(find, "UNPROVED", programs["unproved"])
    everywhere = {"AM": str(programs["variable"]), "PATH": str(programs["path"].parent)}
    on_path = {"PATH": everywhere["PATH"]}
    nowhere = {"PATH": "/nowhere"}
    assert find.find_am(programs["given"], everywhere) == programs["given"]
    assert find.find_am(None, everywhere) == programs["variable"]
    assert find.find_am(None, on_path) == programs["path"]
    assert find.find_am(None, nowhere) == programs["built"]
    programs["built"].unlink()
    assert find.find_am(None, nowhere) == programs["unproved"]


def test_an_unproved_program_is_known_by_its_name(programs: dict[str, Path], tmp_path: Path) -> None:
    assert find.is_unproved(programs["unproved"])
    assert not any(find.is_unproved(programs[name]) for name in ("given", "variable", "path", "built"))
    (tmp_path / "am").symlink_to(programs["unproved"])
    assert find.is_unproved(tmp_path / "am")


def test_the_version_says_which_program_is_used(programs: dict[str, Path], amctl: Callable[..., Ran]) -> None:
    proved = amctl("--version", AM=str(programs["variable"]))
    assert (proved.status, proved.out.splitlines()[1:]) == (0, [f"am: {programs['variable']}"])
    assert proved.out.startswith(f"amctl {__version__}\n")
    unproved = amctl("--version", AM=str(programs["unproved"]))
    assert unproved.out.splitlines()[1:] == [f"am: {programs['unproved']}, not proved: `tools/build_unproved` built it"]
    missing = amctl("--version", AM="/nowhere")
    assert (missing.status, missing.out.splitlines()) == (2, proved.out.splitlines()[:1])


def test_the_repository_builds_it_where_it_is_looked_for() -> None:
    assert find.UNPROVED.relative_to(find.TOP) == Path("out/am-unproved")
    assert find.BUILT.parts[-4:] == ("crates", "am", "out", "am")
    assert (find.BUILT.parents[1] / "src").is_dir()


def test_what_is_named_and_cannot_be_run_is_said(programs: dict[str, Path], tmp_path: Path, monkeypatch: pytest.MonkeyPatch) -> None:
    programs["given"].chmod(0o644)
    monkeypatch.setattr(find, "BUILT", tmp_path / "nothing")
    monkeypatch.setattr(find, "UNPROVED", tmp_path / "nothing")
    with pytest.raises(NoProgram, match="which --am names, isn't a program that may be run: name the built `am`"):
        find.find_am(programs["given"], {})
    with pytest.raises(NoProgram, match="which the variable AM names, isn't there"):
        find.find_am(None, {"AM": str(tmp_path / "nowhere")})
    with pytest.raises(NoProgram, match="the program `am` isn't found: name it by --am, in the variable AM or put it on PATH"):
        find.find_am(None, {"PATH": "/nowhere"})
