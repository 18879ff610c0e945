"""`amctl survey`: a folder with a matrix that was worked by hand; the same bytes however it is run; and inputs that can't be used."""
import importlib.util
import json
import os
import pty
import signal
import socket
import subprocess
import sys
import time
import tomllib
import xml.etree.ElementTree as ElementTree
from collections.abc import Callable, Iterator
from pathlib import Path
from typing import Any

import pytest

from amctl import words_survey
from amctl.device import Device
from amctl.devicefile import DeviceFile
from amctl.errors import BadWords
from amctl.find import find_am
from amctl.survey import Asked, jobs, links, made, main, mapping, picture
from amctl.survey.asking import Copy, Sessions, reach
from amctl.survey.inputs import App
from conftest import CLIENT, PATIENCE_SECONDS, Ran

Amctl = Callable[..., Ran]
RESULTS = ("exposed.csv", "left-out.csv", "links.csv", "reach.csv", "reach.svg", "unreadable.csv")
VIEW = 'action = ["android.intent.action.VIEW"], category = ["android.intent.category.DEFAULT", "android.intent.category.BROWSABLE"]'
BANK = f"""
package = "com.bank"
activity = [{{ name = ".Pay", exported = true, permission = "com.bank.PAY", intent-filter = [{{ {VIEW}, data = [{{ scheme = "pay", host = "one.example" }}] }}] }}]
service = [{{ name = ".Sync" }}]
receiver = [{{ name = ".Open", exported = true }}]
"""
SHOP = f"""
package = "com.shop"
activity = [
    {{ name = ".Buy", exported = true, intent-filter = [{{ {VIEW}, data = [{{ scheme = "pay" }}, {{ scheme = "shop" }}] }}] }},
    {{ name = ".Own", exported = false }},
]
service = [{{ name = ".Off", exported = true, enabled = false }}]
"""
NEWS = 'package = "com.news"\nreceiver = [{ name = ".News", exported = true }]\n'
EMPTY = 'package = "com.empty"\n'
FOUR = {"bank": BANK, "empty": EMPTY, "news": NEWS, "shop": SHOP}
# the components of a kind, and of these: reached, needs_permission, not_exported, disabled, unasked
OF_BANK = ["com.bank,activity,1,0,1,0,0,0", "com.bank,service,1,0,0,1,0,0", "com.bank,receiver,1,1,0,0,0,0"]
OF_NEWS = ["com.news,receiver,1,1,0,0,0,0"]
OF_SHOP = ["com.shop,activity,2,1,0,1,0,0", "com.shop,service,1,0,0,0,1,0"]
HEAD = "caller,target,kind,components,reached,needs_permission,not_exported,disabled,unasked"
MATRIX = [
    HEAD,
    *(f"com.bank,{it}" for it in [*OF_NEWS, *OF_SHOP]),
    *(f"com.empty,{it}" for it in [*OF_BANK, *OF_NEWS, *OF_SHOP]),
    *(f"com.news,{it}" for it in [*OF_BANK, *OF_SHOP]),
    *(f"com.shop,{it}" for it in [*OF_BANK, *OF_NEWS]),
]
TABLE = """
package    components  open  activities  services  receivers  callers
com.bank   3           1     0           0         1          3
com.news   1           1     0           0         1          3
com.shop   3           1     1           0         0          3
com.empty  0           0     0           0         0          0
"""
TILL = """
system_key = "sys"
[[package]]
key = "k1"
manifest = { package = "com.till", receiver = [{ name = ".Rung", exported = true }] }
[[grant]]
package = "com.till"
permission = "com.bank.PAY"
"""


def folder_of(path: Path, **texts: str) -> Path:
    path.mkdir()
    for name, text in texts.items():
        (path / f"{name}.toml").write_text(text, encoding="utf-8")
    return path


@pytest.fixture
def four(tmp_path: Path) -> Path:
    return folder_of(tmp_path / "apps", **FOUR)


MANY = 16


@pytest.fixture
def many(tmp_path: Path) -> Path:
    texts = {f"app{it}": SHOP.replace("com.shop", f"com.app{it:02}").replace('"pay"', f'"pay{it % 3}"') for it in range(MANY)}
    return folder_of(tmp_path / "many", **texts)


def results(folder: Path) -> dict[str, bytes]:
    return {it: (folder / it).read_bytes() for it in RESULTS}


def lines(folder: Path, name: str) -> list[str]:
    return (folder / name).read_text(encoding="utf-8").splitlines()


def done_files(folder: Path) -> dict[str, int]:
    """What is done, and when each was written."""
    return {it.name: it.stat().st_mtime_ns for it in (folder / "done").glob("*/*.json")}


@pytest.fixture
def marking(tmp_path: Path) -> Path:
    """A program in the place of `am` that leaves a mark when it is run."""
    program = tmp_path / "marking"
    program.write_text(f"#!/bin/sh\ntouch {tmp_path / 'ran'}\n", encoding="utf-8")
    program.chmod(0o755)
    return program


def test_the_matrix_is_the_one_worked_by_hand(amctl: Amctl, four: Path, tmp_path: Path) -> None:
    ran = amctl("survey", "apps", "--jobs", "1")
    assert (ran.status, ran.out, ran.err) == (0, TABLE.lstrip(), "")
    assert lines(tmp_path / "survey", "reach.csv") == MATRIX
    assert lines(tmp_path / "survey", "unreadable.csv") == ["file,reason"]


def test_links_that_one_app_claims_alone_are_left_out(amctl: Amctl, four: Path, tmp_path: Path) -> None:
    amctl("survey", "apps", "--jobs", "1")
    # the shop takes any host of `pay`, and `shop` is its own
    tied = [f"pay://one.example/,{it},tied" for it in ("com.bank/com.bank.Pay", "com.shop/com.shop.Buy")]
    assert lines(tmp_path / "survey", "links.csv") == ["link,component,verdict", *tied]


def test_the_most_exposed_come_first(amctl: Amctl, many: Path, tmp_path: Path) -> None:
    opened = 'package = "com.zoo"\nservice = [{ name = ".A", exported = true }, { name = ".B", exported = true }]\n'
    (many / "zoo.toml").write_text(opened, encoding="utf-8")
    assert amctl("survey", "many", "--jobs", "1").status == 0
    exposed = lines(tmp_path / "survey", "exposed.csv")
    assert exposed[:3] == [
        "rank,package,components,open,activities,services,receivers,callers",
        f"1,com.zoo,2,2,0,2,0,{MANY}",
        f"2,com.app00,3,1,1,0,0,{MANY}",
    ]
    assert len(exposed) == 11


def test_the_number_of_jobs_changes_no_byte(amctl: Amctl, many: Path, tmp_path: Path) -> None:
    (many / "bad.toml").write_text("x", encoding="utf-8")
    one = amctl("survey", "many", "--jobs", "1", "--into", "one")
    four = amctl("survey", "many", "--jobs", "4", "--into", "four")
    assert (one.status, one.out) == (four.status, four.out) == (1, four.out)
    assert results(tmp_path / "one") == results(tmp_path / "four")
    assert done_files(tmp_path / "one").keys() == done_files(tmp_path / "four").keys()


def test_apps_are_added_to_a_device_with_its_grants(amctl: Amctl, four: Path, tmp_path: Path) -> None:
    (tmp_path / "till.toml").write_text(TILL, encoding="utf-8")
    assert amctl("survey", "apps", "--on", "till.toml", "--jobs", "1").status == 0
    found = lines(tmp_path / "survey", "reach.csv")
    assert "com.till,com.bank,activity,1,1,0,0,0,0" in found
    assert "com.shop,com.till,receiver,1,1,0,0,0,0" in found
    assert set(MATRIX) < set(found)


def test_each_app_is_on_a_copy_of_its_own(amctl: Amctl, four: Path, tmp_path: Path) -> None:
    (tmp_path / "till.toml").write_text(TILL, encoding="utf-8")
    ran = amctl("survey", "apps", "--on", "till.toml", "--each", "--jobs", "1")
    assert ran.status == 0
    assert lines(tmp_path / "survey", "reach.csv") == [
        HEAD,
        *(f"{it},com.till,receiver,1,1,0,0,0,0" for it in ("com.bank", "com.empty", "com.news", "com.shop")),
        "com.till,com.bank,activity,1,1,0,0,0,0",
        *(f"com.till,{it}" for it in [*OF_BANK[1:], *OF_NEWS, *OF_SHOP]),
    ]
    assert [it.split()[0] for it in ran.out.splitlines()[1:]] == ["com.bank", "com.news", "com.shop", "com.empty"]
    # nobody else on the copy takes the link
    assert lines(tmp_path / "survey", "links.csv") == ["link,component,verdict"]
    assert "com.till" in (tmp_path / "survey" / "reach.svg").read_text(encoding="utf-8")


def test_a_device_file_in_the_folder_is_no_app(amctl: Amctl, four: Path, tmp_path: Path) -> None:
    (four / "till.toml").write_text(TILL, encoding="utf-8")
    assert amctl("survey", "apps", "--on", "apps/till.toml", "--into", "apps/found", "--jobs", "1").status == 0
    assert amctl("survey", "apps", "--on", "apps/till.toml", "--into", "apps/found", "--jobs", "1").err == ""
    assert lines(four / "found", "unreadable.csv") == ["file,reason"]


def test_the_picture_is_xml_with_each_name(amctl: Amctl, many: Path, tmp_path: Path) -> None:
    odd = 'package = "com.<odd>&\\u0001"\n'
    (many / "odd.toml").write_text(odd, encoding="utf-8")
    assert amctl("survey", "many", "--jobs", "1").status == 0
    root = ElementTree.parse(tmp_path / "survey" / "reach.svg").getroot()
    texts = [it.text for it in root.iter("{http://www.w3.org/2000/svg}text")]
    names = [f"com.app{it:02}" for it in range(MANY)] + ["com.<odd>&\ufffd"]
    # a name for its row, and one for its column
    assert [texts.count(it) for it in names] == [2] * (MANY + 1)
    assert f"Who reaches whom: {MANY + 1} packages on one device" in texts
    assert {"activities", "services", "receivers", words_survey.SOME} <= set(texts)
    titles = [it.text for it in root.iter("{http://www.w3.org/2000/svg}title")]
    assert "com.app00 reaches of com.app01: 1 of 2 activities, 0 of 1 service" in titles


def test_a_picture_of_very_many_apps_shows_the_most_exposed() -> None:
    apps = [f"com.app{it:03}" for it in range(300)]
    shown = apps[::-1]
    root = ElementTree.fromstring(picture.drawn(apps, ["com.till"], [], shown, is_each=True))
    texts = [it.text for it in root.iter("{http://www.w3.org/2000/svg}text")]
    assert "Who reaches whom: the 256 most exposed of 300 apps, each on a device with 1 package" in texts
    assert [it for it in apps if it in texts] == apps[44:]


class Stopped(BaseException):
    """As if a user stopped it."""


@pytest.mark.parametrize("step", [0, 3, 9, 14])
def test_what_was_interrupted_goes_on(four: Path, tmp_path: Path, monkeypatch: pytest.MonkeyPatch, step: int) -> None:
    """Ends just before something is in its place: one of twelve jobs, or one of the results."""
    main(Asked(four, into=tmp_path / "whole"))
    left = [step]
    replaced = os.replace

    def replace(part: Path, path: Path) -> None:
        if left[0] == 0:
            raise Stopped
        left[0] -= 1
        replaced(part, path)

    with monkeypatch.context() as patch:
        patch.setattr("amctl.survey.kept.os.replace", replace)
        with pytest.raises(Stopped):
            main(Asked(four, into=tmp_path / "half"))
    before = done_files(tmp_path / "half")
    assert len(before) == min(step, 12)
    assert all(isinstance(json.loads(it.read_bytes()), dict) for it in (tmp_path / "half" / "done").glob("*/*.json"))
    assert sum((tmp_path / "half" / it).exists() for it in RESULTS) == max(0, step - 12)
    assert main(Asked(four, into=tmp_path / "half")) == 0
    assert results(tmp_path / "half") == results(tmp_path / "whole")
    # what was there wasn't written again, and nothing else is left
    assert before.items() <= done_files(tmp_path / "half").items()
    assert not list((tmp_path / "half").rglob("*.part"))


def test_a_killed_survey_goes_on(amctl: Amctl, many: Path, tmp_path: Path) -> None:
    amctl("survey", "many", "--jobs", "1", "--into", "whole")
    half = tmp_path / "half"
    slow = tmp_path / "slow"
    slow.write_text(f'#!/bin/sh\nsleep 0.05\nexec "{find_am()}" "$@"\n', encoding="utf-8")
    slow.chmod(0o755)
    environment = {**os.environ, "PYTHONPATH": str(CLIENT), "AM": str(slow)}
    running = subprocess.Popen([sys.executable, "-m", "amctl", "survey", "many", "--jobs", "2", "--into", "half"], cwd=tmp_path, env=environment)
    deadline = time.monotonic() + PATIENCE_SECONDS
    # all are read, and then tried
    while len(done_files(half)) < MANY + 4 and time.monotonic() < deadline:
        time.sleep(0.002)
    running.kill()
    assert running.wait() == -signal.SIGKILL
    before = done_files(half)
    assert MANY + 4 <= len(before) < 3 * MANY
    assert not any((half / it).exists() for it in RESULTS)
    assert amctl("survey", "many", "--jobs", "1", "--into", "half", AM=str(slow)).status == 0
    assert len(done_files(half)) == 3 * MANY
    assert results(half) == results(tmp_path / "whole")
    assert before.items() <= done_files(half).items()


def test_a_second_run_asks_nothing(four: Path, tmp_path: Path, monkeypatch: pytest.MonkeyPatch, capsys: pytest.CaptureFixture[str]) -> None:
    asked = Asked(four, into=tmp_path / "found")
    main(asked)
    first, said = results(tmp_path / "found"), capsys.readouterr().out
    ran: list[jobs.Job] = []
    monkeypatch.setattr(mapping, "run_job", ran.append)
    assert main(asked) == 0
    assert (results(tmp_path / "found"), capsys.readouterr().out, ran) == (first, said, [])


def test_another_program_is_asked_anew(four: Path, tmp_path: Path, monkeypatch: pytest.MonkeyPatch) -> None:
    other = tmp_path / "am"
    other.write_text(f'#!/bin/sh\nexec "{find_am()}" "$@"\n', encoding="utf-8")
    other.chmod(0o755)
    (tmp_path / "till.toml").write_text(TILL, encoding="utf-8")
    ran: list[str] = []

    def run_job(job: jobs.Job, sessions: Sessions) -> dict[str, Any]:
        ran.append(type(job).__name__)
        return jobs.run_job(job, sessions)

    monkeypatch.setattr(mapping, "run_job", run_job)
    # on one device `am` takes them all at once, and is asked of none by itself
    one: dict[str, int] = {"AskOne": 4}
    each: dict[str, int] = {"Accept": 4, "AskEach": 4}
    for device, is_each, asks in ((None, False, one), (tmp_path / "till.toml", True, each)):
        done = []
        for am in (None, None, other):
            ran.clear()
            main(Asked(four, device, is_each, tmp_path / f"found-{is_each}", am=am))
            done.append({name: ran.count(name) for name in dict.fromkeys(ran)})
        # what a program said isn't what another one would say; an app that was read is read
        assert done == [{"Read": 4, **asks}, {}, asks]


def test_a_changed_app_is_read_again(amctl: Amctl, four: Path, tmp_path: Path) -> None:
    amctl("survey", "apps", "--jobs", "1")
    (four / "news.toml").write_text(NEWS.replace("exported = true", "exported = false"), encoding="utf-8")
    assert amctl("survey", "apps", "--jobs", "1").status == 0
    found = lines(tmp_path / "survey", "reach.csv")
    assert "com.bank,com.news,receiver,1,0,0,1,0,0" in found
    assert "com.bank,com.news,receiver,1,1,0,0,0,0" not in found


def test_an_app_that_cant_be_read_is_a_line_and_the_rest_goes_on(amctl: Amctl, four: Path, tmp_path: Path) -> None:
    faults = {
        "b1.toml": b"package = ",
        "b2.toml": b'system_key = "s"\n',
        "b3.toml": b'package = "com.three"\nactivity = [{ name = ".A", intent-filter = [{ action = ["x.A"] }] }]\n',
        "b4.toml": b'package = "com.four"\nactivity = [{ exported = true }]\n',
        "b5.toml": b"\xff",
        "b6.xml": b"<resources/>",
        "b7.apk": b"PK",
    }
    for name, data in faults.items():
        (four / name).write_bytes(data)
    ran = amctl("survey", "apps", "--jobs", "2")
    assert (ran.status, ran.out) == (1, TABLE.lstrip())
    assert ran.err == "amctl: 7 apps can't be read: survey/unreadable.csv says why.\n"
    assert lines(tmp_path / "survey", "reach.csv") == MATRIX
    found = lines(tmp_path / "survey", "unreadable.csv")
    assert [it.partition(",")[0] for it in found] == ["file", *faults]
    says = ["TOML 1.0: ", "no `package`", "(exported_unstated com.three.A)", "(missing activity[0].name)", "UTF-8", "resources", "malformed archive"]
    assert [part for part, line in zip(says, found[1:]) if part not in line] == []
    assert str(tmp_path) not in "".join(found)


def test_an_app_with_odd_names_stops_nothing(amctl: Amctl, four: Path, tmp_path: Path) -> None:
    link = '{ scheme = "x", host = "a b", path = "/%zz" }, { scheme = "y", host = "[", pathPattern = "\\\\" }'
    activity = f'{{ name = "{"B" * 1000}", exported = true, intent-filter = [{{ {VIEW}, data = [{link}] }}] }}'
    odd = f'package = "{"a" * 1000}"\nactivity = [{activity}]\nservice = [{{ name = "x y é", exported = true }}]\n'
    (four / "odd.toml").write_text(odd, encoding="utf-8")
    assert amctl("survey", "apps", "--jobs", "1").status == 0
    found = lines(tmp_path / "survey", "reach.csv")
    assert set(MATRIX) < set(found)
    # an intent's component has at most 1,024 bytes
    assert f'com.bank,{"a" * 1000},activity,1,0,0,0,0,1' in found
    assert f'com.bank,{"a" * 1000},service,1,1,0,0,0,0' in found
    assert ElementTree.parse(tmp_path / "survey" / "reach.svg").getroot().tag.endswith("svg")


def test_no_name_writes_to_the_terminal_as_it_likes(amctl: Amctl, tmp_path: Path) -> None:
    folder_of(tmp_path / "apps", a='package = "com.\\u001b[2J\\n"\nservice = [{ name = ".S", exported = true }]\n', b=f'package = "{"b" * 60}"\n')
    ran = amctl("survey", "apps", "--jobs", "1")
    assert [it.split()[0] for it in ran.out.splitlines()[1:]] == ["com.\\x1b[2J\\n", "b" * 47 + "…"]
    (tmp_path / "apps" / "c.toml").write_text('package = "com.\\u001b[2J\\n"\n', encoding="utf-8")
    assert amctl("survey", "apps", "--jobs", "1").err.startswith("amctl: com.\\x1b[2J\\n is in a.toml and in c.toml")


def test_an_app_that_couldnt_be_read_is_tried_again(amctl: Amctl, four: Path, tmp_path: Path) -> None:
    (four / "late.toml").symlink_to(tmp_path / "late.toml")
    assert amctl("survey", "apps", "--jobs", "1").status == 1
    assert lines(tmp_path / "survey", "unreadable.csv")[1] == "late.toml,No such file or directory"
    (four / "late.toml").unlink()
    (four / "late.toml").write_text(EMPTY.replace("empty", "late"), encoding="utf-8")
    os.utime(four / "late.toml", ns=(0, 0))
    assert amctl("survey", "apps", "--jobs", "1").status == 0
    assert "com.late,com.news,receiver,1,1,0,0,0,0" in lines(tmp_path / "survey", "reach.csv")


def test_an_xml_manifest_is_an_app(amctl: Amctl, tmp_path: Path) -> None:
    apps = folder_of(tmp_path / "apps", news=NEWS)
    (apps / "decoded").mkdir()
    (apps / "decoded" / "other.xml").write_text("<resources/>", encoding="utf-8")
    text = '<manifest xmlns:android="http://schemas.android.com/apk/res/android" package="com.xml"><application>'
    text += '<service android:name=".S" android:exported="true"/><provider android:name=".P" android:exported="true"/></application></manifest>'
    (apps / "decoded" / "AndroidManifest.xml").write_text(text, encoding="utf-8")
    said = "amctl: 1 thing wasn't looked at in 1 app, since a device file can't say that: survey/left-out.csv has each.\n"
    for _ in range(2):
        # also where it was read before
        ran = amctl("survey", "apps", "--jobs", "1")
        assert (ran.status, ran.err) == (0, said)
        assert lines(tmp_path / "survey", "reach.csv") == [HEAD, "com.news,com.xml,service,1,1,0,0,0,0", "com.xml,com.news,receiver,1,1,0,0,0,0"]
        assert lines(tmp_path / "survey", "left-out.csv") == [
            "file,place,what",
            "decoded/AndroidManifest.xml,com.xml.P,left out provider: a device file has no providers",
        ]


def refused(amctl: Amctl, tmp_path: Path, *words: str) -> str:
    """What is said of words that can't be used, before anything runs."""
    ran = amctl("survey", *words, AM=str(tmp_path / "marking"))
    assert (ran.status, ran.out) == (2, "")
    assert not (tmp_path / "ran").exists()
    return ran.err


def test_two_apps_of_one_package_are_refused(amctl: Amctl, four: Path, tmp_path: Path, marking: Path) -> None:
    (four / "zoo.toml").write_text(NEWS, encoding="utf-8")
    said = refused(amctl, tmp_path, "apps", "--jobs", "1")
    assert said == "amctl: com.news is in news.toml and in zoo.toml, and a package counts once: take one of them out.\n"


def test_an_app_that_the_device_has_is_refused(amctl: Amctl, four: Path, tmp_path: Path, marking: Path) -> None:
    (tmp_path / "till.toml").write_text(TILL.replace("com.till", "com.news"), encoding="utf-8")
    said = refused(amctl, tmp_path, "apps", "--on", "till.toml", "--each", "--jobs", "1")
    assert said.startswith("amctl: com.news is in till.toml and in news.toml")


def test_more_apps_than_a_device_takes_are_refused(amctl: Amctl, tmp_path: Path, marking: Path) -> None:
    apps = folder_of(tmp_path / "apps", **{f"a{it}": f'package = "com.a{it}"\n' for it in range(257)})
    said = refused(amctl, tmp_path, "apps")
    assert "257 apps are too many for one device, since it takes 256 packages" in said and "`--each --on DEVICE`" in said
    (apps / "a0.toml").unlink()
    (tmp_path / "till.toml").write_text(TILL, encoding="utf-8")
    assert "256 apps are too many for one device, beside 1 that the device has" in refused(amctl, tmp_path, "apps", "--on", "till.toml")
    assert not (tmp_path / "survey").exists()
    # 256 are taken: this goes on to the program
    assert amctl("survey", "apps", "--jobs", "1", AM=str(tmp_path / "marking")).status != 0
    assert (tmp_path / "ran").exists()


def test_words_that_cant_be_used(amctl: Amctl, four: Path, tmp_path: Path, marking: Path) -> None:
    assert "`--on`" in refused(amctl, tmp_path, "apps", "--each")
    assert "nowhere is no folder" in refused(amctl, tmp_path, "nowhere")
    (tmp_path / "bare").mkdir()
    assert "bare has no APK" in refused(amctl, tmp_path, "bare")
    (tmp_path / "bare" / "letter").write_text("dear", encoding="utf-8")
    assert "bare has files of others" in refused(amctl, tmp_path, "apps", "--into", "bare")
    assert [it.name for it in (tmp_path / "bare").iterdir()] == ["letter"]
    assert "letter is a file: name by `--into` a folder" in refused(amctl, tmp_path, "apps", "--into", "bare/letter")


def test_a_device_file_that_grows_too_large_is_said(amctl: Amctl, tmp_path: Path) -> None:
    # a device file has at most 16 MiB, and a key that no table lists is ignored
    folder_of(tmp_path / "apps", **{f"a{it}": f"package = 'com.a{it}'\nlong = '{'x' * 2**20}'\n" for it in range(16)})
    ran = amctl("survey", "apps", "--jobs", "1")
    assert (ran.status, ran.out) == (2, "")
    assert ran.err.startswith("amctl: `am` doesn't take all apps on one device, though it takes each alone: ") and "/tmp" not in ran.err
    assert not (tmp_path / "survey" / "reach.csv").exists()


def test_a_session_that_has_answered_enough_is_followed_by_another(monkeypatch: pytest.MonkeyPatch) -> None:
    base = DeviceFile.parse(Path("device.toml"), made.BARE)
    text = "".join([made.BARE, *(f'[[package]]\nkey = "k{at}"\n[package.manifest]\n{it}' for at, it in enumerate((NEWS, EMPTY)))])
    opened: list[str] = []

    def counted(text: str, am: Path | None) -> Device:
        opened.append(text)
        return made.opened(text, am)

    monkeypatch.setattr("amctl.survey.asking.opened", counted)
    found = []
    for most in (1, 60_000):
        with Copy(text, None, most) as copy:
            found.append([reach(copy, ["com.empty"], ["com.news"]) for _ in range(3)])
    assert base.names == () and found[0] == found[1]
    assert found[0][0] == [{"caller": "com.empty", "target": "com.news", "verdicts": {"receiver": [["com.news.News", "reached"]]}}]
    assert len(opened) == 4


def test_jobs_on_one_device_share_its_session(four: Path, tmp_path: Path, monkeypatch: pytest.MonkeyPatch) -> None:
    opened: list[str] = []

    def counted(text: str, am: Path | None) -> Device:
        opened.append(text)
        return real(text, am)

    real = made.opened
    monkeypatch.setattr("amctl.survey.asking.opened", counted)
    monkeypatch.setattr("amctl.survey.made.opened", counted)
    main(Asked(four, into=tmp_path / "found"))
    # all apps at once on a bare device, the device that is surveyed, and its session
    assert len(opened) == 3
    # what is kept of each app is the same as if each had been asked by itself
    ones = [jobs.AskOne(it, opened[-1], None, "") for it in made.names_of(opened[-1])]
    own = [found for it in ones for found in jobs.run_jobs([it])]
    assert len(opened) == 3 + len(ones)
    # another process is asked for several at once, by one session
    assert jobs.run_jobs(ones) == own
    assert len(opened) == 3 + len(ones) + 1


def test_a_batch_is_half_of_what_is_left_for_a_process() -> None:
    work: dict[str, jobs.Job] = {str(it): jobs.Read(Path("."), str(it), (0, 0)) for it in range(50)}
    batches = list(mapping._batches(work, 4))
    assert [key for batch in batches for key in batch] == list(work)
    assert [len(it) for it in batches] == [6, 5, 4, 4, 3, 3, 3, 2, 2, 2, 2, *[1] * 14]
    assert [len(it) for it in mapping._batches({str(it): work["0"] for it in range(1000)}, 1)][:2] == [16, 16]
    assert list(mapping._batches({}, 4)) == []


@pytest.mark.parametrize("is_each", [False, True])
def test_each_device_is_parsed_once(four: Path, tmp_path: Path, monkeypatch: pytest.MonkeyPatch, is_each: bool) -> None:
    (tmp_path / "till.toml").write_text(TILL, encoding="utf-8")
    texts: list[str] = []
    made.parsed.cache_clear()

    def parse(path: Path, text: str) -> DeviceFile:
        texts.append(text)
        return DeviceFile(path, text, tomllib.loads(text))

    monkeypatch.setattr(DeviceFile, "parse", parse)
    main(Asked(four, tmp_path / "till.toml", is_each, tmp_path / "found"))
    # the given one, which is also opened by itself, is a file of its own
    twice = [it for it in dict.fromkeys(texts) if texts.count(it) > 1 and it != TILL]
    assert twice == [] and len(texts) > 3


def test_an_app_that_am_refuses_takes_none_of_the_others_with_it(four: Path, tmp_path: Path) -> None:
    (four / "bad.toml").write_text('package = "com.bad"\nactivity = [{ name = 1 }]\n', encoding="utf-8")
    assert main(Asked(four, into=tmp_path / "found")) == 1
    unreadable = lines(tmp_path / "found", "unreadable.csv")
    assert len(unreadable) == 2 and unreadable[1].startswith("bad.toml,")


def test_the_links_of_filters_are_their_combinations() -> None:
    row = '{ scheme = "https" }, { scheme = "app" }, { host = "*.a.example", port = 80 }, { host = "b.example", pathPrefix = "/x y" }, { path = "/p" }'
    text = f'package = "com.a"\nactivity = [{{ name = ".A", exported = true, intent-filter = [{{ {VIEW}, data = [{row}] }}] }}]\n'
    text += f'[[service]]\nname = ".S"\nexported = true\nintent-filter = [{{ {VIEW}, data = [{{ scheme = "no" }}] }}]\n'
    device = made.parsed(f'system_key = "s"\n[[package]]\nkey = "k"\nmanifest = {made.written(DeviceFile.parse(Path("a"), text).document)}\n')
    hosts, paths = ("any.a.example:80", "b.example"), ("/x%20yany", "/p")
    wanted = tuple(f"{scheme}://{host}{path}" for scheme in ("https", "app") for host in hosts for path in paths)
    assert links.named(device.packages[0].components) == (wanted, 0)


def test_links_over_the_limit_are_told(amctl: Amctl, tmp_path: Path) -> None:
    rows = ", ".join(f'{{ scheme = "s{at}", host = "h{at}.example" }}' for at in range(33))
    text = f'package = "com.a"\nactivity = [{{ name = ".A", exported = true, intent-filter = [{{ {VIEW}, data = [{rows}] }}] }}]\n'
    folder_of(tmp_path / "apps", a=text)
    ran = amctl("survey", "apps", "--jobs", "1")
    assert (ran.status, ran.err) == (0, "amctl: 65 links weren't asked about: of a filter that names more than 1,024, the first 1,024 are.\n")


def test_values_of_any_kind_are_written_as_toml() -> None:
    text = 'package = "com.\\"a\\\\"\n"odd key" = [1, -2.5, true, "\\n", 1979-05-27T07:32:00Z, 07:32:00, { "é" = {} }, inf]\n'
    document = DeviceFile.parse(Path("a"), text).document
    assert DeviceFile.parse(Path("b"), f"m = {made.written(document)}").document["m"] == document


def test_an_app_that_its_copy_refuses_is_unreadable() -> None:
    app = App("a.toml", "com.news", made.written(DeviceFile.parse(Path("a"), NEWS).document))
    empty = App("b.toml", "com.empty", made.written(DeviceFile.parse(Path("b"), EMPTY).document))
    device = made.device_of(made.parsed(made.BARE), [app, empty])
    [found] = jobs.run_jobs([jobs.AskEach(app, device, None, "")])
    assert found.keys() == {"file", "reason"} and found["reason"].endswith("(duplicate com.news)")


def test_a_key_that_the_device_has_is_given_to_no_app() -> None:
    app = App("a.toml", "com.news", made.written(DeviceFile.parse(Path("a"), NEWS).document))
    base = made.parsed(made.device_of(made.parsed(made.BARE), [app]).replace("com.news", "com.olds"))
    with made.opened(made.device_of(base, [app]), None) as device:
        # it was read, and nothing with keys is left of it
        assert not device.file.path.parent.exists()
        assert device.is_installed("com.news")
        assert device.file.names == ("com.olds", "com.news")
        assert len({it.key for it in device.file.packages}) == 2


def read_terminal(master: int) -> str:
    """All that a terminal shows; a piece of it may end inside a character."""
    pieces = []
    with open(master, "rb", buffering=0) as shown:
        try:
            while piece := shown.read(65536):
                pieces.append(piece)
        except OSError:
            # nobody writes there any more
            pass
    return b"".join(pieces).decode()


def test_a_terminal_shows_the_progress(four: Path, tmp_path: Path) -> None:
    environment = {**os.environ, "PYTHONPATH": str(CLIENT), "AM": str(find_am()), "TERM": "xterm"}
    master, slave = pty.openpty()
    words = [sys.executable, "-m", "amctl", "survey", "apps", "--jobs", "2"]
    with subprocess.Popen(words, cwd=tmp_path, env=environment, stdout=subprocess.PIPE, stderr=slave, text=True) as ran:
        os.close(slave)
        shown = read_terminal(master)
        said = ran.communicate(timeout=PATIENCE_SECONDS)[0]
    assert (ran.returncode, said) == (0, TABLE.lstrip())
    assert words_survey.READING in shown and "4/4" in shown


def test_without_dask_the_package_is_named(four: Path, tmp_path: Path, monkeypatch: pytest.MonkeyPatch) -> None:
    # the import of a module that is None here fails
    monkeypatch.setitem(sys.modules, "distributed", None)  # type: ignore[misc]
    with pytest.raises(BadWords, match="sudo apt-get install --no-install-recommends python3-distributed"):
        main(Asked(four, into=tmp_path / "found", dask="tcp://127.0.0.1:1"))


needs_dask = pytest.mark.skipif(importlib.util.find_spec("distributed") is None, reason="Debian's package python3-distributed isn't installed")


@pytest.fixture
def scheduler(tmp_path: Path) -> Iterator[str]:
    """A scheduler of Dask with two workers."""
    with socket.socket() as free:
        free.bind(("127.0.0.1", 0))
        address = f"tcp://127.0.0.1:{free.getsockname()[1]}"
    environment = {**os.environ, "PYTHONPATH": str(CLIENT), "AM": str(find_am())}
    words = [["dask_scheduler", "--host", address, "--no-dashboard"]]
    # a worker with a nanny would be two programs
    worker = ["dask_worker", address, "--nthreads", "1", "--no-dashboard", "--no-nanny", "--local-directory"]
    words += [[*worker, str(tmp_path / f"w{it}")] for it in range(2)]
    with (tmp_path / "dask.log").open("wb") as log:
        started = [
            subprocess.Popen([sys.executable, "-m", f"distributed.cli.{it[0]}", *it[1:]], env=environment, stdout=log, stderr=log, start_new_session=True)
            for it in words
        ]
        try:
            wait_for_workers(address)
            yield address
        finally:
            for program in reversed(started):
                os.killpg(program.pid, signal.SIGTERM)
            for program in started:
                program.wait(PATIENCE_SECONDS)


def wait_for_workers(address: str) -> None:
    distributed = importlib.import_module("distributed")
    with distributed.Client(address, timeout="60s") as client:
        client.wait_for_workers(2, timeout="60s")


@needs_dask
def test_dask_gives_the_same_bytes(amctl: Amctl, many: Path, tmp_path: Path, scheduler: str) -> None:
    (many / "bad.toml").write_text("x", encoding="utf-8")
    here = amctl("survey", "many", "--jobs", "1", "--into", "here")
    over = amctl("survey", "many", "--dask", scheduler, "--into", "over")
    assert (over.status, over.out) == (here.status, here.out) == (1, here.out)
    assert results(tmp_path / "over") == results(tmp_path / "here")
    assert done_files(tmp_path / "over").keys() == done_files(tmp_path / "here").keys()


@needs_dask
def test_a_scheduler_that_isnt_there_is_said(four: Path, tmp_path: Path, monkeypatch: pytest.MonkeyPatch) -> None:
    monkeypatch.setattr(mapping, "PATIENCE", "1s")
    with pytest.raises(BadWords, match="no scheduler of Dask answers at tcp://127.0.0.1:1 "):
        main(Asked(four, into=tmp_path / "found", dask="tcp://127.0.0.1:1"))
