"""`amctl compare`: the everyday suite on a stand-in for a phone, with and without a planted difference, and what it takes and prints."""
import io
import json
import re
import sys
import time
import xml.etree.ElementTree as ET
from collections import Counter
from collections.abc import Iterator, Sequence
from dataclasses import dataclass, replace
from pathlib import Path
from typing import Any

import jsonschema  # type: ignore[import]  # Debian has no stubs of it
import pytest

from amctl.compare import command, everyday, lines
from amctl.compare.command import Asked, compare
from amctl.compare.question import Outcome, Question
from amctl.compare.rules import BY_REASON, BY_VERDICT, FINDING, OFFERS
from amctl.compare.simulated import Simulated
from amctl.compare.suite import question_of, read_suite
from amctl.device import Device
from amctl.devicefile import DeviceFile
from amctl.errors import BadWords
from amctl.find import find_am
from amctl.intents import Intent
from amctl.phone.adb import Adb, Run, Said, Silent
from conftest import TOP, run_python
from tools.resident import ADB, resident
from tools.standin import SHELL, Settings, StandIn

HERE = Path(__file__).resolve().parent / "phone"
DEVICE = HERE / "device.toml"
FILE = DeviceFile.read(DEVICE)
VIEW = "android.intent.action.VIEW"
BROWSABLE = "android.intent.category.BROWSABLE"


JUNIT = json.loads((HERE.parent / "junit_schema.json").read_text(encoding="utf-8"))


def tree(element: ET.Element) -> dict[str, Any]:
    """An element as its schema has it."""
    text = (element.text or "").strip()
    return {"tag": element.tag, "attributes": dict(element.attrib), "text": text, "children": [tree(it) for it in element]}


@dataclass(frozen=True)
class Plant:
    """A difference between the phone and its device file."""

    what: str
    phone: str
    component: str
    old: str
    new: str

    def device(self, folder: Path) -> Path:
        """The device that the phone is."""
        text = DEVICE.read_text(encoding="utf-8")
        assert self.old in text, self.what
        found = folder / "planted.toml"
        found.write_text(text.replace(self.old, self.new, 1), encoding="utf-8")
        return found


def planted() -> Iterator[Plant]:
    text = (HERE / "planted.txt").read_text(encoding="utf-8")
    for part in re.split(r"\n\n(?=[^\n]+\n[^\n]* \| com\.)", text)[1:]:
        head, _, new = part.partition("\n=>\n")
        what, shown, old = head.split("\n", 2)
        phone, _, component = shown.partition(" | ")
        yield Plant(what, phone, component, old, new.strip("\n"))


PLANTED = tuple(planted())


@pytest.fixture(scope="session")
def phone() -> Iterator[StandIn]:
    with StandIn(DEVICE, settings=Settings(debuggable=("com.notes",))) as found:
        yield found


def compared(phone: Run, questions: Sequence[Question], form: str = "text", device: Path = DEVICE, am: Path | None = None) -> tuple[int, str, str]:
    out, err = io.StringIO(), io.StringIO()
    asked = Asked(device, own="everyday", form=form, am=am, is_confirmed=True)
    status = compare(Adb(phone), asked, DeviceFile.read(device), questions, out, err, lambda sentence: False)
    return status, out.getvalue(), err.getvalue()


def as_json(phone: Run, *questions: Question, am: Path | None = None, device: Path = DEVICE) -> Any:
    return json.loads(compared(phone, questions, "json", device, am)[1])


def test_the_everyday_suite_finds_nothing(phone: StandIn) -> None:
    status, out, err = compared(phone, everyday.everyday(FILE))
    assert (status, out) == (0, "100 questions: 100 agree, 0 differ, 0 not compared.\n")
    assert set(err.splitlines()) == {f"stopped by force: com.{it}" for it in ("browser", "photos", "mail", "notes", "maps", "surf")}
    # what was started is ended, and nobody but the apps that opened was stopped
    assert phone.phone.system.tasks() == ()


def test_the_everyday_suite_asks_for_everything(phone: StandIn) -> None:
    found = json.loads(compared(phone, everyday.everyday(FILE), "json")[1])
    assert found["counts"] == {"asked": 100, "agree": 100, "differ": 0, "unasked": 0}
    outcomes = Counter((it["ask"], it["phone"]["outcome"]) for it in found["questions"])
    expected = {("start", "opens"), ("start", "refuses"), ("start", "chooses"), ("start", "nothing"), ("query", "lists"), ("query", "nothing")}
    assert set(outcomes) == expected | {("link", "opens"), ("broadcast", "receives"), ("broadcast", "refuses"), ("broadcast", "nothing")}


@pytest.mark.parametrize("plant", PLANTED, ids=[it.what for it in PLANTED])
def test_a_planted_difference_is_found(plant: Plant, tmp_path: Path) -> None:
    with StandIn(plant.device(tmp_path)) as phone:
        status, out, _ = compared(phone, everyday.everyday(FILE))
    assert status == 1
    differences = [it for it in out.split("\n\n") if it.startswith("differs  ")]
    assert any(f"\n    phone  {plant.phone}\n" in it and plant.component in it for it in differences), out
    # no rule keeps out what isn't there
    assert all("\n    rule   " in it or "it isn't in the device file" in it for it in differences)
    assert 0 < len(differences) <= 13 and f"{100 - len(differences)} agree" in out


def test_at_least_twenty_are_planted() -> None:
    assert len({(it.old, it.new) for it in PLANTED}) >= 20


@pytest.mark.parametrize("device", [None, DEVICE, TOP / "examples" / "device.toml"], ids=["an empty one", "the stand-in's", "the example's"])
def test_a_hundred_questions_on_any_device(device: Path | None) -> None:
    file = DeviceFile.parse(Path("device.toml"), 'system_key = "k"\n') if device is None else DeviceFile.read(device)
    found = everyday.everyday(file)
    assert len({it.name for it in found}) == len(found) == 100
    # what a person reads and runs again is the same
    assert [lines.line_of(question_of(it.name)) for it in found] == [it.name for it in found]


def test_many_combinations_are_passed_over() -> None:
    """A filter's rows are merged, so a few hundred lines of a device file might name millions of intents."""
    rows = ", ".join(f'{{ scheme = "s{at}", host = "h{at}.example", pathPrefix = "/p{at}", mimeType = "t/{at}" }}' for at in range(64))
    filter = f'{{ action = ["{VIEW}"], data = [{rows}] }}'
    activities = "".join(f'[[package.manifest.activity]]\nname = "com.a.A{at}"\nexported = true\nintent-filter = [{filter}]\n' for at in range(16))
    text = f'system_key = "k"\n[[package]]\nkey = "a"\n[package.manifest]\npackage = "com.a"\n{activities}'
    began = time.process_time()
    assert len(everyday.everyday(DeviceFile.parse(Path("device.toml"), text))) == 100
    assert time.process_time() - began < 10


def test_a_device_without_adb_s_shell_has_one_that_holds_nothing() -> None:
    device = TOP / "examples" / "device.toml"
    with StandIn(device) as phone:
        status, out, _ = compared(phone, everyday.everyday(DeviceFile.read(device)), device=device)
    assert (status, out) == (0, "100 questions: 100 agree, 0 differ, 0 not compared.\n")


def test_what_might_do_harm_is_listed_and_not_done() -> None:
    text = """system_key = "k"
[[package]]
key = "a"
[package.manifest]
package = "com.a"
[[package.manifest.activity]]
name = "com.a.FactoryReset"
exported = true
intent-filter = [{ action = ["android.intent.action.VIEW"], data = [{ scheme = "x" }] }]
[[package.manifest.activity]]
name = "com.a.Phone"
exported = true
intent-filter = [{ action = ["android.intent.action.CALL", "android.intent.action.VIEW"], data = [{ scheme = "tel" }] }, { action = ["a.DO"] }]
[[package.manifest.receiver]]
name = "com.a.Off"
exported = true
intent-filter = [{ action = ["a.REQUEST_SHUTDOWN"] }]
"""
    found = everyday.everyday(DeviceFile.parse(Path("device.toml"), text))
    done = [it.name for it in found if it.changes]
    assert done == ["am start -W --user 0 -a android.intent.action.MAIN -c android.intent.category.LAUNCHER -p com.a"]
    assert any(it.ask == "query" and it.intent.action == "a.DO" for it in found)


def start(*words: str) -> Question:
    return question_of(f"am start {' '.join(words)}")


def test_a_difference_as_text(tmp_path: Path) -> None:
    plant = next(it for it in PLANTED if it.what == "a host is approved for no app")
    with StandIn(plant.device(tmp_path)) as phone:
        status, out, err = compared(phone, [question_of(f"adb shell pm resolve-activity --brief -a {VIEW} -d https://www.photos.example/album")])
    assert (status, err) == (1, "")
    assert out == f"""differs  adb shell pm resolve-activity --brief -a {VIEW} -d https://www.photos.example/album
    asked  cmd package resolve-activity --components --user 0 --query-flags 0x10000 -a {VIEW} -d https://www.photos.example/album
    phone  opens com.browser/.Page
    am     opens com.photos/.Album
    com.photos/.Album  reached
    com.browser/.Page  another activity, which is approved for www.photos.example, gets the link alone
                       -> declare www.photos.example in a filter of it with VIEW, BROWSABLE and https, and then `amctl link com.browser www.photos.example`
    rule   Target (docs/PROFILE.md, Which activity a start reaches)
    rule   Narrowing (docs/PROFILE.md, Which activity a start reaches)
    rules  profile answers: opens com.photos/.Album

1 question: 0 agree, 1 differs, 0 not compared.
"""


def test_a_difference_as_json_and_as_junit(tmp_path: Path) -> None:
    plant = next(it for it in PLANTED if it.what == "an activity asks for a permission")
    questions = [start("-n", "com.mail/.Compose"), start("-n", "com.maps/.Map"), question_of("run-as com.mail am start -n com.maps/.Map")]
    with StandIn(plant.device(tmp_path)) as phone:
        found = as_json(phone, *questions)
        xml = compared(phone, questions, "junit")[1]
    assert "standin-mail" not in json.dumps(found) + xml, "a key is never shown"
    assert found["counts"] == {"asked": 3, "agree": 1, "differ": 1, "unasked": 1}
    assert found["phone"] == {"serial": "standin-1", "level": "31"} and found["rules"] == "android-12" and found["stopped"] == ["com.maps"]
    differs, agrees, unasked = found["questions"]
    assert differs["verdict"] == "differs" and differs["phone"]["outcome"] == "refuses" and differs["phone"]["permission"] == "com.mail.permission.COMPOSE"
    assert "Permission Denial: starting Intent" in differs["phone"]["err"]
    assert differs["am"] == {"outcome": "opens", "components": ["com.mail/com.mail.Compose"]}
    assert differs["accounts"] == [{"to": "com.mail/com.mail.Compose", "verdict": "reached"}]
    assert {"heading": "Gates", "rule": "Verdict"} in differs["rules"]
    assert agrees["verdict"] == "agrees" and "accounts" not in agrees
    assert unasked["verdict"] == "unasked" and "only a debuggable app" in unasked["why"] and unasked["phone"]["err"] == "run-as: package not debuggable: com.mail\n"
    suites = ET.fromstring(xml)
    jsonschema.validate(tree(suites), JUNIT)
    assert (suites.get("tests"), suites.get("failures"), suites[0].get("skipped")) == ("3", "1", "1")
    assert [[child.tag for child in case] for case in suites[0]] == [["failure"], [], ["skipped"]]
    failure = suites[0][0][0]
    assert failure.get("message") == "phone  refuses com.mail/.Compose: its caller lacks com.mail.permission.COMPOSE; am     opens com.mail/.Compose"


def test_an_app_may_be_the_caller(phone: StandIn) -> None:
    of_notes = question_of("run-as com.notes am start -n com.photos/.Editor")
    own = question_of("run-as com.notes am broadcast -n com.photos/.Sync -f 0x20")
    found = as_json(phone, of_notes, own, start("-n", "com.photos/.Editor"))
    assert [it["verdict"] for it in found["questions"]] == ["agrees"] * 3
    assert [it["phone"]["outcome"] for it in found["questions"]] == ["refuses", "nothing", "opens"]


def test_it_asks_before_the_first_change(phone: StandIn) -> None:
    questions = [question_of("cmd package query-activities -a android.intent.action.MAIN"), start("-n", "com.maps/.Map"), question_of("am broadcast -a x.A")]
    told: list[str] = []

    def no(sentence: str) -> bool:
        told.append(sentence)
        return False

    phone.asked.clear()
    out, err = io.StringIO(), io.StringIO()
    assert compare(Adb(phone), Asked(DEVICE, own="everyday"), FILE, questions, out, err, no) == 2
    assert told[0].startswith("On standin-1 this starts 1 activity and sends 1 broadcast. An app that opens is stopped by force afterwards")
    assert (out.getvalue(), err.getvalue()) == ("", "amctl: nothing was asked, and nothing was changed.\n")
    assert all(it[0] == "get-state" or it[0] == "get-serialno" or it[-1].startswith("getprop ") for it in phone.asked)
    # lists change nothing
    assert compare(Adb(phone), Asked(DEVICE, own="everyday"), FILE, questions[:1], out, err, no) == 0 and len(told) == 1


def test_who_isn_t_at_a_terminal_has_to_say_yes(monkeypatch: pytest.MonkeyPatch) -> None:
    monkeypatch.setattr(sys, "stdin", io.StringIO("y\n"))
    with pytest.raises(BadWords, match="add `--yes`"):
        command._confirmed("It changes much.")


def test_a_chooser_is_closed(phone: StandIn) -> None:
    phone.asked.clear()
    found = as_json(phone, start("-a", "android.intent.action.SEND", "-t", "text/plain"))
    assert found["questions"][0]["phone"]["outcome"] == "chooses" and found["stopped"] == []
    assert [it[1] for it in phone.asked if it[0] == "shell" and ("input" in it[1] or "force-stop" in it[1])] == ["input keyevent 4"]


def replaced(phone: Run, part: str, said: Said) -> Run:
    """The phone, but for what has this in its line."""

    def run(words: Sequence[str], seconds: float) -> Said:
        return said if part in words[-1] else phone(words, seconds)

    return run


def test_what_a_start_found_is_in_the_log_if_it_opened_another(phone: StandIn) -> None:
    """An activity that passes its start on is found, though another is shown."""
    passes_on = replaced(phone, "am start", Said(0, "Starting: Intent { cmp=com.maps/.Map }\nStatus: ok\nActivity: com.browser/.Page\nComplete\n", ""))
    log = "06-01 I ActivityTaskManager: START u0 {flg=0x10000000 cmp=com.maps/.Map} from uid 2000\n06-01 I ActivityTaskManager: START u0 {cmp=com.browser/.Page} from uid 10001\n"
    found = as_json(replaced(passes_on, "logcat", Said(0, log, "")), start("-n", "com.maps/.Map"))
    assert found["questions"][0]["verdict"] == "agrees"
    other = as_json(replaced(passes_on, "logcat", Said(0, log.replace("2000", "10002"), "")), start("-n", "com.maps/.Map"))
    assert other["questions"][0]["phone"]["components"] == ["com.browser/com.browser.Page"]


def test_a_start_that_takes_too_long_is_looked_for(phone: StandIn) -> None:
    late = replaced(phone, "am start", Said(0, "Starting: Intent { cmp=com.maps/.Map }\nStatus: timeout\nComplete\n", ""))
    dump = "  ResumedActivity: ActivityRecord{1a2b u0 com.maps/.Map t12}\n"
    assert as_json(replaced(late, "dumpsys activity activities", Said(0, dump, "")), start("-n", "com.maps/.Map"))["counts"]["agree"] == 1
    unknown = as_json(replaced(late, "dumpsys activity activities", Said(0, "", "")), start("-n", "com.maps/.Map"), start("-n", "com.maps/.Route"))
    assert unknown["counts"]["unasked"] == 2 and "lines that this client doesn't know (Complete)" in unknown["questions"][0]["why"]


def test_an_app_that_shows_nothing_is_passed_over(phone: StandIn) -> None:
    def hangs(words: Sequence[str], seconds: float) -> Said:
        if "com.maps/.Map" in words[-1]:
            raise Silent("`adb shell am start` said nothing for 120 seconds")
        return phone(words, seconds)

    found = as_json(hangs, start("-n", "com.maps/.Map"), start("-n", "com.maps/.Route"))
    assert [it["verdict"] for it in found["questions"]] == ["unasked", "agrees"]
    assert "said nothing for 120 seconds" in found["questions"][0]["why"]


def test_nothing_compared_is_no_success(phone: StandIn) -> None:
    status, out, err = compared(replaced(phone, "cmd package", Said(255, "", "cmd: no service\n")), [question_of("pm query-services -a x.A")])
    assert status == 2
    assert "not compared  pm query-services -a x.A\n    the phone answered in lines that this client doesn't know (cmd: no service)" in out
    assert err == "amctl: no question got an answer from the phone that this client knows: nothing was compared.\n"


def test_what_am_doesn_t_take_is_not_compared(phone: StandIn) -> None:
    found = as_json(phone, Question("query", Intent(action="x.A", data="no uri"), name="odd"), start("-n", "com.maps/.Map"))
    assert found["questions"][0]["verdict"] == "unasked" and "`am` doesn't take it" in found["questions"][0]["why"]


def test_an_order_is_no_difference(phone: StandIn) -> None:
    asked = question_of("pm query-activities -a android.intent.action.SEND -t text/plain")
    turned = replaced(phone, "query-activities", Said(0, "com.notes/.List\ncom.mail/.Compose\n", ""))
    found = as_json(turned, asked)["questions"][0]
    assert found["verdict"] == "agrees" and found["order"] == "the phone lists them in another order"
    assert "order" not in as_json(phone, asked)["questions"][0]


def test_what_is_stopped_on_the_phone_is_stopped_here(tmp_path: Path) -> None:
    """A broadcast without INCLUDE_STOPPED passes it over, there and here."""
    with StandIn(DEVICE, settings=Settings(stopped=("com.notes",))) as phone:
        phone.phone.system.force_stop("com.notes")
        found = as_json(phone, question_of("am broadcast -n com.notes/.Reminder"), question_of("am broadcast -n com.notes/.Reminder -f 32"))
    assert [(it["verdict"], it["phone"]["outcome"]) for it in found["questions"]] == [("agrees", "nothing"), ("agrees", "receives")]


def test_what_a_start_has_stopped_is_stopped_here(phone: StandIn) -> None:
    found = as_json(phone, start("-n", "com.notes/.List"), question_of("am broadcast -n com.notes/.Reminder"))
    assert [(it["verdict"], it["phone"]["outcome"]) for it in found["questions"]] == [("agrees", "opens"), ("agrees", "nothing")]


def test_more_broadcasts_than_a_sender_may_have_alive(phone: StandIn) -> None:
    questions = [question_of("am broadcast -n com.notes/.Reminder -f 32")] * 70
    assert as_json(phone, *questions)["counts"]["agree"] == 70


AM_WITHOUT_RULES = """#!/usr/bin/python3 -S
# An `am` that has one set of rules: it knows no such key.
import os, sys, tempfile
at = sys.argv.index("--device") + 1
lines = open(sys.argv[at], encoding="utf-8").read().splitlines()
sys.argv[at] = tempfile.mkstemp(dir=os.path.dirname(sys.argv[0]))[1]
open(sys.argv[at], "w", encoding="utf-8").write("\\n".join(it for it in lines if not it.startswith("rules =")))
os.execv("AM", ["AM", *sys.argv[1:]])
"""


def by_the_profile(folder: Path) -> Path:
    """The device file that answers by the profile, as one without the key does."""
    path = folder / "profile.toml"
    path.write_text(DEVICE.read_text(encoding="utf-8").replace('rules = "android-12"\n', ""), encoding="utf-8")
    return path


def test_whether_the_other_rules_would_agree(tmp_path: Path) -> None:
    plant = next(it for it in PLANTED if it.what == "another app is the default browser")
    listed = question_of(f"pm query-activities -a {VIEW} -d https://any.example/")
    with StandIn(DEVICE) as phone:
        # a phone narrows a list of activities for a web link, and the profile doesn't
        found = as_json(phone, listed, device=by_the_profile(tmp_path))
        text = compared(phone, [listed], device=by_the_profile(tmp_path))[1]
        assert as_json(phone, listed)["counts"]["agree"] == 1
    others = found["questions"][0]["other_rules"]
    assert found["rules"] == "profile" and others == {"rules": "android-12", "agrees": True, "outcome": "lists", "components": ["com.browser/com.browser.Page"]}
    assert "\n    rules  android-12 would agree\n" in text
    with StandIn(plant.device(tmp_path)) as phone:
        text = compared(phone, [question_of(f"pm resolve-activity -a {VIEW} -d https://any.example/")])[1]
    assert "\n    rules  profile answers: opens com.browser/.Page\n" in text


def test_an_am_without_other_rules(tmp_path: Path) -> None:
    am = tmp_path / "am"
    am.write_text(AM_WITHOUT_RULES.replace('"AM"', repr(str(find_am()))), encoding="utf-8")
    am.chmod(0o755)
    with StandIn(DEVICE) as phone:
        text = compared(phone, [question_of(f"pm query-activities -a {VIEW} -d https://any.example/")], am=am)[1]
    assert "\n    rules  this `am` has no other rules\n" in text


def test_a_tie_that_is_left_out_as_a_whole_opens_nothing(tmp_path: Path) -> None:
    shut = "exported = false\nintent-filter = [{ action = [\"x.A\"], category = [\"android.intent.category.DEFAULT\"] }]\n"
    text = 'rules = "android-12"\nsystem_key = "k"\n[[package]]\nkey = "a"\n[package.manifest]\npackage = "com.a"\n'
    one, two = (f'[[package.manifest.activity]]\nname = ".{it}"\n{shut}' for it in "AB")
    asked = start("-a", "x.A")
    for components, outcome in ((one, Outcome("refuses", ("com.a/com.a.A",), "not_exported")), (one + two, Outcome("nothing"))):
        path = tmp_path / "device.toml"
        path.write_text(text + components, encoding="utf-8")
        with Device.open(path) as device:
            assert Simulated(device).ask(asked) == outcome


def test_the_rules_are_the_profile_s() -> None:
    profile = (TOP / "docs" / "PROFILE.md").read_text(encoding="utf-8")
    parts = {part.partition("\n")[0].partition(" (`")[0]: part for part in profile.split("\n## ")[1:]}
    for rule in {*BY_VERDICT.values(), *BY_REASON.values(), OFFERS, FINDING}:
        assert f"\n- **{rule.name}" in parts[rule.heading], rule


@pytest.mark.parametrize(
    "line, question",
    [
        ("am start -a x.A", Question("start", Intent(action="x.A"))),
        ("adb shell am start -W --user 0 -n com.a/.B", Question("start", Intent(component="com.a/com.a.B"))),
        ("adb shell \"am start -d 'https://a.example/?x=1&y=2'\"", Question("start", Intent(data="https://a.example/?x=1&y=2"))),
        ("cmd activity start-activity -t a/b  # why", Question("start", Intent(type="a/b"))),
        ("run-as com.a am broadcast -a x.A --es k v -f 0x20", Question("broadcast", Intent(action="x.A", extras={"k": "v"}, flags=("INCLUDE_STOPPED",)), "receiver", "com.a")),
        ("pm query-receivers -a x.A", Question("query", Intent(action="x.A"), "receiver")),
        ("cmd package query-services --brief --query-flags 0x10000 -a x.A", Question("query", Intent(action="x.A"), "service", default_only=True)),
        (f"cmd package resolve-activity -a {VIEW} -d http://a.example/", Question("link", Intent(action=VIEW, data="http://a.example/"))),
        ("am start -a ''", Question("start", Intent(action=""))),
    ],
)
def test_lines_of_a_suite(line: str, question: Question) -> None:
    assert question_of(line) == replace(question, name=line)


@pytest.mark.parametrize(
    "line, words",
    [
        ("am force-stop com.a", "`am force-stop` isn't compared"),
        ("pm list packages", "`pm list` isn't compared"),
        ("run-as com.a pm query-services -a x.A", "isn't compared"),
        ("adb shell", "isn't compared"),
        ("am start -S -n com.a/.B", "Unknown option: -S"),
        ("am start --activity-no-history -n com.a/.B", "isn't served"),
        ("pm query-services --query-flags 0x200 -a x.A", "only 0x10000"),
        ("am start", "No intent supplied"),
        ("am start -d 'x", "No closing quotation"),
    ],
)
def test_lines_that_aren_t_compared(line: str, words: str, tmp_path: Path) -> None:
    file = tmp_path / "suite.txt"
    file.write_text(f"# first\n\n{line}\n", encoding="utf-8")
    with pytest.raises(BadWords, match=f"{re.escape(str(file))}:3: .*{re.escape(words)}"):
        read_suite(file)


TABLES = """
[[question]]
ask = "start"
as = "com.a"
intent = { action = "x.A", categories = ["x.C"] }

[[question]]
name = "a service"
ask = "query"
kind = "service"
default_only = true
intent = { package = "com.a" }

[[question]]
ask = "broadcast"
intent = { action = "x.A", flags = ["INCLUDE_STOPPED"] }

[[question]]
ask = "link"
uri = "https://a.example/"
"""


def test_tables_of_a_suite(tmp_path: Path) -> None:
    file = tmp_path / "suite.toml"
    file.write_text(TABLES, encoding="utf-8")
    started, listed, sent, link = read_suite(file)
    assert started == Question("start", Intent(action="x.A", categories=("x.C",)), "activity", "com.a", name="run-as com.a am start -W --user 0 -a x.A -c x.C")
    assert listed == Question("query", Intent(package="com.a"), "service", default_only=True, name="a service")
    assert sent == Question("broadcast", Intent(action="x.A", flags=("INCLUDE_STOPPED",)), "receiver", name="am broadcast --user 0 -a x.A -f 0x20")
    assert (link.ask, link.intent) == ("link", Intent(action=VIEW, data="https://a.example/", categories=(BROWSABLE,)))


@pytest.mark.parametrize(
    "table, words",
    [
        ("ask = 'run'\nintent = { action = 'a' }", "one of start, query, broadcast, link"),
        ("intent = { action = 'a' }", "`ask` is missing"),
        ("ask = 'start'", "`intent` is missing"),
        ("ask = 'start'\nintent = { actions = 'a' }", "a key that isn't an intent's, among actions"),
        ("ask = 'start'\nkind = 'service'\nintent = { action = 'a' }", "no other question has a kind"),
        ("ask = 'query'\nkind = 'provider'\nintent = { action = 'a' }", "`kind` is provider"),
        ("ask = 'link'", "`uri` is missing"),
        ("ask = 'start'\ncaller = 'com.a'\nintent = { action = 'a' }", "`caller` isn't a key"),
        ("ask = 'start'\nas = 1\nintent = { action = 'a' }", "`as` is missing or has no value"),
    ],
)
def test_tables_that_aren_t_questions(table: str, words: str, tmp_path: Path) -> None:
    file = tmp_path / "suite.toml"
    file.write_text(f"[[question]]\n{table}\n", encoding="utf-8")
    with pytest.raises(BadWords, match=f"question 1: .*{re.escape(words)}"):
        read_suite(file)


def test_a_suite_has_a_question(tmp_path: Path) -> None:
    for name, text in (("suite.txt", "# nothing\n"), ("suite.toml", "[question]\nask = 'start'\n")):
        (tmp_path / name).write_text(text, encoding="utf-8")
        with pytest.raises(BadWords, match="has no question"):
            read_suite(tmp_path / name)
    (tmp_path / "suite.toml").write_text("[[question\n", encoding="utf-8")
    with pytest.raises(BadWords, match="suite.toml: Expected"):
        read_suite(tmp_path / "suite.toml")


def test_a_question_as_a_line() -> None:
    intent = Intent("x.A", "https://a.example/?b=c&d", "a/b", ("x.C", "x.D"), "com.a/com.a.B", "com.a", ("NEW_TASK", "CLEAR_TOP"), {"t": "u v", "n": -5, "b": True})
    assert lines.line_of(Question("start", intent, caller="com.x")) == (
        "run-as com.x am start -W --user 0 -a x.A -d 'https://a.example/?b=c&d' -t a/b -c x.C -c x.D --es t 'u v' --el n -5 --ez b true -f 0x14000000 -n com.a/.B -p com.a"
    )


SENT = """ACTIVITY MANAGER BROADCAST STATE (dumpsys activity broadcasts)
  Historical broadcasts [foreground]:
  Historical Broadcast foreground #0:
    BroadcastRecord{1 u0 x.A} to user 0
    Intent { act=x.A id=other flg=0x400010 }
    Deliver +1ms #0: (manifest)
      ActivityInfo:
        name=com.x.Other
        packageName=com.x
  Historical Broadcast background #1:
    BroadcastRecord{2 u0 x.A} to user 0
    Intent { act=x.A id=mine flg=0x400010 (has extras) }
      extras: Bundle[mParcelledData.dataSize=112]
    caller=com.android.shell null pid=1 uid=2000
    Deliver +1ms #0: BroadcastFilter{1 u0 ReceiverList{2 3 com.y/10050/u0 remote:4}}
      Action: "x.A"
    Deliver +12s3ms #1: (manifest)
      priority=5 preferredOrder=0 match=0x108000 specificIndex=-1 isDefault=false
      ActivityInfo:
        name=com.x.A
        packageName=com.x
        enabled=true exported=true directBootAware=false
        ApplicationInfo:
          name=com.x.App
          packageName=com.x
    Skipped 0 #2: (manifest)
      ActivityInfo:
        name=com.x.B
        packageName=com.x
    Timeout +60s0ms #3: (manifest)
      ActivityInfo:
        name=com.x.C
        packageName=com.x
"""


def test_who_received_a_broadcast() -> None:
    assert lines.received(Said(0, SENT, ""), "mine") == Outcome("receives", ("com.x/com.x.A", "com.x/com.x.C"))
    assert lines.received(Said(0, SENT, ""), "other") == Outcome("receives", ("com.x/com.x.Other",))
    assert lines.received(Said(0, SENT, ""), "min") is None
    assert lines.received(Said(0, SENT.partition("    Deliver +1ms #0: Broad")[0], ""), "mine") == Outcome("nothing")


DENIAL = "java.lang.SecurityException: Permission Denial: starting Intent { act=x.A flg=0x10000000 cmp=com.x/.Y } from null (pid=1, uid=2000) "


@pytest.mark.parametrize(
    "out, err, outcome",
    [
        ("Status: ok\nLaunchState: COLD\nActivity: com.x/.Y\nTotalTime: 5\nComplete\n", "", Outcome("opens", ("com.x/com.x.Y",))),
        ("Status: ok\nActivity: android/com.android.internal.app.ResolverActivity\n", "", Outcome("chooses")),
        ("Status: ok\nActivity: android/com.maker.internal.app.MakerResolverActivity\n", "", Outcome("chooses")),
        ("Warning: Activity not started, its current task has been brought to the front\nStatus: ok\nActivity: com.x/org.Y\n", "", Outcome("opens", ("com.x/org.Y",))),
        ("", "Error: Activity not started, unable to resolve Intent { act=x.A }\n", Outcome("nothing")),
        ("", "Error type 3\nError: Activity class {com.x/com.x.Z} does not exist.\n", Outcome("nothing")),
        ("", f"{DENIAL}not exported from uid 10001\n\tat a.b(C.java:1)\n", Outcome("refuses", ("com.x/com.x.Y",), "not_exported")),
        ("", f"{DENIAL}requires x.P\n", Outcome("refuses", ("com.x/com.x.Y",), "needs_permission", "x.P")),
        ("Status: ok\nActivity: unknown\n", "", None),
        ("Starting: Intent { act=x.A }\n", "", None),
    ],
)
def test_what_a_start_says(out: str, err: str, outcome: Outcome | None) -> None:
    assert lines.started(Said(0, f"Starting: Intent {{ act=x.A }}\n{out}", err)) == outcome


def test_what_lists_say() -> None:
    assert lines.listed(Said(0, "com.x/.Y\ncom.x/org.Z\n", ""), "activity") == Outcome("lists", ("com.x/com.x.Y", "com.x/org.Z"))
    assert lines.listed(Said(0, "No services found\n", ""), "service") == Outcome("nothing")
    for said in (Said(0, "No services found\n", ""), Said(0, "", ""), Said(1, "com.x/.Y\n", ""), Said(0, "priority=0\ncom.x/.Y\n", "")):
        assert lines.listed(said, "activity") is None
    assert lines.resolved(Said(0, "com.x/.Y\n", "")) == Outcome("opens", ("com.x/com.x.Y",))
    assert lines.resolved(Said(0, "No activity found\n", "")) == Outcome("nothing")
    assert lines.resolved(Said(0, "com.x/.Y\ncom.x/.Z\n", "")) is None


def test_the_command_by_the_program_adb(phone: StandIn, tmp_path: Path) -> None:
    words = ("compare", "--suite", "everyday", "--serial", phone.serial, "--device", str(DEVICE), "--adb", str(ADB))
    with resident(phone) as variables:
        ran = run_python("-m", "amctl", *words, "--yes", cwd=tmp_path, **variables)
        unsaid = run_python("-m", "amctl", *words, cwd=tmp_path, **variables)
        listed = run_python("-m", "amctl", *words, "--list", cwd=tmp_path)
        (tmp_path / "suite.txt").write_text("".join(listed.out.splitlines(keepends=True)[:12]), encoding="utf-8")
        own = run_python("-m", "amctl", "compare", "suite.txt", *words[3:], "--yes", "--format", "junit", cwd=tmp_path, **variables)
    assert (ran.status, ran.out) == (0, "100 questions: 100 agree, 0 differ, 0 not compared.\n"), ran.err
    assert (unsaid.status, unsaid.out) == (2, "") and unsaid.err.endswith("add `--yes`.\n")
    assert listed.status == 0 and len(listed.out.splitlines()) == 100
    assert own.status == 0 and ET.fromstring(own.out).get("tests") == "12"


@pytest.mark.parametrize(
    "words, sentence",
    [
        ((), "name a suite"),
        (("suite.txt", "--suite", "everyday"), "not both"),
        (("--suite", "weekly"), "there is no suite weekly"),
        (("--suite", "everyday", "--format", "sarif"), "sarif"),
        (("none.txt",), "none.txt"),
    ],
)
def test_words_that_make_no_suite(words: tuple[str, ...], sentence: str, tmp_path: Path) -> None:
    ran = run_python("-m", "amctl", "compare", *words, "--device", str(DEVICE), cwd=tmp_path)
    assert (ran.status, ran.out) == (2, "") and sentence in ran.err
