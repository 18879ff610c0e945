"""The sentences: none is missing that docs/HTTP.md, docs/COMMANDS.md and docs/DEVICE.md ask for, and each says what to do."""
import re
from pathlib import Path
from typing import Any

import pytest

from amctl import Device, DeviceFile, Intent, Refusal, words
from amctl.results import Account, Advanced, Entry, Placed
from amctl.words import About, Asked
from conftest import EXAMPLES, TOP

HTTP = (TOP / "docs" / "HTTP.md").read_text(encoding="utf-8")
COMMANDS = (TOP / "docs" / "COMMANDS.md").read_text(encoding="utf-8")
FILE = DeviceFile.read(EXAMPLES / "device.toml")
LINK = Intent.view("https://www.photos.example/album/cats")


def section(text: str, first: str, last: str) -> str:
    return text[text.index(first) : text.index(last)]


def errors() -> list[str]:
    """Every value of `error` in the document: in its tables, and in its exchanges."""
    frames = re.findall(r"`([a-z_]+)`", "".join(re.findall(r"^\| .*\| \d{3} \| (.*) \|$", section(HTTP, "## A frame", "## A response"), re.M)))
    statuses = re.findall(r"`([a-z_]+)`", "".join(re.findall(r"^\| \d{3} \|.*$", HTTP, re.M)))
    rules = re.findall(r"^\| `([a-z_]+)` \| \d{3} \|", HTTP, re.M)
    shown = re.findall(r'"error":"([a-z_]+)"', HTTP)
    return sorted({*frames, *statuses, *rules, *shown})


def verdicts() -> list[str]:
    table = section(HTTP, "The verdict is the first of these", "com.two asks whom of com.one")
    rows = "".join(it.split("|")[1] for it in table.splitlines() if it.startswith("| `"))
    skips = re.findall(r"^\| `([a-z_]+)` \|\s+\| verdict on a receiver", HTTP, re.M)
    return sorted({*re.findall(r"`([a-z_]+)`", rows), *skips})


def test_the_document_has_as_many_as_expected() -> None:
    assert len(errors()) == 35
    assert len(verdicts()) == 16


@pytest.mark.parametrize("rule", errors())
def test_every_error_has_a_sentence(rule: str) -> None:
    assert rule in words.REFUSALS
    sentence = words.refusal(rule, "a.b.NAME", Asked("com.browser", "/v1/start", {"intent": {"action": "a.X"}}))
    assert sentence.says and sentence.change
    assert "_" not in rule or rule not in sentence.text, "a rule's name isn't a sentence"
    assert not re.search(r"[{}]", sentence.text)


def test_every_limit_has_a_sentence() -> None:
    table = section(HTTP, "| `name` of `over_limit` |", "## Each route")
    names = re.findall(r"`([a-z]+)`", "".join(it.split("|")[1] for it in table.splitlines()[2:] if it.startswith("|")))
    assert len(names) == 13
    for name in names:
        assert words.refusal("over_limit", name, Asked("com.x", "/v1/send")) == words.LIMITS[name]


@pytest.mark.parametrize("verdict", [it for it in verdicts() if it not in ("filters", "narrowed")])
def test_every_verdict_has_a_sentence(verdict: str) -> None:
    found = words.account(Account("com.x/com.x.Main", verdict, "p.NAME"), About("com.browser", "receiver", LINK, FILE))
    assert found.says
    assert found.change or verdict == "reached"


@pytest.mark.parametrize("by", ["approved", "browser", "general"])
def test_every_narrowing_names_the_host_and_the_command(by: str) -> None:
    found = words.account(Account("com.photos/com.photos.Album", "narrowed", by=by), About("com.browser", "activity", LINK, FILE))
    assert found.says.startswith("not approved for www.photos.example")
    assert "amctl link com.photos www.photos.example" in found.change


@pytest.mark.parametrize(
    ("intent", "says"),
    [
        ({"component": "com.b/.C", "package": "com.b"}, "com.b/.C isn't exported, and com.a is another app"),
        ({"action": "a.X", "package": "com.b"}, "the component that the intent finds in com.b isn't exported, and com.a is another app"),
        ({"action": "a.X"}, "the component that the intent finds isn't exported, and com.a is another app"),
    ],
)
def test_a_refusal_names_what_the_intent_names(intent: dict[str, str], says: str) -> None:
    found = words.refusal("not_exported", None, Asked("com.a", "/v1/start_service", {"intent": intent}))
    assert found.says == says
    assert found.change.endswith("ask as com.b" if len(intent) > 1 else "ask as its own package")


def test_what_has_a_number_is_named_with_it() -> None:
    found = [words.refusal(rule, None, Asked("com.x", "/v1/x", {field: 7})).says for rule, field in (
        ("no_instance", "source"), ("not_yours", "instance"), ("no_receiver", "number"), ("not_ordered", "delivery"), ("not_holder", "token"),
    )]  # fmt: skip
    assert found == [
        "there is no activity instance 7",
        "activity instance 7 is another app's, not com.x's",
        "there is no registered receiver 7",
        "delivery or result 7 isn't of an ordered broadcast, so it has no outcome and can't be aborted",
        "com.x neither made token 7 nor was given it",
    ]
    both = Asked("android", "/v1/explain", {"as": "com.a", "of": "com.b"})
    assert words.refusal("no_package", None, both).says == "no installed package is called com.a or com.b"


def test_odd_uris_have_no_host() -> None:
    assert words.host_and_path("http://[::1/x") == words.host_and_path(None) == ("", "")
    assert words.host_and_path("https://A.b:8080/a%20b?c") == ("a.b", "/a b")


def test_an_unknown_rule_is_said_to_be_unknown() -> None:
    assert "doesn't know, new_rule x" in words.refusal("new_rule", "x", Asked("com.x", "/v1/start")).says
    assert "doesn't know" in words.account(Account("a/b", "new_verdict"), About("com.x", "activity", LINK, FILE)).says


@pytest.mark.parametrize(
    ("name", "says"),
    [
        ("not_json", "isn't JSON"),
        ("unknown_field code", "`code` isn't a field here"),
        ("missing intent", "`intent` must be given"),
        ("wrong_kind flags", "`flags` has a value that isn't taken"),
        ("too_long extras", "`extras` is too long"),
        ("bad_uri 1", "no scheme"),
        ("bad_uri 3", "two hexadecimal digits"),
        ("bad_mime 1", "no slash"),
        ("bad_mime 3", "second slash"),
    ],
)
def test_every_fault_of_a_body_is_said(name: str, says: str) -> None:
    found = words.bad_request(name)
    assert says in found.says
    assert found.change


def test_every_fault_of_a_body_in_the_document_is_tried_above() -> None:
    table = section(HTTP, "| `name` | The fault |", "An object's unknown fields come first")
    rules = set(re.findall(r"^\| `([a-z_]+)", table, re.M)) - {"name"}
    tried = {"not_json", "unknown_field", "missing", "wrong_kind", "too_long", "bad_uri", "bad_mime"}
    assert rules == tried


@pytest.mark.parametrize("status", sorted(set(re.findall(r"^\| (\d+) \| .* \|$", section(COMMANDS, "## Exit statuses", "## Keys"), re.M))))
def test_every_ending_has_a_sentence(status: str) -> None:
    found = words.ending(int(status), "am: session ended: cut" if status == "1" else "am: something")
    assert found.says and found.change
    assert not found.says.startswith("the program ended with status")


@pytest.mark.parametrize("why", ["refused", "cut", "limit"])
def test_every_end_of_a_session_has_a_sentence(why: str) -> None:
    assert words.ending(1, f"am: session ended: {why}") == words.SESSION_ENDS[why]


def test_endings_name_what_the_line_names() -> None:
    assert "com.maps" in words.ending(10, "am: kept rows refused: com.maps").says
    assert "`key`" in words.ending(3, "am: device refused: wrong_kind package[0].key").says
    assert "status 77" in words.ending(77, "what").says
    assert "signal 9" in words.ending(-9, "").says


def test_every_fault_of_a_file_has_a_sentence() -> None:
    text = (TOP / "docs" / "DEVICE.md").read_text(encoding="utf-8")
    named = re.findall(r"`(missing|wrong_kind|over_limit|duplicate|left_out|bad_uri|bad_mime|bad_priority|exported_unstated|not_toml)\b", text)
    limits = set(re.findall(r"`over_limit ([a-z]+)`", text))
    shown = set(re.findall(r"device refused: ([a-z_]+)", text))
    assert {*named, *shown} - {"over_limit"} == set(words.FAULTS)
    assert limits <= set(words.LIMITS)


def test_a_fault_says_the_form_of_its_key() -> None:
    assert "true` or `false" in words.fault("wrong_kind package[0].manifest.activity[2].exported").change
    assert words.fault("missing package[3].key").text == "`key` must be there and isn't: add it to `package[3]`."
    assert words.fault("missing system_key").text == "`system_key` must be there and isn't: add it to the file's top."
    assert "write a list" in words.fault("wrong_kind package[0].manifest.activity[0].intent-filter[1].action[0]").change


@pytest.mark.parametrize(
    ("intent", "says"),
    [
        (Intent(action="android.intent.action.SEND", type="image/png"), "its filter doesn't list the action SEND, but VIEW or EDIT"),
        (Intent.view("content://x/y"), "its filter takes types alone (image/*), and the intent has a URI of the scheme content"),
        (Intent.view("content://x/y", type="text/plain"), "its filter doesn't take the type text/plain, but image/*"),
        (Intent.view("geo:1,2", type="image/png"), "its filter takes types alone (image/*), and the intent has a URI of the scheme geo"),
        (Intent.view("content://x/y", type="image/png", categories=("a.b.C",)), "its filter doesn't list the category a.b.C"),
    ],
)
def test_a_reason_says_what_the_filter_takes(photos: Device, intent: Intent, says: str) -> None:
    found = photos.app("com.browser").explain("activity", intent)
    viewer = next(it for it in found if it.to == "com.photos/com.photos.Viewer")
    assert words.account(viewer, About("com.browser", "activity", intent, photos.file)).says == says


@pytest.mark.parametrize(
    ("url", "says"),
    [
        ("https://other.example/album/", "doesn't take the host other.example, but *.photos.example"),
        ("https://www.photos.example/cats", "doesn't take the path /cats, but begins with /album/"),
        ("ftp://www.photos.example/album/", "doesn't take the scheme ftp, but https"),
    ],
)
def test_a_reason_of_a_link(photos: Device, url: str, says: str) -> None:
    found = photos.app("com.browser").explain("activity", Intent.view(url))
    album = next(it for it in found if it.to == "com.photos/com.photos.Album")
    assert words.account(album, About("com.browser", "activity", Intent.view(url), photos.file)).says == f"its filter {says}"


@pytest.mark.parametrize(
    ("intent", "says", "change"),
    [
        (
            Intent(action="VIEW", data="https://www.photos.example/album/cats"),
            "its filter doesn't list the action VIEW, but android.intent.action.VIEW",
            "write it as the filter does (`-a android.intent.action.VIEW`)",
        ),
        (
            Intent.view("https://www.photos.example/album/cats", categories=("BROWSABLE",)),
            "its filter doesn't list the category BROWSABLE, but android.intent.category.BROWSABLE",
            "write it as the filter does (`-c android.intent.category.BROWSABLE`)",
        ),
        (
            Intent.view("https://www.photos.example/album/cats", categories=("a.b.BROWSABLE",)),
            "its filter doesn't list the category a.b.BROWSABLE",
            "list the category in a filter of it, or ask without it",
        ),
    ],
)
def test_a_name_without_android_s_prefix_is_told_from_the_whole_one(photos: Device, intent: Intent, says: str, change: str) -> None:
    found = photos.app("com.browser").explain("activity", intent)
    album = next(it for it in found if it.to == "com.photos/com.photos.Album")
    said = words.account(album, About("com.browser", "activity", intent, photos.file))
    assert (said.says, said.change) == (says, change)


def test_a_filter_without_the_prefix_is_told_too() -> None:
    text = 'system_key = "s"\n[[package]]\nkey = "k"\n[package.manifest]\npackage = "com.x"\n'
    text += '[[package.manifest.activity]]\nname = ".A"\nexported = true\nintent-filter = [{ action = ["VIEW", "x.Y"] }]\n'
    file = DeviceFile.parse(Path("device.toml"), text)
    said = words.account(Account("com.x/com.x.A", "filters", reasons=("action",)), About("com.x", "activity", Intent.view("a:b"), file))
    assert said.says == "its filter doesn't list the action android.intent.action.VIEW, but VIEW or x.Y"


@pytest.mark.parametrize(
    ("fields", "says", "change"),
    [
        ({"intent": {"flags": ["NEW_TASK", "FLAG_ACTIVITY_CLEAR_TOP"]}}, "FLAG_ACTIVITY_CLEAR_TOP", "write CLEAR_TOP, since flags are named without FLAG_ACTIVITY_"),
        ({"intent": {"flags": ["FLAG_RECEIVER_FOREGROUND"]}}, "FLAG_RECEIVER_FOREGROUND", "write FOREGROUND, since"),
        ({"intent": {"flags": ["FLAG_INCLUDE_STOPPED_PACKAGES"]}}, "FLAG_INCLUDE_STOPPED_PACKAGES", "write INCLUDE_STOPPED, since"),
        ({"intent": {"flags": ["NEWTASK"]}}, "NEWTASK", "write NEW_TASK"),
        ({"intent": {"flags": ["FLAG_ACTIVITY_NO_HISTORY"]}}, "FLAG_ACTIVITY_NO_HISTORY", "name flags without FLAG_ACTIVITY_ or FLAG_RECEIVER_: NEW_TASK,"),
        ({"intent": {"flags": ["NEW_TASK"]}, "flags": ["FLAG_MUTABLE"]}, "FLAG_MUTABLE", "write MUTABLE, since"),
        ({"intent": {"flags": [5]}}, "5", "name flags without"),
    ],
)
def test_a_wrong_flag_is_named(fields: dict[str, Any], says: str, change: str) -> None:
    found = words.refusal("bad_request", "wrong_kind flags", Asked("com.x", "/v1/start", fields))
    assert found.says == f"`{says}` isn't a flag that `am` takes"
    assert found.change.startswith(change)


def test_the_flags_are_those_that_am_takes(photos: Device) -> None:
    for flag in words.INTENT_FLAGS:
        photos.system.explain("activity", LINK.with_flag(flag))
    for number, flag in enumerate(words.PENDING_FLAGS):
        flags = [flag] if flag.endswith("MUTABLE") else [flag, "IMMUTABLE"]
        photos.system.pending_get("broadcast", number, Intent(action="x.A"), flags)
    with pytest.raises(Refusal, match="^`FLAG_ACTIVITY_NEW_TASK` isn't a flag that `am` takes: write NEW_TASK, since"):
        photos.system.start(LINK.with_flag("FLAG_ACTIVITY_NEW_TASK"))


def test_another_server_is_told_from_another_version() -> None:
    other = words.refusal("Not Found", None, Asked("com.x", "/v1/start"))
    assert other.says == "what answers isn't `am`: it refuses by 'Not Found'" and other.change.startswith("check the port and the path of the URL")
    assert words.refusal("new_rule", "x", Asked("com.x", "/v1/start")).change.startswith("use the client of the same version")
    assert words.ending(2, "am: usage").says == "this `am` doesn't take the words of this client"
    for status in (1, 2):
        found = words.ending(status, "/bin/ls: unrecognized option '--device'\nTry help")
        assert found.says == '''the program isn't this project's `am`, and said "/bin/ls: unrecognized option '--device'"'''
        assert found.change == "name the built `am` by --am or in the variable AM"


def test_a_moment_of_a_clock_is_a_day_and_a_time() -> None:
    assert words.moment(1_764_623_239_007) == "2025-12-01 21:07:19.007"
    assert [words.moment(it) for it in (0, 10**11 - 1, 2**62)] == ["0 ms", "99999999999 ms", f"{2**62} ms"]
    assert words.entry(Entry(0, 0, True, 1_764_623_239_007, {}, "/v1/tick", 0, 2), FILE)[1] == "2025-12-01 21:07:19.007"
    assert words.entry(Entry(0, 0, True, 5, {}, "/v1/tick", 0, 2), FILE)[1] == "5 ms"
    assert words.advanced(Advanced(1_764_623_249_007, 1_764_623_239_007)) == (
        "the moment is 2025-12-01 21:07:19.007; the next deadline is 10000 ms ahead, at 2025-12-01 21:07:29.007."
    )


def test_several_filters_are_numbered(photos: Device) -> None:
    found = photos.app("com.browser").explain("activity", Intent.view("geo:1,2"))
    said = words.account(found[0], About("com.browser", "activity", Intent.view("geo:1,2"), photos.file))
    assert said.says == "filter 1 doesn't take the scheme geo, but http or https; filter 2 doesn't list the action VIEW, but WEB_SEARCH"
    assert said.change == "give it a filter with this scheme in `data`, or ask by another URI"


def test_numbers_are_counted_in_words() -> None:
    assert words.served("history 4 served 1") == "the server ended: 4 calls in its history, 1 connection served"
    assert words.served("something else") == "something else"


def test_entries_name_their_callers() -> None:
    made = [Entry(0, 0, True, 5, {}, "/v1/tick", uid, 2) for uid in (0, 1000, 10001, 10007)]
    assert [words.entry(it, FILE)[2] for it in made] == ["root", "android", "com.photos", "uid 10007"]
    assert words.entry(Entry(1, 0, False, 5, {}, "/v1/grant", 1000, 2), FILE)[3] == "grant (not kept)"


def test_placed_says_where() -> None:
    assert words.placed(Placed(2, "fronted", 1), "com.x/com.x.Main") == (
        "com.x/.Main: its task comes to the front, and the intent isn't delivered (instance 2, task 1)"
    )
