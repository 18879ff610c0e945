"""`amctl check`: each rule with an app that has the fault, and one that hasn't."""
import json
import sys
import tempfile
import tomllib
import types
from collections.abc import Callable
from pathlib import Path
from typing import Any

import pytest

from amctl import Device, Intent, words
from amctl.check import Asked, check, main
from amctl.check.asking import STATES, Copies, caller_name
from amctl.check.intents import questions
from amctl.devicefile import DeviceFile, components_of
from amctl.errors import BadWords, DeviceFault
from amctl.kept import manifest_of
from amctl.results import to_json
from amctl.words_check import RULES
from check_files import APP, BROWSER, BROWSABLE, DEFAULT, OLD, SEND, VIEW, Checked, app, component, device, filter_of, web
from conftest import EXAMPLES, Ran

LOW = device(app(component(filters=[filter_of(priority=-1)]), package="com.old"))
TWO_OLD = device(OLD, app(component(filters=[filter_of()]), package="com.older"))
HEARER = device(app(component("receiver", filters=[filter_of("x.NEWS")]), package="com.old"), top='exempt = ["x.NEWS"]')
CLOSED = "exported = false"
LINK = component(filters=[web("a.example")])
LEVELS = {"packages": {APP: {"permissions": [{"name": "com.new.READ", "protectionLevel": "normal"}]}}}
SIGNED = {"packages": {APP: {"permissions": [{"name": "com.new.READ", "protectionLevel": "signature"}]}}}
STATED = {"a.example": [{"relation": ["delegate_permission/common.handle_all_urls"], "target": {"namespace": "android_app", "package_name": APP}}]}
GUARDED = app(component("service", others='exported = true\npermission = "com.new.READ"'))


def defines(*names: str, other: str = "com.old.READ") -> dict[str, Any]:
    """Facts: the app defines these permissions, and com.old another one."""
    return {"packages": {APP: {"permissions": [{"name": it} for it in names]}, "com.old": {"permissions": [{"name": other}]}}}


def stored(route: str, intent: dict[str, Any], uid: int = 10001, **fields: Any) -> str:
    """A history of one call, of the next package after the device file's if no uid is named."""
    return json.dumps({"at": 0, "desk": 0, "kept": True, "now": 5, "request": {"intent": intent, **fields}, "route": route, "uid": uid, "weight": 2})


KEY_OF_APP = DeviceFile.parse(Path("d.toml"), device(OLD)).key_for_new(APP)
Options = dict[str, Any]
CASES: list[tuple[str, str, str, str, str, str, Options, Options]] = [
    # rule, device, the app with the fault, its place, what is said, the app without it, options with and without the fault
    ("unreadable", device(OLD), "package = 1\n", "1:1", "no `package`", app(), {}, {}),
    ("taken", LOW, app(component(filters=[filter_of()])), "6:18", "from com.old/.C to com.new/.C (outranked", app(component(filters=[filter_of(priority=-2)])), {}, {}),
    ("refused", LOW, app(component(filters=[filter_of()], others=CLOSED)), "6:18", "refuses the caller", app(component(filters=[filter_of()])), {}, {}),
    ("asks", device(OLD), app(component(filters=[filter_of()])), "6:18", "among com.old/.C and com.new/.C (tied", app(component(filters=[filter_of("x.B")])), {}, {}),
    ("one-more", TWO_OLD, app(component(filters=[filter_of()])), "6:18", "com.older/.C and com.new/.C", app(component(filters=[filter_of(priority=-1)])), {}, {}),
    ("opens", device(OLD), app(component(filters=[filter_of("x.B")])), "6:18", "now com.new/.C does", app(component(filters=[filter_of()])), {}, {}),
    (
        "hears",
        HEARER,
        app(component("receiver", filters=[filter_of("x.NEWS")])),
        "6:18",
        "com.new/.C gets it",
        app(component("receiver", filters=[filter_of("x.OTHER")])),
        {},
        {},
    ),
    ("link-lost", device(BROWSER), app(component(filters=[web("a.example")], others=CLOSED)), "6:18", "is refused, to com.new/.C", app(LINK), {}, {}),
    (
        "link-asks",
        device(app(LINK, package="com.old"), end='[[link]]\npackage = "com.old"\nhost = "a.example"\n'),
        app(LINK),
        "6:18",
        "once approved: asks among com.old/.C and com.new/.C",
        app(component(filters=[web("b.example")])),
        {},
        {},
    ),
    ("link-unstated", device(BROWSER), app(LINK), "6:18", "the statements for a.example don't name com.new", app(LINK), {"assetlinks": {}}, {"assetlinks": STATED}),
    (
        "link-unverified",
        device(BROWSER),
        app(LINK),
        "6:18",
        "no filter for a.example has `autoVerify`",
        app(LINK),
        {"facts": {"packages": {APP: {"autoVerify": ["b.example"]}}}},
        {"facts": {"packages": {APP: {"autoVerify": ["a.example"]}}}},
    ),
    ("link", device(BROWSER), app(LINK), "6:18", "opens com.browser/.C; once approved: opens com.new/.C (narrowed by approved", app(component(filters=[web(None)])), {}, {}),
    ("open-service", device(OLD), app(component("service")), "5:1", "any app reaches com.new/.C", app(component("service", others=CLOSED)), {}, {}),
    ("open-receiver", device(OLD), app(component("receiver")), "5:1", "any app reaches com.new/.C", GUARDED, {}, {}),
    ("open-activity", device(OLD), app(component(filters=[filter_of()])), "5:1", "by its filter (x.A)", app(component(filters=[filter_of()], others=CLOSED)), {}, {}),
    ("weak-permission", device(OLD), GUARDED, "6:1", "com.new.READ of the level normal", GUARDED, {"facts": LEVELS}, {"facts": SIGNED}),
    ("undefined-permission", device(OLD), GUARDED, "6:1", "com.new.READ, which no known package defines", GUARDED, {"facts": {"packages": {APP: {}}}}, {"facts": SIGNED}),
    (
        "caught-broadcast",
        HEARER,
        app(),
        "1:1",
        "com.old/.C receives the broadcast",
        app(),
        {"history": stored("/v1/send", {"action": "x.NEWS"})},
        {"history": stored("/v1/send", {"action": "x.NEWS", "package": APP})},
    ),
    (
        "caught-start",
        device(OLD),
        app(),
        "1:1",
        "the start opens com.old/.C",
        app(),
        {"history": stored("/v1/start", {"action": "x.A", "flags": ["NEW_TASK"]})},
        {"history": stored("/v1/start", {"component": "com.old/.C", "flags": ["NEW_TASK"]})},
    ),
    (
        "may-be-caught",
        device(OLD),
        app(top='queries = { intent = [{ action = "x.A" }] }'),
        "2:23",
        "sent as a start it reaches com.old/.C",
        app(top='queries = { intent = [{ action = "x.B" }] }'),
        {},
        {},
    ),
    (
        "mutable-implicit",
        device(OLD),
        app(),
        "1:1",
        "entry 0 of the history",
        app(),
        {"history": stored("/v1/pending/get", {"action": "x.A"}, kind="activity", code=0, flags=["MUTABLE"])},
        {"history": stored("/v1/pending/get", {"action": "x.A"}, kind="activity", code=0, flags=["IMMUTABLE"])},
    ),
    ("permission-twice", device(OLD), app(), "1:1", "com.old.READ is defined by com.old too", app(), {"facts": defines("com.old.READ")}, {"facts": defines("com.new.READ")}),
    ("permission-foreign", device(OLD), app(), "1:1", "the name space of com.old", app(), {"facts": defines("com.old.WRITE")}, {"facts": defines("com.new.READ")}),
    (
        "affinity",
        device(OLD),
        app(component(others='exported = false\ntaskAffinity = "com.old"')),
        "6:1",
        "the affinity com.old of com.old",
        app(component(others='exported = false\ntaskAffinity = "com.new.other"')),
        {},
        {},
    ),
    ("key-collides", device(OLD).replace('"k1"', f'"{KEY_OF_APP}"'), app(), "1:1", "is that of com.old", app(package="com.newer"), {}, {}),
    ("class-twice", device(OLD), app(component(name="com.old.C", others=CLOSED)), "4:1", "com.old has a class com.old.C too", app(component(others=CLOSED)), {}, {}),
]


@pytest.mark.parametrize("rule, on, faulty, place, said, sound, options, others", CASES, ids=[it[0] for it in CASES])
def test_each_rule(rule: str, on: str, faulty: str, place: str, said: str, sound: str, options: Options, others: Options, tmp_path: Path) -> None:
    found = [it for it in Checked(tmp_path, on, faulty, options).findings() if it.rule == rule]
    assert found, "the fault isn't found"
    assert str(found[0].place) == place
    assert said in found[0].message
    assert not [it for it in Checked(tmp_path, on, sound, others).findings() if it.rule == rule]


def test_every_rule_is_tried() -> None:
    # what is left out is the converter's, which no manifest in TOML needs
    assert {it[0] for it in CASES} | {"left-out"} == set(RULES)


def test_what_am_answered_can_be_asked_again(tmp_path: Path) -> None:
    """Each exchange is shown by the device that it names: before, after, or approved."""
    checked = Checked(tmp_path, device(OLD, BROWSER), app(component(filters=[filter_of()]), component(name=".L", filters=[web("a.example")])))
    states = set()
    for finding in checked.findings():
        assert finding.is_compared == (not finding.exchanges)
        for exchange in finding.to_json("app.toml")["exchanges"]:
            states.add(exchange["state"])
            with Device.open(checked.device_file()) as again:
                again.system.install('package = "amctl.check"\n')
                if exchange["state"] != "before":
                    again.system.install(checked.manifest)
                if exchange["state"] == "approved":
                    again.system.link(APP, "a.example")
                body = exchange["request"]["body"]
                accounts = again.system.explain(body["kind"], Intent.from_json(body["intent"]), as_=body["as"])
            answered = {it["to"]: it["verdict"] for it in exchange["response"]["body"]["accounts"]}
            assert answered.items() <= {it.to: it.verdict for it in accounts}.items()
    assert states == {"before", "after", "approved"}


def test_the_system_is_asked_where_it_differs(tmp_path: Path) -> None:
    found = Checked(tmp_path, LOW, app(component(filters=[filter_of()], others=CLOSED))).findings()
    refused = next(it for it in found if it.rule == "refused")
    assert [it.caller for it in refused.exchanges] == ["amctl.check", "amctl.check", "android"]
    assert refused.message.endswith("the system opens com.new/.C")
    sound = Checked(tmp_path, LOW, app(component(filters=[filter_of()]))).findings()
    assert [it.caller for it in next(it for it in sound if it.rule == "taken").exchanges] == ["amctl.check", "amctl.check"]


@pytest.mark.parametrize("priority", [0, 5])
def test_what_is_heard_is_what_a_broadcast_reaches(priority: int, tmp_path: Path) -> None:
    checked = Checked(tmp_path, HEARER, app(component("receiver", filters=[filter_of("x.NEWS", priority=priority)])))
    line = next(it for it in checked.findings() if it.rule == "hears")
    with Device.open(checked.device_file()) as on:
        on.system.install('package = "amctl.check"\n')
        on.system.install(checked.manifest)
        sent = on.app("amctl.check").send(line.exchanges[0].intent)
    assert sorted(str(it.to) for it in sent.receivers if it.verdict == "admitted") == sorted(line.exchanges[0].reached)
    assert len(sent.receivers) == 2


def test_an_app_of_more_hosts_than_can_be_approved_at_once(tmp_path: Path) -> None:
    rows = [", ".join(f'{{ scheme = "https", host = "h{number}.example" }}' for number in range(at, min(at + 64, 257))) for at in range(0, 257, 64)]
    links = [filter_of(VIEW, it, categories=(DEFAULT, BROWSABLE)) for it in rows]
    found = [it for it in Checked(tmp_path, device(BROWSER), app(component(filters=links))).findings() if it.rule == "link"]
    assert len(found) == 257
    assert all("once approved: opens com.new/.C" in it.message for it in found)


def test_the_links_of_a_host_are_one_finding(tmp_path: Path) -> None:
    """But for those of which something else is said, and those of another action."""
    rows = ", ".join(f'{{ scheme = "{scheme}", host = "a.example", path = "/p{at}" }}' for scheme in ("http", "https") for at in range(9))
    one = '{ scheme = "https", host = "b.example", path = "/p" }'
    links = [filter_of(VIEW, rows, categories=(DEFAULT, BROWSABLE)), filter_of(VIEW, one, categories=(DEFAULT, BROWSABLE)), filter_of("x.B", rows)]
    options = {"assetlinks": {}, "facts": {"packages": {APP: {}}}}
    found = Checked(tmp_path, device(BROWSER), app(component(filters=links)), options).findings()
    about = {rule: [(it.about, len(it.exchanges)) for it in found if it.rule == rule] for rule in ("link-unstated", "link-unverified", "opens", "link-lost")}
    all_links, one_link = f"-a {VIEW} -d http|https://a.example/...", f"-a {VIEW} -d https://b.example/p"
    assert about["link-unstated"] == about["link-unverified"] == [(all_links, 0), (one_link, 0)]
    assert about["opens"] == [("-a x.B -d http|https://a.example/...", 36)]
    # the browser takes only `https`
    assert about["link-lost"] == [(f"-a {VIEW} -d http://a.example/...", 18), (f"-a {VIEW} -d https://a.example/...", 18), (one_link, 2)]


def test_an_app_is_checked_alone(tmp_path: Path) -> None:
    checked = Checked(tmp_path, manifest=app(component("service"), component(name=".D", filters=[filter_of("x.B")])))
    report = check(Asked(checked.asked().app))
    assert [(it.rule, it.about) for it in report.findings] == [("opens", "-a x.B"), ("open-service", "com.new/.C"), ("open-activity", "com.new/.D")]
    history = checked._written("history", stored("/v1/send", {"action": "x.B"}, uid=10000))
    assert check(Asked(checked.asked().app, history=history)).device is None
    assert {path.name for path in Path(tempfile.gettempdir()).glob("amctl_check_*")} == set()


def test_what_the_converter_leaves_out_is_a_note(tmp_path: Path, amctl: Callable[..., Ran]) -> None:
    """With its component; an app whose provider any app may read isn't found to be without anything to look at."""
    text = '<manifest xmlns:android="http://schemas.android.com/apk/res/android" package="com.xml"><application>'
    text += '<provider android:name=".P" android:authorities="com.xml" android:exported="true"/>'
    text += '<activity android:name=".A" android:noHistory="true" android:exported="false"/></application></manifest>'
    (tmp_path / "AndroidManifest.xml").write_text(text, encoding="utf-8")
    ran = amctl("check", "AndroidManifest.xml")
    assert (ran.status, ran.err) == (0, "")
    assert ran.out == (
        "note  left-out  activity[0]  converted  com.xml.A\n"
        '    left out noHistory "true": a device file has no noHistory\n'
        "note  left-out  package      converted  com.xml.P\n"
        "    left out provider: a device file has no providers\n"
        "0 errors, 0 warnings and 2 notes\n"
        "2 things of the app weren't looked at, since a device file can't say them: `left-out` names each.\n"
    )
    ran = amctl("check", "AndroidManifest.xml", "--format", "json", "--severity", "note")
    document = json.loads(ran.out)
    assert (ran.status, document["device"], document["leftOut"]) == (1, None, 2)
    (tmp_path / "baseline").write_text(ran.out, encoding="utf-8")
    sarif = json.loads(amctl("check", "AndroidManifest.xml", "--format", "sarif").out)["runs"][0]
    assert (sarif["properties"], len(sarif["results"])) == ({"leftOut": 2}, 2)
    ran = amctl("check", "AndroidManifest.xml", "--baseline", "baseline")
    assert ran.out.splitlines() == [
        "AndroidManifest.xml: nothing new.",
        "2 things of the app weren't looked at, since a device file can't say them: `left-out` names each.",
    ]


def test_a_protected_broadcast_is_heard_of_the_system_alone(tmp_path: Path) -> None:
    on = device(OLD, top='protected = ["x.BOOT"]\nexempt = ["x.BOOT"]')
    found = [it for it in Checked(tmp_path, on, app(component("receiver", filters=[filter_of("x.BOOT")]))).findings() if it.rule == "hears"]
    assert [it.message for it in found] == ["com.new/.C gets it from the system alone"]


def test_what_no_uri_has_is_passed_over(tmp_path: Path) -> None:
    """A host with a port that isn't valid, and a path that is too long for a URI."""
    rows = f'{{ scheme = "geo", host = "a:b", path = "/{"é" * 400}" }}'
    assert Checked(tmp_path, manifest=app(component(filters=[filter_of("x.B", rows)], others=CLOSED))).findings() == ()


ROWS = [
    '{ scheme = "geo" }',
    '{ scheme = "https", host = "*" }',
    '{ scheme = "geo", host = "*.b.example", port = 80 }',
    r'{ scheme = "geo", host = "a", pathPattern = "/a\\.*/b.\\*c*" }',
    '{ scheme = "geo", host = "a", pathPattern = ".*" }',
    r'{ scheme = "geo", host = "a", pathPattern = "/x/.*album/.*\\ab.*.z" }',
    '{ scheme = "geo", host = "a", pathPrefix = "/é %" }',
    '{ scheme = "geo", host = "a", pathSuffix = "?x" }',
    '{ mimeType = "*/*" }',
    '{ scheme = "content", mimeType = "image/*" }',
]


@pytest.mark.parametrize("top", ["", 'rules = "android-12"'], ids=["the profile", "a phone"])
@pytest.mark.parametrize("row", ROWS)
def test_each_filter_takes_its_witnesses(row: str, top: str, tmp_path: Path) -> None:
    manifest = app(component(filters=[filter_of("x.B", row)]))
    found = [it for it in Checked(tmp_path, device(OLD, top=top), manifest).findings() if it.rule == "opens"]
    asked = questions(components_of(manifest_of(manifest)))
    assert [it.about for it in found] == sorted(words.intent(it.intent) for it in asked)
    assert all(it.message == "nothing opened it, and now com.new/.C does" for it in found)


def test_a_copy_that_has_answered_much_is_made_anew(tmp_path: Path) -> None:
    with Copies(Checked(tmp_path, device(BROWSER)).device_file(), None, "amctl.check", most_asked=5) as copies:
        copies.install(app(LINK))
        copies.approve(APP, "a.example")
        for _ in range(12):
            for state in STATES:
                opens = "com.new/com.new.C" if state == "approved" else "com.browser/com.browser.C"
                assert copies.ask(state, "activity", Intent.view("https://a.example/")).reached == (opens,), state


def test_where_filters_overlap_the_intent_is_asked(tmp_path: Path) -> None:
    """A wildcard is asked with the hosts and types that other filters name."""
    old = app(component(filters=[filter_of(SEND, '{ mimeType = "image/png" }')]), package="com.old")
    found = Checked(tmp_path, device(old), app(component(filters=[filter_of(SEND, '{ mimeType = "image/*" }')]))).findings()
    assert f"-a {SEND} -t image/png" in [it.about for it in found if it.rule == "asks"]
    old = app(component(filters=[filter_of("x.A", '{ scheme = "geo", host = "a.b.example", path = "/x" }')]), package="com.old")
    new = app(component(filters=[filter_of("x.A", '{ scheme = "geo", host = "*.example", pathPrefix = "/x" }')]))
    found = Checked(tmp_path, device(old), new).findings()
    assert "-a x.A -d geo://a.b.example/x" in [it.about for it in found if it.rule == "asks"]


def test_categories_are_told_where_they_differ(tmp_path: Path) -> None:
    """The old activity takes only the intent without the category."""
    both = filter_of(categories=(DEFAULT, BROWSABLE))
    found = Checked(tmp_path, device(OLD), app(component(filters=[both]))).findings()
    assert [(it.rule, it.about) for it in found if it.rule in ("asks", "opens")] == [("asks", "-a x.A"), ("opens", f"-a x.A -c {BROWSABLE}")]
    same = device(app(component(filters=[both]), package="com.old"))
    assert [it.about for it in Checked(tmp_path, same, app(component(filters=[both]))).findings() if it.rule == "asks"] == ["-a x.A"]


def test_a_wildcards_statements_stand_at_the_host_below(tmp_path: Path) -> None:
    links = app(component(filters=[web("*.a.example")]))
    assert not [it for it in Checked(tmp_path, device(BROWSER), links, {"assetlinks": STATED}).findings() if it.rule == "link-unstated"]
    other = {"statements": [{"source": {"web": {"site": "https://b.example."}}, "relation": "delegate_permission/common.handle_all_urls", "target": {"androidApp": {"packageName": APP}}}]}
    assert [it for it in Checked(tmp_path, device(BROWSER), links, {"assetlinks": other}).findings() if it.rule == "link-unstated"]
    named = app(component(filters=[web("b.example")]))
    assert not [it for it in Checked(tmp_path, device(BROWSER), named, {"assetlinks": other}).findings() if it.rule == "link-unstated"]


def test_only_hosts_that_would_be_approved_are(tmp_path: Path) -> None:
    """Asked as if approved: without statements, or if they name the app and it asks for verification."""
    manifest, asked = app(LINK), {"packages": {APP: {"autoVerify": ["a.example"]}}}
    unasked: Options = {"packages": {APP: {}}}
    cases: list[tuple[Options, bool]] = [
        ({}, True),
        ({"assetlinks": STATED}, True),
        ({"assetlinks": STATED, "facts": asked}, True),
        ({"assetlinks": STATED, "facts": unasked}, False),
        ({"assetlinks": {}}, False),
    ]
    for options, opens in cases:
        found = Checked(tmp_path, device(BROWSER), manifest, options).findings()
        assert [it.rule for it in found if it.rule in ("link", "link-lost")] == ["link" if opens else "link-lost"], options


def test_an_app_of_the_converter(tmp_path: Path, monkeypatch: pytest.MonkeyPatch) -> None:
    """What isn't a file in TOML is read by the converter, with its facts; places are paths then."""
    facts = {"permissions": [{"name": "com.new.READ", "protectionLevel": "dangerous"}, {"name": "com.new.X", "protectionLevel": None}], "autoVerify": []}
    read = types.SimpleNamespace(package=APP, manifest=GUARDED, left_out=(), facts=types.SimpleNamespace(to_json=lambda: facts))
    converter: Any = types.SimpleNamespace(read_app=lambda path: read)
    monkeypatch.setitem(sys.modules, "amctl.apps", converter)
    asked = Checked(tmp_path).asked()
    found = check(Asked(tmp_path / "new.apk", asked.device)).findings
    assert [(it.rule, it.place, it.at) for it in found] == [("weak-permission", None, "service[0].permission")]

    def refuses(path: Path) -> None:
        raise BadWords(f"{path.name} is no APK")

    converter.read_app = refuses
    assert [(it.rule, it.message) for it in check(Asked(tmp_path / "new.apk", asked.device)).findings] == [("unreadable", "new.apk is no APK")]


def test_an_installation_in_the_history_names_the_uid(tmp_path: Path) -> None:
    """The app was installed second, and another app's calls aren't its own."""
    installs = [
        json.dumps({"at": 0, "desk": 0, "kept": True, "now": 5, "request": {"key": key, "manifest": f'package = "{name}"'}, "route": "/v1/install", "uid": 1000, "weight": 2})
        for key, name in (("q1", "com.first"), ("q2", APP))
    ]
    start = {"action": "x.A", "flags": ["NEW_TASK"]}
    own = "\n".join([*installs, stored("/v1/start", start, uid=10002)])
    assert [it.rule for it in Checked(tmp_path, options={"history": own}).findings()] == ["caught-start"]
    others = "\n".join([*installs, stored("/v1/start", start, uid=10001)])
    with pytest.raises(BadWords, match="no call of com.new"):
        Checked(tmp_path, options={"history": others}).findings()


def test_a_history_that_a_device_made(tmp_path: Path) -> None:
    """Of a device whose last package is the app, and of one where it was installed."""
    manifest = app(component("receiver", filters=[filter_of("x.NEWS")]))
    for on, installs in ((HEARER, True), (HEARER + device(OLD, manifest)[device(OLD, manifest).index('[[package]]\nkey = "k2"') :], False)):
        path = tmp_path / "recorded.toml"
        path.write_text(on)
        with Device.open(path) as recorded:
            if installs:
                recorded.system.install(manifest)
            new = recorded.app(APP)
            new.send(Intent(action="x.NEWS"))
            new.pending_get("broadcast", 1, Intent(action="x.NEWS"), ["MUTABLE"])
            new.pending_get("broadcast", 2, Intent(action="x.NEWS"), ["IMMUTABLE"])
            recorded.app("com.old").send(Intent(action="x.OTHER"))
            entries = recorded.system.history()
        lines = "\n".join(json.dumps(to_json(it)) for it in entries)
        found = Checked(tmp_path, HEARER, manifest, {"history": lines}).findings()
        assert [(it.rule, it.about) for it in found if it.of_rule.group in ("caught", "pending intents")] == [
            ("caught-broadcast", "-a x.NEWS"),
            ("mutable-implicit", "broadcast -a x.NEWS"),
        ]
        assert f"entry {2 if installs else 1} of the history" in next(it.message for it in found if it.rule == "mutable-implicit")


@pytest.mark.parametrize(
    "manifest, place, said",
    [
        ("package =\n", "1:10", "isn't TOML|no TOML"),
        ('package = ".new"\n', "1:1", "refuses the manifest"),
        (app(component(others="exported = 1")), "5:1", "true` or `false"),
        ('package = "com.new"\n[[activity]]\nname = ".C"\nintent-filter = [{ action = ["x.A"] }]\n', "3:1", "exported"),
        (f'package = "com.new"\n# {"x" * 66000}\n', "None", "bytes in a request, and `am` reads 65,536"),
        ('package = "com.new"\nqueries = { intent = [{ action = "x.A", scheme = "1" }] }\n', "2:23", "of this row of `queries`"),
        ('package = "com.new"\nqueries = { intent = [{ action = 5 }] }\n', "2:23", "of this row of `queries`"),
    ],
)
def test_an_app_that_cannot_be_used_is_a_finding(manifest: str, place: str, said: str, tmp_path: Path) -> None:
    checked = Checked(tmp_path, manifest=manifest)
    status, printed = checked.printed(form="json")
    assert status == 2
    found = json.loads(printed)["findings"]
    assert [it["rule"] for it in found] == ["unreadable"]
    assert any(it in found[0]["message"] for it in said.split("|")), found[0]["message"]
    assert place == ("None" if found[0]["line"] is None else f"{found[0]['line']}:{found[0]['column']}")


def test_an_app_that_is_not_there_is_a_finding(tmp_path: Path) -> None:
    found = check(Asked(tmp_path / "none.toml", EXAMPLES / "device.toml")).findings
    assert [it.rule for it in found] == ["unreadable"]
    assert "none.toml" in found[0].message


def test_an_installed_package_is_said_before_anything_runs(tmp_path: Path) -> None:
    asked = Asked(Checked(tmp_path, manifest=app(package="com.old")).asked().app, tmp_path / "device.toml", am=tmp_path / "no_program")
    with pytest.raises(BadWords, match="com.old is on .*device.toml already.*take its"):
        check(asked)


@pytest.mark.parametrize("count, fits", [(254, True), (255, False)])
def test_more_packages_than_a_device_has(count: int, fits: bool, tmp_path: Path) -> None:
    full = device(*(f'package = "com.p{number}"\n' for number in range(count)))
    checked = Checked(tmp_path, full)
    if fits:
        assert checked.findings() == ()
    else:
        with pytest.raises(BadWords, match="there would be 257.*take 1 out"):
            checked.findings()


def test_a_device_that_am_refuses_is_an_error(tmp_path: Path) -> None:
    with pytest.raises(DeviceFault, match="device.toml"):
        Checked(tmp_path, 'system_key = "sys"\n[[package]]\nkey = 1\n').findings()


@pytest.mark.parametrize("name", ["facts", "assetlinks", "history"])
@pytest.mark.parametrize("text", ["{", "[1]", '{"packages": 1, "statements": [1], "findings": 1}'])
def test_files_that_cannot_be_used(name: str, text: str, tmp_path: Path) -> None:
    with pytest.raises(BadWords, match=f"{name}.json can't be used as"):
        Checked(tmp_path, options={name: text}).findings()


def test_a_baseline_hides_what_it_has(tmp_path: Path) -> None:
    checked = Checked(tmp_path, manifest=app(component("service")))
    status, printed = checked.printed(form="json", severity="warning")
    assert status == 1
    baseline = tmp_path / "baseline.json"
    baseline.write_text(printed)
    assert checked.printed(severity="note", baseline=baseline) == (0, f"{tmp_path / 'app.toml'}: nothing new.\n")
    # what is elsewhere now isn't new, and another service is
    moved = Checked(tmp_path, manifest=app(component("service", name=".D"), component("service")))
    status, printed = moved.printed(form="json", severity="note", baseline=baseline)
    assert status == 1
    assert [it["about"] for it in json.loads(printed)["findings"]] == ["com.new/.D"]
    with pytest.raises(BadWords, match="can't be used as a baseline"):
        checked.printed(baseline=tmp_path / "device.toml")


@pytest.mark.parametrize("severity, status", [("error", 0), ("warning", 1), ("note", 1)])
def test_the_status_is_that_of_the_severity(severity: str, status: int, tmp_path: Path) -> None:
    assert Checked(tmp_path, manifest=app(component("service"))).printed(severity=severity)[0] == status
    assert Checked(tmp_path).printed(severity=severity)[0] == 0


def test_words_that_there_are_not(tmp_path: Path) -> None:
    with pytest.raises(BadWords, match="note, warning, error"):
        Checked(tmp_path).printed(severity="bad")
    with pytest.raises(BadWords, match="text, json, sarif, junit"):
        Checked(tmp_path).printed(form="html")


def test_the_caller_is_no_package_of_the_device() -> None:
    file = DeviceFile.parse(Path("d.toml"), device('package = "amctl.check"\n'))
    assert caller_name(file, "amctl.checkx") == "amctl.checkxx"


def test_the_command(amctl: Callable[..., Ran], tmp_path: Path) -> None:
    ran = amctl("check", str(EXAMPLES / "gallery.toml"), "--on", str(EXAMPLES / "device.toml"))
    assert ran.status == 1
    assert ran.out.endswith("1 error, 6 warnings and 7 notes\n")
    files = {"facts": {"packages": {"com.gallery": {"autoVerify": []}}}, "assetlinks": {}}
    for name, value in files.items():
        (tmp_path / name).write_text(json.dumps(value))
    words_of_files = ["--facts", "facts", "--assetlinks", "assetlinks", "--format", "sarif", "--severity", "warning"]
    ran = amctl("check", str(EXAMPLES / "gallery.toml"), "--on", str(EXAMPLES / "device.toml"), *words_of_files)
    assert ran.status == 1
    assert {"link-unstated", "link-unverified", "link-lost"} <= {it["ruleId"] for it in json.loads(ran.out)["runs"][0]["results"]}
    ran = amctl("check", str(EXAMPLES / "gallery.toml"), "--on", "none.toml")
    assert (ran.status, ran.out) == (2, "")
    assert "none.toml" in ran.err


def test_the_example_is_what_the_document_shows() -> None:
    """The gallery's manifest has no key that `am` ignores."""
    document = tomllib.loads((EXAMPLES / "gallery.toml").read_text(encoding="utf-8"))
    assert set(document) == {"package", "activity", "service", "receiver", "queries"}
    assert main(Asked(EXAMPLES / "gallery.toml", EXAMPLES / "device.toml"), form="json", out=open("/dev/null", "w")) == 1


def test_the_devices_browser_takes_links_once_it_is_installed(tmp_path: Path) -> None:
    """The device names the app as its browser: before, no link opened anything, and another app's link is narrowed to it."""
    on = device(app(LINK, package="com.old"), top=f'browser = "{APP}"')
    found = Checked(tmp_path, on, app(component(filters=[web(None)]))).findings()
    assert [it.about for it in found if it.rule == "opens"] == [f"-a {VIEW} -d https://a.example/", f"-a {VIEW} -d https://any.example/"]
    approved = on + '[[link]]\npackage = "com.old"\nhost = "a.example"\n'
    assert [it.about for it in Checked(tmp_path, approved, app(component(filters=[web(None)]))).findings() if it.rule == "opens"] == [
        f"-a {VIEW} -d https://any.example/"
    ]
