"""`amctl lint`: each rule with a file that has the fault, and one that hasn't."""
import json
import sqlite3
from collections.abc import Callable
from pathlib import Path

import pytest

from amctl import Intent
from amctl.device import Device
from amctl.errors import BadWords, DeviceFault
from amctl.kept import read_kept
from amctl.lint import Finding, lint, main
from amctl.lint.names import ACTIONS, meant, mode_meant
from amctl.places import Place
from conftest import EXAMPLES

VIEW, DEFAULT, BROWSABLE = "android.intent.action.VIEW", "android.intent.category.DEFAULT", "android.intent.category.BROWSABLE"
Write = Callable[[str], Path]


@pytest.fixture
def write(tmp_path: Path) -> Write:
    def written(text: str) -> Path:
        path = tmp_path / "device.toml"
        path.write_text(text, encoding="utf-8")
        return path

    return written


def device(component: str = "", *, top: str = "", end: str = "", kind: str = "activity", manifest: str = "") -> str:
    """A device of one package, line by line: the package's key is in line 4, the component's own lines begin with line 9."""
    opened = f"[[package.manifest.{kind}]]\nname = \".C\"\n" if component else ""
    return f'system_key = "sys"\n{top}\n[[package]]\nkey = "k1"\n[package.manifest]\npackage = "com.one"{manifest}\n{opened}{component}\n{end}\n'


def filtered(filter: str, **others: str) -> str:
    return device(f"exported = true\nintent-filter = [{{ {filter} }}]", **others)


def data(row: str, **others: str) -> str:
    return filtered(f'action = ["x.A"], data = [{row}]', **others)


PHONE = 'rules = "android-12"'


def linked(host: str, approved: str, top: str = "") -> str:
    """A device whose package views links of a host, and is approved for another."""
    end = f'[[link]]\npackage = "com.one"\nhost = "{approved}"'
    return filtered(f'action = ["{VIEW}"], category = ["{DEFAULT}", "{BROWSABLE}"], data = [{{ scheme = "https", host = "{host}" }}]', top=top, end=end)


GUARD = '[[package]]\nkey = "k2"\nmanifest = { package = "com.two" }\n'
READER = '[[grant]]\npackage = "com.two"\npermission = "one.READ"\n'
WEB = f'action = ["{VIEW}"], category = ["{DEFAULT}", "{BROWSABLE}"]'
TWO = 'manifest = { package = "com.two" }'
CASES = [
    # rule, with the fault, its line, what is said, without the fault
    ("unknown-key", device('exproted = true\npermission = "p.X"'), 9, "write `exported`", device('exported = false\npermission = "p.X"')),
    ("unknown-key", device(top='exempts = ["x.A"]'), 2, "write `exempt`", device(top='exempt = ["x.A"]')),
    ("unknown-key", device(end=f"[[packages]]\n{TWO}"), 8, "write `package`", device(end=f'[[package]]\nkey = "k2"\n{TWO}')),
    ("unknown-key", device("intent_filter = []"), 9, "write `intent-filter`", device("intent-filter = []")),
    ("unknown-key", filtered('action = ["x.A"], categories = ["x.C"]'), 10, "write `category`", filtered('action = ["x.A"], category = ["x.C"]')),
    ("unknown-key", device(manifest="\nexported = true"), 7, "belongs to an activity, a service or a receiver", device()),
    ("unknown-key", device().replace("key = \"k1\"", "kye = \"k1\""), 4, "write `key`", device()),
    ("unknown-key", device('label = "One"'), 9, "take it out", device("enabled = true")),
    ("unknown-key", device('launchMode = "singleTop"', kind="service"), 9, "counts for activities alone", device('launchMode = "singleTop"')),
    ("unknown-key", device(end='[[grant]]\npackage = "com.one"\npermission = "android.x"\nheld = true'), 11, "isn't a key of a grant", device()),
    ("unknown-key", device(manifest='\nqueries = { packages = ["a.B"] }'), 7, "write `package`", device(manifest='\nqueries = { package = ["a.B"] }')),
    ("unknown-key", device(top='rule = "profile"'), 2, "write `rules`", device(top='rules = "profile"')),
    ("refused", device(top='rules = "android-13"'), 2, 'write "profile" or "android-12"', device(top='rules = "android-12"')),
    ("spelling", device(top='rules = "Android12"'), 2, 'did you mean "android-12"?', device(top='rules = "android-12"')),
    ("spelling", device(top='rules = "profil"'), 2, 'did you mean "profile"?', device(top='rules = "profile"')),
    ("spelling", device(top='rules = "phone"'), 2, 'write "profile" or "android-12"', device(top='rules = "android-12"')),
    (
        "no-effect",
        linked("*.a.example", "www.a.example", top=PHONE),
        13,
        'so the approval counts for nothing: did you mean "*.a.example"?',
        linked("*.a.example", "*.a.example", top=PHONE),
    ),
    ("no-effect", linked("a.example", "b.test", top=PHONE), 13, "add the host to a filter", linked("*.a.example", "www.a.example")),
    (
        "no-effect",
        filtered(f'{WEB}, data = [{{ scheme = "https", host = "a.example" }}]', top=f'{PHONE}\nbrowser = "com.one"'),
        3,
        "no activity of com.one is a browser",
        filtered(f'{WEB}, data = [{{ scheme = "https" }}]', top=f'{PHONE}\nbrowser = "com.one"'),
    ),
    ("host", data('{ scheme = "https", host = "https://a.example/x" }'), 10, 'write "a.example"', data('{ scheme = "https", host = "a.example" }')),
    ("host", data('{ scheme = "https", host = "a.example/x" }'), 10, "has a path", data('{ scheme = "https", host = "a.example", path = "/x" }')),
    ("host", data('{ scheme = "https", host = "a.example:80" }'), 10, "has a port", data('{ scheme = "https", host = "a.example", port = 80 }')),
    ("host", data('{ scheme = "https", host = "a.*.example" }'), 10, "only at a host's beginning", data('{ scheme = "https", host = "*.example" }')),
    (
        "host",
        filtered(f'{WEB}, data = [{{ scheme = "https" }}]', end='[[link]]\npackage = "com.one"\nhost = "http://a.example"'),
        13,
        "the scheme `http`",
        filtered(f'{WEB}, data = [{{ scheme = "https" }}]', end='[[link]]\npackage = "com.one"\nhost = "a.example"'),
    ),
    (
        "permission",
        device('exported = true\npermission = "one.READ"', end=f'{GUARD}{READER}[[grant]]\npackage = "com.two"\npermission = "one.REED"'),
        19,
        "did you mean one.READ?",
        device('exported = true\npermission = "one.READ"', end=f'{GUARD}{READER}'),
    ),
    (
        "permission",
        device(end='[[grant]]\npackage = "com.one"\npermission = "one.WRITE"'),
        10,
        "no component asks its callers for one.WRITE",
        device(end='[[grant]]\npackage = "com.one"\npermission = "android.permission.CAMERA"'),
    ),
    (
        "permission",
        device('exported = true\npermission = "one.READ"'),
        10,
        "no package is granted one.READ",
        device('exported = true\npermission = "android.permission.BIND_JOB_SERVICE"'),
    ),
    ("unguarded", device("exported = true"), 9, "any app reaches com.one/com.one.C", device("exported = false")),
    ("unguarded", device("exported = true\nintent-filter = []"), 9, "exported = false", filtered('action = ["x.A"]')),
    ("key", device(end=f'[[package]]\nkey = "k"\n{TWO}'), 9, "one character", device(end=f'[[package]]\nkey = "k2"\n{TWO}')),
    ("key", device(end=f'[[package]]\nkey = "k1"\n{TWO}'), 9, "that of com.one too", device(end=f'[[package]]\nkey = "k2"\n{TWO}')),
    ("key", device(end=f'[[package]]\nkey = "SYS"\n{TWO}'), 9, "that of the system only in upper", device(end=f'[[package]]\nkey = "SYS2"\n{TWO}')),
    ("spelling", filtered('action = ["android.intent.action.view"]'), 10, f'write "{VIEW}"', filtered(f'action = ["{VIEW}"]')),
    ("spelling", filtered('action = ["ACTION_SEND"]'), 10, 'write "android.intent.action.SEND"', filtered('action = ["com.one.SEND"]')),
    ("spelling", filtered('action = ["android.intent.action.VEIW"]'), 10, f'write "{VIEW}"', filtered('action = ["android.intent.action.SENDTO"]')),
    ("spelling", filtered('action = ["FLAG_ACTIVITY_NEW_TASK"]'), 10, "give the intent `NEW_TASK`", filtered('action = ["x.FLAGS"]')),
    ("spelling", filtered(f'action = ["x.A"], category = ["{VIEW}"]'), 10, "write it under `action`", filtered('action = ["x.A"], category = ["x.C"]')),
    ("spelling", filtered('action = ["x.A"], category = ["DEFAULT"]'), 10, f'write "{DEFAULT}"', filtered(f'action = ["x.A"], category = ["{DEFAULT}"]')),
    ("spelling", filtered('action = ["x.A "]'), 10, "a blank at an end", filtered('action = ["x.A"]')),
    ("spelling", device(top='protected = ["android.intent.action.BOOT_COMPLETE"]'), 2, "BOOT_COMPLETED", device(top='protected = ["one.BOOT"]')),
    ("spelling", device('launchMode = "SINGLE_TOP"'), 9, 'write "singleTop"', device('launchMode = "singleTop"')),
    ("spelling", data('{ mimeType = "Image/PNG" }'), 10, 'write "image/png"', data('{ mimeType = "image/png" }')),
    ("spelling", data('{ scheme = "HTTPS" }'), 10, 'write "https"', data('{ scheme = "https" }')),
    ("spelling", device(top='browser = "com.onee"'), 2, "did you mean com.one?", device(top='browser = "org.other"')),
    ("no-effect", filtered(f'category = ["{DEFAULT}"]'), 10, "without an action is left out", filtered('action = ["x.A"]')),
    ("no-effect", data('{ host = "a.example" }'), 10, "without a `scheme`", data('{ host = "a.example" }, { scheme = "https" }')),
    ("no-effect", data('{ scheme = "https", path = "/x" }'), 10, "without a `host`", data('{ scheme = "https", path = "/x" }, { host = "a.example" }')),
    ("no-effect", data('{ scheme = "https", port = 80 }, { host = "a.example" }'), 10, "in the same row", data('{ scheme = "https", host = "a.example", port = 80 }')),
    ("no-effect", data('{ scheme = "https", host = "a.example", pathPrefix = "x" }'), 10, 'write "/x"', data('{ scheme = "https", host = "a.example", pathSuffix = "x" }')),
    ("no-effect", data('{ scheme = "https", host = "a.example", pathPattern = "x.*" }'), 10, "begins with", data('{ scheme = "https", host = "a.example", pathPattern = "x*/.*" }')),
    ("no-effect", filtered('action = ["x.A"], priority = 5'), 10, "counts as 0", filtered('action = ["x.A"], priority = 5', kind="receiver")),
    (
        "no-effect",
        filtered(f'{WEB}, data = [{{ scheme = "https", host = "www.a.example" }}]', end='[[link]]\npackage = "com.one"\nhost = "ww.a.example"'),
        13,
        'did you mean "www.a.example"?',
        filtered(f'{WEB}, data = [{{ scheme = "https", host = "*.a.example" }}]', end='[[link]]\npackage = "com.one"\nhost = "WWW.a.example"'),
    ),
    ("no-default", filtered(f'action = ["{VIEW}"], category = ["{BROWSABLE}"]'), 10, DEFAULT, filtered(WEB)),
    ("refused", "[[package]]\nkey = 1\n", 1, "system_key", device()),
    ("refused", filtered('action = ["x.A"]').replace("exported = true\n", ""), 8, "com.one.C has a filter", filtered('action = ["x.A"]')),
    ("refused", device("enabled = 1"), 9, "`true` or `false`", device("enabled = true")),
    ("refused", data('{ scheme = "https", ssp = "a" }'), 10, "`ssp`", data('{ scheme = "https" }')),
    ("refused", device(end=f'[[package]]\nkey = "k1"\n{TWO}'), 9, "twice", device(end=f'[[package]]\nkey = "k2"\n{TWO}')),
    ("not-toml", "system_key =\n", 1, "this isn't TOML 1.0", device()),
]


@pytest.mark.parametrize("rule, faulty, line, said, sound", CASES)
def test_each_rule(rule: str, faulty: str, line: int, said: str, sound: str, write: Write) -> None:
    found = [it for it in lint(write(faulty)) if it.rule == rule]
    assert [it.line_and_column[0] for it in found] == [line], found
    assert said in found[0].message
    assert found[0].line_and_column[1] > 0
    assert not [it for it in lint(write(sound)) if it.rule == rule]


def test_every_rule_is_tried() -> None:
    assert {it[0] for it in CASES} == {"unknown-key", "host", "permission", "unguarded", "key", "spelling", "no-effect", "no-default", "refused", "not-toml"}


@pytest.mark.parametrize("name", ["device.toml", "orders.toml", "queries.toml"])
def test_the_examples_have_nothing(name: str, capsys: "pytest.CaptureFixture[str]") -> None:
    assert main(EXAMPLES / name) == 0
    assert capsys.readouterr().out == f"{EXAMPLES / name}: nothing found.\n"


def test_what_is_printed(write: Write, capsys: "pytest.CaptureFixture[str]") -> None:
    path = write(device("  exproted = true", top='exemptt = ["x.A"]'))
    assert main(path) == 1
    assert capsys.readouterr().out == (
        f"{path}:2:1: unknown-key: `exemptt` isn't a key of the device, so it is ignored: write `exempt`.\n"
        '    exemptt = ["x.A"]\n'
        f"{path}:9:3: unknown-key: `exproted` isn't a key of an activity, so it is ignored: write `exported`.\n"
        "    exproted = true\n"
    )
    assert main(path, form="json") == 1
    rows = json.loads(capsys.readouterr().out)["findings"]
    assert [(it["file"], it["line"], it["column"], it["rule"]) for it in rows] == [(str(path), 2, 1, "unknown-key"), (str(path), 9, 3, "unknown-key")]


def test_no_key_is_shown(write: Write, capsys: "pytest.CaptureFixture[str]") -> None:
    assert main(write(device(end=f'[[package]]\nkey = "K1"\nkeey = "secret"\n{TWO}'))) == 1
    printed = capsys.readouterr().out
    assert "write `key`" in printed
    assert not [it for it in ("K1", "k1", "secret") if it in printed]


def test_a_file_that_is_not_there_is_an_error(tmp_path: Path) -> None:
    with pytest.raises(DeviceFault, match="none.toml"):
        lint(tmp_path / "none.toml")


@pytest.fixture
def store(tmp_path: Path) -> Path:
    """A store in which one package was installed over the three packages of the device, and one of them and another were removed."""
    rows = tmp_path / "rows"
    sound = tmp_path / "three.toml"
    sound.write_text(device(end=f'{GUARD}[[package]]\nkey = "k3"\nmanifest = {{ package = "com.three" }}'), encoding="utf-8")
    with Device.open(sound, store=rows) as opened:
        for name in ("com.four", "com.five"):
            opened.system.install(f'package = "{name}"\n[[service]]\nname = ".S"\nexported = true\npermission = "four.S"\n', key=f"key-{name}")
            opened.system.grant(name, "one.X")
        opened.system.uninstall("com.five")
        opened.system.grant("com.three", "one.X")
        opened.system.grant("com.two", "one.Y", held=False)
        opened.system.link("com.three", "a.example")
    return rows


def of_store(path: Path, store: Path) -> list[str]:
    return [it.message for it in lint(path, store=store) if it.rule == "kept-rows"]


def test_a_store_that_fits_has_nothing(store: Path, tmp_path: Path) -> None:
    assert of_store(tmp_path / "three.toml", store) == []
    assert [it.uid for it in read_kept(store).packages if it.gone] == [10004]


def test_kept_rights_of_a_package_that_is_not_there(store: Path, write: Write) -> None:
    found = of_store(write(device(end=GUARD)), store)
    assert [it.partition(" keeps ")[2].partition(", and")[0] for it in found] == [
        "the approval for a.example for uid 10002",
        "the permission one.X for uid 10002",
    ]
    assert all("device file" in it for it in found)


def test_a_kept_package_whose_uid_is_another_s(store: Path, write: Write) -> None:
    more = "".join(f'[[package]]\nkey = "k{at}"\nmanifest = {{ package = "com.p{at}" }}\n' for at in range(2, 5))
    assert "its uid 10003 is com.p4's" in of_store(write(device(end=more)), store)[0]


def test_a_kept_package_whose_name_or_key_is_another_s(store: Path, write: Write) -> None:
    named = GUARD.replace("com.two", "com.four")
    assert "a package of that name" in " ".join(of_store(write(device(end=named)), store))
    assert "its key is another's" in " ".join(of_store(write(device(end=GUARD.replace("k2", "key-com.four"))), store))


def test_a_kept_component_asks_for_a_permission_too(store: Path, write: Write) -> None:
    path = write(device(end=f'{GUARD}[[package]]\nkey = "k3"\nmanifest = {{ package = "com.three" }}\n[[grant]]\npackage = "com.two"\npermission = "four.S"'))
    assert [it.rule for it in lint(path)] == ["permission"]
    assert lint(path, store=store) == []


def test_a_store_that_is_none(tmp_path: Path) -> None:
    other = tmp_path / "other"
    with sqlite3.connect(other) as database:
        database.execute("CREATE TABLE note (title TEXT)")
    with pytest.raises(BadWords, match="can't be read as a store"):
        lint(EXAMPLES / "device.toml", store=other)
    assert lint(EXAMPLES / "device.toml", store=tmp_path / "not-yet") == []
    assert not (tmp_path / "not-yet").exists()


def test_linting_changes_neither_file_nor_store(store: Path, tmp_path: Path) -> None:
    before = {it.name: it.read_bytes() for it in tmp_path.iterdir()}
    lint(tmp_path / "three.toml", store=store)
    assert {it.name: it.read_bytes() for it in tmp_path.iterdir()} == before


def test_what_it_finds_is_so(write: Write) -> None:
    """A host with a scheme matches nothing, and the one that is named instead does."""
    link = Intent.view("https://a.example/x")
    wrong = write(filtered(f'{WEB}, data = [{{ scheme = "https", host = "https://a.example" }}]'))
    assert [it.rule for it in lint(wrong)] == ["host"]
    with Device.open(wrong) as opened:
        assert opened.system.query("activity", link) == ()
    with Device.open(write(filtered(f'{WEB}, data = [{{ scheme = "https", host = "a.example" }}]'))) as opened:
        assert opened.system.query("activity", link) == ("com.one/com.one.C",)


@pytest.mark.parametrize(
    "value, name",
    [
        ("Intent.ACTION_VIEW", VIEW),
        ("view", VIEW),
        ("android.intent.action.SEND_TO", "android.intent.action.SENDTO"),
        ("android.intents.action.VIEW", VIEW),
        ("android.intent.action.VIEWW", VIEW),
        (VIEW, None),
        ("android.intent.action.USER_REMOVED", None),
        ("com.one.view.VIEW", None),
        ("", None),
    ],
)
def test_the_action_that_was_meant(value: str, name: str | None) -> None:
    assert meant(value, ACTIONS) == name


@pytest.mark.parametrize("value, name", [("singletop", "singleTop"), ("LAUNCH_SINGLE_TASK", "singleTask"), ("single-instance", "singleInstance"), ("standard", None), ("other", None)])
def test_the_mode_that_was_meant(value: str, name: str | None) -> None:
    assert mode_meant(value) == name


def test_findings_are_sorted_and_told_once(write: Write) -> None:
    found = lint(write(device('exproted = true\npermision = "p.X"', top='exemptt = ["x.A"]')))
    assert [(it.rule, it.line_and_column[0]) for it in found] == [("unknown-key", 2), ("unknown-key", 9), ("unknown-key", 10)]
    one, same = Finding("key", "com.one", "a", Place(1, 1), shown="x", tool="lint"), Finding("key", "com.one", "a", Place(1, 1), shown="y", tool="lint")
    assert len({one, same}) == 1


def test_a_finding_names_whose_it_is(write: Write) -> None:
    found = lint(write(device('exproted = true', top='browser = "com.onee"', end=f'[[package]]\nkey = "k"\n{TWO}')))
    assert [(it.rule, it.about) for it in found] == [("spelling", "device.toml"), ("unknown-key", "com.one/com.one.C"), ("key", "com.two")]
