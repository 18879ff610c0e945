"""Device files: what is in them and where, and the line of a fault without any key in it."""
from pathlib import Path

import pytest

from amctl import DeviceFile
from amctl.devicefile import shown_line
from amctl.errors import DeviceFault, NotToml
from amctl.faults import fault_of
from amctl.places import Place, places
from conftest import EXAMPLES

TEXT = '''# a comment = [1]
system_key = "s\\"ys" # and = another
protected = [
    "a.X", # ]
    'b.Y',
]

[[package]]
key = "k1"
manifest = { package = "com.one", activity = [
    { name = ".A", exported = true },
    { name = ".B", "intent-filter" = [{ action = ["x.A"] }], exported = true },
] }

[[package]]
key = \'\'\'k2\'\'\'

[package.manifest]
package = "com.two"

  [[package.manifest.activity]]
  name = ".Main"
  exported = true

  [[package.manifest.activity.intent-filter]]
  action = ["x.B"]
  data = [{ scheme = "https", host = "a.b", port = 8080 }, { mimeType = """image/*""" }]

[[package.manifest.service]]
name = "Sync"
permission = "p.S"

[[grant]]
package = "com.two"
permission = "p.S"

[[link]]
package = "com.one"
host = "a.b"
'''


@pytest.fixture
def file() -> DeviceFile:
    return DeviceFile.parse(Path("device.toml"), TEXT)


@pytest.mark.parametrize(
    ("path", "line", "starts"),
    [
        ("system_key", 2, "system_key"),
        ("protected[1]", 5, "'b.Y'"),
        ("package", 8, "package]]"),
        ("package[0].key", 9, "key = "),
        ("package[0].manifest.package", 10, "package = "),
        ("package[0].manifest.activity[1]", 12, "{ name"),
        ("package[0].manifest.activity[1].name", 12, "name"),
        ("package[0].manifest.activity[1].intent-filter", 12, '"intent-filter"'),
        ("package[0].manifest.activity[1].intent-filter[0].action[0]", 12, '"x.A"'),
        ("package[1].key", 16, "key"),
        ("package[1].manifest", 18, "package.manifest]"),
        ("package[1].manifest.activity[0]", 21, "package.manifest.activity"),
        ("package[1].manifest.activity[0].exported", 23, "exported"),
        ("package[1].manifest.activity[0].intent-filter[0].data[0].port", 27, "port"),
        ("package[1].manifest.activity[0].intent-filter[0].data[1].mimeType", 27, "mimeType"),
        ("package[1].manifest.service[0].permission", 31, "permission"),
        ("grant[0].permission", 35, "permission"),
        ("link[0].host", 39, "host"),
    ],
)
def test_a_path_has_its_place(file: DeviceFile, path: str, line: int, starts: str) -> None:
    place = file.places[path]
    assert place.line == line
    assert TEXT.split("\n")[line - 1][place.column - 1 :].startswith(starts)


def test_what_is_not_there_is_where_its_table_is(file: DeviceFile) -> None:
    assert file.place("package[1].manifest.activity[0].enabled") == file.places["package[1].manifest.activity[0]"]
    assert file.place("nothing") is None


def test_every_value_has_a_place(file: DeviceFile) -> None:
    def paths(value: object, path: str) -> list[str]:
        if isinstance(value, dict):
            return [it for name, inner in value.items() for it in paths(inner, f"{path}.{name}" if path else name)]
        if isinstance(value, list):
            return [path, *(it for index, inner in enumerate(value) for it in paths(inner, f"{path}[{index}]"))]
        return [path]

    of_all = paths(file.document, "")
    assert len(of_all) > 30
    assert [it for it in of_all if it not in file.places] == []


def test_lines_that_end_as_on_windows_count_the_same() -> None:
    assert places(TEXT.replace("\n", "\r\n")) == places(TEXT)


def test_escapes_and_dots_in_keys() -> None:
    found = places('"a\\u0062".c = 1\n[x."y.z"]\nw = { }\n')
    assert found["ab.c"] == Place(1, 1)
    assert found["x.y.z.w"] == Place(3, 1)


def test_what_stands_in_it(file: DeviceFile) -> None:
    assert file.names == ("com.one", "com.two")
    two = file.packages[1]
    assert [it.component for it in two.components] == ["com.two/com.two.Main", "com.two/com.two.Sync"]
    main, sync = two.components
    assert (main.kind, main.exported, main.filters[0].actions, len(main.filters[0].data)) == ("activity", True, ("x.B",), 2)
    assert (sync.kind, sync.exported, sync.permission, sync.filters) == ("service", None, "p.S", ())
    assert file.component("activity", "com.one/com.one.B") == file.packages[0].components[1]
    assert (file.grants[0].permission, file.links[0].host) == ("p.S", "a.b")
    assert file.nearest("com.tow") == "com.two"


def test_keys_are_read_and_not_shown(file: DeviceFile) -> None:
    assert (file.system_key, file.key_of("com.one"), file.key_of("android")) == ('s"ys', "k1", 's"ys')
    new = file.key_of("com.new")
    assert len(new) == 32 and new == file.key_of("com.new") != file.key_of("com.other")
    shown = repr(file) + repr(file.packages)
    assert "k1" not in shown and 's"ys' not in shown


@pytest.mark.parametrize(
    ("line", "shown"),
    [
        ('key = "secret"', "key = …"),
        ('system_key = "secret', "system_key = …"),
        ("root_key = 'sec ret' # x", "root_key = … # x"),
        ('package = [{ key = "secret", manifest = { package = "com.x" } }]', 'package = [{ key = …, manifest = { package = "com.x" } }]'),
        ('"key" = 12', '"key" = …'),
        ('name = ".Monkey"', 'name = ".Monkey"'),
    ],
)
def test_a_shown_line_has_no_key(line: str, shown: str) -> None:
    assert shown_line(f"a = 1\n{line}\n", 2) == shown


@pytest.mark.parametrize(
    ("text", "shown"),
    [
        ('key = """\nsecret\\q"""\n', "…"),
        ('system_key = [\n  "secret" 3\n]\n', "…"),
        ("root_key = '''\nother'''\nexported true\n", "exported true"),
        ('sytem_key = "secret\n', "sytem_key = …"),
    ],
)
def test_a_line_that_is_not_toml_has_no_key_that_began_above_it(text: str, shown: str) -> None:
    with pytest.raises(NotToml) as raised:
        DeviceFile.parse(Path("device.toml"), text)
    assert raised.value.shown == shown
    assert "secret" not in str(raised.value)


@pytest.mark.parametrize(
    ("text", "fault", "line"),
    [
        ('[[package]]\nkey = "k1"\n', "missing system_key", None),
        ('system_key = "s"\n[[package]]\nkey = 1\n', "wrong_kind package[0].key", 3),
        ('system_key = "s"\n[[package]]\nkey = "k"\n', "missing package[0].manifest", 2),
        (TEXT, "exported_unstated com.two.Main", 22),
        (TEXT.replace("com.two", "com.one"), "duplicate com.one", 19),
        (TEXT.replace("'''k2'''", '"k1"'), "duplicate com.two", 16),
        (TEXT.replace('".B"', '".A"'), "duplicate com.one.A", 12),
        (TEXT, "left_out package[1].manifest.activity[0].intent-filter[0].data[0].port", 27),
        ('system_key = "s"\nroot_key = "s"\n', "duplicate root_key", 2),
        (TEXT, "over_limit packages", None),
    ],
)
def test_a_fault_has_its_line(text: str, fault: str, line: int | None) -> None:
    found = fault_of(DeviceFile.parse(Path("device.toml"), text), fault)
    assert (found.place.line if found.place else None) == line
    assert found.sentence.change


@pytest.mark.parametrize(
    ("text", "says"),
    [
        ('system_key = "s"\nexported = yes\n', "device.toml:2:12: this isn't TOML: Invalid value. Correct the line:\n    exported = yes"),
        ('a = 1\nkey = "se"cret"\n', "device.toml:2:11: this isn't TOML: Expected newline or end of document after a statement. Correct the line:"),
        ('[[package]]\nkey = "se cret\n', "device.toml:2:15: this isn't TOML: Illegal character '\\n'. Correct the line:\n    key = …"),
        ("system_key =", "device.toml:1:13: this isn't TOML: Invalid value."),
    ],
)
def test_what_is_no_toml_has_its_line(text: str, says: str) -> None:
    with pytest.raises(DeviceFault) as raised:
        DeviceFile.parse(Path("device.toml"), text)
    assert says in str(raised.value)
    assert "cret" not in str(raised.value)


def test_odd_documents_are_left_to_am() -> None:
    for text in ("package = 3\n", "package = [1, { key = 2 }]\n", "grant = { a = 1 }\n[[package]]\nmanifest = 1\n", "link = [[]]\n"):
        file = DeviceFile.parse(Path("device.toml"), text)
        assert (file.packages, file.links) == ((), ())


def test_the_examples_are_read_whole() -> None:
    file = DeviceFile.read(EXAMPLES / "device.toml")
    assert [len(it.components) for it in file.packages] == [2, 2]
    assert file.place("package[1].manifest.activity[1].name") == Place(43, 1)
