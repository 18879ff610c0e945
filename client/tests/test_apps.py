"""`amctl.apps`: real apps as a device file has them. The cases of `tools/device_from_apks_cases` try what is reported."""
import json
import subprocess
import tomllib
from collections.abc import Callable
from concurrent.futures import ThreadPoolExecutor
from pathlib import Path
from typing import Any

import jsonschema  # type: ignore[import]
import pytest

from amctl import Device, Intent
from amctl.apps import App, InputFault, binary, by_aapt2, read_app
from amctl.apps.attributes import NUMBERS
from amctl.apps.by_aapt2 import read_by_aapt2, tree_of
from amctl.apps.elements import Element
from amctl.apps.levels import named
from amctl.apps.unsaid import CARRIED_ATTRIBUTES, CARRIED_TAGS, SILENT, SILENT_ATTRIBUTES, SILENT_TAGS
from conftest import EXAMPLES, TOP, Ran

CASES = TOP / "tools" / "device_from_apks_cases"
COMMAND = TOP / "tools" / "device_from_apks"
SCHEMA = json.loads((TOP / "docs" / "facts.schema.json").read_text(encoding="utf-8"))
ANDROID = "http://schemas.android.com/apk/res/android"
BINARY_XML = b"\x03\x00\x08\x00"
Write = Callable[[str], Path]


@pytest.fixture
def write(tmp_path: Path) -> Write:
    def written(text: str) -> Path:
        path = tmp_path / "AndroidManifest.xml"
        path.write_text(text, encoding="utf-8")
        return path

    return written


@pytest.fixture
def stand_in(tmp_path: Path, monkeypatch: pytest.MonkeyPatch) -> Callable[[str], Path]:
    """Puts this script in the place of aapt2, and nothing in the place of androguard."""

    def put(script: str) -> Path:
        folder = tmp_path / "bin"
        folder.mkdir()
        program = folder / "aapt2"
        program.write_text(f"#!/bin/sh\n{script}\n", encoding="utf-8")
        program.chmod(0o755)
        monkeypatch.setenv("PATH", f"{folder}:/usr/bin:/bin")
        monkeypatch.setattr(binary, "library", lambda: None)
        return program

    return put


def manifest(inside: str, of_root: str = "", package: str = "com.a") -> str:
    return f'<manifest xmlns:android="{ANDROID}" package="{package}"{of_root}>{inside}</manifest>'


def activity(attributes: str) -> str:
    return manifest(f'<application><activity android:name=".Main" {attributes}/></application>')


def binary_manifest(folder: Path, data: bytes = BINARY_XML) -> Path:
    path = folder / "binary.xml"
    path.write_bytes(data)
    return path


def unsaid() -> App:
    return read_app(CASES / "unsaid.xml")


def valid(document: Any) -> bool:
    return jsonschema.Draft7Validator(SCHEMA).is_valid(document)  # type: ignore[no-any-return]


def test_amctl_convert_does_what_the_tool_does(amctl: Callable[..., Ran], tmp_path: Path) -> None:
    asked = [str(CASES / "unsaid.xml"), "--grant-all", "--strict", "--facts"]
    tool = subprocess.run([COMMAND, *asked, tmp_path / "tool.json"], capture_output=True, text=True, cwd=tmp_path)
    ran = amctl("convert", *asked, "client.json")
    assert (ran.status, ran.out, ran.err) == (tool.returncode, tool.stdout, tool.stderr)
    assert tool.returncode == 1 and "left out" in tool.stderr and tool.stdout
    assert (tmp_path / "client.json").read_bytes() == (tmp_path / "tool.json").read_bytes()
    missing = amctl("convert", "nowhere.apk", "--reader", "aapt2")
    assert missing.status == 2 and "nowhere.apk" in missing.err


def test_a_manifest_is_the_one_of_its_entry() -> None:
    app = unsaid()
    entry = tomllib.loads(app.entry("k9"))["package"]
    assert entry == [{"key": "k9", "manifest": tomllib.loads(app.manifest)}]
    assert [it["name"] for it in entry[0]["manifest"]["receiver"]] == ["com.a.Receiver"]


def test_an_app_is_installed() -> None:
    app = unsaid()
    with Device.open(EXAMPLES / "device.toml") as device:
        device.system.install(app.manifest)
        assert "com.a/com.a.Links" in device.system.query("activity", Intent.view("https://a.example/"))


def test_an_app_has_its_facts() -> None:
    app = unsaid()
    assert (app.package, app.facts.shared_user_id, app.facts.target_sdk_version) == ("com.a", "com.a.shared", 29)
    assert app.facts.auto_verify == ("a.example", "b.example")
    assert "com.a.Task: left out noHistory" in "\n".join(it.line() for it in app.left_out)


def test_what_an_app_asks_for_is_a_fact() -> None:
    app = read_app(CASES / "permissions.xml")
    assert app.facts.uses_permissions == ("com.a.Q", "com.b.P")
    assert "grant" not in tomllib.loads(app.entry("k"))
    assert [it.words for it in app.left_out if "grant" in it.words] == ['left out grant of "com.b.Old": asked for only up to API level 18']


def test_an_app_is_read_in_any_thread() -> None:
    with ThreadPoolExecutor(2) as pool:
        assert list(pool.map(read_app, [CASES / "unsaid.xml", CASES / "order.xml"])) == [unsaid(), read_app(CASES / "order.xml")]


@pytest.mark.parametrize(
    "text, why",
    [
        (manifest("", ' split="camera"'), 'it is the split "camera"'),
        (manifest("", package="android"), "the system's own"),
        ("<resources/>", 'its root is "resources"'),
        ("<manifest/>", "the manifest's package: it isn't stated"),
        ("<manifest", "malformed XML"),
    ],
)
def test_what_is_no_app_is_refused(write: Write, text: str, why: str) -> None:
    with pytest.raises(InputFault, match=why):
        read_app(write(text))


def test_an_app_that_is_not_there_is_refused(tmp_path: Path) -> None:
    with pytest.raises(InputFault, match="No such file"):
        read_app(tmp_path / "none.apk")


@pytest.mark.parametrize("path", sorted(CASES.glob("*.facts.json")), ids=lambda it: str(it.name))
def test_facts_are_as_the_schema_says(path: Path) -> None:
    document = json.loads(path.read_text(encoding="utf-8"))
    assert document["packages"]
    assert valid(document)


def test_the_schema_refuses_other_facts() -> None:
    facts = unsaid().facts.to_json()
    assert valid({"packages": {"com.a": facts}})
    for key in facts:
        assert not valid({"packages": {"com.a": {it: facts[it] for it in facts if it != key}}}), key
        assert not valid({"packages": {"com.a": {**facts, key: 1.5}}}), key
    assert not valid({"packages": {"com.a": {**facts, "permissions": [{"name": "p"}]}}})
    assert not valid({})


def test_what_is_passed_over_in_silence_is_listed_once() -> None:
    names = " ".join(SILENT.values()).split()
    assert len(names) == len(SILENT_ATTRIBUTES)
    assert not SILENT_ATTRIBUTES & CARRIED_ATTRIBUTES
    assert not SILENT_TAGS & CARRIED_TAGS


def test_silence_is_kept_for_what_is_listed_alone(write: Write) -> None:
    every = " ".join(f'android:{name}="x"' for name in sorted(SILENT_ATTRIBUTES))
    assert read_app(write(activity(every))).left_out == ()
    for name in sorted(SILENT_ATTRIBUTES):
        (told,) = read_app(write(activity(f'android:{name}2="x"'))).left_out
        assert told.words == f'left out {name}2 "x": a device file has no {name}2'


@pytest.mark.parametrize(
    "bits, name",
    [(0, "normal"), (3, "signatureOrSystem"), (0x12, "signature|privileged"), (0x8000002, "signature|knownSigner"), (-0x80000000, "normal|0x80000000")],
)
def test_a_level_has_its_names(bits: int, name: str) -> None:
    assert named(bits) == name


def test_without_a_reader_both_packages_are_named(tmp_path: Path, monkeypatch: pytest.MonkeyPatch) -> None:
    monkeypatch.setenv("PATH", str(tmp_path))
    monkeypatch.setattr(binary, "library", lambda: None)
    with pytest.raises(InputFault, match="package aapt, which has aapt2, or its package androguard"):
        read_app(binary_manifest(tmp_path))


def test_what_aapt2_says_is_told(tmp_path: Path, stand_in: Callable[[str], Path]) -> None:
    stand_in("echo 'a.apk: error: bad chunk.' >&2; exit 1")
    with pytest.raises(InputFault, match=r"aapt2 says bad chunk\."):
        read_app(binary_manifest(tmp_path))


def test_aapt2_may_not_take_long(tmp_path: Path, stand_in: Callable[[str], Path], monkeypatch: pytest.MonkeyPatch) -> None:
    stand_in("exec sleep 60")
    monkeypatch.setattr(by_aapt2, "SECONDS", 0.2)
    with pytest.raises(InputFault, match="aapt2 takes more than 0.2 seconds"):
        read_app(binary_manifest(tmp_path))


@pytest.mark.parametrize("text", ['a" (Raw: "a")', "x (line=3)", "a\n   E: activity", "a\nA: b"])
@pytest.mark.parametrize("coding", ["utf-8", "utf-16-le"])
def test_a_text_that_looks_like_a_dump_is_refused(stand_in: Callable[[str], Path], text: str, coding: str) -> None:
    program = stand_in("echo 'E: manifest (line=1)'")
    assert read_by_aapt2(str(program), BINARY_XML + "a text".encode(coding), lambda: None) == Element("manifest")
    with pytest.raises(InputFault, match="looks like a line of aapt2's"):
        read_by_aapt2(str(program), BINARY_XML + text.encode(coding), lambda: None)


def tree(dump: str) -> Element:
    return tree_of(dump, by_aapt2.Resources("false", b"", lambda: None))


def test_an_attribute_is_known_by_its_number() -> None:
    dump = f'E: activity (line=1)\n  A: {ANDROID}:label(0x01010010)=true\n  A: (0x01010003)=".Main" (Raw: ".Main")\n'
    assert tree(dump).attributes == {"exported": "true", "name": ".Main"}
    assert tree(f"E: activity (line=1)\n  A: {ANDROID}:exported(0x01017fff)=true\n").attributes == {"0x01017fff": "true"}
    assert NUMBERS["0x01010010"] == "exported"


def test_an_element_that_declares_a_namespace_stands_beside_the_others() -> None:
    root = tree("E: a (line=1)\n    E: b (line=2)\n    N: n=u (line=3)\n      E: c (line=3)\n          E: d (line=4)\n    E: e (line=5)\n")
    assert [child.name for child in root.children] == ["b", "c", "e"]
    assert [child.name for child in root.children[1].children] == ["d"]


def run_command(*words: str, options: tuple[str, ...] = ()) -> "subprocess.CompletedProcess[str]":
    return subprocess.run(["/usr/bin/python3", *options, str(COMMAND), *words], capture_output=True, text=True, check=False)


def test_decoded_manifests_need_nothing_but_python() -> None:
    # without `site` the packages of Debian aren't found
    ran = run_command(str(CASES / "usual.xml"), options=("-S",))
    assert (ran.returncode, ran.stderr) == (0, "")
    assert ran.stdout == (CASES / "usual.toml").read_text(encoding="utf-8")


def test_facts_that_cannot_be_written_are_told(tmp_path: Path) -> None:
    path = tmp_path / "none" / "facts.json"
    ran = run_command("--facts", str(path), str(CASES / "usual.xml"))
    assert (ran.returncode, ran.stderr) == (2, f"{path}: can't be written: No such file or directory\n")
    assert ran.stdout == (CASES / "usual.toml").read_text(encoding="utf-8")
