"""`amctl from-phone` by a stand-in for a phone, and what adb's lines say."""
import io
import os
import shutil
import sys
import tempfile
import tomllib
import xml.etree.ElementTree as ET
from collections.abc import Callable, Iterator, Mapping, Sequence
from pathlib import Path
from typing import Any

import pytest

from amctl import Device
from amctl.asserts import opened
from amctl.errors import BadWords
from amctl.phone import lines
from amctl.phone.adb import Adb, NoPhone, Said, find_adb, program
from amctl.phone.command import Asked, from_phone
from conftest import Ran, run_python
from tools import apks, manifests
from tools.resident import ADB, resident
from tools.standin import Settings, StandIn

HERE = Path(__file__).resolve().parent / "phone"
DEVICE = HERE / "device.toml"
# which classes are in a split of their own
SPLITS = {"com.mail": {"activity": ("com.mail.Inbox",), "service": ("com.mail.Fetch",)}}
# of what isn't enabled one is off in the manifest, one was switched off on the phone, and one package as a whole
SETTINGS = Settings(disabled=("com.off",), off=("com.maps.Locate",), on=("com.notes.Import",), chosen=("maps.example",), debuggable=("com.notes",))

pytestmark = pytest.mark.skipif(bool(apks.missing()), reason=f"needs Debian's packages {', '.join(apks.missing())}")


def as_manifests_have_it(package: str, root: ET.Element) -> None:
    """What the phone's settings say is otherwise in the manifests."""
    for element in root.iter():
        name = element.get(f"{{{manifests.ANDROID}}}name")
        if name in ("com.maps.Locate", "com.off.Main"):
            element.set(f"{{{manifests.ANDROID}}}enabled", "true")
        if name == "com.notes.Import":
            element.set(f"{{{manifests.ANDROID}}}enabled", "false")
    if package == "com.notes":
        # a device file has no providers
        provider = {"name": "com.notes.Notes", "authorities": "com.notes"}
        ET.SubElement(root[-1], "provider", {f"{{{manifests.ANDROID}}}{key}": value for key, value in provider.items()})


@pytest.fixture(scope="session")
def built() -> Iterator[Mapping[str, Sequence[Path]]]:
    with tempfile.TemporaryDirectory() as folder:
        yield apks.build_all(DEVICE, Path(folder), SPLITS, as_manifests_have_it)


@pytest.fixture
def phone(built: Mapping[str, Sequence[Path]]) -> Iterator[StandIn]:
    with StandIn(DEVICE, built, SETTINGS) as found:
        yield found


def read(phone: StandIn, kept: Path, *packages: str) -> tuple[int, str, str]:
    out, err = io.StringIO(), io.StringIO()
    status = from_phone(Adb(phone), Asked(packages=packages, kept=kept), out, err)
    return status, out.getvalue(), err.getvalue()


def without_keys(text: str) -> dict[str, Any]:
    """A device file's tables; grants and links are in no order, and keys are drawn."""
    document = tomllib.loads(text)
    keys = [document.pop("system_key"), *(it.pop("key") for it in document["package"])]
    assert len(set(keys)) == len(keys)
    for name in ("grant", "link"):
        document[name] = sorted(document[name], key=lambda it: sorted(it.values()))
    return document


def test_the_device_file_that_was_put_in_comes_back(phone: StandIn, tmp_path: Path) -> None:
    status, text, told = read(phone, tmp_path / "kept")
    assert status == 0
    assert without_keys(text) == without_keys(DEVICE.read_text(encoding="utf-8"))
    assert told.endswith("in all.\n") and "[1/8] com.android.shell\n" in told
    # what was kept for an interrupted run is gone
    assert not (tmp_path / "kept").exists()


def test_am_takes_the_file(phone: StandIn, tmp_path: Path) -> None:
    file = tmp_path / "device.toml"
    file.write_text(read(phone, tmp_path / "kept")[1], encoding="utf-8")
    with Device.open(file) as device:
        assert device.system.status().packages == 8
    drawn = tomllib.loads(file.read_text(encoding="utf-8"))
    assert all(len(it["key"]) == 32 and "standin" not in it["key"] for it in drawn["package"])


def test_the_command_by_the_program_adb(phone: StandIn, tmp_path: Path) -> None:
    with resident(phone) as environment:
        folder = tmp_path / "bin"
        folder.mkdir()
        shutil.copy(ADB, folder / "adb")
        variables = {**environment, "PATH": f"{folder}:{os.environ['PATH']}", "XDG_CACHE_HOME": str(tmp_path / "cache")}
        ran = run_python("-m", "amctl", "from-phone", "--serial", phone.serial, cwd=tmp_path, **variables)
        some = run_python("-m", "amctl", "from-phone", "--adb", str(ADB), "--packages", "com.maps", "com.notes", cwd=tmp_path, **variables)
        other = run_python("-m", "amctl", "from-phone", "--serial", "other", cwd=tmp_path, **variables)
    assert ran.status == 0, ran.err
    assert without_keys(ran.out) == without_keys(DEVICE.read_text(encoding="utf-8"))
    assert [it["manifest"]["package"] for it in tomllib.loads(some.out)["package"]] == ["com.notes", "com.maps"]
    assert other == Ran(2, "", "amctl: adb has no phone to ask (adb: device 'other' not found): see `adb devices`, allow this computer on the"
                        " phone's screen, or name one phone by `--serial`; then run it again.\n")


def pulls(phone: StandIn) -> list[str]:
    return [it[1] for it in phone.asked if it[0] == "pull"]


def test_an_interrupted_run_goes_on(phone: StandIn, tmp_path: Path) -> None:
    def gone(words: Sequence[str], seconds: float) -> Said:
        if words[0] == "pull" and "com.notes" in words[1]:
            Path(words[2]).write_bytes(b"half of it")
            return Said(1, "", "error: device offline\n")
        return phone(words, seconds)

    kept = tmp_path / "kept"
    with pytest.raises(NoPhone, match="device offline"):
        from_phone(Adb(gone), Asked(kept=kept), io.StringIO(), io.StringIO())
    before = pulls(phone)
    assert len(before) == 7 and not any("com.notes" in it for it in before)
    phone.asked.clear()
    status, text, _ = read(phone, kept)
    assert status == 0
    assert without_keys(text) == without_keys(DEVICE.read_text(encoding="utf-8"))
    assert set(pulls(phone)).isdisjoint(before) and len(pulls(phone)) == 4


def test_what_wasn_t_learnt_is_said_at_its_place(phone: StandIn, tmp_path: Path) -> None:
    def silent(words: Sequence[str], seconds: float) -> Said:
        line = words[-1]
        if "role" in line or "get-app-links" in line or line == "dumpsys package com.mail" or line.endswith(" -d"):
            return Said(255, "", "cmd: Can't find service\n")
        if words[0] == "pull" and ("android-1" in words[1] or "com.maps" in words[1]):
            return Said(1, "", "adb: error: failed to copy: remote Permission denied\n")
        return phone(words, seconds)

    out, err = io.StringIO(), io.StringIO()
    assert from_phone(Adb(silent), Asked(kept=tmp_path / "kept"), out, err) == 1
    head, *packages = out.getvalue().split("\n[[package]]\n")
    assert "\n# browser: adb's lines didn't tell" in head and "\nbrowser = " not in head
    assert "\n# protected: the system's own manifest can't be read" in head and "\nprotected = " not in head
    assert "\n# exempt: adb doesn't tell" in head
    # what is said of a package is above its table
    above = {of(table): comments(before) for before, table in zip([head, *packages], packages)}
    links, disabled, state = ("# `pm get-app-links` didn't tell", "# `pm list packages -d` didn't tell", "# `dumpsys package` didn't tell")
    assert list(above) == ["com.android.shell", "com.browser", "com.photos", "com.mail", "com.notes", "com.surf", "com.off"]
    assert all(any(it.startswith(links) for it in said) and any(it.startswith(disabled) for it in said) for said in above.values())
    assert [name for name, said in above.items() if any(it.startswith(state) for it in said)] == ["com.mail"]
    unread = "# com.maps isn't here, since it can't be read: `adb pull /data/app/~~8==/com.maps-1==/base.apk` failed (adb: error: failed to copy: remote Permission denied)."
    assert unread in above["com.surf"]
    assert err.getvalue().endswith("Not read: com.maps.\n")


def of(table: str) -> str:
    return str(tomllib.loads(table.partition("[package.manifest]")[2].partition("\n[[")[0])["package"])


def comments(before: str) -> list[str]:
    """The comments at the end of what is before a package."""
    return [line for line in before.rpartition("\n\n")[2].splitlines() if line.startswith("#")] + [line for line in before.splitlines() if "isn't here" in line]


def test_what_a_device_file_can_t_say_is_said(built: Mapping[str, Sequence[Path]], tmp_path: Path) -> None:
    settings = Settings(stopped=("com.photos",), unlinked=("com.maps",), level="34")
    with StandIn(DEVICE, built, settings) as phone:
        text = read(phone, tmp_path / "kept")[1]
    assert text.startswith("# Read by `amctl from-phone` from the phone standin-1, Android 12, API level 34.")
    assert "\n# `am` answers as a device of API level 31" in text
    head, *packages = text.split("\n[[package]]\n")
    above = {of(table): comments(before) for before, table in zip([head, *packages], packages)}
    assert [it[:36] for it in above["com.photos"]] == ["# on the phone the package is stopped"[:36]]
    assert [it[:34] for it in above["com.maps"]] == ["# the user switched the handling of its links off"[:34]]
    assert above["com.notes"] == ['# .Notes: left out provider: a device file has no providers']
    assert [it["package"] for it in tomllib.loads(text)["link"]] == ["com.photos"]


def test_what_is_approved_by_a_wildcard_is_said(built: Mapping[str, Sequence[Path]], tmp_path: Path) -> None:
    file = tmp_path / "device.toml"
    file.write_text(DEVICE.read_text(encoding="utf-8") + '\n[[link]]\npackage = "com.photos"\nhost = "pictures.example"\n', encoding="utf-8")
    with StandIn(file, built, SETTINGS) as phone:
        text = read(phone, tmp_path / "kept")[1]
    assert "\n# the phone says that it is approved for pictures.example, which its filters have as *.pictures.example: both are written.\n" in text
    hosts = [it["host"] for it in tomllib.loads(text)["link"] if it["package"] == "com.photos"]
    assert hosts == ["www.photos.example", "pictures.example", "*.pictures.example"]


def test_a_wildcard_that_the_phone_names_is_written_once(built: Mapping[str, Sequence[Path]], tmp_path: Path) -> None:
    file = tmp_path / "device.toml"
    file.write_text(DEVICE.read_text(encoding="utf-8") + '\n[[link]]\npackage = "com.photos"\nhost = "*.pictures.example"\n', encoding="utf-8")
    with StandIn(file, built, SETTINGS) as phone:
        text = read(phone, tmp_path / "kept")[1]
    assert without_keys(text) == without_keys(file.read_text(encoding="utf-8"))
    taken = tmp_path / "taken.toml"
    taken.write_text(text, encoding="utf-8")
    with Device.open(taken) as device:
        opened(device.app("com.browser"), "https://my.pictures.example:8443/start", "com.photos/.Album")


def test_the_file_answers_by_a_phone_s_rules(phone: StandIn, tmp_path: Path) -> None:
    text = read(phone, tmp_path / "kept")[1]
    assert tomllib.loads(text)["rules"] == "android-12"
    # a key of the device stands above all tables
    assert text.index('rules = "android-12"') < text.index("system_key = ") < text.index("[[package]]")


def test_a_folder_of_others_is_left_alone(phone: StandIn, tmp_path: Path) -> None:
    (tmp_path / "letter.txt").write_text("mine", encoding="utf-8")
    with pytest.raises(BadWords, match="files of others"):
        read(phone, tmp_path)
    assert (tmp_path / "letter.txt").exists()


def test_a_package_that_isn_t_there_is_named(phone: StandIn, tmp_path: Path) -> None:
    with pytest.raises(BadWords, match="no package com.map: .* Did you mean com.maps?"):
        read(phone, tmp_path / "kept", "com.map")


def test_more_packages_than_a_device_file_takes(tmp_path: Path) -> None:
    def many(words: Sequence[str], seconds: float) -> Said:
        line = words[-1]
        if line.startswith("pm list packages"):
            names = [it for it in range(300) if "-3" not in line or it >= 290]
            return Said(0, "".join(f"package:/a/b=x.p{it} uid:{10000 + it}\n" for it in names if "-d" not in line), "")
        return Said(0, "device\n", "") if words[0] == "get-state" else Said(0, "s\n", "") if words[0] == "get-serialno" else Said(1, "", "no\n")

    out = io.StringIO()
    assert from_phone(Adb(many), Asked(kept=tmp_path / "kept"), out, io.StringIO()) == 1
    beyond = [it for it in out.getvalue().splitlines() if "a device file takes 256 packages" in it]
    assert len(beyond) == 44
    # what a person installed comes before what the phone had from the start
    assert not any(f"x.p{it} " in line for it in range(290, 300) for line in beyond)


def test_lists_of_packages() -> None:
    text = "package:/data/app/~~a=b==/com.x-1==/base.apk=com.x uid:10123\npackage:/system/b.apk=com.y uid:1000,1001000\npackage:com.z\n"
    found = (lines.Listed("com.x", 10123, "/data/app/~~a=b==/com.x-1==/base.apk"), lines.Listed("com.y", 1000, "/system/b.apk"), lines.Listed("com.z"))
    assert lines.packages_of(text) == found
    assert lines.packages_of(f"WARNING: linker: odd\n{text}package:/apex/d.apk=com.d uid:-1\n") == (*found, lines.Listed("com.d", -1, "/apex/d.apk"))
    assert lines.packages_of("Error: java.lang.SecurityException\n") is None
    assert lines.packages_of(f"{text}package: com.odd\n") is None
    assert lines.packages_of("") == ()
    assert lines.paths_of("package:/a/base.apk\npackage:/a/split_b.apk\n") == ("/a/base.apk", "/a/split_b.apk")
    assert lines.paths_of("") is None and lines.paths_of("Error\n") is None


SHARED = """Packages:
  Package [com.x] (1):
    sharedUser=SharedUserSetting{1 android.uid.x/1001}
    User 0: installed=true hidden=true stopped=false enabled=0
      disabledComponents:
        com.x/.A
        com.x.B
      enabledComponents:
        .C
  Package [com.xy] (2):
    install permissions:
      other.P: granted=true
    User 0: stopped=true

Shared users:
  SharedUser [android.uid.x] (3):
    install permissions:
      shared.P: granted=true
    User 0:
      runtime permissions:
        shared.Q: granted=true, flags=[ USER_SET]
    User 10:
      runtime permissions:
        shared.R: granted=true
"""


def test_the_state_of_a_package_that_shares_its_user() -> None:
    state = lines.state_of(SHARED, "com.x")
    assert state == lines.State(("shared.P", "shared.Q"), frozenset({"com.x.C"}), frozenset({"com.x.A", "com.x.B"}), False, True)
    assert lines.state_of(SHARED, "com.none") is None
    assert lines.state_of("Unable to find package: com.x\n", "com.x") is None


LINKS = """  com.x:
    ID: 0
    Signatures: [A]
    Domain verification state:
      a.example: verified
      b.example: none
      c.example: 1024
      d.example: approved
      e.example: legacy_failure
    User 0:
      Verification link handling allowed: true
      Selection state:
        Enabled:
          b.example
        Disabled:
          e.example
    User 10:
      Verification link handling allowed: false
      Selection state:
        Enabled:
          c.example
"""


def test_the_links_of_a_package() -> None:
    assert lines.links_of(LINKS, "com.x") == lines.Links(("a.example", "d.example", "b.example"), True)
    assert lines.links_of("", "com.x") == lines.Links(())
    assert lines.links_of("Error: unknown\n", "com.x") is None


def test_who_holds_a_role() -> None:
    known = frozenset({"com.a", "com.b"})
    assert lines.holders_of("com.a\n", known) == ("com.a",)
    assert lines.holders_of("\n", known) == ()
    assert lines.holders_of("Unknown command: holders\n", known) is None
    dump = "roles=[\n {\n  name=android.app.role.HOME\n  holders=com.h\n }\n {\n  name=android.app.role.BROWSER\n  holders=com.b\n }\n]\n"
    assert lines.holders_in_dump(dump, "android.app.role.BROWSER") == ("com.b",)
    assert lines.holders_in_dump("", "android.app.role.BROWSER") is None


LOST = ["adb: error: failed to get feature set: device 'x' not found", "adb: error: connect failed: closed"]


@pytest.mark.parametrize("said", [*LOST, "adb: device 'x' not found", "error: no devices/emulators found", "adb: more than one device/emulator", "error: device unauthorized."])
def test_adb_without_a_phone(said: str) -> None:
    with pytest.raises(NoPhone, match="adb has no phone to ask"):
        Adb(lambda words, seconds: Said(1, "", f"{said}\nThis adb server's $ADB_VENDOR_KEYS is not set\n")).ask("get-state")


def test_an_old_adb_says_that_it_starts_its_server() -> None:
    started = "* daemon not running; starting now at tcp:5037\n* daemon started successfully\ndevice\n"
    assert Adb(lambda words, seconds: Said(0, started, ""), "x").name() == "x"
    with pytest.raises(NoPhone, match="unauthorized"):
        Adb(lambda words, seconds: Said(0, "unauthorized\n", ""), "x").name()


def test_a_line_of_the_phone_s_own_isn_t_adb_s() -> None:
    said = Said(1, "", "Error: device 'x' not found\n")
    assert Adb(lambda words, seconds: said).ask("shell", "am") == said


def test_the_program_adb(tmp_path: Path) -> None:
    adb = tmp_path / "adb"
    adb.write_text("#!/bin/sh\n[ \"$1\" = wait ] && sleep 5\nprintf 'a\\r\\nb\\n'; echo no >&2; exit 3\n", encoding="utf-8")
    with pytest.raises(BadWords, match="isn't a program"):
        find_adb(adb)
    adb.chmod(0o755)
    assert find_adb(adb) == adb and find_adb(None, {"PATH": str(tmp_path)}) == adb
    with pytest.raises(BadWords, match="no `adb` is on PATH"):
        find_adb(None, {"PATH": str(tmp_path / "none")})
    assert program(adb)(("x",), 10) == Said(3, "a\nb\n", "no\n")
    with pytest.raises(NoPhone, match="said nothing for 0 seconds"):
        program(adb)(("wait",), 0.1)
