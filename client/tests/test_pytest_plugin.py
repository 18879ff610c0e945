"""The plugin: two suites, one that passes and one that fails and says why, and several runs at once."""
import os
import subprocess
import sys
from pathlib import Path

import pytest

from amctl import Device, Intent
from amctl.asserts import not_reached, opened, received
from amctl.find import find_am
from conftest import CLIENT, EXAMPLES, Ran, run_python

SUITES = CLIENT / "examples"
# as without an installation, which would name the plugin by its entry point
PYTEST = ("-m", "pytest", "-q", "-p", "no:cacheprovider", "-p", "amctl.pytest_plugin")
LINK = "https://www.photos.example/album/cats"
TEST = "def test_it(am_device):\n    assert am_device.file.names == {names}\n"


def run_pytest(*words: str, cwd: Path) -> Ran:
    return run_python(*PYTEST, *words, cwd=cwd)


def test_the_passing_suite_passes() -> None:
    ran = run_pytest(str(SUITES / "passing"), cwd=SUITES)
    assert ran.status == 0, ran.out
    assert "4 passed" in ran.out


def test_the_failing_suite_names_the_reasons() -> None:
    ran = run_pytest(str(SUITES / "failing"), cwd=SUITES)
    assert ran.status == 1
    assert "4 failed" in ran.out
    said = [it.removeprefix("E").strip() for it in ran.out.splitlines() if it.startswith("E  ")]
    assert said[:9] == [
        "AssertionError: com.browser's start didn't open com.photos/.Album: it opened com.browser/.Page.",
        "intent: Intent(action='android.intent.action.VIEW', data='https://www.photos.example/album/cats', flags=('NEW_TASK',))",
        "com.browser/.Page      reached",
        "com.browser/.Settings  it has no intent filter, so only its name reaches it",
        "-> name it in the intent (`component='com.browser/.Settings'`)",
        "com.photos/.Viewer     its filter takes types alone (image/*), and the intent has a URI of the scheme https",
        "-> give it a filter with this scheme in `data`, or ask by another URI",
        "com.photos/.Album      not approved for www.photos.example, and no default browser is set",
        "-> `device.system.link('com.photos', 'www.photos.example')`, or `browser = \"com.photos\"` in the device file",
    ]
    assert "AssertionError: com.browser's intent doesn't reach com.photos/.Viewer, but by filters / scheme and not by host." in said
    assert "AssertionError: com.browser's intent reaches com.browser/.Page, and shouldn't." in said
    assert "AssertionError: com.browser's broadcast didn't reach com.photos/.Album." in said


def test_several_at_once_need_no_port() -> None:
    environment = {**os.environ, "PYTHONPATH": str(CLIENT), "AM": str(find_am()), "PYTHONDONTWRITEBYTECODE": "1"}
    words = [sys.executable, *PYTEST, str(SUITES / "passing")]
    runs = [subprocess.Popen(words, cwd=SUITES, env=environment, stdout=subprocess.PIPE, text=True) for _ in range(4)]
    printed = [it.communicate()[0] for it in runs]
    assert [it.returncode for it in runs] == [0] * 4
    assert all("4 passed" in it for it in printed)


def test_the_marker_comes_before_the_file_beside_and_that_before_the_ini_option(tmp_path: Path) -> None:
    orders, photos = (EXAMPLES / "orders.toml").read_text(encoding="utf-8"), (EXAMPLES / "device.toml").read_text(encoding="utf-8")
    for folder in ("beside", "named"):
        (tmp_path / folder).mkdir()
    (tmp_path / "pytest.ini").write_text("[pytest]\nam_device = devices/queries.toml\n", encoding="utf-8")
    (tmp_path / "devices").mkdir()
    (tmp_path / "devices" / "queries.toml").write_text((EXAMPLES / "queries.toml").read_text(encoding="utf-8"), encoding="utf-8")
    (tmp_path / "beside" / "device.toml").write_text(orders, encoding="utf-8")
    (tmp_path / "beside" / "other.toml").write_text(photos, encoding="utf-8")
    marked = "import pytest\n@pytest.mark.am_device('other.toml', at=5)\n" + TEST.format(names="('com.browser', 'com.photos')")
    (tmp_path / "beside" / "test_marked.py").write_text(marked + "    am_device.system.tick()\n    assert am_device.system.status().moment == 5\n", encoding="utf-8")
    (tmp_path / "beside" / "test_beside.py").write_text(TEST.format(names="('com.shop', 'com.guard')"), encoding="utf-8")
    (tmp_path / "named" / "test_named.py").write_text(TEST.format(names="('com.maps', 'com.notes')"), encoding="utf-8")
    ran = run_pytest("--strict-markers", cwd=tmp_path)
    assert ran.status == 0, ran.out
    assert "3 passed" in ran.out


def test_the_marker_s_file_and_store_stand_in_the_test_s_folder(tmp_path: Path) -> None:
    (tmp_path / "below").mkdir()
    (tmp_path / "below" / "other.toml").write_text((EXAMPLES / "device.toml").read_text(encoding="utf-8"), encoding="utf-8")
    marked = "import pytest\n@pytest.mark.am_device(file='other.toml', store='rows')\n" + TEST.format(names="('com.browser', 'com.photos')")
    (tmp_path / "below" / "test_marked.py").write_text(marked, encoding="utf-8")
    ran = run_pytest("below", cwd=tmp_path)
    assert ran.status == 0, ran.out
    assert (tmp_path / "below" / "rows").is_file() and not (tmp_path / "rows").exists()


def test_a_test_without_a_device_file_is_told_what_to_do(tmp_path: Path) -> None:
    (tmp_path / "test_it.py").write_text(TEST.format(names="()"), encoding="utf-8")
    ran = run_pytest(cwd=tmp_path)
    assert ran.status == 1
    assert "no device file for test_it.py::test_it: put a device.toml beside the test, mark it by @pytest.mark.am_device" in ran.out


def test_two_devices_in_one_test(tmp_path: Path) -> None:
    for name in ("device", "orders"):
        (tmp_path / f"{name}.toml").write_bytes((EXAMPLES / f"{name}.toml").read_bytes())
    (tmp_path / "test_it.py").write_text(
        "kept = []\n\n\n"
        "def test_both(am_device, am_open):\n"
        "    other, third = am_open('orders.toml', at=5, store='rows'), am_open('device.toml')\n"
        "    kept.extend([am_device, other, third])\n"
        "    other.system.tick()\n"
        "    am_device.system.link('com.photos', 'www.photos.example')\n"
        "    assert [it.system.status().history for it in kept] == [1, 1, 0]\n"
        "    assert other.system.status().moment == 5\n\n\n"
        "def test_they_are_closed():\n"
        "    assert [it._transport._program.poll() for it in kept] == [0, 0, 0]\n",
        encoding="utf-8",
    )
    ran = run_pytest(cwd=tmp_path)
    assert "2 passed" in ran.out, ran.out
    assert (tmp_path / "rows").is_file()


def test_what_is_asserted_is_given_back(photos: Device, orders: Device) -> None:
    placed = opened(photos.app("com.browser"), LINK, "com.browser/.Page")
    assert (placed.instance, placed.placed) == (1, "fresh")
    settings = opened(photos.app("com.browser"), Intent(component="com.browser/.Settings"), "com.browser/.Settings", source=1)
    assert settings.task == placed.task
    assert received(orders.app("com.shop"), Intent(action="org.example.ORDER"), "com.guard/.Check").broadcast == 1
    assert not_reached(photos.app("com.photos"), LINK, "com.photos/.Album", by="general").verdict == "narrowed"


@pytest.mark.parametrize("by", [None, "filters", "scheme"])
def test_a_rule_may_be_told_widely_or_narrowly(photos: Device, by: str | None) -> None:
    assert not_reached(photos.app("com.browser"), LINK, "com.photos/.Viewer", by=by).reasons == ("scheme",)


def test_a_refused_start_fails_with_its_sentence(photos: Device) -> None:
    with pytest.raises(AssertionError) as raised:
        opened(photos.app("com.photos"), "com.browser/.Settings", "com.browser/.Settings")
    first, _, *accounts = str(raised.value).splitlines()
    assert first.startswith("com.photos's start didn't open com.browser/.Settings: com.browser/.Settings isn't exported")
    assert "com.browser/.Settings  it isn't exported, and com.photos is another app" in accounts


def test_an_intent_that_is_none_fails_with_its_sentence(photos: Device) -> None:
    with pytest.raises(AssertionError, match="didn't open com.browser/.Page: the data isn't a URI: it has no scheme") as raised:
        opened(photos.app("com.browser"), Intent.view("nothing"), "com.browser/.Page")
    assert str(raised.value).splitlines()[1:] == ["intent: Intent(action='android.intent.action.VIEW', data='nothing', flags=('NEW_TASK',))"]


def test_a_component_that_is_not_there_is_said(photos: Device) -> None:
    with pytest.raises(AssertionError, match="the device has no activity com.photos/.Albun: check the class"):
        not_reached(photos.app("com.browser"), LINK, "com.photos/.Albun")


def test_a_registered_receiver_is_told_by_its_number(orders: Device) -> None:
    from amctl import IntentFilter

    number = orders.app("com.guard").register(IntentFilter(actions=("a.NEWS",)), permission="p.NEWS")
    account = not_reached(orders.app("com.shop"), Intent(action="a.NEWS"), number, by="needs_permission")
    assert account.name == "p.NEWS"
    with pytest.raises(AssertionError, match="com.shop's broadcast didn't reach registered receiver 1"):
        received(orders.app("com.shop"), Intent(action="a.NEWS"), number)
