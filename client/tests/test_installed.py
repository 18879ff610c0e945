"""What `amctl adb` says is installed, granted and approved: only what calls did, and not what was refused or couldn't be kept."""
from collections.abc import Callable
from pathlib import Path

import pytest

from amctl import Device, DeviceFile, Refusal
from amctl.adb.installed import _Told, find, installed, uid_of
from amctl.adb.phone import Phone
from amctl.results import Entry
from conftest import EXAMPLES

MAPS = 'package = "com.maps"\n[[activity]]\nname = ".Show"\nexported = true\n'
NOTES = 'package = "com.notes"\n'


def test_an_app_s_own_requests_changed_nothing(photos: Device) -> None:
    app = photos.app("com.photos")
    asks: list[Callable[[], object]] = [
        lambda: app.grant("com.photos", "p.X"),
        lambda: app.link("com.photos", "a.example"),
        lambda: app.install(MAPS),
        lambda: app.uninstall("com.browser"),
    ]
    for ask in asks:
        with pytest.raises(Refusal) as refused:
            ask()
        assert refused.value.rule == "admin_only"
    phone = Phone(photos)
    assert [it.name for it in installed(phone)] == ["com.browser", "com.photos"]
    found = find(phone, "com.photos")
    assert found is not None and (found.grants, found.hosts) == (set(), set())
    # nor did it take a uid from the next one
    photos.system.install(NOTES)
    assert uid_of(phone, "com.notes") == "10002"


def test_what_the_system_does_is_told(photos: Device) -> None:
    photos.system.grant("com.photos", "p.X")
    photos.system.grant("com.photos", "p.Y")
    photos.system.grant("com.photos", "p.Y", held=False)
    photos.system.link("com.photos", "A.example")
    photos.system.install(MAPS)
    photos.system.uninstall("com.browser")
    phone = Phone(photos)
    assert [(it.name, it.uid, it.grants, it.hosts) for it in installed(phone)] == [
        ("com.photos", 10001, {"p.X"}, {"a.example"}),
        ("com.maps", 10002, set(), set()),
    ]


def entry(at: int, route: str, request: dict[str, object], kept: bool) -> Entry:
    return Entry(at=at, desk=0, kept=kept, now=0, request=request, route=route, uid=1000, weight=2)


def test_what_could_not_be_kept_changed_nothing() -> None:
    told = _Told(DeviceFile.read(EXAMPLES / "device.toml"))
    calls: list[tuple[str, dict[str, object]]] = [
        ("/v1/install", {"manifest": MAPS}),
        ("/v1/uninstall", {"package": "com.browser"}),
        ("/v1/grant", {"package": "com.photos", "permission": "p.X", "held": True}),
        ("/v1/link", {"package": "com.photos", "host": "a.example", "approved": True}),
    ]
    for at, (route, request) in enumerate(calls):
        told.enter(entry(at, route, request, False))
    assert list(told.packages) == ["com.browser", "com.photos"]
    assert (told.packages["com.photos"].grants, told.packages["com.photos"].hosts, told.next_uid) == (set(), set(), 10002)
    for at, (route, request) in enumerate(calls):
        told.enter(entry(at, route, request, True))
    assert list(told.packages) == ["com.photos", "com.maps"]
    assert (told.packages["com.photos"].grants, told.packages["com.photos"].hosts, told.next_uid) == ({"p.X"}, {"a.example"}, 10003)


def test_an_installation_of_what_is_there_took_no_uid(photos: Device) -> None:
    with pytest.raises(Refusal, match="the package's name or key is in use"):
        photos.system.install('package = "com.browser"\n[[service]]\nname = ".New"\n')
    with pytest.raises(Refusal, match="no installed package is called com.gone"):
        photos.system.grant("com.gone", "p.X")
    photos.system.install(MAPS)
    phone = Phone(photos)
    assert [(it.name, it.uid) for it in installed(phone)] == [("com.browser", 10000), ("com.photos", 10001), ("com.maps", 10002)]
    browser = find(phone, "com.browser")
    assert browser is not None and "com.browser.New" not in [it.name for it in browser.components]


def test_a_history_of_many_pages_is_read_to_its_end(photos: Device) -> None:
    for number in range(130):
        photos.system.grant("com.photos", f"p.{number}")
    found = find(Phone(photos), "com.photos")
    assert found is not None and found.grants == {f"p.{number}" for number in range(130)}


def test_a_package_that_nothing_tells_of_has_no_uid(rows: Path) -> None:
    with Device.open(EXAMPLES / "device.toml", store=rows) as device:
        device.system.install(MAPS)
    # its row isn't given here, so only `am` knows it
    with Device.open(EXAMPLES / "device.toml", store=rows) as device:
        phone = Phone(device)
        assert [(it.name, it.uid) for it in installed(phone)] == [("com.browser", 10000), ("com.photos", 10001), ("com.maps", None)]
        assert (uid_of(phone, "com.maps"), uid_of(phone, "android"), uid_of(phone, "com.none")) == ("?", "1000", "?")
