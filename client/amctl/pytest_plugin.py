"""The fixtures `am_device`, a device of its own for each test, and `am_open`, which opens further ones, and the assertions on them."""
from collections.abc import Callable, Iterator
from contextlib import ExitStack
from pathlib import Path
from typing import TYPE_CHECKING, Any

import pytest

if TYPE_CHECKING:
    from amctl.device import Device

NAME = "am_device"
URL = "am_device_url"
BESIDE = "device.toml"
# what is a server's own
OF_SESSION = ("store", "at", "step")


def pytest_addoption(parser: pytest.Parser) -> None:
    parser.addini(NAME, "the device file of the tests that name none, from the folder of this file")
    parser.addini(URL, "the URL of the server that tests without a marker ask, instead of a session of their own")


def pytest_configure(config: pytest.Config) -> None:
    config.addinivalue_line(
        "markers",
        f"{NAME}(file, store=None, at=0, step=0, url=None, user=None, ca=None): the device file and the store of a test, from the test's folder,"
        " and its clock; or the URL of a server with that device, its user and the file of its authority",
    )


@pytest.fixture
def am_device(request: pytest.FixtureRequest) -> "Iterator[Device]":
    """A device by a session of its own: of the test's marker, of the ini option, or of a `device.toml` beside the test; or a server's."""
    file, others = _wanted(request)
    with _opened(request, file, others) as device:
        yield device


@pytest.fixture
def am_open(request: pytest.FixtureRequest) -> "Iterator[Callable[..., Device]]":
    """Opens further devices for a test by what the marker takes, as in `am_open("other.toml", at=5)`. All are closed behind it."""
    with ExitStack() as opened:

        def another(file: str | Path, **others: Any) -> "Device":
            return opened.enter_context(_opened(request, request.path.parent / file, others))

        yield another


def _opened(request: pytest.FixtureRequest, file: Path, given: dict[str, Any]) -> "Device":
    # a test run without devices doesn't wait for what they need
    from amctl.device import Device

    folder = request.path.parent
    paths = {name: folder / given[name] for name in ("store", "ca") if given.get(name) is not None}
    others = {name: value for name, value in {**given, **paths}.items() if value is not None}
    if "url" not in others:
        return Device.open(file, **others)
    if any(it in others for it in OF_SESSION):
        from amctl import words_server

        raise pytest.UsageError(words_server.of_session(request.node.nodeid, OF_SESSION))
    return Device.connect(others.pop("url"), file, **others)


def _wanted(request: pytest.FixtureRequest) -> tuple[Path, dict[str, Any]]:
    folder = request.path.parent
    marker = request.node.get_closest_marker(NAME)
    others = {"url": request.config.getini(URL) or None} if marker is None else dict(marker.kwargs)
    file = marker.args[0] if marker is not None and marker.args else others.pop("file", None)
    if file is not None:
        return folder / file, others
    named = request.config.getini(NAME)
    if (folder / BESIDE).is_file():
        return folder / BESIDE, others
    if named:
        ini = request.config.inipath
        return (ini.parent if ini else request.config.rootpath) / named, others
    from amctl import words

    raise pytest.UsageError(words.no_device_of_test(request.node.nodeid, BESIDE, NAME))


def __getattr__(name: str) -> Any:
    """The assertions, which are read when they are first asked for."""
    if name in ("opened", "received", "not_reached"):
        from amctl import asserts

        return getattr(asserts, name)
    raise AttributeError(f"module {__name__!r} has no attribute {name!r}")
