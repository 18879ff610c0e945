"""Fails on purpose: what a failure says. The album isn't approved for its host, so the link doesn't open it."""
import pytest

from amctl import Device
from amctl.asserts import not_reached, opened, received

pytestmark = pytest.mark.am_device("../../../examples/device.toml")
LINK = "https://www.photos.example/album/cats"


def test_the_link_opens_the_album(am_device: Device) -> None:
    opened(am_device.app("com.browser"), LINK, "com.photos/.Album")


def test_the_viewer_is_closed_to_links_by_its_host(am_device: Device) -> None:
    not_reached(am_device.app("com.browser"), LINK, "com.photos/.Viewer", by="host")


def test_the_page_is_not_reached(am_device: Device) -> None:
    not_reached(am_device.app("com.browser"), LINK, "com.browser/.Page")


def test_the_album_hears_of_it(am_device: Device) -> None:
    received(am_device.app("com.browser"), LINK, "com.photos/.Album")
