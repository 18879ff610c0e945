"""Which device a command asks: a session of its own on a device file, or a server's."""
import os
from collections.abc import Mapping
from dataclasses import dataclass, field, replace
from pathlib import Path

from amctl import words
from amctl.address import shown
from amctl.device import App, Device
from amctl.devicefile import SYSTEM
from amctl.errors import BadWords

DEVICE_VARIABLE = "AMCTL_DEVICE"
URL_VARIABLE = "AMCTL_URL"
STORE_VARIABLE = "AMCTL_STORE"
USUAL_FILE = Path("device.toml")


@dataclass(frozen=True)
class Where:
    """What the words and the environment say of the device; words come first."""

    device: Path | None = None
    url: str | None = None
    store: Path | None = None
    am: Path | None = None
    # of a server; without them the variables AMCTL_USER and AMCTL_CA count
    user: str | None = field(default=None, repr=False)
    ca: Path | None = None

    def or_environment(self, environment: Mapping[str, str] = os.environ) -> "Where":
        """What the words leave open is taken from the environment, and a `device.toml` of this folder."""
        device, store = environment.get(DEVICE_VARIABLE), environment.get(STORE_VARIABLE)
        usual = USUAL_FILE if USUAL_FILE.is_file() else None
        # naming a store means a session of its own
        url = self.url if self.url is not None or self.store else environment.get(URL_VARIABLE) or None
        return replace(
            self,
            device=self.device or (Path(device) if device else usual),
            url=url,
            store=self.store or (Path(store) if store and not url else None),
        )

    def file(self) -> Path:
        """The device file, which holds the callers' keys, also those of a server."""
        if self.device is None:
            raise BadWords(words.no_device(DEVICE_VARIABLE, str(USUAL_FILE)))
        return self.device

    def open(self) -> Device:
        if self.url is None:
            return Device.open(self.file(), am=self.am, store=self.store)
        if self.store is not None:
            raise BadWords(words.STORE_OF_URL)
        return Device.connect(self.url, self.file(), user=self.user, ca=self.ca)

    @property
    def shown_url(self) -> str | None:
        """The server's URL without a password."""
        return None if self.url is None else shown(self.url)


def caller(device: Device, package: str | None) -> App:
    """The package's app, or the system if none is named."""
    if package == "":
        # a script's variable that is empty doesn't ask as the system
        raise BadWords(words.NO_CALLER)
    return device.app(SYSTEM if package is None else package)
