"""A client of `am`, the activity manager of a simulated Android device."""
from importlib import import_module
from typing import TYPE_CHECKING

if TYPE_CHECKING:
    from amctl.device import App, Device, Refusal
    from amctl.devicefile import DeviceFile
    from amctl.errors import AmctlError
    from amctl.intents import Intent, IntentFilter
    from amctl.results import Advanced, Choose

__version__ = "0.1.0"
__all__ = ["Advanced", "AmctlError", "App", "Choose", "Device", "DeviceFile", "Intent", "IntentFilter", "Refusal"]

# Each is imported when it is first asked for: the conversion of apps, which is in this package too, needs no other package.
_MODULES = {
    "Advanced": "results",
    "AmctlError": "errors",
    "App": "device",
    "Choose": "results",
    "Device": "device",
    "DeviceFile": "devicefile",
    "Intent": "intents",
    "IntentFilter": "intents",
    "Refusal": "device",
}


def __getattr__(name: str) -> object:
    if name not in _MODULES:
        raise AttributeError(f"module {__name__!r} has no attribute {name!r}")
    return getattr(import_module(f"{__name__}.{_MODULES[name]}"), name)
