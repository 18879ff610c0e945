"""Real apps as a device file has them: what a manifest declares, and what is left out of it.

    elements    a manifest that was read: elements, and values that may be unresolved references
    told        the lines on standard error
    decoded     manifests in XML text, by the standard library
    binary      manifests in Android's binary XML
    by_androguard, by_aapt2
                the same by each of the two readers, and the resources that manifests name
    attributes  the numbers of attributes in binary manifests
    inputs      which files to read, and what is in them
    sayable     which values a device file can say
    unsaid      what it can't say, and what has nothing to do with intents
    manifests   a package: its components, what it asks for, and which packages it looks for
    filters     the filters of a component
    levels      the levels of permissions
    facts       what a check needs and a device file can't say
    toml        the text of a package
    device      the device file
    app         an app by itself
    command     tools/device_from_apks, and `amctl convert`
"""
from amctl.apps.app import App, read_app
from amctl.apps.elements import InputFault
from amctl.apps.facts import Facts, Permission
from amctl.apps.told import Told

__all__ = ["App", "Facts", "InputFault", "Permission", "Told", "read_app"]
