"""The levels of permissions, by their names."""
from amctl.apps.elements import Element, Reference
from amctl.apps.sayable import Unsayable, number

LEVELS = ("normal", "dangerous", "signature", "signatureOrSystem", "internal")
LEVEL_BITS = 0xF
FLAGS = {
    0x10: "privileged",
    0x20: "development",
    0x40: "appop",
    0x80: "pre23",
    0x100: "installer",
    0x200: "verifier",
    0x400: "preinstalled",
    0x800: "setup",
    0x1000: "instant",
    0x2000: "runtime",
    0x4000: "oem",
    0x8000: "vendorPrivileged",
    0x10000: "textClassifier",
    0x20000: "wellbeing",
    0x40000: "documenter",
    0x80000: "configurator",
    0x100000: "incidentReportApprover",
    0x200000: "appPredictor",
    0x400000: "module",
    0x800000: "companion",
    0x1000000: "retailDemo",
    0x2000000: "recents",
    0x4000000: "role",
    0x8000000: "knownSigner",
}


def level_of(element: Element) -> str:
    """The level of a `permission` as a manifest writes it, with its flags after it; `normal` if none is stated."""
    value = element.get("protectionLevel")
    if value is None:
        return LEVELS[0]
    try:
        return named(number(value))
    except Unsayable:
        # written by names already, or a reference
        return value if isinstance(value, Reference) else "|".join(word.strip() for word in value.split("|"))


def named(bits: int) -> str:
    """The names of a level's bits; those without a name are a number."""
    base = bits & LEVEL_BITS
    rest = bits & ~LEVEL_BITS & 0xFFFFFFFF
    names = [LEVELS[base] if base < len(LEVELS) else str(base)]
    for flag, name in FLAGS.items():
        if rest & flag:
            names.append(name)
            rest &= ~flag
    return "|".join(names + ([f"0x{rest:x}"] if rest else []))
