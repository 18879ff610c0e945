"""Random devices: what a check says of an intent is what a start made on the device does, before and after the installation.

AM_CHECK_DEVICES says how many devices are tried; a few if it isn't set.
"""
import os
import random
from collections.abc import Sequence
from pathlib import Path

import pytest

from amctl import Choose, Device, Intent, Refusal
from amctl.check import Finding
from amctl.check.asking import Exchange, Outcome
from amctl.check.intents import questions
from amctl.devicefile import DeviceFile, components_of
from amctl.kept import manifest_of
from check_files import BROWSABLE, DEFAULT, VIEW, Checked, app, component, device, filter_of

DEVICES = int(os.environ.get("AM_CHECK_DEVICES", "20"))
RESOLUTION = ("taken", "refused", "asks", "one-more", "opens")
ACTIONS = (VIEW, "x.A")
HOSTS = ("a.example", "www.a.example", "*.a.example", "*")
PATHS = ('path = "/x"', 'pathPrefix = "/x"', 'pathSuffix = "y"', r'pathPattern = "/x.*y"')
TYPES = ("image/png", "image/*", "*/*")


def random_row(dice: random.Random) -> str:
    if dice.random() < 0.3:
        return f'{{ mimeType = "{dice.choice(TYPES)}" }}'
    fields = [f'scheme = "{dice.choice(("http", "https", "geo"))}"']
    if dice.random() < 0.7:
        fields.append(f'host = "{dice.choice(HOSTS)}"')
        fields += [dice.choice(PATHS)] if dice.random() < 0.5 else []
    return f"{{ {', '.join(fields)} }}"


def random_app(dice: random.Random, package: str, pool: Sequence[str], priority: int) -> str:
    """An app of one to three activities, whose filters take their rows from a pool, so apps meet."""
    activities = []
    for number in range(dice.randint(1, 3)):
        filters = []
        for _ in range(dice.randint(1, 3)):
            rows = ", ".join(dice.sample(pool, dice.randint(0, 2)))
            categories = [it for it in (DEFAULT, BROWSABLE) if dice.random() < 0.9]
            filters.append(filter_of(dice.choice(ACTIONS), rows, priority, categories))
        others = dice.choice((*["exported = true"] * 3, "exported = false", 'exported = true\npermission = "p.X"'))
        activities.append(component(name=f".C{number}", filters=filters, others=others))
    return app(*activities, package=package)


def random_check(number: int, folder: Path) -> Checked:
    dice = random.Random(number)
    pool = [random_row(dice) for _ in range(4)]
    packages = [f"com.p{it}" for it in range(dice.randint(1, 3))]
    top = f'browser = "{dice.choice(packages)}"' if dice.random() < 0.3 else ""
    approved = dice.sample(packages, dice.randint(0, len(packages)))
    end = "".join(f'[[link]]\npackage = "{it}"\nhost = "{dice.choice(HOSTS[:2])}"\n' for it in approved)
    return Checked(folder, device(*(random_app(dice, it, pool, dice.choice((3, -1, -2))) for it in packages), top=top, end=end), random_app(dice, "com.new", pool, dice.choice((0, -1))))


def started(on: Device, intent: Intent) -> Outcome:
    """What a start of the caller without rights ends in."""
    try:
        placed = on.app("amctl.check").start(intent.with_flag("NEW_TASK"))
    except Refusal as refused:
        if refused.rule == "no_activity":
            return Outcome("nothing")
        assert refused.rule in ("not_exported", "needs_permission"), refused
        return Outcome("refuses")
    if isinstance(placed, Choose):
        return Outcome("asks", placed.choose)
    component = on.component_of(placed)
    assert component is not None
    # a device holds at most 64 tasks
    on.system.finish_activity(placed.instance)
    return Outcome("opens", (component,))


def agrees(exchange: Exchange, found: Outcome) -> bool:
    """A refusal doesn't name the activity that refuses."""
    said = Outcome.of(exchange)
    return said.way == found.way and (found.way == "refuses" or sorted(said.components) == sorted(found.components))


def opened(checked: Checked, with_app: bool) -> Device:
    on = Device.open(checked.device_file())
    on.system.install('package = "amctl.check"\n')
    if with_app:
        on.system.install(checked.manifest)
    return on


@pytest.mark.parametrize("number", range(DEVICES))
def test_each_line_agrees_with_a_start(number: int, tmp_path: Path) -> None:
    checked = random_check(number, tmp_path)
    lines = [it for it in checked.findings() if it.rule in RESOLUTION]
    with opened(checked, False) as before, opened(checked, True) as after:
        # a line may be about several links of a host
        asked = [it for line in lines for it in line.exchanges if it.caller == "amctl.check"]
        for exchange in asked:
            assert agrees(exchange, started(before if exchange.state == "before" else after, exchange.intent)), exchange
        plain = [it.intent for it in asked if it.state == "before" and not it.intent.categories]
        told = {(it.data, it.type, it.action) for it in plain}
        for intent in plain_intents(checked):
            changed = started(before, intent) != started(after, intent)
            refuses_both = started(after, intent).way == started(before, intent).way == "refuses"
            assert changed == ((intent.data, intent.type, intent.action) in told) or refuses_both, intent


def plain_intents(checked: Checked) -> list[Intent]:
    """All intents without categories that are asked with."""
    file = DeviceFile.parse(Path("d.toml"), checked.device)
    old = [it for package in file.packages for it in package.components]
    asked = questions([*components_of(manifest_of(checked.manifest)), *old])
    return [it.intent for it in asked if not it.intent.categories]


def test_the_devices_have_lines_of_each_rule(tmp_path: Path) -> None:
    """Else the test above would show nothing."""
    found: set[str] = set()
    for number in range(12):
        found.update(it.rule for it in random_check(number, tmp_path).findings())
    assert found >= set(RESOLUTION)


def test_a_wrong_line_would_be_seen(tmp_path: Path) -> None:
    """The comparison itself: an answer of the device without the app isn't that of the device with it."""
    line: Finding = next(it for it in random_check(1, tmp_path).findings() if it.rule in RESOLUTION)
    with opened(random_check(1, tmp_path), True) as after:
        assert not agrees(line.exchanges[0], started(after, line.exchanges[0].intent))
