"""What any app reaches by its name, and what opens it."""
from collections.abc import Iterator

from amctl import words, words_check
from amctl.check.app import App
from amctl.check.asking import Copies, Exchange
from amctl.findings.finding import Finding
from amctl.check.intents import STARTED_ONCE
from amctl.check.made import at
from amctl.devicefile import Component
from amctl.intents import Intent

# any app may ask for a permission of these levels
WEAK = ("normal", "dangerous")
# a platform defines its own, and no facts tell them
PLATFORM = ("android.", "com.android.", "com.google.")


def check(copies: Copies, app: App) -> Iterator[Finding]:
    for component in app.components:
        flags = STARTED_ONCE if component.kind == "receiver" else ()
        asked = copies.ask("after", component.kind, Intent(component=component.component, flags=flags), of=app.package)
        account = asked.account(component.component)
        if account is None:
            continue
        if account.verdict == "reached":
            path = f"{component.at}.exported"
            decided = words_check.decided_by(_actions(component), component.permission)
            yield at(app, path, f"open-{component.kind}", words.shown(component.component), words_check.exposed(component.component, decided), asked)
        elif account.verdict == "needs_permission" and account.name is not None:
            yield from _guarded(app, component, account.name, asked)


def _guarded(app: App, component: Component, permission: str, asked: Exchange) -> Iterator[Finding]:
    """What is wrong with the permission that guards a component, as far as facts say."""
    level = app.facts.level(permission)
    about, path = words.shown(component.component), f"{component.at}.permission"
    if level is not None and level.partition("|")[0] in WEAK:
        yield at(app, path, "weak-permission", about, words_check.weak_permission(component.component, permission, level), asked)
    elif level is None and app.facts.of(app.package) and not permission.startswith(PLATFORM):
        yield at(app, path, "undefined-permission", about, words_check.undefined_permission(component.component, permission), asked)


def _actions(component: Component) -> list[str]:
    return list(dict.fromkeys(words.short(action) for filter in component.filters for action in filter.actions))
