"""Assertions on a device, whose failure says of each component why an intent reaches it or doesn't."""
from typing import NoReturn

from amctl import show, words, words_python
from amctl.device import App, Refusal
from amctl.devicefile import Kind, whole_class
from amctl.intents import Intent, asked_of
from amctl.results import Account, Choose, Placed, Sent, To


def opened(app: App, intent: Intent | str, component: str, *, source: int | None = None) -> Placed:
    """Starts the intent as the app, and asserts that this activity is opened. A start without a source gets NEW_TASK."""
    __tracebackhide__ = True
    asked = asked_of(intent) if source is not None else asked_of(intent).with_flag("NEW_TASK")
    wanted = _whole(component)
    try:
        found = app.start(asked, source=source)
    except Refusal as refused:
        _fail(app, "activity", asked, words.not_opened(app.package, wanted, refused.sentence))
    if isinstance(found, Choose):
        _fail(app, "activity", asked, words.not_opened(app.package, wanted, words_python.in_python(words.choice(found))))
    got = app.device.component_of(found)
    if got != wanted:
        _fail(app, "activity", asked, words.opened_other(app.package, wanted, got))
    return found


def received(app: App, intent: Intent | str, to: To, *, ordered: bool = False, permission: str | None = None) -> Sent:
    """Broadcasts the intent as the app, and asserts that this receiver gets it: a component, or the number of a registered one."""
    __tracebackhide__ = True
    asked, wanted = asked_of(intent), _whole(to)
    try:
        sent = app.send(asked, ordered=ordered, permission=permission)
    except Refusal as refused:
        _fail(app, "receiver", asked, words.not_received(app.package, wanted, refused.sentence), permission)
    if wanted not in [it.to for it in sent.receivers if it.verdict == "admitted"]:
        _fail(app, "receiver", asked, words.not_received(app.package, wanted), permission)
    return sent


def not_reached(
    app: App, intent: Intent | str, to: To, *, by: str | None = None, kind: Kind | None = None, permission: str | None = None
) -> Account:
    """Asserts that an intent of the app wouldn't reach a component, and by which rule: a verdict of `explain`, what narrows, or a reason."""
    __tracebackhide__ = True
    asked, unwanted = asked_of(intent), _whole(to)
    sort = kind or _kind_of(app, unwanted)
    found = next((it for it in app.explain(sort, asked, permission=permission) if it.to == unwanted), None)
    if found is None:
        _fail(app, sort, asked, words.no_such_component(sort, unwanted), permission)
    if found.verdict == "reached":
        _fail(app, sort, asked, words.was_reached(app.package, unwanted, by), permission)
    if by is not None and by not in _rules(found):
        _fail(app, sort, asked, words.other_rule(app.package, unwanted, _rules(found), by), permission)
    return found


def _rules(found: Account) -> list[str]:
    """The names by which an account may be named, from the widest to the narrowest."""
    return [found.verdict, *([found.by] if found.by else []), *(found.reasons or ())]


def _fail(app: App, kind: Kind, intent: Intent, sentence: str, permission: str | None = None) -> NoReturn:
    __tracebackhide__ = True
    try:
        accounts = app.explain(kind, intent, permission=permission)
    except Refusal:
        # what can't be explained was refused before for the same reason, which the sentence has
        accounts = ()
    rows = show.account_rows(accounts, words.About(app.package, kind, intent, app.device.file))
    advised = [(name, says, words_python.in_python(change)) for name, says, change in rows]
    raise AssertionError("\n".join([sentence, f"intent: {words_python.intent(intent)}", *show.account_lines(advised)]))


def _whole(to: To) -> To:
    """A component with its whole class, as `am` writes it."""
    if isinstance(to, int) or "/" not in to:
        return to
    package, _, name = to.partition("/")
    return f"{package}/{whole_class(package, name) if name.startswith('.') else name}"


def _kind_of(app: App, to: To) -> Kind:
    """The kind that the device file declares the component as."""
    if isinstance(to, int):
        return "receiver"
    of_all = (it for package in app.device.file.packages for it in package.components)
    return next((it.kind for it in of_all if it.component == to), "activity")
