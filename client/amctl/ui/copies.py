"""A stored call as a person would make it again: by curl, in a test, by a command; and all calls up to one in a test. Keys are never written."""
import shlex
from collections.abc import Iterator, Sequence
from typing import Any

from amctl import words_ui
from amctl.device import Device
from amctl.intents import Intent
from amctl.results import Entry
from amctl.transport import body_of
from amctl.ui.past import INSTALL, READS, Replay, Reply, entries, public

VALUES = {"/v1/register": "number", "/v1/install": "uid", "/v1/back": "finished", "/v1/pending/get": "token"}
WHOLE = ("/v1/start", "/v1/start_service", "/v1/send", "/v1/pending/send")
# what Python or the client calls otherwise
PARAMETERS = {"from": "from_", "as": "as_", "defaultOnly": "default_only"}
IMPORTED = ("Device", "Intent", "IntentFilter", "Refusal")
USUAL_URL = "http://127.0.0.1:8080"


def copies(entry: Entry, caller: str, reply: Reply | None, url: str | None) -> dict[str, str]:
    command = as_command(entry, caller)
    asked = "" if url is None else f" --url {shlex.quote(url)}"
    return {
        "curl": as_curl(entry, url or USUAL_URL),
        "pytest": _test(f"test_call_{entry.at}", _lines(entry, caller, reply)),
        "amctl": words_ui.NO_COMMAND if command is None else command + asked,
    }


def as_curl(entry: Entry, url: str) -> str:
    """The key is the variable KEY of whoever runs it."""
    body = "" if entry.route in READS else f" -d {shlex.quote(body_of(public(entry)).decode())}"
    return f'curl -s -H "AM-Key: $KEY" {shlex.quote(url + entry.route)}{body}'


def as_one_test(copy: Replay, live: Device, number: int) -> str:
    """All calls up to this one as a test that passes as it is pasted: `copy`, which is at its beginning, makes them again."""
    lines = list(_retold(copy, live, number))
    return _test(f"test_calls_0_to_{number}", lines, f"@pytest.mark.am_device({str(live.file.path.resolve())!r})\n")


def _retold(copy: Replay, live: Device, number: int) -> Iterator[str]:
    for entry in entries(live, 0, number + 1):
        if copy.is_full:
            yield f"# {words_ui.LONG_HISTORY}"
            return
        gap = entry.now - copy.moment
        # only a deadline asks how much time there is between two calls
        if gap > 0 and copy.advance(0) is not None:
            yield f"am_device.advance({gap})"
        caller = copy.keys.name(entry.uid)
        reply = copy.play(entry)
        yield from _lines(entry, caller, reply) if reply is not None else (f"# {words_ui.not_retold(entry.at)}",)


def _test(name: str, lines: Sequence[str], marker: str = "") -> str:
    """A test of these lines, with what it imports."""
    code = "\n".join(it for it in lines if not it.startswith("#"))
    imported = ", ".join(it for it in IMPORTED if f"{it}(" in code or it == "Device" or (it == "Refusal" and it in code))
    imports = ["import pytest\n"] if marker or "pytest." in code else []
    imports += [f"from amctl import {imported}", *(["from amctl.results import to_json"] if "to_json(" in code else [])]
    body = "\n".join(f"    {it}" for it in lines)
    return "\n".join(imports) + f"\n\n\n{marker}def {name}(am_device: Device) -> None:\n{body}\n"


def _lines(entry: Entry, caller: str, reply: Reply | None) -> list[str]:
    """The call as a method, and what it has to answer."""
    who = {"android": "am_device.system", "root": "am_device.root"}.get(caller, f"am_device.app({caller!r})")
    given = {name: value for name, value in entry.request.items() if entry.route != INSTALL or name != "key"}
    words_of_call = ", ".join(f"{PARAMETERS.get(name, name)}={_value(name, value)}" for name, value in given.items())
    call = f"{who}.{entry.route.removeprefix('/v1/').replace('/', '_')}({words_of_call})"
    if reply is not None and reply.refused:
        return ["with pytest.raises(Refusal) as refused:", f"    {call}", f"assert refused.value.rule == {reply.refused!r}"]
    if reply is not None and entry.route in WHOLE:
        return [f"answer = {call}", f"assert to_json(answer) == {dict(reply.body)!r}"]
    if reply is not None and entry.route in VALUES:
        value = reply.body.get(VALUES[entry.route])
        return [f"assert {call} is None" if value is None else f"assert {call} == {value!r}"]
    return [call]


def _value(name: str, value: Any) -> str:
    if name in ("intent", "fill") and isinstance(value, dict):
        return f"Intent({_fields(value)})"
    return f"IntentFilter({_fields(value)})" if name == "filter" and isinstance(value, dict) else repr(value)


def _fields(fields: dict[str, Any]) -> str:
    return ", ".join(f"{name}={tuple(value) if isinstance(value, list) else value!r}" for name, value in fields.items())


def as_command(entry: Entry, caller: str) -> str | None:
    """The words of `amctl` for the call, if it has a command for all that the call says."""
    given = dict(entry.request)
    words_of = _of_intent(given) if "intent" in given else _of_others(entry.route, given)
    name = {"/v1/start": "start", "/v1/start_service": "start-service", "/v1/send": "broadcast"}.get(entry.route)
    if words_of is None or ("intent" in given and name is None):
        return None
    command = [name, *words_of] if name else words_of
    asks = [] if caller == "android" else ["--as", caller]
    return shlex.join(["amctl", *(it for it in command if it is not None), *asks])


def _of_others(route: str, given: dict[str, Any]) -> list[str] | None:
    package = str(given.get("package"))
    if route == "/v1/grant":
        return ["grant" if given.get("held") else "revoke", package, str(given.get("permission"))]
    if route == "/v1/link":
        return ["link", package, str(given.get("host")), *([] if given.get("approved") else ["--denied"])]
    if route == "/v1/advance":
        return ["advance", str(given.get("by"))]
    return {"/v1/uninstall": ["uninstall", package], "/v1/force_stop": ["force-stop", package]}.get(route)


def _of_intent(given: dict[str, Any]) -> list[str] | None:
    others = {"permission": "--receiver-permission", "source": "--source"}
    intent = Intent.from_json(given["intent"])
    if set(given) - {"intent", "ordered", *others} or intent.identifier:
        return None
    options = {"-a": intent.action, "-d": intent.data, "-t": intent.type, "-n": intent.component, "-p": intent.package}
    found = [it for option, value in options.items() if value for it in (option, value)]
    found += [it for value in intent.categories for it in ("-c", value)] + [it for value in intent.flags for it in ("-f", value)]
    for key, value in intent.extras.items():
        # a truth is a number too in Python
        option = "--ez" if isinstance(value, bool) else "--el" if isinstance(value, int) else "--es"
        found += [option, f"{key}={str(value).lower() if isinstance(value, bool) else value}"]
    found += ["--ordered"] if given.get("ordered") else []
    return found + [it for name, option in others.items() if name in given for it in (option, str(given[name]))]
