"""What goes wrong by hand: each message says what is wrong and what to do, and the status tells a refusal from wrong words."""
import socket
from collections.abc import Callable
from pathlib import Path

import pytest

from amctl import cli
from conftest import EXAMPLES, Ran

DEVICE = ("--device", str(EXAMPLES / "device.toml"))
LINK = "https://www.photos.example/album/cats"
HEAD = 'system_key = "sys"\n[[package]]\nkey = "k1"\n[package.manifest]\npackage = "com.one"\n'
ACTIVITY = HEAD + '[[package.manifest.activity]]\nname = ".Main"\n'
# (words, a file `device.toml`, status, what is wrong, what to do)
CASES: dict[str, tuple[tuple[str, ...], str | None, int, str, str]] = {
    "no command": (("strat",), None, 2, "No such command 'strat'", "Did you mean `amctl start`? See `amctl --help`"),
    "no option": (("why", "--devise", "x"), None, 2, "No such option: --devise", "--device"),
    "no device": (("why", LINK), None, 2, "no device file is named", "give --device FILE"),
    "no file": (("why", "--device", "devize.toml", LINK), None, 2, "there is no file devize.toml", "check the name"),
    "a folder": (("why", "--device", ".", LINK), None, 2, ". is a folder", "name a file in it"),
    "no intent": (("why", *DEVICE), None, 2, "no intent is given", "name a URI, a component or a package"),
    "no package": (("why", *DEVICE, "--as", "com.browse", LINK), None, 2, "the device has no package com.browse", "did you mean com.browser?"),
    "a far package": (("why", *DEVICE, "--as", "x", LINK), None, 2, "has com.browser, com.photos", "install it first"),
    "nobody": (("start", *DEVICE, "--as", "", "com.browser/.Settings"), None, 2, "--as names nobody", "leave out --as to ask as the system"),
    "a file below a file": (("why", "--device", "device.toml/x", LINK), HEAD, 2, "device.toml/x can't be used (Not a directory)", "check its name"),
    "no UTF-8": (("why", *DEVICE, "a:\udcff"), None, 2, "'a:\\udcff' isn't UTF-8", "write it in UTF-8"),
    "no such kind": (("why", *DEVICE, "--kind", "provider", LINK), None, 2, "'provider' is not one of", "'activity', 'service', 'receiver'"),
    "no URI": (("why", *DEVICE, "-d", "www.photos.example"), None, 1, "the data isn't a URI: it has no scheme", "write it whole"),
    "a port of letters": (("why", *DEVICE, "http://a:x/"), None, 1, "its port isn't one", "write it whole"),
    "no type": (("why", *DEVICE, "-t", "image"), None, 1, "the type isn't a MIME type: it has no slash", "write it as in image/png"),
    "Android's flag": (("start", *DEVICE, "-f", "FLAG_ACTIVITY_CLEAR_TOP", LINK), None, 1, "`FLAG_ACTIVITY_CLEAR_TOP` isn't a flag", "write CLEAR_TOP, since flags are named without FLAG_ACTIVITY_"),
    "a component without a slash": (("start", *DEVICE, "-n", "com.photos"), None, 1, "`component` has a value", "package/class with one slash"),
    "a component that is not there": (("start", *DEVICE, "com.photos/.Albun"), None, 1, "no enabled component com.photos/.Albun", "check the class"),
    "no activity": (("start", *DEVICE, "tel:1"), None, 1, "no activity gets the intent", "ask `amctl why` with the same intent"),
    "two targets": (("start", *DEVICE, "-d", "a:b", LINK), None, 2, f"data is given twice, as a:b and as {LINK}", "leave out one"),
    "an extra without a value": (("start", *DEVICE, "--es", "key", LINK), None, 2, "--es key has no value", "--es KEY=VALUE"),
    "an extra that is no number": (("start", *DEVICE, "--el", "n=five", LINK), None, 2, "'five' isn't one", "for a text use --es"),
    "an extra that Python takes for a number": (("start", *DEVICE, "--el", "n=1_0", LINK), None, 2, "'1_0' isn't one", "for a text use --es"),
    "an extra that is no truth": (("start", *DEVICE, "--ez", "b=yes", LINK), None, 2, "'yes' is neither", "takes true or false"),
    "an app that asks for the history": (("history", *DEVICE, "--as", "com.photos"), None, 1, "com.photos is an app", "leave out `--as`"),
    "a service of nobody": (("start-service", *DEVICE, "-a", "a.X"), None, 1, "must say whose it is", "(`-p`)"),
    "a link with a scheme": (("link", *DEVICE, "com.photos", "https://a.b/"), None, 2, "https://a.b/ isn't a host", "leave out the scheme"),
    "a link to nowhere": (("link", *DEVICE, "com.photos", ""), None, 2, "an empty text isn't a host", "as in www.photos.example"),
    "a grant to nobody": (("grant", *DEVICE, "com.nobody", "p.X"), None, 1, "no installed package is called com.nobody", "check its name"),
    "a grant without a permission": (("grant", *DEVICE, "com.photos"), None, 2, "Missing argument 'PERMISSION'", "See `amctl grant --help`"),
    "a manifest that is no file": (("install", *DEVICE, "maps.toml"), None, 2, "there is no file maps.toml", "check the name"),
    "a manifest that is a device": (("install", *DEVICE, "device.toml"), HEAD, 1, "`package` has a value of another kind", "write a package's name"),
    "a store in no folder": (("grant", *DEVICE, "--store", "x/rows", "com.photos", "p"), None, 2, "the store x/rows can't be made", "mkdir -p x"),
    "a store that is none": (("grant", *DEVICE, "--store", "device.toml", "com.photos", "p"), HEAD, 2, "or isn't one", "name a file that a session made"),
    "a store of a server": (("tasks", *DEVICE, "--url", "http://127.0.0.1:1", "--store", "r"), None, 2, "--store is for a session", "leave out one"),
    "no server": (("tasks", *DEVICE, "--url", "http://127.0.0.1:1"), None, 2, "nothing listens at http://127.0.0.1:1", "start a server by"),
    "no URL": (("tasks", *DEVICE, "--url", "localhost:8080"), None, 2, "isn't the URL of a server", "http://127.0.0.1:8080"),
    "an empty URL": (("tasks", *DEVICE, "--url", ""), None, 2, "'' isn't the URL of a server", "http://127.0.0.1:8080"),
    "no am": (("why", *DEVICE, "--am", "nowhere/am", LINK), None, 2, "nowhere/am, which --am names, isn't there", "name the built `am`"),
    "no TOML": (("why", LINK), 'system_key = "sys\n', 2, "device.toml:1:18: this isn't TOML", "Correct the line"),
    "no key": (("why", LINK), "[[package]]\n", 2, "`system_key` must be there and isn't", "add it to the file's top"),
    "a truth in quotes": (("why", LINK), ACTIVITY + 'exported = "true"\n', 2, "device.toml:8:1: `exported` has a value", "without quotes"),
    "exported isn't stated": (
        ("why", LINK), ACTIVITY + 'intent-filter = [{ action = ["x.A"] }]\n', 2, "com.one.Main has a filter and doesn't state", "add `exported = true`",
    ),
    "a data row's key": (
        ("why", LINK), ACTIVITY + 'exported = true\nintent-filter = [{ action = ["x.A"], data = [{ ssp = "a" }] }]\n', 2, "`ssp` isn't simulated", "take it out",
    ),
    "the same package again": (("why", LINK), HEAD + HEAD.partition("\n")[2], 2, "device.toml:9:1: com.one stands twice", "a name and a key of its own"),
    "a port of a server": (("serve", DEVICE[1], "--port", "70000"), None, 2, "70000 is not in the range", "See `amctl serve --help`"),
    "a clock of a server": (("serve", DEVICE[1], "--at", "-1"), None, 2, "-1 is not in the range", "See `amctl serve --help`"),
    "a way to advance": (("advance", *DEVICE, "1125899906842625"), None, 2, "1125899906842625 is not in the range", "See `amctl advance --help`"),
    "a file of a server": (("serve", "devize.toml"), None, 2, "there is no file devize.toml", "check the name"),
    "a store of a server in no folder": (("serve", DEVICE[1], "--store", "x/rows"), None, 2, "the store x/rows can't be made", "mkdir -p x"),
    "a package to see that is not there": (("visible", *DEVICE, "--as", "com.note", LINK), None, 2, "no package com.note", "com."),
    "visible of a server": (("visible", *DEVICE, "--url", "http://127.0.0.1:1", LINK), None, 2, "a server isn't asked", "leave out --url"),
}  # fmt: skip


@pytest.fixture
def run(capsys: pytest.CaptureFixture[str], tmp_path: Path, monkeypatch: pytest.MonkeyPatch) -> Callable[..., Ran]:
    monkeypatch.chdir(tmp_path)

    def call(*words: str) -> Ran:
        status = cli.main(words)
        printed = capsys.readouterr()
        return Ran(status, printed.out, printed.err)

    return call


@pytest.mark.parametrize("name", CASES)
def test_a_wrong_input_is_told_what_to_do(name: str, run: Callable[..., Ran], tmp_path: Path) -> None:
    words, file, status, wrong, to_do = CASES[name]
    if file is not None:
        (tmp_path / "device.toml").write_text(file, encoding="utf-8")
    ran = run(*words)
    assert (ran.status, ran.out) == (status, "")
    assert ran.err.startswith("amctl: ") and wrong in ran.err and to_do in ran.err
    assert "Traceback" not in ran.err and '"sys' not in ran.err


def test_a_port_in_use_is_said(run: Callable[..., Ran]) -> None:
    with socket.socket() as taken:
        taken.bind(("127.0.0.1", 0))
        taken.listen()
        port = taken.getsockname()[1]
        ran = run("serve", DEVICE[1], "--port", str(port))
    assert ran.status == 2
    assert ran.err == f"amctl: port {port} of 127.0.0.1 is in use: stop who listens there, take another one, or leave out --port to get a free one.\n"
