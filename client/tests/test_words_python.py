"""What a test's failure and a refusal advise is in Python's words, and does what it says."""
import re

import pytest

from amctl import Device, Intent, IntentFilter, Refusal, words, words_python
from amctl.asserts import not_reached, opened, received
from amctl.words import Sentence

SHELL = re.compile(r"`amctl |`-[a-z]\b|--[a-z]")
PLACES = {
    **dict.fromkeys(("caller", "owner", "package"), "com.a"),
    **{"target": "com.a/.B", "to": "com.a/.B", "name": "p.X", "host": "a.example", "thing": "token 1", "action": "x.A", "named": "com.b/.C", "browser": "com.c"},
}
OF_REFUSALS = {**words.REFUSALS, **{f"over_limit {name}": it for name, it in words.LIMITS.items()}}


@pytest.mark.parametrize("sentence", [*words.VERDICTS.values(), *OF_REFUSALS.values()], ids=[*words.VERDICTS, *OF_REFUSALS])
def test_no_sentence_has_a_command_s_words(sentence: Sentence) -> None:
    said = words_python.in_python(Sentence(sentence.says.format_map(PLACES), sentence.change.format_map(PLACES)).text)
    assert not SHELL.search(said)
    assert said.endswith(".") and " ," not in said


@pytest.mark.parametrize(
    "shell, python",
    [
        ("`amctl link com.a a.example`, or more", "`device.system.link('com.a', 'a.example')`, or more"),
        ("`amctl link --denied`", "`device.system.link(approved=False)`"),
        ("`amctl grant com.a p.X`", "`device.system.grant('com.a', 'p.X')`"),
        ("`amctl revoke com.a p.X`", "`device.system.grant('com.a', 'p.X', held=False)`"),
        ("`amctl force-stop com.a`", "`device.system.force_stop('com.a')`"),
        ("`amctl services`", "`device.system.services()`"),
        ("`amctl why`", "`explain(..)`"),
        ("`amctl why --kind receiver`", "`explain('receiver', ..)`"),
        ("name it (`-n com.a/.B`) or (`-p`)", "name it (`component='com.a/.B'`) or (`package`)"),
        ("`-f NEW_TASK`", "`flags=('NEW_TASK',)`"),
        ("ask as the system: `device.system`, or leave out `--as`.", "ask as the system: `device.system`."),
        ("set `exported = true`", "set `exported = true`"),
        ("`-x y`", "`-x y`"),
        ("`amctl grant it's 'p`", "`device.system.grant(\"it's\", \"'p\")`"),
    ],
)
def test_a_command_is_a_call(shell: str, python: str) -> None:
    assert words_python.in_python(shell) == python


def test_an_intent_is_written_as_a_program_writes_it() -> None:
    whole = Intent("a.A", "b:c", "t/x", ("c.C",), "com.a/.B", "com.a", ("NEW_TASK",), {"n": 1, "t": True}, "id")
    for it in (whole, Intent(), Intent.view("a:'b")):
        assert eval(words_python.intent(it), {"Intent": Intent}) == it
    assert words_python.intent(Intent(action="a.A")) == "Intent(action='a.A')"


def test_a_refusal_says_it_to_a_program_and_told_to_a_command(photos: Device) -> None:
    with pytest.raises(Refusal) as refused:
        photos.app("com.browser").history()
    assert str(refused.value) == refused.value.sentence == (
        "only the system and the root may ask this, and com.browser is an app: ask as the system: `device.system`."
    )
    assert refused.value.told.endswith("ask as the system: `device.system`, or leave out `--as`.")


def test_what_a_failure_advises_makes_the_test_pass(photos: Device) -> None:
    link, album = "https://www.photos.example/album/cats", "com.photos/.Album"
    with pytest.raises(AssertionError) as failed:
        opened(photos.app("com.browser"), link, album)
    advice = re.findall(r"`(device\.[^`]*)`", str(failed.value))
    assert advice == ["device.system.link('com.photos', 'www.photos.example')"]
    eval(advice[0], {"device": photos})
    assert opened(photos.app("com.browser"), link, album).placed == "fresh"


def test_each_assertion_fails_in_python_s_words(photos: Device, orders: Device) -> None:
    with pytest.raises(AssertionError) as failed:
        received(orders.app("com.shop"), Intent(action="org.example.ORDER"), "com.guard/.Check", permission="p.X")
    assert "-> `device.system.grant('com.guard', 'p.X')`, or send without the permission" in str(failed.value)
    with pytest.raises(AssertionError) as failed:
        not_reached(photos.app("com.browser"), "com.browser/.Page", "com.browser/.Page")
    assert not SHELL.search(str(failed.value))
    photos.app("com.photos").register(IntentFilter(("a.NEWS",)))
    with pytest.raises(AssertionError) as failed:
        received(photos.app("com.browser"), Intent(action="a.NEWS"), "com.photos/.Album")
    assert "intent: Intent(action='a.NEWS')" in str(failed.value)
