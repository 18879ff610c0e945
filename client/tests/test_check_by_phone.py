"""`amctl check` on a device that answers by a phone's rules."""
from pathlib import Path

import pytest

from amctl.check import Asked, check
from check_files import BROWSER, VIEW, Checked, app, component, device, filter_of, web
from conftest import EXAMPLES

RULES = 'rules = "android-12"'
LINK = component(filters=[web("a.example")])
APPROVED = '[[link]]\npackage = "com.old"\nhost = "a.example"\n'
SHUT = component(filters=[filter_of()], others="exported = false")


def found(tmp_path: Path, device: str, manifest: str) -> list[tuple[str, str]]:
    return [(it.rule, it.message) for it in Checked(tmp_path, device, manifest).findings() if it.rule not in ("open-activity", "may-be-caught", "class-twice")]


@pytest.mark.parametrize(
    ("top", "rule", "said"),
    [
        (
            RULES,
            "taken",
            "opens com.old/.C, whose app is approved, and com.new/.C once this app is approved too"
            " (narrowed by approved: of the approved apps only the one installed last stays)",
        ),
        ("", "link-asks", "as it is: opens com.old/.C; once approved: asks among com.old/.C and com.new/.C (tied with it)"),
    ],
)
def test_of_two_approved_apps_the_last_installed_takes_the_link(top: str, rule: str, said: str, tmp_path: Path) -> None:
    on = device(BROWSER, app(LINK, package="com.old"), top=top, end=APPROVED)
    assert (rule, said) in found(tmp_path, on, app(LINK))


def test_what_a_browser_opened_isn_t_taken(tmp_path: Path) -> None:
    said = "as it is: opens com.browser/.C; once approved: opens com.new/.C (narrowed by approved: of the approved apps only the one installed last stays)"
    on = device(BROWSER, app(LINK, package="com.old"), top=RULES)
    assert [it for it in found(tmp_path, on, app(LINK)) if it[0] != "one-more"] == [("link", said)]


def test_a_wildcard_is_approved_as_the_manifest_has_it(tmp_path: Path) -> None:
    wild = app(component(filters=[web("*.a.example")]))
    for top in (RULES, ""):
        rules = [rule for rule, said in found(tmp_path, device(BROWSER, top=top), wild) if "once approved: opens com.new/.C" in said]
        assert rules == ["link"], top
    # a phone approves only for a filter that asks to be linked
    unasked = app(component(filters=[filter_of(VIEW, '{ scheme = "https", host = "a.example" }')]))
    assert [rule for rule, said in found(tmp_path, device(BROWSER, top=RULES), unasked) if "once approved" in said] == ["link-lost"]
    assert [rule for rule, said in found(tmp_path, device(BROWSER), unasked) if "once approved" in said] == ["link"]


def test_where_all_that_tie_refuse_their_caller_nothing_opens(tmp_path: Path) -> None:
    two = app(SHUT, SHUT.replace('".C"', '".D"'))
    # what was refused before, and nobody may start now, is no change
    assert found(tmp_path, device(app(SHUT, package="com.old"), top=RULES), app(SHUT)) == []
    assert found(tmp_path, device(app(package="com.old"), top=RULES), two) == []
    profile = found(tmp_path, device(app(package="com.old")), two)
    assert profile == [("opens", "nothing opened it, and now it asks among com.new/.C and com.new/.D")]
    # browsers that nobody may start take what an app opened
    closed = component(filters=[web(None)], others="exported = false")
    said = (
        "opened com.old/.C, and now nothing opens it, since all that share the greatest priority refuse the caller (narrowed by general: only browsers stay)"
    )
    assert ("refused", said) in found(tmp_path, device(app(LINK, package="com.old"), top=RULES), app(closed, closed.replace('".C"', '".D"')))


def test_what_asked_and_now_opens_nothing_is_refused(tmp_path: Path) -> None:
    old, older = (app(LINK, package=it) for it in ("com.old", "com.older"))
    closed = component(filters=[web(None)], others="exported = false")
    said = "asked among com.old/.C and com.older/.C, and now nothing opens it, since all that share the greatest priority refuse the caller"
    assert ("refused", said) in found(tmp_path, device(old, older, top=RULES), app(closed, closed.replace('".C"', '".D"')))


def test_the_example_by_a_phone_s_rules(tmp_path: Path) -> None:
    on = tmp_path / "device.toml"
    on.write_text(f"{RULES}\n{(EXAMPLES / 'device.toml').read_text(encoding='utf-8')}", encoding="utf-8")
    profile, phone = ({it.rule for it in check(Asked(EXAMPLES / "gallery.toml", it)).findings} for it in (EXAMPLES / "device.toml", on))
    # its page isn't a browser there, since its filter doesn't list BROWSABLE, and links to any host are for browsers
    assert profile - phone == {"refused"} and phone < profile
