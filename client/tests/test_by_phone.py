"""What is said of a device that answers by a phone's rules."""
from collections.abc import Mapping
from pathlib import Path

import pytest

from amctl import Device, DeviceFile, Intent, Refusal, words, words_reasons
from amctl.near import nearest
from amctl.results import Account
from amctl.ui.ask import changes_of
from amctl.weblinks import approvals_for, covers, makes_browser
from amctl.words import About, Sentence
from amctl.words_python import in_python
from check_files import BROWSABLE, BROWSER, DEFAULT, VIEW, app, component, device, filter_of, web
from conftest import run_python

RULES = 'rules = "android-12"\n'
PHOTOS = app(component(filters=[web("*.photos.example")]), package="com.photos")
ALBUM = app(component(filters=[web("www.photos.example")]), package="com.album")
SURF = app(component(filters=[web(None)]), package="com.surf")
# it takes the link, and its filter doesn't ask to be linked
LATE = app(component(filters=[filter_of(VIEW, '{ scheme = "https", host = "www.photos.example" }')]), package="com.late")
LINK = Intent.view("https://www.photos.example/cats")
LAST = "of the approved apps the one installed last gets the link"


def approved(package: str, host: str) -> str:
    return f'[[link]]\npackage = "{package}"\nhost = "{host}"\n'


def said_of(tmp_path: Path, text: str, intent: Intent, *, caller: str = "com.web") -> Mapping[str, Sentence]:
    """What `am` answers on a device, in words, for each component's package."""
    path = tmp_path / "device.toml"
    path.write_text(text, encoding="utf-8")
    with Device.open(path) as opened:
        accounts = opened.system.explain("activity", intent, as_=caller)
        about = About(caller, "activity", intent, opened.file)
        return {str(it.to).partition("/")[0]: words.account(it, about) for it in accounts}


def test_the_rules_are_the_file_s() -> None:
    for top, rules, is_phone in (("", "profile", False), ('rules = "profile"\n', "profile", False), (RULES, "android-12", True), ("rules = 12\n", "profile", False)):
        found = DeviceFile.parse(Path("device.toml"), top + device(PHOTOS))
        assert (found.rules, found.answers_as_phone) == (rules, is_phone)


def test_a_link_is_for_browsers_unless_an_approval_counts(tmp_path: Path) -> None:
    found = said_of(tmp_path, device(BROWSER, SURF, PHOTOS, LATE, top=f'{RULES}browser = "com.browser"'), LINK, caller="com.browser")
    assert found["com.browser"].says == "reached"
    assert found["com.surf"] == Sentence(
        "of the browsers the device's own, com.browser, gets it alone", '`browser = "com.surf"` in the device file'
    )
    # the approval that counts is of the host that the manifest has
    assert found["com.photos"] == Sentence(
        "not approved for www.photos.example, so the link is for browsers", f"`amctl link com.photos '*.photos.example'`; {LAST}"
    )
    assert found["com.late"].change == (
        "declare www.photos.example in a filter of it with VIEW, BROWSABLE and https, and then `amctl link com.late www.photos.example`"
    )
    assert all("browser = " not in it.change for name, it in found.items() if name != "com.surf")


def test_what_is_advised_opens_the_link(tmp_path: Path) -> None:
    path = tmp_path / "device.toml"
    path.write_text(device(BROWSER, PHOTOS, ALBUM, top=RULES), encoding="utf-8")
    with Device.open(path) as opened:
        for package in ("com.photos", "com.album"):
            of_file = opened.file.package(package)
            assert of_file is not None
            opened.system.link(package, approvals_for(of_file.components, "www.photos.example")[0])
            reached = [it.to for it in opened.system.explain("activity", LINK) if it.verdict == "reached"]
            # of both the one that was installed last gets it
            assert reached == [f"{package}/{package}.C"]


def test_of_two_approved_apps_the_one_installed_last_gets_the_link(tmp_path: Path) -> None:
    links = approved("com.photos", "*.photos.example") + approved("com.album", "www.photos.example")
    found = said_of(tmp_path, device(BROWSER, PHOTOS, ALBUM, top=RULES, end=links), LINK, caller="com.browser")
    assert found["com.album"].says == "reached"
    assert found["com.photos"] == Sentence(
        "another activity, which is approved for www.photos.example, gets the link alone",
        "name it (`-n com.photos/.C`), or take the other's approval back: `amctl link --denied`",
    )
    assert found["com.browser"].change.startswith("declare www.photos.example in a filter of it")


def test_an_app_that_was_installed_later_has_no_manifest_here() -> None:
    file = DeviceFile.parse(Path("device.toml"), RULES + device(BROWSER))
    found = words.account(Account("com.new/com.new.C", "narrowed", by="general"), About("com.browser", "activity", LINK, file))
    assert found.change == (
        "`amctl link com.new www.photos.example`, which counts if a filter of it with VIEW, BROWSABLE and https lists the host; " + LAST
    )


def test_another_activity_of_the_device_s_browser_is_named(tmp_path: Path) -> None:
    two = app(component(filters=[web(None)]), component(name=".Low", filters=[web(None, priority=-1)]), package="com.browser")
    path = tmp_path / "device.toml"
    path.write_text(device(two, top=f'{RULES}browser = "com.browser"'), encoding="utf-8")
    with Device.open(path) as opened:
        low = next(it for it in opened.system.explain("activity", LINK) if str(it.to).endswith("Low"))
        found = words.account(low, About("android", "activity", LINK, opened.file))
    assert (low.by, found.change) == ("browser", "name it (`-n com.browser/.Low`)")


def test_at_a_tie_the_gate_is_said_of_those_that_may_not_be_started(tmp_path: Path) -> None:
    open_, shut = (app(component(filters=[filter_of()], others=f"exported = {it}"), package=f"com.{it}") for it in ("true", "false"))
    other = app(component(filters=[filter_of()]), package="com.other")
    found = said_of(tmp_path, device(open_, shut, other, top=RULES), Intent(action="x.A"), caller="com.other")
    assert found["com.false"].says == "it isn't exported, and com.other is another app"
    assert found["com.true"].says == "it shares the greatest priority with others that com.other may start, so the user would choose"
    # and if all are left out nothing opens
    path = tmp_path / "shut.toml"
    path.write_text(device(shut, shut.replace("com.false", "com.shut"), app(), top=RULES), encoding="utf-8")
    with Device.open(path) as opened, pytest.raises(Refusal) as refused:
        opened.app("com.new").start(Intent(action="x.A", flags=("NEW_TASK",)))
    assert refused.value.rule == "no_activity"


@pytest.mark.parametrize(
    ("intent", "says"),
    [
        (Intent(categories=(DEFAULT,)), "its filter passes, but isn't found by an intent with neither action nor data nor type"),
        (Intent(action="x.B"), "its filter doesn't list the action x.B, but x.A"),
    ],
)
def test_what_passes_and_isn_t_found_is_told_from_what_doesn_t_pass(intent: Intent, says: str, tmp_path: Path) -> None:
    plain = app(component(filters=[filter_of()]), package="com.web")
    assert said_of(tmp_path, device(plain, top=RULES), intent)["com.web"].says == says


def test_a_type_that_stands_for_all_is_found_by_the_action(tmp_path: Path) -> None:
    typed = app(component(filters=[filter_of(rows='{ mimeType = "*/x" }'), filter_of("x.B", '{ scheme = "x" }')]), package="com.web")
    text = device(typed, top=RULES)
    found = said_of(tmp_path, text, Intent(type="*/x"))["com.web"]
    assert found.says.startswith("filter 1 passes, but a phone finds it for the type */x by its action, and the intent has none; filter 2 wants a URI")
    # it comes nearest, since it passes
    assert found.change == "ask by an action that it lists (`-a x.A`), or name its package in the intent (`-p`)"
    assert said_of(tmp_path, text, Intent(action="x.A", type="*/x"))["com.web"].says == "reached"
    assert said_of(tmp_path, text, Intent(type="*/x", package="com.web"))["com.web"].says == "reached"


@pytest.mark.parametrize(("reasons", "says"), [
    (("action",), "its filter doesn't list the action x.A, but x.B"),
    (("action", "action"), "filter 1 doesn't list the action x.A; filter 2 doesn't list the action x.A, but x.B"),
])  # fmt: skip
def test_a_filter_without_an_action_may_have_a_reason(reasons: tuple[str, ...], says: str) -> None:
    bare = f'{{ category = ["{DEFAULT}"], data = [{{ scheme = "x" }}] }}'
    file = DeviceFile.parse(Path("device.toml"), device(app(component("service", filters=[bare, filter_of("x.B")]), package="com.web"), top=RULES))
    about = About("com.web", "service", Intent(action="x.A", package="com.web"), file)
    assert words.account(Account("com.web/com.web.C", "filters", reasons=reasons), about).says == says


def test_what_isn_t_shown_is_counted_in_the_words_of_a_phone() -> None:
    found = [Account(f"com.x{it}/com.x{it}.C", "filters", reasons=("action",)) for it in range(12)]
    phone, profile = (DeviceFile.parse(Path("device.toml"), device(PHOTOS, top=top)) for top in (RULES, ""))

    def rest(intent: Intent, file: DeviceFile, counts: Mapping[str, int] | None = None) -> str:
        counts = nearest(found, "activity", intent, file).rest if counts is None else counts
        return words_reasons.rest(counts, About("com.x", "activity", intent, file))

    assert rest(Intent(type="*/x"), phone) == "2 more: 2 whose filters aren't found without an action."
    assert rest(LINK, phone) == rest(LINK, profile) == "2 more: 2 whose filters don't list the action."
    assert rest(LINK, phone, {"narrowed": 2}) == "2 more: 2 that the narrowing of web links leaves out."
    assert rest(LINK, profile, {"narrowed": 2}) == "2 more: 2 not approved for the host."


def test_a_program_is_told_the_host_without_a_shell_s_quotes() -> None:
    assert in_python("`amctl link com.photos '*.photos.example'`; x") == "`device.system.link('com.photos', '*.photos.example')`; x"


def test_the_page_tries_the_approval_that_counts() -> None:
    file = DeviceFile.parse(Path("device.toml"), device(SURF, PHOTOS, LATE, top=RULES))
    tried = {
        (package, by): [it.what for it in changes_of(Account(f"{package}/{package}.C", "narrowed", by=by), About("android", "activity", LINK, file))]
        for package, by in (("com.photos", "general"), ("com.late", "general"), ("com.surf", "browser"), ("com.surf", "approved"))
    }
    assert tried == {("com.photos", "general"): ["*.photos.example"], ("com.late", "general"): [], ("com.surf", "browser"): [], ("com.surf", "approved"): []}


@pytest.mark.parametrize(
    ("host", "other", "is_covered"),
    [
        ("a.example", "A.example", True),
        ("*.a.example", "www.a.example", True),
        ("*.a.example", "a.example", True),
        ("*.a.example", "ba.example", True),
        ("*a.example", "www.a.example", False),
        ("a.example", "www.a.example", False),
    ],
)
def test_an_approval_covers_what_am_says(host: str, other: str, is_covered: bool, tmp_path: Path) -> None:
    assert covers(host, other) == is_covered
    # the other filter takes the link, so that `am` has something to narrow
    taking = app(component(filters=[web(host), web(other)]), package="com.photos")
    path = tmp_path / "device.toml"
    path.write_text(device(BROWSER, taking, top=RULES, end=approved("com.photos", host)), encoding="utf-8")
    with Device.open(path) as opened:
        found = opened.system.explain("activity", Intent.view(f"https://{other}/"))
    assert ([it.to for it in found if it.verdict == "reached"] == ["com.photos/com.photos.C"]) == is_covered


@pytest.mark.parametrize(
    ("filter", "is_browser"),
    [
        (web(None), True),
        (web("a.example"), False),
        (filter_of(VIEW, '{ scheme = "https" }'), False),
        (filter_of(VIEW, '{ scheme = "ftp" }', categories=(DEFAULT, BROWSABLE)), False),
        (filter_of(VIEW, '{ scheme = "https", host = "any.example" }', categories=(DEFAULT, BROWSABLE, "android.intent.category.APP_BROWSER")), True),
    ],
)
def test_a_browser_is_what_am_takes_for_one(filter: str, is_browser: bool, tmp_path: Path) -> None:
    text = device(SURF, app(component(filters=[filter]), package="com.one"), top=f'{RULES}browser = "com.one"')
    file = DeviceFile.parse(Path("device.toml"), text)
    assert makes_browser(file.packages[1].components[0].filters[0]) == is_browser
    # as the device's browser it gets what it takes alone
    scheme = "ftp" if "ftp" in filter else "https"
    found = said_of(tmp_path, text, Intent.view(f"{scheme}://any.example/"), caller="com.surf")
    assert ("of the browsers" in found["com.surf"].says) == is_browser


def test_adb_shows_a_wildcard_as_it_is_approved(tmp_path: Path) -> None:
    path = tmp_path / "device.toml"
    for top, host in ((RULES, "*.photos.example"), ("", "photos.example")):
        path.write_text(device(PHOTOS, top=top), encoding="utf-8")
        said = run_python("-m", "amctl", "adb", "shell", "pm", "get-app-links", "com.photos", cwd=tmp_path, AMCTL_DEVICE=str(path))
        assert f"      {host}: none\n" in said.out, said


@pytest.mark.parametrize(
    ("top", "host", "said"),
    [
        (RULES, "*.photos.example", ""),
        (RULES, "www.photos.example", "lists www.photos.example: approve '*.photos.example'."),
        (RULES, "other.example", "lists other.example: add one to its manifest."),
        ("", "www.photos.example", ""),
    ],
)
def test_an_approval_that_counts_for_nothing_is_told(top: str, host: str, said: str, tmp_path: Path) -> None:
    path = tmp_path / "device.toml"
    path.write_text(device(PHOTOS, top=top), encoding="utf-8")
    link = ("-m", "amctl", "link", "--device", str(path), "--store", str(tmp_path / "rows"), "com.photos", host)
    approved, denied = run_python(*link), run_python(*link, "--denied")
    assert (approved.status, denied.status, denied.err) == (0, 0, "")
    assert approved.err.rstrip().endswith(said) and bool(approved.err) == bool(said)
