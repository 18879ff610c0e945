"""The page in a browser.

With AM_SCREENSHOTS=FOLDER the documents' pictures are kept there, and with AM_GLANCES=FOLDER some that show what is hard to draw."""
import os
import shutil
import subprocess
import sys
import time
from collections.abc import Callable, Iterator
from contextlib import contextmanager
from pathlib import Path

import pytest

from amctl import Device, Intent, IntentFilter, Refusal, words_ui
from amctl.children import ending_with_this_process
from amctl.find import find_am
from conftest import CLIENT, EXAMPLES, PATIENCE_SECONDS, run_python
from ui_devices import LINK as SHOP, NEWS, long, long_names, many_apps

pytest.importorskip("selenium", reason="Debian's python3-selenium isn't installed")
pytest.importorskip("uvicorn", reason="Debian's python3-uvicorn isn't installed")
pytest.importorskip("starlette", reason="Debian's python3-starlette isn't installed")
CHROMIUM, DRIVER = shutil.which("chromium"), shutil.which("chromedriver")
pytestmark = pytest.mark.skipif(CHROMIUM is None or DRIVER is None, reason="Debian's chromium and chromium-driver aren't installed")

from selenium.webdriver import Chrome
from selenium.webdriver.chrome.options import Options
from selenium.webdriver.chrome.service import Service
from selenium.webdriver.common.by import By
from selenium.webdriver.common.keys import Keys
from selenium.webdriver.remote.webelement import WebElement

PHOTOS, ORDERS = EXAMPLES / "device.toml", EXAMPLES / "orders.toml"
LINK = "https://www.photos.example/album/cats"
ORDER = Intent(action="org.example.ORDER")
SHOT_LIMIT = 150_000
EXAMPLE = words_ui.PAGE["an_example"]
WIDE, NARROW = (1280, 800), (390, 844)


@contextmanager
def started(*words: str) -> Iterator[tuple["subprocess.Popen[str]", str]]:
    """A program of `amctl` with the URL or the port that it prints; it is ended after the test."""
    command = [sys.executable, "-m", "amctl", *words, "--am", str(find_am())]
    with subprocess.Popen(command, cwd=CLIENT, stdout=subprocess.PIPE, text=True, preexec_fn=ending_with_this_process()) as program:
        try:
            assert program.stdout is not None
            yield program, program.stdout.readline().strip()
        finally:
            program.terminate()


@contextmanager
def served(file: Path) -> Iterator[tuple[Device, "subprocess.Popen[str]", str]]:
    """A server, a device that asks it, and the page's address."""
    with started("serve", str(file)) as (program, line):
        url = f"http://{line.split()[-1]}"
        with Device.connect(url, file) as asked, started("ui", "--device", str(file), "--url", url) as (_, said):
            yield asked, program, said.split()[4]


@pytest.fixture(scope="session")
def chrome() -> Iterator[Chrome]:
    options = Options()
    for word in ("--headless=new", "--no-sandbox", "--disable-gpu", "--disable-dev-shm-usage", "--window-size=860,860", "--hide-scrollbars"):
        options.add_argument(word)  # type: ignore[no-untyped-call]
    options.binary_location = str(CHROMIUM)
    options.set_capability("goog:loggingPrefs", {"browser": "ALL"})
    made = Chrome(service=Service(str(DRIVER)), options=options)
    try:
        yield made
    finally:
        made.quit()


@pytest.fixture
def browser(chrome: Chrome) -> Iterator[Chrome]:
    """A window of its own, and nothing in the browser's log yet."""
    first = chrome.current_window_handle
    chrome.switch_to.new_window("window")
    chrome.set_window_size(860, 860)
    faults(chrome)
    yield chrome
    chrome.close()
    chrome.switch_to.window(first)


def faults(browser: Chrome) -> list[str]:
    return [str(it["message"]) for it in browser.get_log("browser") if it["level"] == "SEVERE"]  # type: ignore[no-untyped-call]


def until(holds: Callable[[], bool]) -> None:
    """Waits until it holds; what was drawn anew in between is looked for again."""
    from selenium.common.exceptions import WebDriverException

    end = time.monotonic() + PATIENCE_SECONDS
    while time.monotonic() < end:
        try:
            if holds():
                return
        except WebDriverException:
            pass
        time.sleep(0.05)
    raise AssertionError("it never held")


def at(browser: Chrome, selector: str) -> WebElement:
    return browser.find_element(By.CSS_SELECTOR, selector)


def text(browser: Chrome, selector: str) -> str:
    return at(browser, selector).text


def pressed(browser: Chrome, selector: str) -> bool:
    """Presses a button, which is drawn anew now and then."""
    at(browser, selector).click()
    return True


def keep(browser: Chrome, name: str, variable: str = "AM_SCREENSHOTS") -> None:
    """Keeps a picture of the view for the documents, if one is asked for."""
    folder = os.environ.get(variable)
    if folder:
        browser.execute_script("window.scrollTo(0, 0)")  # type: ignore[no-untyped-call]
        picture = browser.get_screenshot_as_png()
        assert len(picture) < SHOT_LIMIT
        (Path(folder) / f"page-{name}.png").write_bytes(picture)


def glance(browser: Chrome, name: str) -> None:
    """Keeps a picture that no document shows, for whoever changes how the page looks."""
    keep(browser, f"{name}-{measured(browser, 'innerWidth')}", "AM_GLANCES")


def ask(browser: Chrome, link: str, caller: str = "com.browser") -> None:
    """Asks with the example's form, and waits until its answer is replaced."""
    until(lambda: EXAMPLE in text(browser, "#answer"))
    at(browser, "[name=from]").send_keys(caller)
    at(browser, "[name=data]").clear()
    at(browser, "[name=data]").send_keys(link, Keys.ENTER)
    until(lambda: bool(text(browser, "#answer .line")) and EXAMPLE not in text(browser, "#answer"))


def sized(browser: Chrome, width: int, height: int, scheme: str = "light") -> None:
    """A window of this size, whatever the least is that the browser gives to one."""
    browser.execute_cdp_cmd("Emulation.setDeviceMetricsOverride", {"width": width, "height": height, "deviceScaleFactor": 1, "mobile": False})
    browser.execute_cdp_cmd("Emulation.setEmulatedMedia", {"features": [{"name": "prefers-color-scheme", "value": scheme}]})


def measured(browser: Chrome, expression: str) -> int:
    return int(browser.execute_script(f"return {expression}"))  # type: ignore[no-untyped-call]


def sideways(browser: Chrome) -> int:
    """How far the page is wider than its window."""
    return measured(browser, "document.documentElement.scrollWidth - document.documentElement.clientWidth")


def test_the_answer_turns_round_once_the_link_is_approved(browser: Chrome) -> None:
    with started("ui", "--device", str(PHOTOS)) as (_, said):
        browser.get(said.split()[4])
        ask(browser, LINK)
        assert text(browser, "#answer .line") == "com.browser/.Page opens."
        assert "no default browser is set" in text(browser, "#answer .card:nth-of-type(2)")
        keep(browser, "ask")
        at(browser, "#answer .card button").click()
        until(lambda: text(browser, "#answer .line") == "com.photos/.Album opens.")
        assert "Approve com.photos for www.photos.example" in text(browser, ".copy")
        at(browser, ".copy button").click()
        until(lambda: text(browser, "#answer .line") == "com.browser/.Page opens.")
        assert faults(browser) == []


def test_an_ordered_broadcast_is_watched_to_its_result(browser: Chrome) -> None:
    with served(ORDERS) as (device, _, page):
        browser.get(f"{page}#now")
        until(lambda: "No live broadcasts." in text(browser, "#broadcasts"))
        device.app("com.shop").send(ORDER, ordered=True, code=1, result=True)
        until(lambda: text(browser, ".turns .turn").startswith("com.guard/.Check has the turn"))
        assert text(browser, ".turns .waits") == "com.shop/.Ledger waits"
        assert "60,000 ms after the last call" in text(browser, ".turns .turn")
        device.app("com.guard").finish(1, code=2, data="looked at")
        until(lambda: text(browser, ".turns .turn").startswith("com.shop/.Ledger has the turn"))
        device.app("com.shop").finish(2)
        until(lambda: "result of broadcast 1: code 2, data looked at" in text(browser, "#broadcasts"))
        assert not browser.find_elements(By.CSS_SELECTOR, ".turns")
        assert faults(browser) == []


def test_a_moment_is_shown_as_stacks(browser: Chrome) -> None:
    with served(PHOTOS) as (device, _, page):
        app = device.app("com.browser")
        app.start(Intent.view(LINK).with_flag("NEW_TASK"))
        app.start(Intent(component="com.browser/.Settings"), source=1)
        device.app("com.photos").start(Intent(component="com.photos/.Album").with_flag("NEW_TASK"))
        device.app("com.photos").register(IntentFilter(("org.example.NEWS",), priority=3))
        device.app("com.browser").send(Intent(action="org.example.NEWS"), ordered=True)
        browser.get(f"{page}#now")
        until(lambda: len(browser.find_elements(By.CSS_SELECTOR, ".stack")) == 2)
        assert text(browser, ".stack.front strong") == "Task 2 (front)"
        assert "1 com.photos" in text(browser, "#registered")
        keep(browser, "now")
        at(browser, "#tab-device").click()
        until(lambda: "any app" in text(browser, "#installed"))
        assert "com.browser alone: it isn't exported" in text(browser, "#installed")
        keep(browser, "device")
        assert faults(browser) == []


def test_many_calls_are_scrolled(browser: Chrome) -> None:
    """Far more than fit into the timeline, which has a row for those alone that are shown, and gets them in pages."""
    with served(ORDERS) as (device, _, page):
        for number in range(300):
            device.app("com.shop").send(ORDER, ordered=True, code=number)
            device.app("com.guard").finish(2 * number + 1, code=number + 1, data="looked at")
            device.app("com.shop").finish(2 * number + 2)
            device.system.tick()
        # a list full of text would make a large picture
        browser.set_window_size(800, 780)
        browser.get(f"{page}#history")
        until(lambda: text(browser, "#count") == "1,200 stored calls")
        until(lambda: text(browser, "#call-0").startswith("0 · send · com.shop"))
        browser.execute_script("document.getElementById('timeline').scrollTop = 1e9")  # type: ignore[no-untyped-call]
        until(lambda: text(browser, "#call-1199").startswith("1199 · tick · android"))
        assert len(browser.find_elements(By.CSS_SELECTOR, ".row")) < 60
        at(browser, "#timeline").send_keys(Keys.END)
        until(lambda: text(browser, "#entry h2") == "1199 · tick · android")
        at(browser, "#timeline").send_keys(Keys.ARROW_UP, Keys.ARROW_UP)
        until(lambda: text(browser, "#entry h2") == "1197 · finish · com.guard")
        until(lambda: "looked at" in text(browser, "#entry") and at(browser, "#call-1197").get_attribute("aria-selected") == "true")
        until(lambda: pressed(browser, "#entry .buttons:nth-of-type(1) button"))
        until(lambda: text(browser, "#entry h2") == "1196 · send · com.shop")
        keep(browser, "history")
        step = "return document.activeElement.dataset.step"
        assert browser.execute_script(step) == "before"  # type: ignore[no-untyped-call]
        at(browser, "#entry .buttons:nth-of-type(2) button:nth-child(3)").click()
        until(lambda: text(browser, "#entry pre:last-of-type") == "amctl has no command for this call: copy it as pytest or as curl.")
        assert faults(browser) == []


def test_a_server_that_stops_is_shown_as_gone(browser: Chrome) -> None:
    with served(ORDERS) as (_, program, page):
        browser.get(page)
        until(lambda: bool(browser.find_elements(By.CSS_SELECTOR, "[name=from] option")))
        assert not at(browser, "#gone").is_displayed()
        program.terminate()
        until(lambda: text(browser, "#gone").startswith("nothing listens at http://127.0.0.1:"))
        assert faults(browser) == []


def test_the_first_screen_has_an_example_that_is_answered(browser: Chrome) -> None:
    with started("ui", "--device", str(ORDERS)) as (_, said):
        sized(browser, *WIDE)
        browser.get(said.split()[4])
        until(lambda: text(browser, "#answer .line") == "com.shop/.Ledger and com.guard/.Check get it.")
        assert EXAMPLE in text(browser, "#answer")
        fields = {it: at(browser, f"[name={it}]").get_attribute("value") for it in ("from", "kind", "action", "data")}
        assert fields == {"from": "com.shop", "kind": "receiver", "action": ORDER.action, "data": ""}
        at(browser, "#clear").click()
        assert (at(browser, "[name=action]").get_attribute("value"), text(browser, "#answer")) == ("", "")
        at(browser, "#example").click()
        until(lambda: text(browser, "#answer .line") == "com.shop/.Ledger and com.guard/.Check get it.")
        assert faults(browser) == []


def test_every_field_is_asked_by_keys_alone(browser: Chrome) -> None:
    with started("ui", "--device", str(ORDERS)) as (_, said):
        browser.get(said.split()[4])
        until(lambda: EXAMPLE in text(browser, "#answer"))
        at(browser, "[name=permission]").send_keys("org.example.AUDIT")
        at(browser, "#more summary").send_keys(Keys.ENTER)
        at(browser, "[value=FOREGROUND]").send_keys(Keys.SPACE)
        at(browser, "#add").send_keys(Keys.ENTER)
        browser.switch_to.active_element.send_keys("count")
        at(browser, ".extra .sort").send_keys("whole")
        at(browser, ".extra .value").send_keys("many", Keys.ENTER)
        until(lambda: text(browser, "#answer .line") == words_ui.no_number("count", "many"))
        assert text(browser, "#set") == "set: FOREGROUND, 1 extra, org.example.AUDIT"
        at(browser, ".extra .value").clear()
        at(browser, ".extra .value").send_keys("7", Keys.ENTER)
        until(lambda: "it doesn't hold org.example.AUDIT, which the sender asks for" in text(browser, "#answer"))
        at(browser, ".extra button").send_keys(Keys.ENTER)
        assert text(browser, "#set") == "set: FOREGROUND, org.example.AUDIT"
        # another kind has no receiver's permission
        at(browser, "[name=kind]").send_keys("activity")
        assert not at(browser, "[name=permission]").is_displayed()
        at(browser, "[name=action]").clear()
        at(browser, "[name=component]").send_keys("com.shop/.Ledger", Keys.ENTER)
        until(lambda: text(browser, "#answer .line") == "the device has no activity.")
        assert faults(browser) == []


@pytest.mark.parametrize("size", [WIDE, NARROW])
def test_sixty_apps_fit(browser: Chrome, tmp_path: Path, size: tuple[int, int]) -> None:
    with started("ui", "--device", str(many_apps(tmp_path, 60))) as (_, said):
        sized(browser, *size)
        browser.get(said.split()[4])
        ask(browser, SHOP, "com.app01")
        assert text(browser, "#answer .line") == "com.browser/.Page opens."
        assert measured(browser, "document.getElementById('answer').offsetHeight") <= 3 * size[1]
        assert [it.text for it in browser.find_elements(By.CSS_SELECTOR, "#answer .fold")] == ["59 whose filters don't list the action", "1 not approved for the host"]
        keep(browser, "sixty" if size == WIDE else "narrow")
        # by the contents to what is folded, and by the search to one of it
        at(browser, "#answer .contents button:nth-child(2)").send_keys(Keys.ENTER)
        until(lambda: len(browser.find_elements(By.CSS_SELECTOR, "#answer .fold .card")) == 59)
        assert browser.switch_to.active_element.text == "59 whose filters don't list the action"
        at(browser, "#answer [type=search]").send_keys("app07")
        until(lambda: [it.text for it in browser.find_elements(By.CSS_SELECTOR, "#answer .card b")] == ["com.app07/.Main"])
        assert text(browser, "#answer .fold summary") == "1 of 59 whose filters don't list the action"
        at(browser, "#tab-device").click()
        until(lambda: len(browser.find_elements(By.CSS_SELECTOR, "#installed .fold")) == 60)
        assert measured(browser, "document.documentElement.scrollHeight") <= 3 * size[1]
        glance(browser, "apps")
        at(browser, "#installed .contents button:nth-child(60)").send_keys(Keys.ENTER)
        until(lambda: browser.switch_to.active_element.text == "com.app59 · 3 components, 3 for any app")
        at(browser, "#installed [type=search]").send_keys(".Offers")
        until(lambda: len(browser.find_elements(By.CSS_SELECTOR, "#installed .fold")) == 11)
        assert len(browser.find_elements(By.CSS_SELECTOR, "#installed tbody tr")) == 11
        assert sideways(browser) == 0 and faults(browser) == []


def test_sixty_receivers_of_a_broadcast_fit(browser: Chrome, tmp_path: Path) -> None:
    with served(many_apps(tmp_path, 60)) as (device, _, page):
        sized(browser, *NARROW)
        device.system.send(Intent(action=NEWS), ordered=True)
        for number in range(1, 4):
            device.app(f"com.app{number:02}").finish(number)
        browser.get(f"{page}#now")
        until(lambda: text(browser, ".turns .turn").startswith("com.app04/.News has the turn"))
        assert [it.text for it in browser.find_elements(By.CSS_SELECTOR, "#broadcasts summary")] == ["3 are done", "55 wait"]
        at(browser, "#broadcasts .fold:last-of-type summary").click()
        until(lambda: len(browser.find_elements(By.CSS_SELECTOR, "#broadcasts .waits")) == 55)
        device.app("com.app04").finish(4)
        # what a person opened stays open
        until(lambda: text(browser, ".turns .turn").startswith("com.app05/.News has the turn"))
        assert len(browser.find_elements(By.CSS_SELECTOR, "#broadcasts .waits")) == 54
        assert sideways(browser) == 0 and faults(browser) == []


@pytest.mark.parametrize("size", [WIDE, NARROW])
def test_names_of_sixty_characters_scroll_nothing_sideways(browser: Chrome, tmp_path: Path, size: tuple[int, int]) -> None:
    with served(long_names(tmp_path, 5)) as (device, _, page):
        app = device.app(long("com.app0"))
        with pytest.raises(Refusal):
            app.start(Intent.view(f"https://{long('shop')}/").with_flag("NEW_TASK"))
        app.start(Intent(component=f"{app.package}/{long('.activity')}", extras={long("extra"): long("value")}).with_flag("NEW_TASK"))
        app.start_service(Intent(component=f"{app.package}/{long('.Sync')}"))
        app.register(IntentFilter((long("org.example.SHARE"),)))
        app.send(Intent(action=long("org.example.SHARE")), ordered=True, result=True)
        sized(browser, *size)
        browser.get(page)
        until(lambda: EXAMPLE in text(browser, "#answer"))
        at(browser, "#more summary").click()
        at(browser, "#add").click()
        at(browser, ".extra .key").send_keys(long("extra"))
        at(browser, "[name=component]").send_keys(f"{app.package}/{long('.activity')}")
        assert sideways(browser) == 0
        glance(browser, "names-ask")
        at(browser, "#tab-now").click()
        until(lambda: bool(browser.find_elements(By.CSS_SELECTOR, ".turns .turn")) and bool(text(browser, "#registered")))
        assert sideways(browser) == 0
        glance(browser, "names-now")
        at(browser, "#tab-history").click()
        until(lambda: text(browser, "#call-0").startswith("0 · "))
        for number in range(5):
            until(lambda: pressed(browser, f"#call-{number}") and text(browser, "#entry h2").startswith(f"{number} · "))
            assert sideways(browser) == 0
        until(lambda: pressed(browser, "[data-copy=test]") and at(browser, "pre.copied").is_displayed())
        assert sideways(browser) == 0
        glance(browser, "names-history")
        at(browser, "#tab-device").click()
        until(lambda: "any app" in text(browser, "#installed"))
        assert sideways(browser) == 0
        glance(browser, "names-device")
        assert faults(browser) == []


def test_refused_calls_are_marked_filtered_and_copied_as_one_test(browser: Chrome, tmp_path: Path) -> None:
    with served(ORDERS) as (device, _, page):
        device.app("com.shop").send(ORDER, ordered=True, code=1)
        with pytest.raises(Refusal):
            device.app("com.shop").finish(1)
        device.app("com.guard").finish(1, code=2)
        with pytest.raises(Refusal):
            device.app("com.guard").finish(1)
        browser.get(f"{page}#history")
        until(lambda: "refused: not_yours" in text(browser, "#call-1"))
        at(browser, "[name=refused]").click()
        until(lambda: text(browser, "#count") == "2 of 4 stored calls")
        assert [it.text.split(" · ")[0] for it in browser.find_elements(By.CSS_SELECTOR, ".row")] == ["1", "3"]
        at(browser, "#filters [name=caller]").send_keys("com.guard")
        until(lambda: text(browser, "#count") == "1 of 4 stored calls")
        at(browser, "#timeline").send_keys(Keys.END)
        until(lambda: text(browser, "#entry h2") == "3 · finish · com.guard")
        glance(browser, "refused")
        at(browser, "[data-copy=test]").click()
        until(lambda: "test_calls_0_to_3" in text(browser, "pre.copied"))
        (tmp_path / "test_pasted.py").write_text(text(browser, "pre.copied"), encoding="utf-8")
        ran = run_python("-m", "pytest", "-q", "-p", "no:cacheprovider", "-p", "amctl.pytest_plugin", "test_pasted.py", cwd=tmp_path)
        assert "1 passed" in ran.out, ran.out
        # whatever the filters leave out is shown when its number is asked for
        at(browser, "#goto [name=at]").send_keys("0", Keys.ENTER)
        until(lambda: text(browser, "#entry h2") == "0 · send · com.shop")
        assert text(browser, "#count") == "4 stored calls"
        assert faults(browser) == []


def test_keys_alone_lead_through_the_views_and_a_narrow_dark_window_fits(browser: Chrome) -> None:
    with started("ui", "--device", str(PHOTOS)) as (_, said):
        sized(browser, 360, 740, "dark")
        browser.get(said.split()[4])
        ask(browser, LINK)
        at(browser, "#tab-ask").send_keys(Keys.ARROW_LEFT)
        until(lambda: "any app" in text(browser, "#installed"))
        focused = "return document.activeElement.id + getComputedStyle(document.activeElement).outlineStyle"
        assert browser.execute_script(focused) == "tab-devicesolid"  # type: ignore[no-untyped-call]
        for view in ("ask", "now", "history", "device"):
            at(browser, f"#tab-{view}").click()
            assert sideways(browser) == 0
        assert at(browser, "body").value_of_css_property("background-color") == "rgba(20, 24, 28, 1)"
        assert faults(browser) == []
