"""What the tests of the desk's page share: a browser, and what a user does in it."""

import os
from collections.abc import Iterator
from contextlib import contextmanager
from pathlib import Path
from shutil import which

import pytest
from desk_help import PATIENCE, Desk, end_browser, until

webdriver = pytest.importorskip("selenium.webdriver", reason="there is no python3-selenium")
from selenium.common.exceptions import WebDriverException  # noqa: E402
from selenium.webdriver.chrome.service import Service  # noqa: E402
from selenium.webdriver.common.action_chains import ActionChains  # noqa: E402
from selenium.webdriver.common.by import By  # noqa: E402
from selenium.webdriver.common.keys import Keys  # noqa: E402

DRIVER = which("chromedriver")
needs_browser = pytest.mark.skipif(DRIVER is None, reason="there is no chromium-driver")
OPTIONS = ("--headless=new", "--no-sandbox", "--disable-gpu", "--disable-dev-shm-usage", "--no-proxy-server", "--hide-scrollbars",
           "--window-size=1440,900", "--disable-extensions", "--no-first-run", "--disable-renderer-backgrounding")
# On a busy machine a browser may hang while it begins: another is begun then.
TRIES = 3
MOST_TABS = 120
# So many times slower the browser runs: what is looked at too early is found so.
SLOWER = float(os.environ.get("DESK_SLOWER") or 1)


class Browser:
    """A browser, and the keys and pointer of its user."""

    def __init__(self) -> None:
        for turn in range(TRIES):
            try:
                self._begin()
                return
            except WebDriverException:
                if turn == TRIES - 1:
                    raise

    def _begin(self) -> None:
        options = webdriver.ChromeOptions()
        for word in OPTIONS:
            options.add_argument(word)
        options.set_capability("goog:loggingPrefs", {"browser": "ALL"})
        self.driver = webdriver.Chrome(service=Service(DRIVER), options=options)
        try:
            self.driver.set_page_load_timeout(60)
            self.driver.set_script_timeout(60)
            self.driver.get("about:blank")
            if SLOWER > 1:
                self.driver.execute_cdp_cmd("Emulation.setCPUThrottlingRate", {"rate": SLOWER})
        except WebDriverException:
            end_browser(self.driver)
            raise

    def resize(self, width: int, height: int, dark: bool = False) -> None:
        self.driver.execute_cdp_cmd("Emulation.setDeviceMetricsOverride",
                                    {"width": width, "height": height, "deviceScaleFactor": 1, "mobile": False})
        self.driver.execute_cdp_cmd("Emulation.setEmulatedMedia", {"features": [
            {"name": "prefers-color-scheme", "value": "dark" if dark else "light"}]})

    def open(self, desk: Desk) -> None:
        self.driver.get(desk.address)
        self.resize(1440, 900)
        until(lambda: self.run("return document.body.dataset.ready"), "the page")

    def run(self, script: str, *words: object) -> object:
        return self.driver.execute_script(script, *words)

    def await_(self, script: str, *words: object) -> object:
        """What a script answers that waits for something."""
        return self.driver.execute_async_script(f"const done = arguments[arguments.length - 1]; (async () => {{ {script} }})().then(done, e => done(String(e)))",
                                                *words)

    def text(self, css: str) -> str:
        return str(self.run("return document.querySelector(arguments[0])?.innerText ?? ''", css))

    def has(self, css: str) -> bool:
        return bool(self.run("return Boolean(document.querySelector(arguments[0]))", css))

    def count(self, css: str) -> int:
        found = self.run("return document.querySelectorAll(arguments[0]).length", css)
        assert isinstance(found, int)
        return found

    def number(self, word: str) -> str:
        return self.text(f"#total-{word}")

    def until_number(self, word: str, value: object) -> None:
        until(lambda: self.number(word) == str(value), f"{word} {value}")

    def until_text(self, css: str, words: str) -> None:
        until(lambda: words in self.text(css), f"{words!r} in {css}")

    # The keyboard.

    def keys(self, *keys: str) -> None:
        """Presses keys where the focus is, even when the page is drawn anew meanwhile."""
        ActionChains(self.driver).send_keys(*keys).perform()

    def chord(self, held: str, key: str) -> None:
        ActionChains(self.driver).key_down(held).send_keys(key).key_up(held).perform()

    def focused(self, css: str) -> bool:
        return bool(self.run("return document.activeElement.matches(arguments[0])", css))

    def tab_to(self, css: str) -> None:
        """Moves the focus by the Tab key alone."""
        for _ in range(MOST_TABS):
            if self.focused(css):
                return
            self.keys(Keys.TAB)
        raise AssertionError(f"{css} can't be reached by Tab")

    def press(self, css: str) -> None:
        self.tab_to(css)
        self.keys(Keys.ENTER)

    def write(self, css: str, text: str) -> None:
        """Writes into a field that has the focus after some Tabs, in place of what is there."""
        self.tab_to(css)
        self.chord(Keys.CONTROL, "a")
        self.keys(text)

    def away(self) -> None:
        """Leaves a field, so that letters are keys."""
        self.run("document.activeElement.blur()")

    def find(self, text: str) -> None:
        self.away()
        self.keys("/")
        self.keys(text)
        until(lambda: self.has("#found:not([hidden]) [role=option]"), f"{text!r} to be found")
        self.keys(Keys.ENTER)

    def choose(self, number: int) -> None:
        self.find(str(number))
        self.until_text("#panel", f"Class {number}")

    def go_to_value(self, key: str) -> None:
        """Moves among the places of the chosen class by the arrows."""
        time, room = key.split(" ")
        until(lambda: self.has(f'#values [data-key="{key}"]'), f"the place {key}")
        self.away()
        self.keys("p")
        for _ in range(200):
            now = str(self.run("return document.activeElement.dataset.key ?? ''"))
            if now == key:
                return
            assert " " in now, "no place has the focus"
            columns = self.run("return [...document.querySelectorAll('#values thead th')].length")
            assert isinstance(columns, int)
            at = self.run("""const cell = document.activeElement.closest("td"), other = document.querySelector(`#values [data-key="${arguments[0]}"]`).closest("td");
                const place = one => [[...one.parentElement.parentElement.children].indexOf(one.parentElement), [...one.parentElement.children].indexOf(one)];
                return [place(cell), place(other)]""", key)
            assert isinstance(at, list)
            (row, column), (to_row, to_column) = at
            self.keys(Keys.ARROW_DOWN if row < to_row else Keys.ARROW_UP if row > to_row else Keys.ARROW_RIGHT if column < to_column else Keys.ARROW_LEFT)
        raise AssertionError(f"{time} {room} can't be reached by the arrows")

    def command(self, line: str, done: str) -> None:
        """Writes a line for the program, and waits until its reply begins so."""
        self.away()
        self.keys(":")
        self.chord(Keys.CONTROL, "a")
        self.keys(line, Keys.ENTER)
        until(lambda: self.text("#reply").startswith(done), f"{done!r} for {line!r}")

    # The pointer.

    def click(self, css: str) -> None:
        def act() -> bool:
            self.driver.find_element(By.CSS_SELECTOR, css).click()
            return True
        until(act, css)

    def set(self, css: str, value: object) -> None:
        """Chooses an option of a list."""
        self.run("const one = document.querySelector(arguments[0]); one.value = arguments[1]; one.dispatchEvent(new Event('change'))", css, str(value))

    def drag(self, css: str, target: str) -> None:
        def act() -> bool:
            one, other = (self.driver.find_element(By.CSS_SELECTOR, name) for name in (css, target))
            ActionChains(self.driver).click_and_hold(one).move_by_offset(10, 10).move_to_element(other).pause(0.1).perform()
            return True
        until(act, f"{css} to be dragged to {target}")
        ActionChains(self.driver).release().perform()

    def faults(self) -> list[str]:
        """What went wrong in the page's own scripts."""
        return [entry["message"] for entry in self.driver.get_log("browser")
                if entry["level"] == "SEVERE" and "ERR_" not in entry["message"]]


@contextmanager
def browser_open() -> Iterator[Browser]:
    browser = Browser()
    try:
        yield browser
    finally:
        end_browser(browser.driver)


def accessible() -> str:
    """The script that looks for what a person who doesn't see well, or has no mouse, would stumble over."""
    return "return " + (Path(__file__).parent / "accessible.js").read_text(encoding="utf-8").partition("\n")[2]
