"""Tests of pages in a browser: wide, narrow, on paper, by keyboard, and names from right to left."""

import base64
import json
import re
import shutil
from collections.abc import Iterator
from pathlib import Path
from typing import Any

import pytest
from conftest import TOP
from desk_help import end_browser, until

from uttab_tools.__main__ import main

selenium = pytest.importorskip("selenium", reason="there is no python3-selenium")
from selenium import webdriver  # noqa: E402
from selenium.webdriver.chrome.options import Options  # noqa: E402
from selenium.webdriver.chrome.service import Service  # noqa: E402
from selenium.webdriver.common.keys import Keys  # noqa: E402

DRIVER, BROWSER = shutil.which("chromedriver"), shutil.which("chromium-headless-shell") or shutil.which("chromium")
pytestmark = pytest.mark.skipif(not DRIVER or not BROWSER, reason="there is no chromium with its chromium-driver")
FACULTY = TOP / "examples/a_faculty"

LONG = "a" * 120
PROBLEM = {
    "name": "كلية العلوم", "nrDays": 5, "nrWeeks": 4, "slotsPerDay": 288,
    "rooms": [{"id": 1, "name": "قاعة"}, {"id": 2, "name": "turned \u202eround"}, {"id": 3, "name": LONG}],
    "courses": [{"id": 1, "name": "رياضيات", "configs": [{"id": 1, "subparts": [{"id": 1, "classes": [
        {"id": number, "name": name, "rooms": [{"id": number, "penalty": 0}],
         "times": [{"days": "10100", "start": start, "length": 18, "weeks": "1111", "penalty": 0}]}
        for number, name, start in ((1, "محاضرة", 96), (2, "<b>late", 285), (3, LONG, 100))]}]}]}],
    "students": [{"id": 1, "name": "סטודנט", "courses": [1]}],
}
PUBLISHED = {"classes": [{"id": number, "days": "10100", "start": start, "weeks": "1111", "room": number, "students": [1]}
                         for number, start in ((1, 96), (2, 285), (3, 100))]}

# The boxes of the grids that are shown: of each day its text without spaces, where it stands and how high it is.
BOXES = """
return [...document.querySelectorAll(arguments[0] + ' .grid')].map(grid => [...grid.querySelectorAll('.day')].map(day =>
  [...day.querySelectorAll('li')].map(box => [box.textContent.replace(/\\s/g, ''),
    ...['--t', '--l'].map(key => Math.round(1000 * box.style.getPropertyValue(key))),
    Number(box.style.getPropertyValue('--i') || 0), Number(box.style.getPropertyValue('--n') || 1)]).sort()));
"""


@pytest.fixture(scope="module")
def pages(tmp_path_factory: pytest.TempPathFactory) -> Path:
    """The pages that are looked at: the faculty's, that of one student of it, and one of odd names."""
    folder = tmp_path_factory.mktemp("pages")
    faculty = [str(FACULTY / "problem.json"), str(FACULTY / "term.json")]
    assert main(["page", *faculty, "-o", str(folder / "faculty.html")]) == 0
    assert main(["page", *faculty, "--folder", str(folder / "parts"), "--of", "student"]) == 0
    (folder / "p.json").write_text(json.dumps(PROBLEM))
    (folder / "q.json").write_text(json.dumps(PUBLISHED))
    odd = ["page", str(folder / "p.json"), str(folder / "q.json")]
    assert main([*odd, "-o", str(folder / "odd.html")]) == 0
    assert main([*odd, "--student", "1", "-o", str(folder / "odd_student.html")]) == 0
    assert main(["compare", faculty[0], faculty[1], str(FACULTY / "after_week_4.json"), "--as", "page",
                 "-o", str(folder / "changes.html")]) == 0
    return folder


@pytest.fixture(scope="module")
def browser() -> Iterator[Any]:
    options = Options()
    options.binary_location = BROWSER
    for word in ("--headless", "--no-sandbox", "--disable-gpu", "--hide-scrollbars", "--disable-dev-shm-usage"):
        options.add_argument(word)
    found = webdriver.Chrome(service=Service(DRIVER), options=options)
    try:
        found.set_page_load_timeout(180)
        found.set_script_timeout(180)
        yield found
    finally:
        end_browser(found)


def show(browser: Any, path: Path, part: str = "", width: int = 1280) -> None:
    browser.execute_cdp_cmd("Emulation.setDeviceMetricsOverride",
                            {"width": width, "height": 900, "deviceScaleFactor": 1, "mobile": False})
    browser.get("about:blank")
    browser.get(f"file://{path}{part}")


@pytest.mark.parametrize("width", [1280, 390])
@pytest.mark.parametrize("name", ["faculty.html#s17", "odd.html#s1", "odd_student.html", "changes.html"])
def test_nothing_is_wider_than_the_window(name: str, width: int, pages: Path, browser: Any) -> None:
    file, mark, part = name.partition("#")
    show(browser, pages / file, mark + part, width)
    assert browser.execute_script("return document.documentElement.scrollWidth") <= width
    assert [entry for entry in browser.get_log("browser") if entry["level"] == "SEVERE"] == []


def test_a_students_week_is_that_of_his_own_page(pages: Path, browser: Any) -> None:
    """The script's grids are those that the page of one student has: the same boxes at the same places."""
    for student in (17, 61, 103, 151, 200):
        show(browser, pages / f"parts/student_{student}.html")
        own = browser.execute_script(BOXES, "main")
        heads = browser.execute_script("return [...document.querySelectorAll('main > h2')].map(head => head.textContent)")
        show(browser, pages / "faculty.html", f"#s{student}")
        assert browser.execute_script(BOXES, "#student") == own
        shown = browser.execute_script("return [...document.querySelectorAll('#student h4')].map(head => head.textContent)")
        assert len(shown) == len(heads[:-1])


def test_names_of_other_directions_stand_by_themselves(pages: Path, browser: Any) -> None:
    show(browser, pages / "odd.html", "#s1")
    marks = browser.execute_script("return [...document.querySelectorAll('bdi')].map(one => getComputedStyle(one).unicodeBidi)")
    assert set(marks) == {"isolate"} and len(marks) > 10
    # What stands after the name of a room, on its line, stands to the right of it, also where the name turns its own letters.
    for place in (0, 1):
        name, after = browser.execute_script("""
            const item = document.querySelectorAll('#rooms .cols li')[arguments[0]];
            return [item.querySelector('bdi'), item.querySelector('.soft')].map(one => one.getBoundingClientRect().left)""", place)
        assert name < after
    assert browser.execute_script("return document.querySelectorAll('#student b').length") == 0


def pages_of(pdf: str) -> int:
    return len(re.findall(rb"/Type\s*/Page\b", base64.b64decode(pdf)))


def test_on_paper(pages: Path, browser: Any) -> None:
    """A sheet for each room, and a student's week alone while it is shown."""
    printed = {}
    for part in ("", "#s17", "#rooms"):
        show(browser, pages / "faculty.html", part)
        printed[part] = pages_of(browser.execute_cdp_cmd("Page.printToPDF", {"preferCSSPageSize": True})["data"])
    assert 1 <= printed["#s17"] <= 2 and printed[""] == printed["#rooms"] >= 12


def test_by_keyboard(pages: Path, browser: Any) -> None:
    show(browser, pages / "faculty.html")

    def press(*keys: str) -> Any:
        for key in keys:
            browser.switch_to.active_element.send_keys(key)
        return browser.switch_to.active_element
    body = browser.find_element("tag name", "body")
    body.send_keys(Keys.TAB)
    assert browser.switch_to.active_element.text == "Skip to the summary"
    assert press(Keys.TAB).text == "Summary"
    for _ in range(4):
        press(Keys.TAB)
    assert browser.switch_to.active_element.get_attribute("id") == "what"
    press("17", Keys.ENTER)
    # The address changes first, and the page follows it a moment later.
    until(lambda: browser.switch_to.active_element.text == "Student 17", "the student's week to have the focus")
    assert browser.current_url.endswith("#s17")
    outline = browser.execute_script("document.querySelector('#student a').focus();"
                                     "return getComputedStyle(document.activeElement).outlineStyle")
    assert outline != "none"


def test_a_search_that_finds_nothing(pages: Path, browser: Any) -> None:
    show(browser, pages / "faculty.html")
    field = browser.find_element("id", "what")
    field.send_keys("nobody of this name", Keys.ENTER)
    assert browser.find_element("id", "told").text == "No student “nobody of this name” in this timetable."
