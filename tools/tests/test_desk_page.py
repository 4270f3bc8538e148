"""Tests of the desk's page in a real browser: the tutorial's story, each gesture, who may ask, and who can use it."""

import json
import re
import subprocess
import threading
from collections.abc import Callable, Iterator
from http.server import BaseHTTPRequestHandler, ThreadingHTTPServer
from pathlib import Path

import pytest
from conftest import PROGRAM, WORKED_CASES, needs_cases, needs_program
from desk_browser import Browser, Keys, accessible, browser_open, needs_browser
from desk_help import FACULTY, PROBLEM, Desk, commands, replayed, until

pytestmark = [needs_program, needs_browser]


@pytest.fixture(scope="module")
def browser() -> Iterator[Browser]:
    with browser_open() as browser:
        yield browser


@pytest.fixture
def begin(browser: Browser, tmp_path: Path) -> Iterator[Callable[..., Desk]]:
    """Begins a desk, and opens its page."""
    desks: list[Desk] = []

    def begin(problem: Path = PROBLEM, *more: object) -> Desk:
        desks.append(Desk(tmp_path / f"{problem.stem}.txt", problem, *more))
        browser.open(desks[-1])
        return desks[-1]

    yield begin
    assert browser.faults() == []
    browser.driver.get("about:blank")
    for desk in desks:
        desk.end()


def published(desk: Desk) -> Path:
    return desk.log.with_suffix(".published.json")


def press_item(browser: Browser, menu: str, item: str) -> None:
    """Presses an item of a menu, by the keyboard."""
    browser.press(f"{menu} > summary")
    browser.press(item)


def carry_out_suggestion(browser: Browser, total: int) -> None:
    """Asks for suggestions for the chosen class, and does the one of three placements."""
    browser.away()
    browser.keys("s")
    until(lambda: browser.has("#advice-3"), "a suggestion")
    assert f"total {total}" in browser.text("#advice")
    browser.press("#advice-3")
    browser.until_number("total", total)


def test_the_tutorial_without_a_mouse(browser: Browser, begin: Callable[..., Desk]) -> None:
    """Each step of the tutorial by the keyboard alone. It ends in the same published files, byte for byte."""
    desk = begin()
    for number, key in ((701, "5 1"), (1021, "1 -")):
        browser.choose(number)
        browser.go_to_value(key)
        browser.keys(Keys.ENTER)
        until(lambda key=key, number=number: commands(desk.log)[-1:] == [f"assign {number} {key}"], f"class {number}")
    browser.until_number("unplaced", 61)
    press_item(browser, "#allMenu", "#enrolAll")
    browser.until_number("unsectioned", 0)
    browser.command("search 61 11", "turns 61")
    browser.until_number("total", 427)
    press_item(browser, "#publishMenu", "#publish")
    browser.until_text("#told", "Refused: the timetable isn’t ready: 1 class unplaced")

    browser.away()
    browser.keys("n")
    browser.until_text("#panel", "Optics: Lecture")
    browser.go_to_value("1 3")
    browser.until_text("#detail", "4 would have to go: ")
    carry_out_suggestion(browser, 615)
    browser.command("improve 20000 6", "rounds 20000 changed 13")
    browser.choose(801)
    carry_out_suggestion(browser, 225)
    browser.command("improve 20000 7", "rounds 20000 changed 0")
    browser.away()
    press_item(browser, "#publishMenu", "#publish")
    browser.until_text("#told", "Published, and written to")
    assert published(desk).read_bytes() == (FACULTY / "term.json").read_bytes()

    browser.find("Lecture Room B")
    browser.until_text("#weekHead", "Lecture Room B")
    browser.write("#closeWeeks", "5-14")
    browser.press("#close")
    browser.until_number("hard", 5)
    until(lambda: browser.run("return new Set([...document.querySelectorAll('#grid .m.x .box')].map(one => one.dataset.id)).size") == 5,
          "the classes that are hit")
    browser.press("#takeOutHit")
    browser.until_number("unplaced", 5)
    browser.command("repair 1000 3", "turns 6")
    browser.choose(901)
    carry_out_suggestion(browser, 396)
    browser.command("improve 20000 8", "rounds 20000 changed 4")
    browser.until_number("moved", 8)
    browser.away()
    browser.chord(Keys.CONTROL, "z")
    browser.until_number("moved", 7)
    press_item(browser, "#publishMenu", "#publish")
    browser.until_number("moved", 0)
    assert published(desk).read_bytes() == (FACULTY / "after_week_4.json").read_bytes()
    assert replayed(PROBLEM, desk.log) == desk.totals()


def make_ready(browser: Browser, desk: Desk) -> None:
    """A desk on which all is placed."""
    desk.post("do", lines=["enrol all"], label="Enrolled")
    desk.post("do", lines=["search 2000 11"], label="Searched")
    browser.until_number("unplaced", 0)


def free_ghost(browser: Browser) -> str:
    """A free place of the chosen class in the week."""
    return str(until(lambda: browser.run("return document.querySelector('#grid .g.free .box')?.dataset.key"), "a free place"))


def test_placing_by_the_pointer(browser: Browser, begin: Callable[..., Desk]) -> None:
    desk = begin()
    make_ready(browser, desk)
    before = desk.totals()

    # A place that pushes others out asks first; Esc lets it be.
    browser.choose(1401)
    until(lambda: browser.has("#values .value.out"), "a place where others are")
    key = str(browser.run("return document.querySelector('#values .value.out').dataset.key"))
    browser.click(f'#values [data-key="{key}"]')
    until(lambda: browser.has("#values .armed"), "the question")
    browser.until_text("#detail", "would have to go: ")
    browser.keys(Keys.ESCAPE)
    until(lambda: not browser.has("#values .armed"), "nothing armed")
    browser.click(f'#values [data-key="{key}"]')
    until(lambda: browser.has("#values .armed"), "the question")
    browser.click(f'#values [data-key="{key}"]')
    until(lambda: commands(desk.log)[-1] == f"force 1401 {key}", "the force")
    browser.until_text("#told", "Out: ")
    browser.away()
    browser.chord(Keys.CONTROL, "z")
    until(lambda: desk.totals() == before, "the undo")

    # A ghost in the week, by a click; dragging from the week, and from a list.
    browser.choose(101)
    until(lambda: browser.has("#grid .m.chosen"), "the class")
    ghost = free_ghost(browser)
    browser.click(f'#grid .g [data-key="{ghost}"]')
    until(lambda: commands(desk.log)[-1] == f"assign 101 {ghost}", "the click")
    until(lambda: not browser.has(f'#grid [data-key="{ghost}"]'), "the class at its new place")
    ghost = free_ghost(browser)
    browser.drag("#grid .m.chosen .box", f'#grid .g [data-key="{ghost}"]')
    until(lambda: commands(desk.log)[-1] == f"assign 101 {ghost}", "the drop")
    browser.click("#takeOut")
    browser.until_number("unplaced", 1)
    until(lambda: browser.has("#list [data-id='101']"), "the class in the list")
    assert re.search(r"Not placed: \d+ of its \d+ places (is|are) free", browser.text("#panel .place"))
    ghost = free_ghost(browser)
    browser.drag("#list [data-id='101']", f'#grid .g [data-key="{ghost}"]')
    browser.until_number("unplaced", 0)
    assert commands(desk.log)[-1] == f"assign 101 {ghost}"

    # A lock holds it where it is, and back to before all of this.
    browser.click("#lock")
    until(lambda: browser.has("#grid .m.chosen .lock"), "the lock")
    assert desk.post("ask", lines=[], locked=[101, 701])["locked"] == [101]
    browser.click("#lock")
    until(lambda: not browser.has("#grid .lock"), "no lock")
    browser.click("#tab-steps")
    until(lambda: browser.count("#list .steps li") == 8, "the steps")
    browser.click("#list .steps li:nth-child(6) button")
    until(lambda: desk.totals() == before, "the undo to here")
    assert replayed(PROBLEM, desk.log) == before


def test_weeks_students_and_lists(browser: Browser, begin: Callable[..., Desk], tmp_path: Path) -> None:
    teachers = tmp_path / "teachers.csv"
    teachers.write_text("teacher,class\nAda Lovelace,701\nAda Lovelace,1401\nAlan Turing,801\n")
    desk = begin(PROBLEM, "--teachers", teachers)
    make_ready(browser, desk)
    browser.find("Lovelace")
    browser.until_text("#weekHead", "Ada Lovelace")
    until(lambda: browser.count("#below tbody tr") == 2 and browser.has("#grid .m"), "a teacher's week and classes")

    browser.find("Statistics")
    browser.until_text("#panelHead", "Statistics")
    browser.set("#kind", "course")
    browser.until_text("#weekHead", "Statistics")
    until(lambda: browser.count("#below tbody tr") > 1 and browser.has("#grid .m"), "a course's classes")
    kinds = browser.run("return [...document.querySelectorAll('#weeks option')].map(one => one.value)")
    assert isinstance(kinds, list) and len(kinds) > 1
    every = browser.count("#grid .m")
    browser.set("#weeks", kinds[1])
    until(lambda: 0 < browser.count("#grid .m") < every, "one kind of weeks")

    # A student: the classes, another section, none, and again.
    browser.find("Student 151")
    until(lambda: browser.text("#weekHead") == "Student 151" and browser.count("#below tbody tr") > 3, "the student")
    had = desk.post("ask", lines=["student 151"])["replies"]
    browser.click("#drop")
    browser.until_number("unsectioned", 1)
    until(lambda: not browser.has("#grid .m"), "an empty week")
    browser.click("#enrol")
    browser.until_number("unsectioned", 0)
    until(lambda: browser.has("#grid .m"), "the week")
    picked = browser.run("return [...document.querySelectorAll('#below select')].map(one => one.value).filter(Boolean).map(Number)")
    assert isinstance(picked, list) and isinstance(had, list)
    assert sorted(picked) == sorted(int(line.split()[1]) for line in desk.post("ask", lines=["student 151"])["replies"][0]  # type: ignore[index]
                                    if line.startswith("class "))
    browser.click("#section")
    until(lambda: commands(desk.log)[-1].startswith("section 151 "), "the section")

    # The lists: what isn't right, what costs, what has moved.
    desk.post("publish")
    desk.post("do", lines=["close 3 11111 0 288 111111111111111"], label="Closed")
    desk.post("do", lines=["drop 151"], label="Dropped")
    browser.click("#tab-look")
    until(lambda: browser.count("#list .class") == int(browser.number("hard")) > 0, "the hard conflicts")
    browser.until_text("#list", "Student 151")
    browser.until_text("#list .class", "Lecture Room B")
    browser.click("#tab-costs")
    browser.until_text("#list", "Most students in conflict")
    desk.post("do", lines=["unassign 701"], label="Out")
    browser.click("#tab-moved")
    until(lambda: browser.count("#list .class") == int(browser.number("moved")) == 1, "what has moved")
    browser.until_text("#list", "published: Wed, Fri 10:45")

    # What is made of it, and a line for any command.
    status, draft = desk.request("GET", "draft.json")
    assert status == 200 and len(json.loads(draft)["classes"]) == 62
    status, made = desk.request("GET", "timetable.html")
    assert status == 200 and b"<html" in made
    browser.command("explain 99999", "refused 11")
    browser.command("violations", "class 701 missing")


def test_what_was_used_leaves_the_focus_beside_it(browser: Browser, begin: Callable[..., Desk]) -> None:
    """A place that is taken is no longer one; a reply and a menu are gone when they are closed."""
    desk = begin()
    browser.choose(701)
    browser.go_to_value("5 1")
    browser.keys(Keys.ENTER)
    until(lambda: commands(desk.log)[-1:] == ["assign 701 5 1"] and browser.focused("#panel"), "the focus beside the place")
    browser.command("explain 701", "value 5 1")
    browser.press("#replyGone")
    assert not browser.text("#reply") and browser.focused("#command") and not browser.has("#replyGone:not([hidden])")
    browser.command("explain 701", "value 5 1")
    browser.keys(Keys.ESCAPE)
    assert not browser.text("#reply")
    browser.away()
    browser.press("#searchMenu > summary")
    assert browser.run("""const edge = one => one.getBoundingClientRect().right;
        return [...document.querySelectorAll("#search *")].filter(one => edge(one) > edge(document.querySelector("#search"))).length""") == 0
    browser.keys(Keys.ESCAPE)
    assert browser.focused("#searchMenu > summary")


def test_a_list_follows_what_is_done_and_stays_where_it_is(browser: Browser, begin: Callable[..., Desk]) -> None:
    """A list that is long stays scrolled as it was, with what is new in it; that of costs follows when the week is drawn."""
    begin()
    browser.resize(1440, 500)
    browser.choose(701)
    until(lambda: browser.has("#values .value"), "the places")
    browser.run("document.querySelector('#list').scrollTop = 300; document.querySelector('#panel .scroll').scrollTop = 60")
    browser.await_("await new Promise(requestAnimationFrame); const app = await import('./app.js'); await app.perform(['assign 101 1 2'], 'Done'); return 1")
    assert not browser.has("#list [data-id='101']") and browser.has("#list [data-id='701'][aria-current]")
    assert browser.run("return [document.querySelector('#list').scrollTop, document.querySelector('#panel .scroll').scrollTop]") == [300, 60]
    browser.resize(1440, 900)
    browser.click("#tab-costs")
    until(lambda: browser.has("#list[aria-busy=false] h3"), "the costs")
    assert not browser.has("#list .class")
    browser.await_("const app = await import('./app.js'); await app.perform(['enrol all', 'search 61 11'], 'Done'); return 1")
    assert browser.has("#list[aria-busy=false] .class")
    first = browser.run("return Number(document.querySelector('#list .class').dataset.id)")
    browser.await_("const app = await import('./app.js'); await app.choose(arguments[0]); return 1", first)
    marked = browser.run("return [...document.querySelectorAll('#list [aria-current]')].map(one => Number(one.dataset.id))")
    assert isinstance(marked, list) and set(marked) == {first}


WATCHED = """window.seen = [];
    new MutationObserver(() => window.seen.push(document.querySelector('#cell-unplaced').innerText.replace(/\\s+/g, ' ')))
        .observe(document.querySelector('#totals'), {childList: true, subtree: true, characterData: true});"""


def test_the_totals_say_what_the_last_command_changed(browser: Browser, begin: Callable[..., Desk]) -> None:
    """At no moment does a number stand beside what an earlier command changed."""
    begin()
    browser.run(WATCHED)
    for line, left in (("assign 701 5 1", 62), ("assign 101 1 2", 61), ("enrol all", 61), ("undo", 61), ("undo", 62)):
        browser.await_("const app = await import('./app.js'); await (arguments[0] === 'undo' ? app.undo() : app.perform([arguments[0]], 'Done')); return 1", line)
        browser.until_number("unplaced", left)
    seen = browser.run("return [...new Set(window.seen)].filter(one => one !== 'Unplaced 63')")
    assert seen == ["Unplaced 62 −1", "Unplaced 61 −1", "Unplaced 61", "Unplaced 62 +1"]


def test_a_search_that_goes_on_without_its_page(browser: Browser, begin: Callable[..., Desk], tmp_path: Path) -> None:
    problem = tmp_path / "made.json"
    problem.write_bytes(subprocess.run([str(PROGRAM), "make", "7", "400"], capture_output=True, check=True).stdout)
    desk = begin(problem)
    desk.post("do", lines=["enrol all"])
    browser.click("#searchMenu > summary")
    words = browser.run("return [...document.querySelectorAll('#word option')].map(one => one.value)")
    assert isinstance(words, list) and {"search", "improve"} <= set(words) <= {"search", "place", "improve", "deluge"}
    browser.set("#seconds", 300)
    browser.click("#search button")
    browser.until_text("#how", "turns")
    browser.driver.get("about:blank")
    turns = desk.state()["search"]["turns"]  # type: ignore[index]
    until(lambda: desk.state()["search"]["turns"] > turns, "more turns")  # type: ignore[index]
    browser.open(desk)
    browser.until_text("#how", "turns")
    until(lambda: browser.has("#grid .m"), "the week while it searches")
    browser.until_text("#list", "While a search runs, this is a moment old.")
    browser.click("#stop")
    until(lambda: desk.state()["search"] is None, "the stop")
    browser.until_text("#told", "search: stopped")
    until(lambda: "a moment old" not in browser.text("#list") and not browser.has("#undo:disabled"), "what may be done again")
    browser.click("#undo")
    browser.until_number("unplaced", 400)
    assert replayed(problem, desk.log) == desk.totals()


def test_a_desk_that_ended_is_told_and_goes_on(browser: Browser, begin: Callable[..., Desk]) -> None:
    desk = begin()
    browser.command("enrol all", "enrolled 200")
    desk.post("stop", atOnce=True)
    browser.command("totals", "")
    until(lambda: desk.totals().startswith("ok "), "another program")
    assert " unsectioned 0 " in desk.totals()
    desk.end()
    browser.until_text("#told", "The desk doesn’t answer")
    desk.begin()
    browser.open(desk)
    browser.until_text("#told", "The log goes on after 1 step")
    browser.until_number("unsectioned", 0)
    browser.faults()


# Another site's page, which even knows the secret.
STRANGER = """<!DOCTYPE html><title>stranger</title><script>
const address = %s, told = {};
const attempt = async (name, act) => { try { told[name] = await act(); } catch (error) { told[name] = "refused"; } };
(async () => {
  await attempt("read", async () => (await fetch(address + "problem")).text());
  await attempt("post", async () => (await fetch(address + "do", {method: "POST", headers: {"Content-Type": "application/json"}, body: '{"lines":["enrol all"]}'})).text());
  await attempt("blind", async () => { await fetch(address + "do", {method: "POST", mode: "no-cors", body: '{"lines":["enrol all"]}'}); return "sent"; });
  await attempt("script", () => new Promise((done, fail) => { const one = document.createElement("script"); one.type = "module"; one.src = address + "desk.js";
    one.onload = () => done("loaded"); one.onerror = fail; document.head.append(one); }));
  await attempt("events", () => new Promise((done, fail) => { const one = new EventSource(address + "events"); one.onmessage = () => done("told"); one.onerror = fail; }));
  await attempt("frame", () => new Promise(done => { const one = document.createElement("iframe"); one.src = address; document.body.append(one);
    one.onload = () => { try { done(one.contentDocument ? one.contentDocument.body.children.length ? "shown" : "refused" : "refused"); } catch (error) { done("refused"); } }; }));
  document.title = JSON.stringify(told);
})();
</script><body>"""


def test_another_site_gets_nothing(browser: Browser, begin: Callable[..., Desk]) -> None:
    desk = begin()

    class Stranger(BaseHTTPRequestHandler):
        def do_GET(self) -> None:
            body = (STRANGER % json.dumps(desk.address)).encode()
            self.send_response(200)
            self.send_header("Content-Type", "text/html")
            self.send_header("Content-Length", str(len(body)))
            self.end_headers()
            self.wfile.write(body)

        def log_message(self, *_: object) -> None:
            """Nothing is told."""

    server = ThreadingHTTPServer(("127.0.0.1", 0), Stranger)
    threading.Thread(target=server.serve_forever, daemon=True).start()
    try:
        browser.driver.get(f"http://127.0.0.1:{server.server_port}/")
        told = json.loads(until(lambda: browser.driver.title if browser.driver.title.startswith("{") else "", "the stranger"))
    finally:
        server.shutdown()
        server.server_close()
    assert told == {"read": "refused", "post": "refused", "blind": told["blind"], "script": "refused", "events": "refused", "frame": "refused"}
    assert " unsectioned 200 " in desk.totals() and commands(desk.log) == []
    browser.faults()


# Who can use it.

VIEWS = [("room", 3), ("course", 14), ("student", 151), ("room", 1)]


def test_nobody_stumbles(browser: Browser, begin: Callable[..., Desk]) -> None:
    desk = begin()
    make_ready(browser, desk)
    desk.post("publish")
    desk.post("do", lines=["close 3 11111 0 288 000011111111110", "lock 701"], label="Closed")
    desk.post("do", lines=["unassign 1401"], label="Out")
    check, found = accessible(), []
    for width, dark in ((1440, False), (1440, True), (1024, False), (800, True), (390, True), (390, False)):
        browser.resize(width, 900, dark)
        browser.choose(1401)
        for place, (kind, number) in enumerate(VIEWS):
            browser.away()
            browser.find(f"{kind} {number}" if kind == "student" else str(number)) if kind == "student" else browser.await_(
                "const app = await import('./app.js'); await app.look(arguments[0], arguments[1]); return 1", kind, number)
            browser.await_("const app = await import('./app.js'); await app.setTab(arguments[0]); return 1",
                           ["unplaced", "look", "costs", "steps"][place])
            for part in ("lists", "week", "panel"):
                browser.run("document.body.dataset.part = arguments[0]", part)
                told = browser.run(check)
                assert isinstance(told, list)
                found += [f"{width} {'dark' if dark else 'light'} {kind} {part}: {one}" for one in told]
    assert sorted(set(found)) == []


# What a screen reader tells by a name, in Chromium's own words.
NAMED = {"button", "link", "textbox", "searchbox", "combobox", "checkbox", "tab", "tablist", "tabpanel", "listbox", "option", "table", "dialog",
         "navigation", "region", "progressbar", "spinbutton", "radio", "heading", "columnheader", "rowheader"}


def test_a_screen_reader_has_names(browser: Browser, begin: Callable[..., Desk]) -> None:
    """By the browser's own reckoning, in each week and each list."""
    desk = begin()
    make_ready(browser, desk)
    desk.post("do", lines=["close 3 11111 0 288 000011111111110", "lock 701", "unassign 1401"], label="Closed")
    browser.choose(1401)
    seen: set[str] = set()
    for kind, number, tab in (("room", 3, "unplaced"), ("course", 14, "look"), ("student", 151, "costs"), ("room", 1, "steps")):
        browser.await_("const app = await import('./app.js'); await app.look(arguments[0], arguments[1]); await app.setTab(arguments[2]); return 1",
                       kind, number, tab)
        nodes = browser.driver.execute_cdp_cmd("Accessibility.getFullAXTree", {})["nodes"]
        parts = [(node["role"]["value"], node.get("name", {}).get("value", "").strip()) for node in nodes if not node["ignored"]]
        seen |= {role for role, _ in parts}
        assert [role for role, name in parts if role in NAMED and not name] == []
    assert {"button", "checkbox", "combobox", "tab", "table", "heading", "status", "search"} <= seen, seen


def test_on_paper_is_the_week_alone(browser: Browser, begin: Callable[..., Desk]) -> None:
    desk = begin()
    make_ready(browser, desk)
    browser.choose(1401)
    until(lambda: browser.has("#grid .g"), "the places")
    browser.driver.execute_cdp_cmd("Emulation.setEmulatedMedia", {"media": "print"})
    try:
        shown = browser.run("""return [...document.querySelectorAll("body *")].filter(one => one.checkVisibility() && one.getBoundingClientRect().height > 1)
            .filter(one => one.matches("h1, h2, #grid .m, #grid .g, input, select, progress, summary, #lists, #panel, #totals, footer, nav, button:not(.link, .m .box)"))
            .map(one => one.className.split(" ")[0] || one.tagName)""")
    finally:
        browser.driver.execute_cdp_cmd("Emulation.setEmulatedMedia", {"media": ""})
    assert isinstance(shown, list) and sorted(set(shown)) == ["H1", "H2", "m"]


def test_names_go_in_any_direction_and_are_no_markup(browser: Browser, begin: Callable[..., Desk], tmp_path: Path) -> None:
    names = tmp_path / "names.csv"
    names.write_text('kind,id,name\nroom,3,"<img src=x onerror=alert(1)>"\ncourse,14,"بصريات"\nclass,1401,"a\u202eb"\n'
                     f"room,4,{'x' * 200}\n", encoding="utf-8")
    desk = begin(PROBLEM, "--names", names)
    make_ready(browser, desk)
    browser.choose(1401)
    assert "\u2068بصريات: a\u202eb\u2069" in browser.text("#panelHead")
    browser.find("onerror")
    browser.until_text("#weekHead", "<img src=x onerror=alert(1)>")
    assert not browser.has("img")
    for width in (1440, 390):
        browser.resize(width, 900)
        browser.find("xxxx")
        browser.until_text("#weekHead", "xxxx")
        assert browser.run("return document.documentElement.scrollWidth <= innerWidth + 1")


# The reading of replies.

def explain_lines(read: dict[str, object]) -> list[str]:
    value = read["value"]
    lines = [f"value {value['t']} {value['r']}" if isinstance(value, dict) else "value none"]
    lines += [f"penalty time {read['time']} room {read['room']}"] if value else []
    lines += ["closed"] if read["closed"] else []
    lines += [f"clash {one}" for one in read["clashes"]]  # type: ignore[attr-defined]
    lines += [rule_line(one) for one in read["rules"]]  # type: ignore[attr-defined]
    return [*lines, f"students {read['students']} conflicts {read['conflicts']}"]


def rule_line(rule: dict[str, object]) -> str:
    return f"rule {rule['k']} {rule['type']} amount {rule['amount']} " + ("required" if rule["required"] else f"cost {rule['cost']}")


def why_lines(read: dict[str, object]) -> list[str]:
    if read["blocked"]:
        return [f"blocked {' '.join(read['blocked'])}"]  # type: ignore[arg-type]
    outs = [f"out {one['id']} {one['t']} {one['r']} count {one['count']}" for one in read["out"]]  # type: ignore[attr-defined]
    return [*outs, f"trial {read['trial']}"]


def suggest_lines(read: dict[str, object]) -> list[str]:
    if not read["sets"]:
        return [f"tried {read['tried']}", "none"]
    sets = [f"set {one['id']} {one['t']} {one['r']}" for one in read["sets"]]  # type: ignore[attr-defined]
    return [f"tried {read['tried']}", *sets, f"result total {read['total']} moved {'-' if read['moved'] is None else read['moved']}"]


def value_lines(read: list[dict[str, object]]) -> list[str]:
    def end(one: dict[str, object]) -> str:
        if one["kind"] in ("free", "out"):
            return f"out {one['out']} weight {one['weight']} trial {one['trial']}"
        return {"closed": "closed", "rule": f"rule {one.get('rule')}", "locked": f"locked {one.get('locked')}"}[str(one["kind"])]
    return [f"value {one['t']} {one['r']} {end(one)}" for one in read]


def violation_lines(read: dict[str, list[object]]) -> list[str]:
    lines = [f"class {one} missing" for one in read["missing"]] + [f"student {one} invalid" for one in read["students"]]
    lines += [f"clash {one[0]} {one[1]}" for one in read["clashes"]]  # type: ignore[index]
    lines += [f"closed {one}" for one in read["closed"]]
    rules = [(one["k"], f"rule {one['k']} pair {one['classes'][0]} {one['classes'][1]}") for one in read["pairs"]]  # type: ignore[index]
    rules += [(one["k"], f"rule {one['k']} amount {one['amount']}") for one in read["amounts"]]  # type: ignore[index]
    return [*lines, *[line for _, line in sorted(rules, key=lambda rule: rule[0])], f"violations {read['count']}"]


def student_lines(read: dict[str, list[object]]) -> list[str]:
    return [f"class {one}" for one in read["classes"]] + [f"pair {one[0]} {one[1]}" for one in read["pairs"]]  # type: ignore[index]


def cost_lines(read: dict[str, list[dict[str, object]]]) -> list[str]:
    return [rule_line(one) for one in read["rules"]] + [
        f"class {one['id']} time {one['time']} room {one['room']} conflicts {one['conflicts']}" for one in read["classes"]]


def stats_lines(read: list[dict[str, object]]) -> list[str]:
    return [f"count {one['t']} {one['r']} out {one['out']} {one['from']['t']} {one['from']['r']} {one['count']}" for one in read]  # type: ignore[index]


def meets_lines(read: list[dict[str, object]]) -> list[str]:
    return [f"meets {one['id']} {one['count']}" for one in read]


WRITERS: dict[str, Callable[..., list[str]]] = {
    "explain": explain_lines, "why": why_lines, "suggest": suggest_lines, "values": value_lines, "violations": violation_lines,
    "student": student_lines, "meets": meets_lines, "costs": cost_lines, "stats": stats_lines}
REPLY_END = re.compile(r"(ok|refused) ")


def replies_of(text: str, script: list[str]) -> Iterator[tuple[str, list[str]]]:
    """The replies of a run, each with its command."""
    lines = iter(text.splitlines()[1:])
    for command in (line for line in script if line.split() and not line.split()[0].startswith("#")):
        reply: list[str] = []
        for line in lines:
            reply.append(line)
            if REPLY_END.match(line):
                break
        if reply:
            yield command.split()[0], reply


def stored_replies() -> Iterator[tuple[str, list[str]]]:
    """The replies of the worked cases whose script stands in their own folder."""
    assert WORKED_CASES is not None
    stored = (WORKED_CASES / "stdout").read_text(encoding="utf-8", errors="replace")
    for case in stored.split("\ncase ")[1:]:
        name, _, text = case.partition("\n")
        script = WORKED_CASES / "data" / name.strip() / "script.txt"
        if text.startswith("open ") and script.exists():
            yield from replies_of(text, script.read_text(encoding="utf-8", errors="replace").split("\n"))


def asked_replies() -> Iterator[tuple[str, list[str]]]:
    """The replies of the program to every question about the faculty, at some moments of the tutorial."""
    script = (FACULTY / "script.txt").read_text().splitlines()
    questions = ["violations", "costs", "totals", *[f"{word} {one}" for word in ("explain", "values", "meets", "stats") for one in (701, 801, 901, 1401)],
                 "student 151", "lock all", "values 1401", "undo"]
    asked = [line for at in (4, 8, 23, 29, 45) for line in [*script[:at], *questions]]
    text = subprocess.run([str(PROGRAM), "run", PROBLEM, "-"], input="\n".join(asked) + "\n", capture_output=True, text=True, check=False).stdout
    return replies_of(text, asked)


@needs_cases
def test_replies_are_read_as_they_are_written(browser: Browser, begin: Callable[..., Desk]) -> None:
    """What the page reads of a reply is written anew: it is the same lines."""
    begin()
    replies = [pair for pair in [*stored_replies(), *asked_replies()] if pair[0] in WRITERS and pair[1][-1].startswith("ok ")]
    seen = {command for command, _ in replies}
    assert seen == set(WRITERS), set(WRITERS) - seen
    read = browser.await_("""const R = await import("./replies.js");
        return arguments[0].map(([command, reply]) => { const read = R[command](reply); return read instanceof Map ? [...read.values()] : read; })""", replies)
    assert isinstance(read, list)
    for (command, reply), one in zip(replies, read, strict=True):
        assert WRITERS[command](one) == reply[:-1], (command, reply)
    totals = browser.await_("""const R = await import("./replies.js"); return arguments[0].map(R.totals)""", [reply[-1] for _, reply in replies])
    assert isinstance(totals, list)
    for (_, reply), one in zip(replies, totals, strict=True):
        words = reply[-1].split()[1:]
        assert one == {key: None if value == "-" else int(value) for key, value in zip(words[::2], words[1::2])}
