"""Measures the desk's page in a real browser: how much processor time and how long each thing takes, and how much memory.

    /usr/bin/python3 tools/tests/desk_figures.py PROBLEM [TURNS]

It enrols all students, searches for so many turns (the number of classes), and then does each thing some times. What is
written is the median of the times, by the clock and of all processors together: the browser's, the server's and the
program's. `UTTAB` names another program, as for the tests."""

import os
import statistics
import sys
import tempfile
import time
from collections.abc import Callable
from pathlib import Path

sys.path[:0] = [str(Path(__file__).resolve().parent), str(Path(__file__).resolve().parents[1])]
from conftest import PROGRAM  # noqa: E402
from desk_browser import Browser, browser_open  # noqa: E402
from desk_help import Desk, children, until  # noqa: E402

TICKS = os.sysconf("SC_CLK_TCK")
TIMES = 9

CHOOSE = "const app = await import('./app.js'); await app.choose(arguments[0], true); return document.body.offsetHeight"
LOOK = "const app = await import('./app.js'); await app.look(arguments[0], arguments[1]); return document.body.offsetHeight"
UNDO = "const app = await import('./app.js'); await app.undo(); return document.body.offsetHeight"
TAB = "const app = await import('./app.js'); await app.setTab(arguments[0]); return document.body.offsetHeight"
PLACE = """const { placeAt } = await import('./values.js'), find = kind => document.querySelector(`#values .value.${kind}`);
    await placeAt((find('free') || find('out')).dataset.key, true);
    return document.body.offsetHeight"""


def used(processes: list[int]) -> float:
    """The processor seconds that these processes and all that they began have used."""
    total = 0
    for root in processes:
        for process in children(root):
            try:
                fields = Path(f"/proc/{process}/stat").read_text().rpartition(")")[2].split()
            except OSError:
                continue
            total += int(fields[11]) + int(fields[12])
    return total / TICKS


def private_megabytes(process: int) -> float:
    lines = Path(f"/proc/{process}/smaps_rollup").read_text().splitlines()
    return sum(int(line.split()[1]) for line in lines if line.startswith("Private_")) / 1024


def renderer_megabytes(root: int) -> float:
    """The memory that the largest renderer of a browser has for itself."""
    found = [0.0]
    for process in children(root):
        if b"--type=renderer" in Path(f"/proc/{process}/cmdline").read_bytes():
            found.append(private_megabytes(process))
    return max(found)


def processor() -> str:
    """What the system calls a processor of this machine."""
    names = [line.partition(":")[2].strip() for line in Path("/proc/cpuinfo").read_text().splitlines() if line.startswith("model name")]
    return names[0] if names else "an unknown kind"


class Figures:
    def __init__(self, browser: Browser, desk: Desk) -> None:
        assert desk.process is not None
        self.browser, self.desk = browser, desk
        self.processes = [browser.driver.service.process.pid, desk.process.pid]

    def measure(self, words: str, act: Callable[[int], object], times: int = TIMES, first: Callable[[int], object] = lambda _: None) -> None:
        clock, processor = [], []
        for turn in range(times):
            first(turn)
            before, began = used(self.processes), time.monotonic()
            act(turn)
            clock.append(time.monotonic() - began)
            processor.append(used(self.processes) - before)
        print(f"{words:<58} {statistics.median(clock):8.2f} {statistics.median(processor):8.2f}", flush=True)

    def page(self, script: str, *words: object) -> object:
        return self.browser.await_(script, *words)


def measure_all(figures: Figures, turns: int) -> None:
    browser, desk = figures.browser, figures.desk
    figures.measure("the page is opened", lambda _: browser.open(desk), 3)
    figures.measure("all students are enrolled", lambda _: desk.post("do", lines=["enrol all"]), 1)
    figures.measure(f"search of {turns:,} turns", lambda _: desk.post("do", lines=[f"search {turns} 1"]), 1)
    until(lambda: browser.number("unplaced") != "", "the totals")
    counts = figures.page("const talk = await import('./talk.js'); return talk.head.counts")
    assert isinstance(counts, dict)
    number = int(counts["class"])
    some = [1 + turn * (number // TIMES - 1) for turn in range(TIMES)]
    figures.measure("the page is opened, with a timetable", lambda _: browser.open(desk), 3)
    figures.measure("a class is chosen: its places and its room’s week", lambda turn: figures.page(CHOOSE, some[turn]))
    figures.measure("a click on a place, until all is drawn anew", lambda _: figures.page(PLACE),
                    first=lambda turn: figures.page(CHOOSE, some[turn]))
    figures.measure("Undo, until all is drawn anew", lambda _: figures.page(UNDO), 5)
    figures.measure("another room’s week", lambda turn: figures.page(LOOK, "room", 1 + turn))
    figures.measure("a student’s week", lambda turn: figures.page(LOOK, "student", 1 + 7 * turn))
    for tab in ("look", "costs", "moved", "steps", "unplaced"):
        figures.measure(f"the list {tab!r}", lambda _, tab=tab: figures.page(TAB, tab), 3)
    figures.measure("a part of a name is found", lambda _: desk.post("find", text="course 12"), 5)
    desk.post("start", word="search", seconds=600, seed=1)
    figures.measure("a class is chosen while a search runs", lambda turn: figures.page(CHOOSE, some[turn]))
    figures.measure("a search is stopped", lambda _: (desk.post("stop"), until(lambda: desk.state()["search"] is None, "the stop")), 1)
    heap = browser.run("return performance.memory.usedJSHeapSize / 2 ** 20")
    assert desk.process is not None and isinstance(heap, float | int)
    print(f"memory in MB: the page’s renderer {renderer_megabytes(figures.processes[0]):.0f}, of which its scripts {heap:.0f}; "
          f"the server {private_megabytes(desk.process.pid):.0f}")


def main(words: list[str]) -> int:
    problem = Path(words[0])
    with tempfile.TemporaryDirectory() as folder:
        began = time.monotonic()
        desk = Desk(Path(folder) / "log.txt", problem)
        assert desk.process is not None
        print(f"{PROGRAM}, {problem}\n{os.cpu_count()} processors of {processor()}, load {os.getloadavg()[0]:.0f}\n"
              f"{'':58} {'clock s':>8} {'proc. s':>8}")
        print(f"{'the desk begins: the problem is read':<58} {time.monotonic() - began:8.2f} {used([desk.process.pid]):8.2f}")
        try:
            with browser_open() as browser:
                measure_all(Figures(browser, desk), int(words[1]) if len(words) > 1 else 3000)
        finally:
            desk.end()
    return 0


if __name__ == "__main__":
    sys.exit(main(sys.argv[1:]))
