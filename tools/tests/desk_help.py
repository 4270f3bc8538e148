"""What the tests of the desk share: a desk as a program of its own, a session without the web, and asking both."""

import http.client
import json
import os
import re
import signal
import subprocess
import sys
import time
from collections.abc import Callable, Iterator
from contextlib import contextmanager, suppress
from pathlib import Path
from typing import Any, TypeVar

from conftest import PROGRAM, TOOLS, TOP

from uttab_tools.desk.log import Log
from uttab_tools.desk.session import Session

FACULTY = TOP / "examples/a_faculty"
PROBLEM = FACULTY / "problem.json"
HEADING = "# problem 0"

# On a busy machine the tests wait longer.
PATIENCE = float(os.environ.get("DESK_PATIENCE") or 1)

Answer = TypeVar("Answer")


def until(call: Callable[[], Answer], what: str, seconds: float = 30) -> Answer:
    """The first answer of the call that is true."""
    end, last = time.monotonic() + seconds * PATIENCE, "nothing"
    while time.monotonic() < end:
        try:
            answer = call()
            if answer:
                return answer
        except Exception as error:  # The page is being drawn anew, say.
            last = f"{type(error).__name__}: {error}"[:300]
        time.sleep(0.05)
    raise AssertionError(f"waited in vain for {what}; last: {last}")


def children(process: int) -> Iterator[int]:
    """A process, and all that it began."""
    yield process
    for task in Path(f"/proc/{process}/task").glob("*/children"):
        try:
            found = task.read_text().split()
        except OSError:  # A thread that has ended meanwhile.
            continue
        for child in found:
            yield from children(int(child))


def end_browser(driver: Any) -> None:
    """Ends a browser with all that it began, which its driver leaves behind where that takes long."""
    began = list(children(driver.service.process.pid))
    try:
        driver.quit()
    finally:
        for process in began:
            with suppress(OSError):
                if b"chrom" in Path(f"/proc/{process}/cmdline").read_bytes():
                    os.kill(process, signal.SIGKILL)


def commands(log: Path) -> list[str]:
    """The commands of a log."""
    return [line for line in log.read_text().splitlines() if line and not line.startswith("#")]


def replayed(problem: Path, log: Path) -> str:
    """The totals that `uttab run` ends with on a log, which has no refused command."""
    done = subprocess.run([str(PROGRAM), "run", problem, log], capture_output=True, text=True, timeout=120 * PATIENCE, check=False)
    assert done.returncode == 0, done.stdout[-500:]
    return done.stdout.splitlines()[-1]


@contextmanager
def session_on(log: Path, problem: Path = PROBLEM) -> Iterator[Session]:
    """A session without the web."""
    kept = Log(log, HEADING)
    session = Session([str(PROGRAM), "run", str(problem), "-"], kept, log.with_suffix(".json"), None)
    try:
        yield session
    finally:
        session.process.end()
        kept.close()


class Desk:
    """A desk as a program of its own, as a user starts it."""

    def __init__(self, log: Path, problem: Path = PROBLEM, *more: object, limit: int | None = None) -> None:
        self.log, self.problem, self.more, self.limit = log, problem, more, limit
        self.process: subprocess.Popen[str] | None = None
        self.begin()

    def begin(self) -> None:
        limit = ["prlimit", f"--fsize={self.limit}"] if self.limit else []
        self.told = self.log.with_suffix(".told")
        with self.told.open("a") as told:
            self.process = subprocess.Popen(
                [*limit, sys.executable, "-B", "-P", "-m", "uttab_tools", "desk", str(self.problem), *map(str, self.more),
                 "--log", str(self.log), "--program", str(PROGRAM)],
                stdout=subprocess.PIPE, stderr=told, text=True, env=os.environ | {"PYTHONPATH": str(TOOLS)})
        assert self.process.stdout is not None
        line = self.process.stdout.readline()
        found = re.search(r"http://(\S+?)/(\S+)/", line)
        assert found, self.told.read_text()
        self.address, self.host, self.secret = found[0], found[1], found[2]

    def end(self, how: int = signal.SIGTERM) -> None:
        if self.process:
            self.process.send_signal(how)
            self.process.wait(20 * PATIENCE)
            assert self.process.stdout is not None
            self.process.stdout.close()
            self.process = None

    def request(self, method: str, place: str, body: str | bytes | None = None, secret: str | None = None,
                **headers: str) -> tuple[int, bytes]:
        """The status and the body of the answer to a request. Underlines of a header's name are hyphens."""
        connection = http.client.HTTPConnection(self.host, timeout=60 * PATIENCE)
        named = {"Host": self.host} | {key.replace("_", "-"): value for key, value in headers.items()}
        try:
            connection.request(method, f"/{self.secret if secret is None else secret}/{place}", body, named)
            reply = connection.getresponse()
            return reply.status, reply.read()
        finally:
            connection.close()

    def post(self, place: str, **words: object) -> dict[str, object]:
        """The answer to a request as the page makes it."""
        status, body = self.request("POST", place, json.dumps(words), Origin=f"http://{self.host}", Content_Type="application/json")
        assert status == 200, body
        answer: dict[str, object] = json.loads(body)
        return answer

    def totals(self) -> str:
        replies = self.post("ask", lines=["totals"])["replies"]
        assert isinstance(replies, list)
        return str(replies[0][0])

    def state(self) -> dict[str, object]:
        state = self.post("ask", lines=[])["state"]
        assert isinstance(state, dict)
        return state
