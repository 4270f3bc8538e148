"""Opens a page on a running desk: a timetabler's day at `uttab run PROBLEM -`, in a browser.

    desk PROBLEM [PUBLISHED] [--log FILE]

The address that it writes is of this machine alone and has a secret in it. Every accepted command is in the log before the
page shows its reply. The log is a script: `uttab run PROBLEM LOG [PUBLISHED]` leads to the same timetable, and a desk with
the same log goes on where it ends. Ctrl+C ends the desk."""

import argparse
import hashlib
import signal
import sys
import tempfile
import webbrowser
from pathlib import Path

from uttab_tools.desk.facts import Facts
from uttab_tools.desk.files import Maker
from uttab_tools.desk.log import Log
from uttab_tools.desk.process import Ended
from uttab_tools.desk.session import Session, published_text
from uttab_tools.desk.web import Server
from uttab_tools.given import a_count
from uttab_tools.names import Names
from uttab_tools.problem import Problem
from uttab_tools.program import Command, Output, Refused, Usage
from uttab_tools.published import Published
from uttab_tools.teachers import read_teachers
from uttab_tools.uttab_program import program_of

OPENER = """<!DOCTYPE html>
<meta charset="utf-8">
<meta http-equiv="refresh" content="0; url={address}">
<title>Desk</title>
<p>The desk is <a href="{address}">here</a>.
"""


def words(parser: argparse.ArgumentParser) -> None:
    parser.add_argument("problem", metavar="PROBLEM", help="the problem file")
    parser.add_argument("published", metavar="PUBLISHED", nargs="?", help="a timetable that is published from the start")
    parser.add_argument("--log", metavar="FILE", help="the log (PROBLEM with .desk.txt in place of .json, in this folder)")
    parser.add_argument("--save", metavar="FILE", help="where publishing writes the timetable (the log with .published.json)")
    parser.add_argument("--names", metavar="CSV", help="names of rooms, courses, classes, students and days")
    parser.add_argument("--teachers", metavar="CSV", help="teachers and their classes")
    parser.add_argument("--first-day", metavar="DATE", help="the first day of the term, as 2026-10-05: calendars can be made then")
    parser.add_argument("--holidays", metavar="CSV", help="holidays, for the calendars")
    parser.add_argument("--weeks", metavar="N", type=a_count, help="the weeks of the term, for the calendars: the problem’s come again")
    parser.add_argument("--zone", metavar="ZONE", help="the time zone, for the calendars, such as Europe/Prague")
    parser.add_argument("--port", metavar="N", type=int, default=0, help="the port (any that is free)")
    parser.add_argument("--program", metavar="FILE", help="the program (the one built here, or the environment's UTTAB)")
    parser.add_argument("--open", action="store_true", help="open the page in a browser")
    parser.set_defaults(output=None)


def digest_of(name: str) -> str:
    with open(name, "rb") as file:
        return hashlib.file_digest(file, "sha256").hexdigest()[:16]


def heading_of(files: list[str]) -> str:
    """What a log says of the files that it belongs to."""
    return "# problem " + " published ".join(digest_of(name) for name in files)


def open_browser(address: str) -> tempfile.TemporaryDirectory[str] | None:
    """Opens the address in a browser. It is handed over in a file that this user alone can read, since other users of the
    machine can see a program's words."""
    folder = tempfile.TemporaryDirectory(prefix="desk.")
    path = Path(folder.name) / "desk.html"
    path.write_text(OPENER.format(address=address), encoding="ascii")
    if webbrowser.open(path.as_uri()):
        return folder
    folder.cleanup()
    return None


def session_of(given: argparse.Namespace, problem: Problem) -> Session:
    """The session, brought to the end of its log."""
    files = [given.problem] + ([given.published] if given.published else [])
    published = published_text(Published(given.published, problem)) if given.published else None
    log_path = Path(given.log or f"{Path(given.problem).stem}.desk.txt")
    save = Path(given.save or log_path.with_suffix(".published.json"))
    program = [program_of(given.program), "run", given.problem, "-", *files[1:]]
    log = Log(log_path, heading_of(files))
    if log.entries:
        print(f"desk: the log {log_path} is carried out: {len(log.entries)} commands", file=sys.stderr, flush=True)
    try:
        return Session(program, log, save, published)
    except Ended as ended:
        raise Refused(str(ended)) from None
    except OSError as error:
        raise Usage(f"{program[0]}: {error.strerror}: ./uttab makes the program; UTTAB or --program names another one") from None


def words_for(given: argparse.Namespace, *names: str) -> list[str]:
    """Those of these words that are given, as another command takes them."""
    found = [(name, getattr(given, name.replace("-", "_"))) for name in names]
    return [word for name, value in found if value for word in (f"--{name}", str(value))]


def run(given: argparse.Namespace, _: Output) -> int:
    for name in [given.problem, given.published]:
        if name == "-":
            raise Usage("the problem and the published timetable are files: uttab reads them as well")
    problem = Problem(given.problem)
    teachers = read_teachers(given.teachers, problem) if given.teachers else []
    facts = Facts(problem, Names(problem, given.names), teachers)
    term = words_for(given, "first-day", "holidays", "weeks", "zone") if given.first_day else []
    maker = Maker(given.problem, words_for(given, "names", "teachers"), term)
    session = session_of(given, problem)
    try:
        server = Server(given.port, session, facts, maker)
    except OSError as error:
        session.end()
        raise Usage(f"port {given.port}: {error.strerror}") from None
    serve(server, given.open)
    return 0


def serve(server: Server, opened: bool) -> None:
    """Serves until Ctrl+C, or a signal to end."""
    print(f"The desk is at  {server.address}", flush=True)
    print(f"desk: its log is {server.session.log.path}; Ctrl+C ends it", file=sys.stderr, flush=True)
    for which in (signal.SIGTERM, signal.SIGINT, signal.SIGHUP):
        signal.signal(which, signal.default_int_handler)
    opener = open_browser(server.address) if opened else None
    try:
        server.serve_forever()
    except KeyboardInterrupt:
        pass
    finally:
        server.session.end()
        if opener:
            opener.cleanup()


# The words of the output are left out: nothing is written but the log and what is published.
COMMAND = Command("desk", __doc__ or "", words, run, "0 the desk was ended", has_forms=True)
main = COMMAND.main
