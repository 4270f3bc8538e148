"""Makes a change in the middle of a term one of the weeks to come alone.

    midterm rest PROBLEM PUBLISHED --from N --to FOLDER
    midterm whole PROBLEM PUBLISHED NEW --from N --to FOLDER

PUBLISHED and NEW are published files or drafts. `rest` writes the rest of the problem from week N on, and its published
timetable. A session with these two files begins with `recall`, after a draft with `enrol all` behind it; what it publishes at
its end, or its draft, is NEW. `whole` puts the term together again: PUBLISHED up to the week before, NEW
from week N on, as a problem and its published timetable, of which page, table and calendars can be made and which `verify`
checks. Both write `problem.json` and `published.json` into FOLDER."""

import argparse
import json
from collections.abc import Iterator

from uttab_tools.midterm.rest import rest_of
from uttab_tools.midterm.whole import whole_of
from uttab_tools.problem import Problem
from uttab_tools.program import DONE, PARTLY, Command, Folder, Output, Usage, tell
from uttab_tools.published import Published
from uttab_tools.raw import Value
from uttab_tools.sheet import csv_text
from uttab_tools.sizes import lists_above
from uttab_tools.teachers import Teacher, read_teachers

STATUSES = "0 both files are written, and nothing has to be looked at; 1 they are written, and something has to"


def words(parser: argparse.ArgumentParser) -> None:
    forms = parser.add_subparsers(metavar="FORM", required=True)
    for name, does, text in (("rest", _rest, "writes the rest of the problem from a week on"),
                             ("whole", _whole, "puts the whole term together again")):
        form = forms.add_parser(name, help=text, description=text)
        form.add_argument("problem", metavar="PROBLEM", help="the problem of the whole term")
        form.add_argument("published", metavar="PUBLISHED", help="its timetable, as `publish` or `draft` writes it")
        if does is _whole:
            form.add_argument("new", metavar="NEW", help="the timetable of the rest, as `publish` or `draft` writes it")
            form.add_argument("--teachers", metavar="CSV", help="also write teachers.csv: who teaches the classes that became two")
        form.add_argument("--from", dest="first", metavar="N", type=int, required=True,
                          help="the first week to come, counted from 1; at least 2")
        form.add_argument("--to", dest="folder", metavar="FOLDER", required=True, help="the folder for the two files")
        form.set_defaults(does=does, output=None)


def run(given: argparse.Namespace, output: Output) -> int:
    problem = Problem(given.problem)
    if not 2 <= given.first <= problem.weeks:
        raise Usage(f"--from {given.first}: the problem has weeks 1 to {problem.weeks}, and one at least has to be gone by")
    status: int = given.does(given, problem, Published(given.published, problem))
    return status


def _rest(given: argparse.Namespace, problem: Problem, published: Published) -> int:
    rest = rest_of(problem, published, given.first)
    _write(given.folder, {"problem.json": _json(rest.problem), "published.json": _json(rest.published)})
    if rest.over:
        tell("midterm", f"{len(rest.over)} classes are over, and kept apart: {_listed(rest.over)}")
    if rest.waiting:
        tell("midterm", f"{len(rest.waiting)} classes aren't placed yet: {_listed(rest.waiting)}; `recall` gives no classes to who lacks "
                        "one of them, and `enrol all` after it does")
    if rest.never:
        tell("midterm", f"{len(rest.never)} classes were never placed and have no time left: {_listed(rest.never)}")
    if rest.shorter:
        tell("midterm", f"{len(rest.shorter)} classes have times with fewer weeks left than they have still to be taught: "
                        f"{_listed(rest.shorter)}")
    return PARTLY if rest.never else DONE


def _whole(given: argparse.Namespace, problem: Problem, published: Published) -> int:
    whole = whole_of(problem, published, Published(given.new, problem), given.first)
    files = {"problem.json": _json(whole.problem), "published.json": _json(whole.published)}
    if given.teachers is not None:
        files["teachers.csv"] = csv_text(_teachers(read_teachers(given.teachers, problem), whole.halves))
    _write(given.folder, files)
    if whole.halves:
        changed = _listed(f"{number} ({later} from week {given.first} on)" for number, later in whole.halves.items())
        tell("midterm", f"{len(whole.halves)} classes are two now: {changed}")
    if whole.lost:
        tell("midterm", f"{len(whole.lost)} classes aren't in the timetable any more: {_listed(whole.lost)}")
    if whole.never:
        tell("midterm", f"{len(whole.never)} classes are in neither timetable: {_listed(whole.never)}")
    refused = list(lists_above(whole.problem))
    for line in refused:
        tell("midterm", f"uttab refuses: {line}")
    return PARTLY if whole.lost or whole.never or refused else DONE


def _listed(numbers: Iterator[str] | list[int]) -> str:
    """The first of some numbers, and how many more there are."""
    texts = [str(number) for number in numbers]
    return ", ".join(texts[:20]) + (f" and {len(texts) - 20} more" if len(texts) > 20 else "")


def _teachers(teachers: list[Teacher], halves: dict[int, int]) -> Iterator[list[object]]:
    """Who teaches what, by the classes of the whole term."""
    yield ["teacher", "class"]
    for teacher in teachers:
        for number in teacher.classes:
            yield from ([teacher.name, own] for own in (number, halves.get(number)) if own is not None)


def _json(value: Value) -> str:
    return json.dumps(value, ensure_ascii=False, separators=(",", ":")) + "\n"


def _write(name: str, files: dict[str, str]) -> None:
    with Folder(name) as folder:
        for file, text in files.items():
            folder.write(file, text.encode())


COMMAND = Command("midterm", __doc__ or "", words, run, STATUSES, has_forms=True)
main = COMMAND.main
