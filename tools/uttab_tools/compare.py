"""Compares two timetables of a problem: which classes moved, from where to where, and who has to be told.

    compare PROBLEM OLD NEW [--names CSV] [--teachers CSV]
    compare PROBLEM OLD NEW --as csv -o moved.csv
    compare PROBLEM OLD NEW --as told -o to_be_told.csv
    compare PROBLEM OLD NEW --as page [--without-students] -o changes.html

OLD and NEW are published files or drafts. As text and as a page it tells the classes, and then each student and teacher
with what changes for him: a class of his at another time or in another room, or another group. As `csv` it has a line for
each class, as `told` one for each person and change, such as for letters. With --costs it says of both timetables what
`uttab verify` says of them."""

from argparse import ArgumentParser, Namespace
from collections.abc import Iterator
from functools import cache
from pathlib import Path

from jinja2 import Environment, FileSystemLoader, StrictUndefined
from markupsafe import Markup

from uttab_tools.changes import Changes
from uttab_tools.given import PROGRAM, add_names, named_problem
from uttab_tools.program import DONE, Command, Output, Usage
from uttab_tools.published import Published
from uttab_tools.sheet import csv_text
from uttab_tools.timetable import Timetable
from uttab_tools.uttab_program import verified_sum

DATA = Path(__file__).resolve().parent / "data"


def count(number: int, one: str, several: str) -> str:
    return f"{number:,} {one if number == 1 else several}"


def summary(changes: Changes) -> str:
    """How much changes, in one line."""
    kinds = {kind: sum(one.kind == kind for one in changes.classes) for kind in ("moved", "gone", "new")}
    words = [count(kinds["moved"], "class moved", "classes moved")]
    if kinds["gone"]:
        words.append(f"{kinds['gone']:,} no longer in the timetable")
    if kinds["new"]:
        words.append(f"{kinds['new']:,} new in the timetable")
    told = [count(len(changes.students), "student", "students")]
    if changes.new.teachers:
        told.append(count(len(changes.teachers), "teacher", "teachers"))
    return f"{', '.join(words)}; {' and '.join(told)} to be told"


def text(changes: Changes, costs: list[tuple[str, str]], without_students: bool) -> Iterator[str]:
    yield f"{summary(changes)}\n"
    for name, sum_line in costs:
        yield f"{name}: {sum_line}\n"
    for change in changes.classes:
        yield f"\n{changes.class_words(change.of_class)}: {change.what}"
        yield f" ({count(change.students, 'student', 'students')})\n"
        yield f"    was {change.was or 'not in the timetable'}\n    is  {change.now or 'not in the timetable'}\n"
    for kind, people in (("teacher", changes.teachers), ("student", [] if without_students else changes.students)):
        for person in people:
            number = "" if person.number is None else str(person.number)
            own = " ".join(word for word in (kind, number, person.name) if word)
            yield f"\n{own}\n"
            for one in person.changes:
                yield f"    {one.words}\n"


def class_rows(changes: Changes) -> Iterator[list[object]]:
    yield ["class", "course", "class name", "course name", "change", "was", "is", "students"]
    names = changes.new.names
    for one in changes.classes:
        of_class = one.of_class
        yield [of_class.id, of_class.course.id, names.get("class", of_class.id), names.get("course", of_class.course.id), one.what,
               one.was, one.now, one.students]


def told_rows(changes: Changes, without_students: bool) -> Iterator[list[object]]:
    yield ["who", "id", "name", "course", "class", "change", "was", "is"]
    for kind, people in (("teacher", changes.teachers), ("student", [] if without_students else changes.students)):
        for person in people:
            for one in person.changes:
                yield [kind, "" if person.number is None else person.number, person.name, one.course, one.class_name, one.what,
                       one.was, one.now]


def page(changes: Changes, costs: list[tuple[str, str]], without_students: bool) -> str:
    environment = Environment(loader=FileSystemLoader(DATA), autoescape=True, undefined=StrictUndefined)
    line = environment.get_template("compare_change.html.jinja")
    # Many have the same change, which is put into words once.
    line_of = cache(lambda change: line.render(one=change))
    return environment.get_template("compare.html.jinja").render(
        changes=changes, lines_of=lambda person: Markup("\n".join(map(line_of, person.changes))),
        summary=summary(changes), costs=costs, with_students=not without_students,
        problem=changes.new.problem, names=changes.new.names, timetable=changes.new,
        style=Markup((DATA / "timetable.css").read_text(encoding="utf-8")))


def words(parser: ArgumentParser) -> None:
    parser.add_argument("problem", metavar="PROBLEM", help="the problem file")
    parser.add_argument("old", metavar="OLD", help="the timetable that was, as `publish` or `draft` writes it")
    parser.add_argument("new", metavar="NEW", help="the timetable that is")
    add_names(parser)
    parser.add_argument("--as", dest="form", choices=("text", "csv", "told", "page"), default="text",
                        help="text (if nothing is said), a table of classes, a table of who has to be told, or a page")
    parser.add_argument("--without-students", action="store_true", help="leave out all that is known of students, but their number")
    parser.add_argument("--costs", action="store_true", help="as text and as a page: what `uttab verify` says of both")
    parser.add_argument("--program", metavar="FILE", help=f"with --costs: {PROGRAM}")


def run(given: Namespace, output: Output) -> int:
    if [given.problem, given.old, given.new].count("-") and given.costs:
        raise Usage("--costs: reads the files once more, so none of them may be `-`")
    problem, names, teachers = named_problem(given)
    old, new = (Timetable(problem, Published(name, problem), names, teachers) for name in (given.old, given.new))
    changes = Changes(old, new)
    costs = [(name, verified_sum(given.problem, name, given.program)) for name in (given.old, given.new)] if given.costs else []
    if given.form == "text":
        output.write("".join(text(changes, costs, given.without_students)))
    elif given.form == "page":
        output.write(page(changes, costs, given.without_students))
    else:
        output.write(csv_text(class_rows(changes) if given.form == "csv" else told_rows(changes, given.without_students)))
    return DONE


COMMAND = Command("compare", __doc__ or "", words, run, "0 what changes is written, also where nothing does")
main = COMMAND.main
