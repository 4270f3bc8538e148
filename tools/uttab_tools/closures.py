"""Writes the lines `close` that keep the rooms of a published timetable free of another problem's classes.

    closures PROBLEM PUBLISHED OTHER -o closures.txt

PUBLISHED is a timetable of PROBLEM. For each of its classes that is in a room of the problem OTHER, a room being the
same where its id is, a line closes that room for as long as the class meets. Put before a script for OTHER, the lines
close its rooms where the others have them. One of the files may be `-`, the standard input."""

from argparse import ArgumentParser, Namespace
from collections.abc import Iterator

from uttab_tools import limits
from uttab_tools.problem import Problem
from uttab_tools.program import DONE, Command, FileFault, Output
from uttab_tools.published import Meeting, Published


def lines(problem: Problem, published: Published, other: Problem) -> Iterator[str]:
    """The lines, in the order of the published file."""
    for placed in published.classes:
        if placed.room in other.rooms:
            days, weeks = placed.texts
            time = Meeting(problem.classes[placed.id], placed).time
            yield f"close {placed.room} {days} {time.start} {time.length} {weeks}\n"


def words(parser: ArgumentParser) -> None:
    parser.add_argument("problem", metavar="PROBLEM", help="the problem file")
    parser.add_argument("published", metavar="PUBLISHED", help="its published timetable, as `publish` writes it")
    parser.add_argument("other", metavar="OTHER", help="the problem file of those who share rooms with it")


def run(given: Namespace, output: Output) -> int:
    problem = Problem(given.problem)
    published = Published(given.published, problem)
    other = Problem(given.other)
    for name, ours, theirs in (("days", problem.days, other.days), ("weeks", problem.weeks, other.weeks),
                               ("slots", problem.slots, other.slots)):
        if ours != theirs:
            raise FileFault(f"{given.other}: has {theirs} {name} in place of {ours}")
    found = list(lines(problem, published, other))
    if len(found) > limits.CLOSURES:
        raise FileFault(f"{given.published}: has {len(found):,} classes in rooms of {given.other}, above {limits.CLOSURES:,}")
    output.write("".join(found))
    return DONE


COMMAND = Command("closures", __doc__ or "", words, run, f"0 the lines are written, {limits.CLOSURES:,} at most, as `uttab` takes them")
main = COMMAND.main
