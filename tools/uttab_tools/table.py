"""Writes a timetable as CSV, for a spreadsheet: a line for each class and each day on which it meets.

    table PROBLEM PUBLISHED [--names CSV] [--teachers CSV] [--student-ids] -o meetings.csv

The columns are class, course, day, begin, end, weeks, room and students, which is their number. With names
three columns follow: class name, course name and room name; with teachers one of their names. One of the files may be `-`,
the standard input."""

from argparse import ArgumentParser, Namespace
from collections.abc import Iterator

from uttab_tools.given import add_timetable, timetable_given
from uttab_tools.program import DONE, Command, Output
from uttab_tools.sheet import csv_text
from uttab_tools.times import clock, places, weeks_in_words
from uttab_tools.timetable import Timetable

HEAD = ["class", "course", "day", "begin", "end", "weeks", "room", "students"]
NAMES = ["class name", "course name", "room name"]


def lines(timetable: Timetable, student_ids: bool, with_names: bool, with_teachers: bool) -> Iterator[list[object]]:
    """The lines, in the problem's order of classes, and of one class by day."""
    problem, names = timetable.problem, timetable.names
    yield [*HEAD, *(NAMES if with_names else []), *(["teachers"] if with_teachers else [])]
    for meeting in timetable.meetings.values():
        of_class, time = meeting.of_class, meeting.time
        after: list[object] = []
        if with_names:
            after += [names.get("class", of_class.id), names.get("course", of_class.course.id), names.get("room", meeting.room)]
        if with_teachers:
            after.append(", ".join(teacher.name for teacher in timetable.teachers_of.get(of_class.id, ())))
        room = "" if meeting.room is None else meeting.room
        students = " ".join(map(str, meeting.students)) if student_ids else len(meeting.students)
        for day in places(time.days):
            yield [of_class.id, of_class.course.id, names.day(day), clock(time.start, problem.slots), clock(time.end, problem.slots),
                   weeks_in_words(time.weeks, problem.weeks), room, students, *after]


def words(parser: ArgumentParser) -> None:
    add_timetable(parser)
    parser.add_argument("--student-ids", action="store_true", help="the students' ids, parted by spaces, in place of their number")


def run(given: Namespace, output: Output) -> int:
    timetable = timetable_given(given)
    output.write(csv_text(lines(timetable, given.student_ids, given.names is not None, given.teachers is not None)))
    return DONE


COMMAND = Command("table", __doc__ or "", words, run, "0 the lines are written")
main = COMMAND.main
