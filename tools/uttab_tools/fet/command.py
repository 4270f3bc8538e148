"""Turns a file of FET, the timetable generator of schools, into a problem, and puts a published timetable into the file.

    fet problem FET > problem.json
    fet published FET PUBLISHED > locked.fet

FET is the file of an institution. What of it a problem doesn't hold is told on the standard error, each kind with its count.
In the second form each activity of the file is locked to its hour and room, so that FET opens it with the timetable; one that
isn't in PUBLISHED stays as it is. docs/FET.md says what becomes of each kind of constraint."""

import argparse

from lxml import etree

from uttab_tools.fet.conversion import problem_of
from uttab_tools.fet.institution import Institution
from uttab_tools.fet.locking import lock
from uttab_tools.fet.report import Report
from uttab_tools.program import DONE, PARTLY, Command, Output, add_output, tell
from uttab_tools.published import Published
from uttab_tools.sheet import csv_text
from uttab_tools.sizes import lists_above

STATUSES = "0 all is written, and nothing is missing; 1 it is written, and something was left out, or `uttab` refuses it"


def words(parser: argparse.ArgumentParser) -> None:
    forms = parser.add_subparsers(metavar="FORM", required=True)
    text = "makes a problem of an institution"
    form = forms.add_parser("problem", help=text, description=text)
    form.add_argument("file", metavar="FET", help="the file of the institution")
    form.add_argument("--teachers", metavar="FILE", help="also write who teaches what, as the other commands read it")
    add_output(form)
    form.set_defaults(does=_problem)
    text = "locks the activities of an institution where a timetable has them"
    form = forms.add_parser("published", help=text, description=text)
    form.add_argument("file", metavar="FET", help="the file that the problem was made of")
    form.add_argument("published", metavar="PUBLISHED", help="the published timetable of that problem")
    add_output(form)
    form.set_defaults(does=_published)


def run(given: argparse.Namespace, output: Output) -> int:
    status: int = given.does(given, output)
    return status


def _problem(given: argparse.Namespace, output: Output) -> int:
    institution, report = Institution(given.file), Report()
    value = problem_of(institution, report)
    output.write_json(value)
    if given.teachers is not None:
        _write_teachers(institution, given.teachers)
    refused = list(lists_above(value))
    for line in refused:
        tell("fet", f"{given.file}: uttab refuses: {line}")
    for line in report.lines():
        tell("fet", f"{given.file}: {line}")
    return DONE if report.is_whole and not refused else PARTLY


def _write_teachers(institution: Institution, name: str) -> None:
    lines = [[teacher, activity.id] for activity in institution.activities.values() for teacher in dict.fromkeys(activity.teachers)]
    output = Output(name)
    try:
        output.write(csv_text([["teacher", "class"], *lines]))
        output.finish()
    finally:
        output.discard()


def _published(given: argparse.Namespace, output: Output) -> int:
    institution, published = Institution(given.file), Published(given.published)
    locked = lock(institution, published)
    output.binary.write(etree.tostring(institution.tree, encoding="UTF-8", xml_declaration=True))
    output.write("\n")
    left = len(institution.activities) - locked.times
    if left:
        tell("fet", f"{given.published}: left out: {left} activities, which aren't in the timetable")
    if locked.virtual:
        tell("fet", f"{given.file}: left out: {locked.virtual} rooms that stand for several real ones")
    tell("fet", f"{given.file}: {locked.times} activities are locked to their hour, {locked.rooms} to their room")
    return PARTLY if left or locked.virtual else DONE


COMMAND = Command("fet", __doc__ or "", words, run, STATUSES, has_forms=True)
main = COMMAND.main
