"""Turns files of the International Timetabling Competition 2019 (XML) into uttab's files (JSON), and back.

    itc2019 problem XML -o problem.json
    itc2019 solution XML -o published.json
    itc2019 published PROBLEM PUBLISHED [--author AUTHOR ..] -o solution.xml

One of the files may be `-`, the standard input. What the other file can't hold, and what uttab refuses, is told on the
standard error, each kind with its count. docs/FORMATS.md says how the two formats correspond."""

from argparse import ArgumentParser, Namespace

from uttab_tools.competition_problem import ProblemWriter
from uttab_tools.competition_solution import ATTRIBUTES, write_published, write_solution
from uttab_tools.competition_xml import read_xml
from uttab_tools.program import Command, Output, add_output
from uttab_tools.report import Report

HELPS = {
    "name": "the problem's name, where the problem file has none or another one", "runtime": "seconds that the solver took",
    "cores": "cores that it used", "technique": "the solver's technique", "author": "the author",
    "institution": "his institution", "country": "his country",
}


def problem(given: Namespace, output: Output) -> int:
    report = Report("itc2019", given.file)
    ProblemWriter(read_xml(given.file, "problem", report), report, output).write()
    return report.status


def solution(given: Namespace, output: Output) -> int:
    report = Report("itc2019", given.file)
    write_published(read_xml(given.file, "solution", report), report, output)
    return report.status


def words(parser: ArgumentParser) -> None:
    forms = parser.add_subparsers(required=True, metavar="problem|solution|published")
    for name, does, text in (("problem", problem, "a problem's XML becomes a problem file"),
                             ("solution", solution, "a solution's XML becomes a published file")):
        form = forms.add_parser(name, help=text, description=text)
        form.add_argument("file", metavar="XML")
        form.set_defaults(does=does)
        add_output(form)
    form = forms.add_parser(
        "published", help="a published file becomes a solution's XML",
        description="A published file becomes a solution's XML. An attribute that isn't given is taken from the published file, "
                    "where `itc2019 solution` has put it; the name also from the problem.")
    form.add_argument("problem", metavar="PROBLEM", help="the problem file")
    form.add_argument("published", metavar="PUBLISHED", help="its timetable, as `publish` writes it")
    for key in ATTRIBUTES:
        form.add_argument(f"--{key}", metavar=key.upper(), help=HELPS[key])
    form.set_defaults(does=write_solution)
    add_output(form)


def run(given: Namespace, output: Output) -> int:
    status: int = given.does(given, output)
    return status


COMMAND = Command(
    "itc2019", __doc__ or "", words, run,
    "0 the file is written and holds all that counts; 1 it is written, and something that counts was left out, or uttab refuses it",
    has_forms=True)
main = COMMAND.main
