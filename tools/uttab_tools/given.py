"""The words that commands over a timetable share, and the files that they name."""

from argparse import ArgumentParser, ArgumentTypeError, Namespace

from uttab_tools.names import Names
from uttab_tools.problem import Problem
from uttab_tools.published import Published
from uttab_tools.teachers import Teacher, read_teachers
from uttab_tools.timetable import Timetable

PROGRAM = "the built program; else the one that the environment's UTTAB names, or that ./uttab makes"


def add_timetable(parser: ArgumentParser) -> None:
    """The words PROBLEM and PUBLISHED, and those of names."""
    parser.add_argument("problem", metavar="PROBLEM", help="the problem file")
    parser.add_argument("published", metavar="PUBLISHED", help="the timetable, as `publish` or `draft` writes it")
    add_names(parser)


def add_names(parser: ArgumentParser) -> None:
    parser.add_argument("--names", metavar="CSV", help="names of rooms, courses, classes, students and days")
    parser.add_argument("--teachers", metavar="CSV", help="the teachers and their classes")


def a_count(word: str) -> int:
    """A word that is a number of things, of which there is one at least."""
    if not word.isdecimal() or int(word) < 1:
        raise ArgumentTypeError("is at least 1")
    return int(word)


def named_problem(given: Namespace) -> tuple[Problem, Names, list[Teacher]]:
    """The problem with the names and the teachers that are given."""
    problem = Problem(given.problem)
    return problem, Names(problem, given.names), read_teachers(given.teachers, problem) if given.teachers else []


def timetable_given(given: Namespace) -> Timetable:
    problem, names, teachers = named_problem(given)
    return Timetable(problem, Published(given.published, problem), names, teachers)
