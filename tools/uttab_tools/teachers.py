"""Adds teachers to a problem: nobody teaches at two places at once, or when he can't come.

    teachers PROBLEM TEACHERS -o problem.json

TEACHERS is a sheet (CSV) with the columns teacher, class, days, begin, end and weeks. A line names a teacher with classes of
his, or with a time at which he can't come, or both. The problem gets a required rule SameAttendees over the classes of each
teacher, and loses the times of his classes at which he can't come."""

import argparse
import re
from collections.abc import Iterator
from dataclasses import dataclass

from uttab_tools.problem import Class, Problem
from uttab_tools.program import DONE, Command, Output, Refused
from uttab_tools.raw import Value, parts, rules_of, with_parts
from uttab_tools.sheet import Row, rows
from uttab_tools.sizes import lists_above
from uttab_tools.times import Time, overlap


@dataclass(frozen=True, slots=True)
class Teacher:
    """A teacher, the ids of his classes, and the times at which he can't come."""

    name: str
    classes: tuple[int, ...]
    away: tuple[Time, ...] = ()


def read_teachers(name: str, problem: Problem) -> list[Teacher]:
    """The teachers of a sheet, in the order in which they stand there first."""
    found: dict[str, tuple[dict[int, bool], list[Time]]] = {}
    for row in rows(name, "teacher,class", "days,begin,end,weeks"):
        classes, away = found.setdefault(row.needed("teacher"), ({}, []))
        own = _classes(row, problem)
        classes.update(dict.fromkeys(own, True))
        if any(row.text(column) for column in ("days", "begin", "end", "weeks")):
            away.append(row.time(problem.days, problem.weeks, problem.slots))
        elif not own:
            row.fault("has neither a class nor a time at which the teacher can't come")
    return [Teacher(teacher, tuple(classes), tuple(away)) for teacher, (classes, away) in found.items()]


def _classes(row: Row, problem: Problem) -> list[int]:
    """The classes of a line, parted by spaces, commas or semicolons."""
    found = [row.number_in(text, "class") for text in re.split(r"[,;\s]+", row.text("class")) if text]
    for number in found:
        if number not in problem.classes:
            row.fault(f"class: the problem has no class {number}")
    return found


def with_teachers(problem: Problem, teachers: list[Teacher]) -> Value:
    """The problem with the rules and without the times."""
    away: dict[int, list[tuple[str, Time]]] = {}
    for teacher in teachers:
        for number in teacher.classes:
            away.setdefault(number, []).extend((teacher.name, time) for time in teacher.away)
    classes = iter(problem.classes.values())
    courses = [with_parts(course, configs=[
        with_parts(config, subparts=[
            with_parts(subpart, classes=[_at_times_left(value, one, away.get(one.id, []))
                                         for value, one in zip(parts(subpart, "classes"), classes)])
            for subpart in parts(config, "subparts")])
        for config in parts(course, "configs")])
        for course in parts(problem.value, "courses")]
    rules = [*parts(problem.value, "distributions"), *_rules(problem, teachers)]
    return with_parts(problem.value, courses=courses, distributions=rules)


def _at_times_left(value: Value, of_class: Class, away: list[tuple[str, Time]]) -> Value:
    """A class without the times at which a teacher of it can't come."""
    if not away:
        return value
    left = [item for item, time in zip(parts(value, "times"), of_class.times, strict=True)
            if not any(overlap(time, gone) for _, gone in away)]
    if not left:
        names = " and ".join(dict.fromkeys(name for name, _ in away))
        raise Refused(f"class {of_class.id} has no time left at which {names} can come")
    return with_parts(value, times=left)


def _rules(problem: Problem, teachers: list[Teacher]) -> Iterator[Value]:
    """A rule for each teacher of several classes, unless there is one that asks as much."""
    there = [set(rule.classes) for rule in rules_of(problem)
             if rule.kind == "SameAttendees" and rule.value.get("required") in (True, "true")]
    for teacher in teachers:
        if len(teacher.classes) > 1 and not any(one.issuperset(teacher.classes) for one in there):
            yield {"name": f"{teacher.name} can be at each class", "type": "SameAttendees", "required": True,
                   "classes": list(teacher.classes)}


def words(parser: argparse.ArgumentParser) -> None:
    parser.add_argument("problem", metavar="PROBLEM", help="the problem file")
    parser.add_argument("teachers", metavar="TEACHERS", help="the sheet of teachers")


def run(given: argparse.Namespace, output: Output) -> int:
    problem = Problem(given.problem)
    value = with_teachers(problem, read_teachers(given.teachers, problem))
    for above in lists_above(value):
        raise Refused(f"the problem would have {above}")
    output.write_json(value)
    return DONE


COMMAND = Command("teachers", __doc__ or "", words, run, "0 the problem is written; 1 a class has no time left, or a list is too long")
main = COMMAND.main
