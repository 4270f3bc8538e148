"""Tests that the tools' limits are those of docs/FORMATS.md, of the schemas, and of what `uttab check` refuses."""

import json
import re
from typing import Any

import pytest
from conftest import SCHEMAS, TOP, Write, needs_program, uttab

from uttab_tools import limits
from uttab_tools.limits import Range

FORMATS = (TOP / "docs/FORMATS.md").read_text(encoding="utf-8")


def rows(key: str) -> list[str]:
    """The rows of tables that speak of a key."""
    return [line for line in FORMATS.splitlines() if line.startswith(f"| `{key}`")]


@pytest.mark.parametrize("key, within", [
    ("nrDays", limits.DAYS), ("slotsPerDay", limits.SLOTS_PER_DAY), ("optimization", limits.WEIGHT), ("start", limits.SLOT),
    ("penalty", limits.PENALTY), ("limit", limits.SEATS), ("nrWeeks", limits.weeks_of_version(1)), ("nrWeeks", limits.weeks_of_version(2)),
])
def test_ranges_are_those_of_the_document(key: str, within: Range) -> None:
    words = rf"{within.least:,} (?:to|and in version 2.*) {within.most:,}|1 to {within.most:,} in version 2"
    assert any(re.search(words, row) for row in rows(key)), rows(key)


@pytest.mark.parametrize("key, most", [
    ("rooms", limits.ROOMS), ("courses", limits.COURSES), ("distributions", limits.DISTRIBUTIONS), ("students", limits.STUDENTS),
    ("travel", limits.TRAVEL), ("unavailable", limits.UNAVAILABLE), ("rooms", limits.ROOMS_OF_A_CLASS),
    ("classes", limits.CLASSES_OF_A_DISTRIBUTION), ("courses", limits.COURSES_OF_A_STUDENT), ("students", limits.STUDENTS_OF_A_CLASS),
])
def test_lengths_of_lists_are_those_of_the_document(key: str, most: int) -> None:
    assert any(f"at most {most:,} " in row for row in rows(key)), rows(key)


def test_other_limits_are_those_of_the_document() -> None:
    for words in (f"A file has at most {limits.FILE_BYTES:,} bytes", f"The file has at most {limits.CLASSES:,} classes",
                  f"a list of 1 to {limits.TIMES_OF_A_CLASS:,} times", f"**id** is a number from 0 to {limits.ID.most:,}",
                  f"JSON number up to {limits.NUMBER.most:,}", f"is at most {limits.PARAMETER.most:,}; spaces"):
        assert words in FORMATS, words
    for front, most in (("cells", limits.CELLS), ("members", limits.MEMBERS), ("links", limits.LINKS), ("classes in lists", limits.LISTED)):
        assert re.search(rf"^\| {front}.*\| {most:,} \|$", FORMATS, re.M), front


def test_types_are_those_of_the_document() -> None:
    found = dict(re.findall(r"^\| `([A-Z]\w+)(\([A-Z,]+\))?` \|", FORMATS, re.M))
    assert {name: len(words.split(",")) if words else 0 for name, words in found.items()} == limits.TYPES


def test_lengths_and_ranges_are_those_of_the_schemas() -> None:
    problem = json.loads((SCHEMAS / "problem_schema.json").read_text(encoding="utf-8"))
    published = json.loads((SCHEMAS / "published_schema.json").read_text(encoding="utf-8"))
    lists = {most for value in (problem, published) for most in map(int, re.findall(r'"maxItems": (\d+)', json.dumps(value)))}
    assert lists == {limits.ROOMS, limits.COURSES, limits.DISTRIBUTIONS, limits.STUDENTS, limits.TRAVEL, limits.UNAVAILABLE,
                     limits.CLASSES_OF_A_DISTRIBUTION, limits.COURSES_OF_A_STUDENT}
    parts = problem["$defs"]
    for name, within in (("id", limits.ID), ("slot", limits.SLOT), ("penalty", limits.PENALTY), ("weight", limits.WEIGHT),
                         ("length", limits.LENGTH)):
        number = parts[name]["anyOf"][0]
        assert (number["minimum"], number["maximum"]) == (within.least, within.most), name


def problem() -> dict[str, Any]:
    time = {"days": "1", "weeks": "1", "start": 0, "length": 1, "penalty": 0}
    inner = {"id": 1, "limit": 1, "rooms": [{"id": 1, "penalty": 0}], "times": [time]}
    return {
        "nrDays": 1, "nrWeeks": 1, "slotsPerDay": 1, "optimization": {"time": 0, "room": 0, "distribution": 0, "student": 0},
        "rooms": [{"id": 1, "travel": [{"room": 1, "value": 0}], "unavailable": []}],
        "courses": [{"id": 1, "configs": [{"subparts": [{"classes": [inner]}]}]}],
        "distributions": [{"type": "SameStart", "penalty": 0, "classes": [1]}], "students": [{"id": 1, "courses": [1]}]}


# Where each range stands in a problem. Sets have to fit the days and weeks, so these two are tried from above alone.
PLACES: list[tuple[str, Range]] = [
    ("slotsPerDay", limits.SLOTS_PER_DAY), ("optimization/time", limits.WEIGHT), ("rooms/0/id", limits.ID),
    ("rooms/0/travel/0/value", limits.SLOT), ("courses/0/id", limits.ID),
    ("courses/0/configs/0/subparts/0/classes/0/limit", limits.SEATS),
    ("courses/0/configs/0/subparts/0/classes/0/rooms/0/penalty", limits.PENALTY),
    ("courses/0/configs/0/subparts/0/classes/0/times/0/penalty", limits.PENALTY),
    ("courses/0/configs/0/subparts/0/classes/0/times/0/length", limits.LENGTH),
    ("distributions/0/penalty", limits.PENALTY), ("students/0/id", limits.ID),
]


def put(value: Any, path: str, number: object) -> None:
    *inner, last = [int(word) if word.isdigit() else word for word in path.split("/")]
    for key in inner:
        value = value[key]
    value[last] = number


@needs_program
@pytest.mark.parametrize("path, within", PLACES)
def test_ranges_are_those_of_the_program(path: str, within: Range, write: Write) -> None:
    def told(number: int) -> str:
        value = problem()
        put(value, path, number)
        return uttab("check", write("p.json", json.dumps(value))).split("\n")[0]
    # An id that is referred to is refused as unknown, 34, but not as out of its range, 32.
    assert not told(within.most).startswith("problem refused 32")
    assert told(within.most + 1) == f"problem refused 32 /{path}"
    if within.least:
        assert told(within.least - 1).startswith(f"problem refused {36 if path.endswith('length') else 32} /{path}")


@needs_program
def test_weeks_days_and_types_are_those_of_the_program(write: Write) -> None:
    def told(**parts: object) -> str:
        return uttab("check", write("p.json", json.dumps(problem() | parts))).split("\n")[0]
    for version in (1, 2):
        assert told(version=version, nrWeeks=limits.weeks_of_version(version).most + 1) == "problem refused 32 /nrWeeks"
        assert told(version=version, nrWeeks=limits.weeks_of_version(version).most).startswith("problem refused 35")
    assert told(version=limits.VERSION.most + 1) == "problem refused 32 /version"
    assert told(nrDays=limits.DAYS.most + 1) == "problem refused 32 /nrDays"
    for name, parameters in limits.TYPES.items():
        text = f"{name}({','.join(['65535'] * parameters)})" if parameters else name
        rule = {"type": text, "penalty": 0, "classes": [1]}
        for version in (1, 2):
            known = limits.type_name(text, version) is not None
            assert told(version=version, distributions=[rule]).startswith("open" if known else "problem refused 37"), (text, version)


@needs_program
@pytest.mark.parametrize("path, item, most", [
    ("rooms/0/travel", {"room": 1, "value": 0}, limits.TRAVEL),
    ("rooms/0/unavailable", {"days": "1", "weeks": "1", "start": 0, "length": 1}, limits.UNAVAILABLE),
    ("courses/0/configs/0/subparts/0/classes/0/rooms", {"id": 1, "penalty": 0}, limits.ROOMS_OF_A_CLASS),
    ("courses/0/configs/0/subparts/0/classes/0/times", {"days": "1", "weeks": "1", "start": 0, "length": 1, "penalty": 0},
     limits.TIMES_OF_A_CLASS),
    ("distributions/0/classes", 1, limits.CLASSES_OF_A_DISTRIBUTION),
    ("students/0/courses", 1, limits.COURSES_OF_A_STUDENT),
])
def test_lengths_of_lists_are_those_of_the_program(path: str, item: object, most: int, write: Write) -> None:
    def told(count: int) -> str:
        value = problem()
        put(value, path, [item] * count)
        return uttab("check", write("p.json", json.dumps(value))).split("\n")[0]
    assert told(most) == "open 1 1 1 1"
    assert told(most + 1) == f"problem refused 39 /{path}"
