"""Tests of `closures`."""

import json
from typing import Any

import pytest
from conftest import Tool, Write, needs_program, uttab

Times = list[tuple[int, int]]


def problem(rooms: list[int], classes: dict[int, tuple[Times, list[int]]], **changes: Any) -> str:
    """A problem of one day and two weeks: classes by id, each with its times and rooms."""
    return json.dumps({
        "nrDays": 1, "nrWeeks": 2, "slotsPerDay": 288, "rooms": [{"id": room, "capacity": 10} for room in rooms],
        "optimization": {"time": 1, "room": 1, "distribution": 1, "student": 1},
        "courses": [{"id": one, "configs": [{"id": one, "subparts": [{"id": one, "classes": [{
            "id": one, "limit": 10, "rooms": [{"id": room, "penalty": 0} for room in own] or None, "room": bool(own),
            "times": [{"days": "1", "weeks": "11", "start": start, "length": length, "penalty": 0} for start, length in times],
        }]}]}]} for one, (times, own) in classes.items()],
    } | changes)


OURS = problem([1, 2], {1: ([(96, 12), (120, 6)], [1]), 2: ([(96, 10)], [2]), 3: ([(96, 10)], [])})


def published(*classes: tuple[int, int, int | None]) -> str:
    return json.dumps({"classes": [{"id": one, "days": "1", "weeks": "11", "start": start, "room": room}
                                   for one, start, room in classes]})


@pytest.fixture
def files(write: Write) -> tuple[str, str]:
    return write("problem.json", OURS), write("published.json", published((1, 120, 1), (2, 96, 2), (3, 96, None)))


def test_rooms_of_the_other_problem_are_closed(files: tuple[str, str], tool: Tool, write: Write) -> None:
    other = write("other.json", problem([1, 7], {5: ([(100, 6), (126, 6)], [1])}))
    assert tool("closures", *files, other)[0] == "close 1 1 120 6 11\n"


def test_faults(files: tuple[str, str], tool: Tool, write: Write) -> None:
    other = write("other.json", problem([1], {}, nrWeeks=3))
    assert "has 3 weeks in place of 2" in tool("closures", *files, other, status=3)[1]
    other = write("other.json", problem([1], {}))
    unknown = write("unknown.json", published((9, 96, 1)))
    assert "the problem has no class 9" in tool("closures", files[0], unknown, other, status=3)[1]
    many = write("many.json", published(*[(1, 96, 1)]))
    assert tool("closures", files[0], many, other)[0].count("\n") == 1


@needs_program
def test_the_program_takes_them(files: tuple[str, str], tool: Tool, write: Write) -> None:
    other = write("other.json", problem([1], {5: ([(100, 6), (108, 6)], [1])}))
    early = write("early.json", published((1, 96, 1)))
    out, _ = tool("closures", files[0], early, other)
    told = uttab("run", other, "-", text=out + "force 5 1 1\nforce 5 2 1\n").splitlines()[1:]
    assert [line.split()[:2] for line in told] == [["ok", "time"], ["refused", "17"], ["ok", "time"]]
