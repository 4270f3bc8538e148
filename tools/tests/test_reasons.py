"""Tests of why a class isn't in a timetable: the words, and that they are of what `uttab` says."""

import json

import pytest
from conftest import PROGRAM, Tool, Write, needs_program

from uttab_tools.reasons import in_words


@pytest.mark.parametrize("lines, words", [
    (["value 1 1 out 1 weight 1 trial 5"], "its one place is taken, by 1 other class at the least"),
    (["value 1 1 closed"], "its one place is in a room that is closed then"),
    (["value 1 - out 0 weight 0 trial 5"], "its one place is free"),
    (["value 1 1 out 3 weight 9 trial 5", "value 1 2 out 2 weight 2 trial 5"],
     "all of its 2 places are taken, by 2 other classes at the least"),
    (["value 1 1 out 1 weight 1 trial 5", "value 1 2 closed", "value 2 1 rule 7", "value 2 2 rule 7", "value 3 1 locked 4"],
     "of its 5 places 1 is taken, by 1 other class at the least, 1 is in a room that is closed then, 2 are against a required rule, "
     "1 is held by a locked class"),
    (["value 1 1 out 1 weight 1 trial 5", "value 1 2 out 0 weight 0 trial 5", "value 1 3 out 0 weight 0 trial 5"],
     "2 of its 3 places are free"),
])
def test_words(lines: list[str], words: str) -> None:
    assert in_words(lines) == words


@needs_program
def test_the_page_says_why(tool: Tool, write: Write) -> None:
    """Two classes that only have one place, and one whose room is closed."""
    def one(number: int, *rooms: int) -> dict[str, object]:
        time = {"days": "1", "weeks": "1", "start": 10, "length": 4, "penalty": 0}
        return {"id": number, "rooms": [{"id": room, "penalty": 0} for room in rooms], "times": [time]}
    courses = [{"id": number, "configs": [{"id": 1, "subparts": [{"id": number, "classes": [one(number, *rooms)]}]}]}
               for number, rooms in ((1, (1,)), (2, (1, 2)), (3, (2,)))]
    closed = [{"days": "1", "weeks": "1", "start": 0, "length": 24}]
    problem = write("problem.json", json.dumps({
        "nrDays": 1, "nrWeeks": 1, "slotsPerDay": 24, "optimization": {"time": 1, "room": 1, "distribution": 1, "student": 1},
        "rooms": [{"id": 1}, {"id": 2, "unavailable": closed}], "courses": courses}))
    placed = {"id": 1, "days": "1", "weeks": "1", "start": 10, "room": 1, "students": []}
    published = write("published.json", json.dumps({"classes": [placed]}))
    words = ("page", problem, published)
    out, _ = tool(*words, "--reasons", "--program", PROGRAM)
    assert ("Class 2</a> isn’t in the timetable: of its 2 places 1 is taken, by 1 other class at the least, "
            "1 is in a room that is closed then</li>") in out
    assert "Class 3</a> isn’t in the timetable: its one place is in a room that is closed then</li>" in out
    assert "say at the desk" not in out and "isn’t in the timetable</li>" in tool(*words)[0]
    assert "--reasons: reads the files once more" in tool("page", "-", published, "--reasons", status=2)[1]
