"""Tests of `sheets` and `teachers`, and of the words that they read."""

import json
import shutil
from pathlib import Path

import pytest
from conftest import TOOLS, WORKED_CASES, Tool, Write, needs_cases, needs_program, uttab

from uttab_tools.times import weeks_in_words
from uttab_tools.words import NoWords, days_of, slot_of, weeks_of

FACULTY = TOOLS / "examples/a_faculty"


@needs_cases
def test_the_faculty_in_both_forms(tool: Tool) -> None:
    assert WORKED_CASES is not None
    wanted = json.loads((WORKED_CASES / "data/tour/a_faculty/problem.json").read_text())
    assert json.loads(tool("sheets", "read", FACULTY)[0]) == wanted


@needs_cases
def test_a_problem_comes_back_from_its_sheets(tool: Tool, tmp_path: Path) -> None:
    assert WORKED_CASES is not None
    problem = WORKED_CASES / "data/tour/a_faculty/problem.json"
    tool("sheets", "write", problem, "--to", tmp_path / "sheets")
    assert json.loads(tool("sheets", "read", tmp_path / "sheets")[0]) == json.loads(problem.read_text())


@pytest.mark.parametrize("sheet, old, new, told", [
    ("term.csv", "weeks,15", "weeks,0", "term.csv: line 4: value: 0 isn't within 1 to 128"),
    ("term.csv", "weeks,15\n", "", "term.csv: there is no line 'weeks'"),
    ("term.csv", "what,value", "what,is", "term.csv: line 1: there is no column 'value' among what, is"),
    ("rooms.csv", "room,name", "room,title", "rooms.csv: line 1: there may be no column 'title'"),
    ("rooms.csv", "2,Lecture Room A", "1,Lecture Room A", "rooms.csv: line 3: room: an earlier line has the room 1"),
    ("travel.csv", "1,2,1\n", "1,22,1\n", "travel.csv: line 2: to: there is no room 22"),
    ("closed.csv", "Friday,13:00", "Sunday,13:00", "closed.csv: line 2: days: 'sunday' is no day from Monday to Friday"),
    ("closed.csv", "13:00", "13:02", "closed.csv: line 2: begin: no slot begins at 13:02: a slot has 5 minutes"),
    ("times.csv", "weeks 1 to 14", "weeks 1 to 16", "times.csv: line 2: weeks: '1 to 16' isn't within weeks 1 to 15"),
    ("classes.csv", "lecture twice a week", "lecture", "no times 'lecture'"),
    ("classes.csv", "1,Mathematics,10,,10,lecture,102", "1,Mathematics,10,,10,lecture,101",
     "classes.csv: line 3: class: line 2 has the class 101"),
    ("classes.csv", '"2, 3, 11 (1)"', '"2, 3, 11:1"', "classes.csv: line 2: rooms: '11:1' is neither a room nor"),
    ("rules.csv", "SameAttendees", "SameAttendance", "rules.csv: line 2: type: 'SameAttendance' is no type of a rule"),
    ("rules.csv", "601 602", "601 699", "rules.csv: line 2: classes: there is no class 699"),
    ("students.csv", "1,,1 3", "1,,1 33", "students.csv: line 2: courses: there is no course 33"),
])
def test_faults_by_file_and_line(sheet: str, old: str, new: str, told: str, tool: Tool, tmp_path: Path) -> None:
    folder = tmp_path / "sheets"
    shutil.copytree(FACULTY, folder)
    text = (folder / sheet).read_text()
    assert old in text
    (folder / sheet).write_text(text.replace(old, new, 1))
    assert told in tool("sheets", "read", folder, status=3)[1]


def test_weeks_in_words_are_read_back() -> None:
    for count in range(1, 9):
        for weeks in range(1, 1 << count):
            assert weeks_of(weeks_in_words(weeks, count), count) == weeks


def test_words_of_days_and_times() -> None:
    for text, days in (("Mon Wed", 0b101), ("Monday to Friday", 0b11111), ("mon, wed and fri", 0b10101), ("tue-thu", 0b1110),
                       ("01000", 0b10)):
        assert days_of(text, 5) == days
    assert (slot_of("9:00", 288), slot_of("09:05:00", 288), slot_of("25:00", 24), slot_of("108", 288)) == (108, 109, 25, 108)
    for wrong in ("Sat", "", "Fri to Mon"):
        with pytest.raises(NoWords):
            days_of(wrong, 5)


@needs_cases
@needs_program
def test_teachers(tool: Tool, write: Write) -> None:
    assert WORKED_CASES is not None
    problem = WORKED_CASES / "data/tour/a_faculty/problem.json"
    sheet = write("teachers.csv", "teacher,class,days,begin,end,weeks\nAda,101 301,,,,\nAda,,Mon,8:00,12:00,\nBen,601,,,,\n")
    text = tool("teachers", problem, sheet)[0]
    value = json.loads(text)
    assert value["distributions"][-1] == {
        "name": "Ada can be at each class", "type": "SameAttendees", "required": True, "classes": [101, 301]}
    before, after = ([one for course in problem["courses"] for config in course["configs"] for subpart in config["subparts"]
                      for one in subpart["classes"] if one["id"] == 101][0]["times"]
                     for problem in (json.loads(problem.read_text()), value))
    assert after == [time for time in before if time["days"][0] == "0" or time["start"] >= 144]
    assert uttab("check", write("problem.json", text)) == "open 63 10 26 200\n"
    # A rule that asks as much is there already.
    assert json.loads(tool("teachers", problem, write("t.csv", "teacher,class\nAda,101 102 1701\n"))[0]) == json.loads(problem.read_text())


@needs_cases
@pytest.mark.parametrize("lines, status, told", [
    ("Ada,999,,,,", 3, "line 2: class: the problem has no class 999"), ("Ada,101,Mon,,,", 3, "line 2: begin is empty"),
    ("Ada,,,,,", 3, "has neither a class nor a time"), (",101,,,,", 3, "line 2: teacher is empty"),
    ("Ada,101,Mon to Fri,0:00,24:00,", 1, "class 101 has no time left at which Ada can come")])
def test_faults_of_teachers(lines: str, status: int, told: str, tool: Tool, write: Write) -> None:
    assert WORKED_CASES is not None
    sheet = write("teachers.csv", "teacher,class,days,begin,end,weeks\n" + lines + "\n")
    assert told in tool("teachers", WORKED_CASES / "data/tour/a_faculty/problem.json", sheet, status=status)[1]
