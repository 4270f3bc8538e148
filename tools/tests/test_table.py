"""Tests of `table`."""

import csv
import io
import json

from conftest import DATA, Tool, Write


def test_the_lines(tool: Tool, write: Write) -> None:
    problem = write("problem.json", tool("itc2019", "problem", DATA / "problem.xml")[0])
    published = write("published.json", tool("itc2019", "solution", DATA / "solution.xml")[0])
    out, told = tool("table", problem, published)
    assert told == ""
    assert out.splitlines() == [
        "class,course,day,begin,end,weeks,room,students",
        "1,7,Monday,08:00,09:30,all weeks,1,2",
        "1,7,Wednesday,08:00,09:30,all weeks,1,2",
        "2,7,Wednesday,12:00,14:00,odd weeks,9,1",
        "3,7,Thursday,12:00,14:00,even weeks,,1",
        "4,7,Friday,16:50,19:50,weeks 2 and 3,2,0",
        "5,8,Monday,11:00,12:00,all weeks,1,1",
    ]
    out, _ = tool("table", problem, published, "--names", DATA / "names.csv", "--student-ids")
    first = next(csv.DictReader(io.StringIO(out)))
    assert (first["day"], first["students"], first["class name"], first["course name"], first["room name"]) == (
        "Lundi", "1 2", "DB-1 lecture", "Databases, I", "Great <hall>")


def test_teachers(tool: Tool, write: Write) -> None:
    problem, published = one_class("late", 96, 12)
    teachers = write("t.csv", "teacher,class\nGrace Hopper,1\nAlan Turing,1\n")
    out, _ = tool("table", write("p.json", problem), write("q.json", published), "--teachers", teachers)
    assert next(csv.DictReader(io.StringIO(out)))["teachers"] == "Grace Hopper, Alan Turing"


def one_class(name: str, start: int, length: int) -> tuple[str, str]:
    """A problem of one class, and its timetable."""
    time = {"days": "1000000", "weeks": "1", "start": start, "length": length, "penalty": 0}
    inner = {"id": 1, "name": name, "room": False, "times": [time]}
    problem = {"nrDays": 7, "nrWeeks": 1, "slotsPerDay": 288,
               "courses": [{"id": 1, "configs": [{"id": 1, "subparts": [{"id": 1, "classes": [inner]}]}]}]}
    return json.dumps(problem), json.dumps({"classes": [{"id": 1, "days": "1000000", "start": start, "weeks": "1"}]})


def test_no_field_is_a_formula(tool: Tool, write: Write) -> None:
    names = write("names.csv", "kind,id,name\n")
    for name in ("=cmd|' /C calc'!A0", "+1", "-1", "@x"):
        problem, published = one_class(name, 96, 12)
        out, _ = tool("table", write("p.json", problem), write("q.json", published), "--names", names)
        assert next(csv.DictReader(io.StringIO(out)))["class name"] == "'" + name


def test_after_midnight(tool: Tool, write: Write) -> None:
    problem, published = one_class("late", 285, 18)
    out, _ = tool("table", write("p.json", problem), write("q.json", published))
    assert out.splitlines()[1] == "1,1,Monday,23:45,01:15 next day,week 1,,0"
