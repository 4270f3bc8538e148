"""Tests of `compare`."""

import csv
import io
import json
from collections.abc import Callable
from typing import Any

import pytest
from conftest import PROGRAM, TOP, Tool, Write, needs_program, uttab
from test_page import Page

from uttab_tools.changes import Change

FACULTY = TOP / "examples/a_faculty"
TERM, AFTER = FACULTY / "term.json", FACULTY / "after_week_4.json"


def problem() -> dict[str, Any]:
    """A course with a lecture and two groups, of which a student attends one; and a course of one class."""
    def one(number: int, name: str, start: int) -> dict[str, Any]:
        times = [{"days": days, "weeks": "11", "start": start, "length": 12, "penalty": 0} for days in ("10", "01")]
        return {"id": number, "name": name, "rooms": [{"id": 1, "penalty": 0}, {"id": 2, "penalty": 0}], "times": times}
    return {
        "nrDays": 2, "nrWeeks": 2, "slotsPerDay": 288, "rooms": [{"id": 1, "name": "Hall"}, {"id": 2}],
        "optimization": {"time": 1, "room": 1, "distribution": 1, "student": 1},
        "courses": [
            {"id": 1, "name": "Optics", "configs": [{"id": 1, "subparts": [
                {"id": 1, "name": "lecture", "classes": [one(1, "Lecture", 96)]},
                {"id": 2, "name": "group", "classes": [one(2, "Group A", 120), one(3, "Group B", 132)]}]}]},
            {"id": 2, "configs": [{"id": 2, "subparts": [{"id": 3, "classes": [one(4, "", 144)]}]}]}],
        "students": [{"id": 7, "name": "Ada", "courses": [1]}, {"id": 8, "courses": [1]}, {"id": 9, "courses": [2]}]}


def timetable(*classes: tuple[int, str, int, int, list[int]]) -> str:
    return json.dumps({"classes": [{"id": one, "days": days, "weeks": "11", "start": start, "room": room, "students": students}
                                   for one, days, start, room, students in classes]})


OLD = timetable((1, "10", 96, 1, [7, 8]), (2, "10", 120, 1, [7, 8]), (3, "10", 132, 1, []), (4, "10", 144, 1, [9]))
Compare = Callable[..., str]


@pytest.fixture
def compare(tool: Tool, write: Write) -> Compare:
    def run(new: str, *words: object, old: str = OLD, of: dict[str, Any] | None = None) -> str:
        files = write("problem.json", json.dumps(of or problem())), write("old.json", old), write("new.json", new)
        out, told = tool("compare", *files, *words)
        assert told == ""
        return out
    return run


def test_a_class_moves_and_a_student_changes_groups(compare: Compare) -> None:
    new = timetable((1, "01", 96, 2, [7, 8]), (2, "10", 120, 1, [8]), (3, "10", 132, 1, [7]), (4, "10", 144, 1, [9]))
    assert compare(new) == """\
1 class moved; 2 students to be told

Optics: Lecture (1): other time and room (2 students)
    was Monday 08:00–09:00, all weeks, Hall
    is  Tuesday 08:00–09:00, all weeks, Room 2

student 7 Ada
    Optics: Lecture (1): other time and room: was Monday 08:00–09:00, all weeks, Hall, is Tuesday 08:00–09:00, all weeks, Room 2
    Optics: other group: was Group A (2), Monday 10:00–11:00, all weeks, Hall, is Group B (3), Monday 11:00–12:00, all weeks, Hall

student 8
    Optics: Lecture (1): other time and room: was Monday 08:00–09:00, all weeks, Hall, is Tuesday 08:00–09:00, all weeks, Room 2
"""


def test_the_number_0(tool: Tool, write: Write) -> None:
    value = json.dumps(problem()).replace('"id": 7', '"id": 0')
    old, new = (timetable((1, "10", 96, room, [0])) for room in (1, 2))
    out, _ = tool("compare", write("problem.json", value), write("old.json", old), write("new.json", new))
    assert "\nstudent 0 Ada\n" in out


def test_drafts(compare: Compare) -> None:
    """A class that is no longer in the timetable, and one that is new in it."""
    old = timetable((1, "10", 96, 1, [7, 8]), (2, "10", 120, 1, [7, 8]))
    new = timetable((1, "10", 96, 1, [7, 8]), (4, "10", 144, 2, [9]))
    out = compare(new, old=old)
    assert "0 classes moved, 1 no longer in the timetable, 1 new in the timetable; 3 students to be told" in out
    assert "Optics: Group A (2): no longer in the timetable (2 students)" in out
    assert "student 9\n    Course 2: group joined: Class 4, Monday 12:00–13:00, all weeks, Room 2\n" in out
    assert "student 8\n    Optics: Group A (2): no longer in the timetable: was Monday 10:00–11:00, all weeks, Hall\n" in out


def test_nothing_changes(compare: Compare) -> None:
    assert compare(OLD) == "0 classes moved; 0 students to be told\n"
    page = Page(compare(OLD, "--as", "page"))
    assert "No class is elsewhere." in page.text["classes"] and "Nobody has to be told." in page.text["students"]


def test_a_student_who_leaves_a_course(compare: Compare) -> None:
    new = timetable((1, "10", 96, 1, [8]), (2, "10", 120, 1, [8]), (3, "10", 132, 1, []), (4, "10", 144, 1, [9]))
    assert "student 7 Ada\n    Optics: group left: was Lecture (1), " in compare(new)


def test_tables(compare: Compare, write: Write) -> None:
    new = timetable((1, "01", 96, 2, [7, 8]), (2, "10", 120, 1, [8]), (3, "10", 132, 1, [7]), (4, "10", 144, 1, [9]))
    rows = list(csv.DictReader(io.StringIO(compare(new, "--as", "csv"))))
    assert [(row["class"], row["change"], row["is"], row["students"]) for row in rows] == [
        ("1", "other time and room", "Tuesday 08:00–09:00, all weeks, Room 2", "2")]
    teachers = write("teachers.csv", "teacher,class\nGrace Hopper,1\nAlan Turing,4\n")
    rows = list(csv.DictReader(io.StringIO(compare(new, "--as", "told", "--teachers", teachers))))
    assert [(row["who"], row["id"], row["name"], row["change"]) for row in rows] == [
        ("teacher", "", "Grace Hopper", "other time and room"), ("student", "7", "Ada", "other time and room"),
        ("student", "7", "Ada", "other group"), ("student", "8", "", "other time and room")]
    rows = list(csv.DictReader(io.StringIO(compare(new, "--as", "told", "--teachers", teachers, "--without-students"))))
    assert [row["who"] for row in rows] == ["teacher"]


def test_the_page(compare: Compare, write: Write) -> None:
    new = timetable((1, "01", 96, 2, [7, 8]), (2, "10", 120, 1, [8]), (3, "10", 132, 1, [7]), (4, "10", 144, 1, [9]))
    page = Page(compare(new, "--as", "page", "--teachers", write("teachers.csv", "teacher,class\n<Grace>,1\n")))
    assert "Optics: Class 1: Lecture" in page.text["k1"] and "Teacher <Grace>" in page.text["teachers"]
    assert "Student 7: Ada" in page.text["students"]
    out = compare(new, "--as", "page", "--without-students")
    assert "Ada" not in out and "2 students to be told" in out


def test_the_faculty_after_week_4(tool: Tool) -> None:
    """Seven classes moved, as the desk counts them, and 95 students."""
    out, _ = tool("compare", FACULTY / "problem.json", TERM, AFTER)
    assert out.splitlines()[0] == "7 classes moved; 95 students to be told"


@needs_program
def test_it_counts_as_the_desk_does(tool: Tool, write: Write) -> None:
    script = "recall\nunassign 801\nunassign 901\nrepair 100 3\npublish\n"
    told = uttab("run", FACULTY / "problem.json", "-", TERM, text=script).splitlines()
    moved = [line.split()[-1] for line in told if line.startswith("ok ")][3]
    new = write("new.json", next(line for line in told if line.startswith("{")))
    assert tool("compare", FACULTY / "problem.json", TERM, new)[0].startswith(f"{moved} class")


@needs_program
def test_costs_are_those_of_the_program(tool: Tool) -> None:
    words = ("compare", FACULTY / "problem.json", TERM, AFTER, "--costs", "--program", PROGRAM)
    out, _ = tool(*words)
    for name in (TERM, AFTER):
        first = uttab("verify", FACULTY / "problem.json", name).splitlines()[0]
        assert f"{name}: {first}\n" in out
    assert "sum time 25" in tool(*words, "--as", "page")[0]
    assert "--costs: reads the files once more" in tool("compare", "-", TERM, AFTER, "--costs", status=2)[1]


def test_a_change_of_many_is_put_into_words_once(compare: Compare, monkeypatch: pytest.MonkeyPatch) -> None:
    """Two timetables of thousands of students are compared in a second or two, since few of their changes differ."""
    made = []
    begin = Change.__init__

    def counted(self: Change, *words: str) -> None:
        made.append(words)
        begin(self, *words)
    monkeypatch.setattr(Change, "__init__", counted)
    value = problem()
    value["students"] = [{"id": number, "courses": [1]} for number in range(7, 1007)]
    everyone = list(range(7, 1007))
    old = timetable((1, "10", 96, 1, everyone), (2, "10", 120, 1, everyone), (3, "10", 132, 1, []))
    new = timetable((1, "01", 96, 2, everyone), (2, "10", 120, 1, []), (3, "10", 132, 1, everyone))
    assert compare(new, "--as", "page", old=old, of=value).count("<dd>") == 2000
    assert len(made) == 2


def test_faults_of_students_name_their_place(tool: Tool, write: Write) -> None:
    files = write("problem.json", json.dumps(problem())), write("old.json", OLD)
    for students, words in (("[7, 7, 10]", "/classes/0/students/2: the problem has no student 10"),
                            ('[7, {"id": "10"}]', "/classes/0/students/1: the problem has no student 10"),
                            ("[7, true]", "/classes/0/students/1: true is no number"),
                            ("[7, 4294967296]", "/classes/0/students/1: 4294967296 isn't within 0 to 4294967295")):
        new = write("new.json", OLD.replace("[7, 8]", students, 1))
        assert tool("compare", *files, new, status=3)[1] == f"compare: {new}: {words}\n"
