"""Tests of `midterm` and `close_rooms`: the rest of a term from a week on, and the whole term put together again."""

import json
from pathlib import Path

import pytest
from conftest import Tool, Write, needs_program, uttab

Value = dict[str, object]


def one_class(number: int, weeks: list[str], rooms: tuple[int, ...] = (1, 2), **more: object) -> Value:
    """A class that is on Monday or Tuesday at slot 10 in each of these sets of weeks."""
    times = [{"days": days, "start": 10, "length": 4, "weeks": one, "penalty": 0} for one in weeks for days in ("10", "01")]
    return {"id": number, "name": f"Class {number}", "limit": 9, "rooms": [{"id": room, "penalty": 0} for room in rooms],
            "times": times, **more}


def course(number: int, *subparts: list[Value]) -> Value:
    return {"id": number, "configs": [{"id": number, "subparts": [
        {"id": 10 * number + place, "classes": classes} for place, classes in enumerate(subparts)]}]}


# Class 1 or 2 is followed by class 3; class 1 is over after week 2. Classes 4 and 5 are in the same weeks.
PROBLEM: Value = {
    "version": 2, "nrDays": 2, "nrWeeks": 6, "slotsPerDay": 24,
    "optimization": {"time": 1, "room": 1, "distribution": 1, "student": 1}, "rooms": [{"id": 1}, {"id": 2}],
    "courses": [
        course(1, [one_class(1, ["110000", "001100"]), one_class(2, ["110000", "001100"])], [one_class(3, ["111111"])]),
        course(2, [one_class(4, ["111111"])]),
        course(3, [one_class(5, ["010101", "101010"])])],
    "distributions": [
        {"type": "MaxWeeks(4)", "required": True, "classes": [1, 2]},
        {"type": "Precedence", "required": True, "classes": [1, 3, 2]},
        {"type": "DifferentDays", "required": True, "classes": [3, 4]},
        {"type": "NotOverlap", "penalty": 3, "classes": [3, 4]}],
    "students": [{"id": 1, "courses": [1, 2]}, {"id": 2, "courses": [1, 3]}],
}
OLD: Value = {"classes": [
    {"id": 1, "days": "10", "start": 10, "weeks": "110000", "room": 1, "students": [1]},
    {"id": 2, "days": "10", "start": 10, "weeks": "001100", "room": 1, "students": [2]},
    {"id": 3, "days": "01", "start": 10, "weeks": "111111", "room": 1, "students": [1, 2]},
    {"id": 4, "days": "10", "start": 10, "weeks": "111111", "room": 2, "students": [1]},
    {"id": 5, "days": "01", "start": 10, "weeks": "010101", "room": 2, "students": [2]}]}


def loads(path: Path) -> Value:
    value: Value = json.loads(path.read_text())
    return value


def classes_of(problem: Value) -> dict[int, Value]:
    courses = problem["courses"]
    assert isinstance(courses, list)
    return {one["id"]: one for course in courses for config in course["configs"] for subpart in config["subparts"]
            for one in subpart["classes"]}


def placed(published: Value) -> dict[int, Value]:
    classes = published["classes"]
    assert isinstance(classes, list)
    return {one["id"]: one for one in classes}


@pytest.fixture
def files(write: Write) -> tuple[str, str]:
    return write("problem.json", json.dumps(PROBLEM)), write("old.json", json.dumps(OLD))


@pytest.fixture
def rest(tool: Tool, files: tuple[str, str], tmp_path: Path) -> Path:
    folder = tmp_path / "rest"
    _, told = tool("midterm", "rest", *files, "--from", 3, "--to", folder)
    assert told == ("midterm: 1 classes are over, and kept apart: 1\n")
    return folder


def test_weeks_gone_by_are_taken_out(rest: Path) -> None:
    problem, published = classes_of(loads(rest / "problem.json")), placed(loads(rest / "published.json"))
    assert {time["weeks"] for time in problem[3]["times"]} == {"001111"}  # type: ignore[attr-defined]
    assert {time["weeks"] for time in problem[2]["times"]} == {"001100"}  # type: ignore[attr-defined]
    assert {time["weeks"] for time in problem[5]["times"]} == {"000101", "001010"}  # type: ignore[attr-defined]
    assert [published[number]["weeks"] for number in (2, 3, 4, 5)] == ["001100", "001111", "001111", "000101"]


def test_a_class_that_is_over_is_kept_apart(rest: Path) -> None:
    one, own = classes_of(loads(rest / "problem.json"))[1], placed(loads(rest / "published.json"))[1]
    assert one["times"] == [{"days": "10", "start": 0, "length": 1, "weeks": "100000", "penalty": 0}]
    assert (one["room"], one["limit"], "rooms" in one) == (False, 1, False)
    assert own == {"id": 1, "days": "10", "start": 0, "weeks": "100000", "students": [1]}


def test_rules_of_the_rest(rest: Path) -> None:
    rules = loads(rest / "problem.json")["distributions"]
    assert isinstance(rules, list)
    # Two of four weeks are used, and what comes first is asked of what hasn't begun.
    assert [(rule["type"], rule["classes"]) for rule in rules] == [
        ("MaxWeeks(2)", [2]), ("Precedence", [2]), ("DifferentDays", [3, 4]), ("NotOverlap", [3, 4])]


@needs_program
def test_a_session_on_the_rest(rest: Path) -> None:
    replies = uttab("run", rest / "problem.json", "-", rest / "published.json", text="recall\n").splitlines()
    assert replies[0] == "open 5 2 4 2"
    assert replies[-1].endswith(" unplaced 0 unsectioned 0 moved 0")


def new_timetable(rest: Path, write: Write, **changes: object) -> str:
    """What was published for the rest, with class 3 at another time, and whatever else changed."""
    value = loads(rest / "published.json")
    placed(value)[3].update({"days": "10", "room": 2}, **changes)
    placed(value)[4].update({"days": "01", "room": 1})
    return write("new.json", json.dumps(value))


def test_the_whole_term(tool: Tool, files: tuple[str, str], rest: Path, write: Write, tmp_path: Path) -> None:
    teachers = write("teachers.csv", "teacher,class\nAda,3\nBen,5\n")
    _, told = tool("midterm", "whole", *files, new_timetable(rest, write), "--from", 3, "--to", tmp_path / "whole",
                   "--teachers", teachers)
    assert told == "midterm: 2 classes are two now: 3 (6 from week 3 on), 4 (7 from week 3 on)\n"
    problem, published = loads(tmp_path / "whole/problem.json"), placed(loads(tmp_path / "whole/published.json"))
    assert [(published[number]["days"], published[number]["weeks"], published[number].get("room")) for number in (1, 3, 6, 5)] == [
        ("10", "110000", 1), ("01", "110000", 1), ("10", "001111", 2), ("01", "010101", 2)]
    assert [classes_of(problem)[number]["name"] for number in (3, 6, 5)] == [
        "Class 3 (to week 2)", "Class 3 (from week 3 on)", "Class 5"]
    rules = problem["distributions"]
    assert isinstance(rules, list)
    assert [(rule["type"], rule["classes"]) for rule in rules] == [
        ("MaxWeeks(4)", [1, 2]), ("Precedence", [1, 3, 2]), ("DifferentDays", [3, 4]), ("DifferentDays", [6, 7]),
        ("NotOverlap", [3, 6, 4, 7])]
    assert (tmp_path / "whole/teachers.csv").read_text() == "teacher,class\nAda,3\nAda,6\nBen,5\n"


@needs_program
def test_the_whole_term_is_checked(tool: Tool, files: tuple[str, str], rest: Path, write: Write, tmp_path: Path) -> None:
    tool("midterm", "whole", *files, new_timetable(rest, write), "--from", 3, "--to", tmp_path / "whole")
    words = tmp_path / "whole/problem.json", tmp_path / "whole/published.json"
    assert uttab("check", words[0]).startswith("open 7 2 5 2\n")
    assert uttab("verify", *words).splitlines()[-1] == "valid"
    # Two classes of the weeks to come in one room at once are found.
    problem, published = loads(words[0]), loads(words[1])
    placed(published)[6]["room"] = placed(published)[2]["room"]
    told = uttab("verify", write("p.json", json.dumps(problem)), write("s.json", json.dumps(published)))
    assert "clash 2 6" in told


@needs_program
def test_what_has_the_weeks_of_a_changed_class_becomes_two(tool: Tool, write: Write, tmp_path: Path) -> None:
    rules = PROBLEM["distributions"]
    assert isinstance(rules, list)
    files = (write("problem.json", json.dumps(PROBLEM | {"distributions": [
        *rules, {"type": "SameWeeks", "required": True, "classes": [3, 5, 1]}]})), write("old.json", json.dumps(OLD)))
    tool("midterm", "rest", *files, "--from", 3, "--to", tmp_path / "rest")
    _, told = tool("midterm", "whole", *files, new_timetable(tmp_path / "rest", write), "--from", 3, "--to", tmp_path / "whole")
    assert told == "midterm: 3 classes are two now: 3 (6 from week 3 on), 4 (7 from week 3 on), 5 (8 from week 3 on)\n"
    found = loads(tmp_path / "whole/problem.json")["distributions"]
    assert isinstance(found, list)
    assert [rule["classes"] for rule in found if rule["type"] == "SameWeeks"] == [[3, 5, 1], [6, 8]]
    words = tmp_path / "whole/problem.json", tmp_path / "whole/published.json"
    assert uttab("verify", *words).splitlines()[-1] == "valid"


def test_nothing_changed(tool: Tool, files: tuple[str, str], rest: Path, tmp_path: Path) -> None:
    _, told = tool("midterm", "whole", *files, rest / "published.json", "--from", 3, "--to", tmp_path / "whole")
    assert told == ""
    assert loads(tmp_path / "whole/problem.json") == PROBLEM
    assert placed(loads(tmp_path / "whole/published.json")) == placed(OLD)


def test_what_is_told(tool: Tool, files: tuple[str, str], rest: Path, write: Write, tmp_path: Path) -> None:
    kept = [one for one in json.loads((rest / "published.json").read_text())["classes"] if one["id"] != 4]
    lost = write("lost.json", json.dumps({"classes": kept}))
    assert "1 classes aren't in the timetable any more: 4" in tool(
        "midterm", "whole", *files, lost, "--from", 3, "--to", tmp_path / "w", status=1)[1]
    assert "has weeks before week 3" in tool("midterm", "whole", *files, new_timetable(rest, write, weeks="011111"), "--from", 3, "--to",
                                             tmp_path / "w", status=3)[1]
    for first in (1, 7):
        assert "one at least has to be gone by" in tool("midterm", "rest", *files, "--from", first, "--to", tmp_path / "w", status=2)[1]


def test_closures_are_written_into_the_problem(tool: Tool, files: tuple[str, str], write: Write) -> None:
    lines = write("closures.txt", "# lost\nclose 1 10 0 24 001111\nrecall\nclose 2 01 3 1 100000\n")
    closed = json.loads(tool("close_rooms", files[0], lines)[0])
    assert [room["unavailable"] for room in closed["rooms"]] == [
        [{"days": "10", "start": 0, "length": 24, "weeks": "001111"}], [{"days": "01", "start": 3, "length": 1, "weeks": "100000"}]]
    told = tool("close_rooms", files[0], write("none.txt", "enrol all\n"))[1]
    assert told.endswith("none.txt: has no line `close`: the problem is as it was\n")
    for line, words in (
        ("close 3 10 0 24 001111", "line 1: /room: the problem has no room 3"),
        ("close 1 10 0 24", "line 1: is no `close ROOM DAYS START LENGTH WEEKS`"),
        ("close 1 100 0 24 001111", "line 1: /days: has 3 characters in place of 2"),
        ("close 1 10 0 0 001111", "line 1: /length: 0 isn't within 1 to 65535"),
    ):
        assert words in tool("close_rooms", files[0], write("broken.txt", line), status=3)[1]


@needs_program
def test_verify_knows_the_closures(tool: Tool, files: tuple[str, str], write: Write) -> None:
    closed = write("closed.json", tool("close_rooms", files[0], write("closures.txt", "close 1 01 0 24 000011\n"))[0])
    assert "closed 3" in uttab("verify", closed, files[1]).splitlines()


def draft(*left_out: int) -> str:
    classes = OLD["classes"]
    assert isinstance(classes, list)
    return json.dumps({"classes": [one for one in classes if one["id"] not in left_out]})


def session(folder: Path, *lines: str) -> str:
    """The timetable that a session on the rest ends with."""
    replies = uttab("run", folder / "problem.json", "-", folder / "published.json", text="\n".join(lines) + "\n").splitlines()
    assert not [line for line in replies if line.startswith("refused")], replies
    return next(line for line in replies if line.startswith("{"))


@needs_program
def test_a_draft_of_the_term(tool: Tool, write: Write, tmp_path: Path) -> None:
    """A class that isn't placed when the term begins is placed in the middle of it."""
    rules = PROBLEM["distributions"]
    assert isinstance(rules, list)
    # Class 1 is over when class 4 is placed, so nothing is asked of both.
    more = {"type": "SameDays", "required": True, "classes": [1, 4]}
    files = write("problem.json", json.dumps(PROBLEM | {"distributions": [*rules, more]})), write("draft.json", draft(4))
    _, told = tool("midterm", "rest", *files, "--from", 3, "--to", tmp_path / "rest")
    assert "midterm: 1 classes aren't placed yet: 4; `recall` gives no classes to who lacks one of them, and `enrol all`" in told
    new = write("new.json", session(tmp_path / "rest", "recall", "assign 3 1 2", "assign 4 2 1", "enrol all", "publish"))
    assert placed(json.loads(Path(new).read_text()))[4]["students"] == [1]
    _, told = tool("midterm", "whole", *files, new, "--from", 3, "--to", tmp_path / "whole")
    assert told == "midterm: 1 classes are two now: 3 (6 from week 3 on)\n"
    words = tmp_path / "whole/problem.json", tmp_path / "whole/published.json"
    found = uttab("verify", *words).splitlines()
    assert placed(loads(words[1]))[4]["weeks"] == "001111" and found[-1] == "valid", found


@needs_program
def test_a_draft_of_the_rest(tool: Tool, files: tuple[str, str], rest: Path, write: Write, tmp_path: Path) -> None:
    new = write("new.json", session(rest, "recall", "unassign 4", "draft"))
    _, told = tool("midterm", "whole", *files, new, "--from", 3, "--to", tmp_path / "whole", status=1)
    assert told == "midterm: 1 classes aren't in the timetable any more: 4\n"
    found = placed(loads(tmp_path / "whole/published.json"))
    assert (found[4]["weeks"], found[3]["weeks"]) == ("110000", "111111")


@needs_program
def test_a_class_that_never_was(tool: Tool, write: Write, tmp_path: Path) -> None:
    """It has no time left, and whoever needs it isn't left without all others."""
    courses = PROBLEM["courses"]
    assert isinstance(courses, list)
    late = PROBLEM | {"courses": [courses[0], course(2, [one_class(4, ["110000"])]), courses[2]]}
    files = write("problem.json", json.dumps(late)), write("draft.json", draft(4))
    assert "1 classes were never placed and have no time left: 4" in tool(
        "midterm", "rest", *files, "--from", 3, "--to", tmp_path / "rest", status=1)[1]
    new = write("new.json", session(tmp_path / "rest", "recall", "enrol all", "search 10 1", "publish"))
    told = tool("midterm", "whole", *files, new, "--from", 3, "--to", tmp_path / "whole", status=1)[1]
    assert told == "midterm: 1 classes are in neither timetable: 4\n"
    found = uttab("verify", tmp_path / "whole/problem.json", tmp_path / "whole/published.json").splitlines()
    assert (found[:2], found[-1]) == (["class 4 missing", "student 1 invalid"], "violations 2")
