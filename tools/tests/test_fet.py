"""Tests of `fet`: what becomes of an institution, and that FET itself opens what comes back."""

import json
import shutil
import subprocess
from pathlib import Path

import pytest
from conftest import DATA, TOP, Tool, Write, needs_program, uttab
from lxml import etree

from uttab_tools.fet.conversion import problem_of
from uttab_tools.fet.institution import Institution
from uttab_tools.fet.kinds import KINDS
from uttab_tools.fet.report import Report

SCHOOL = DATA / "school.fet"
EXAMPLES = Path("/usr/share/doc/fet-data/examples")
SMALL = ("FET-5-official/United-Kingdom/Hopwood/Hopwood.fet", "FET-5-official/Denmark/small-school.fet",
         "FET-5-block-planning/small-example.fet", "FET-5-terms/1/simple.fet",
         "FET-6-mornings-afternoons/problem-cannot-be-solved/test-liviu7.fet", "FET-5-official/Brazil/2/EEBLJ-Noturno.fet")
needs_examples = pytest.mark.skipif(not EXAMPLES.exists(), reason="there is no fet-data")
needs_fet = pytest.mark.skipif(shutil.which("fet-cl") is None, reason="there is no fet")
SCRIPT = "enrol all\nsearch 2000 1\npublish\n"


@pytest.fixture
def school(tool: Tool) -> dict[str, object]:
    value: dict[str, object] = json.loads(tool("fet", "problem", SCHOOL, status=1)[0])
    return value


def classes(problem: dict[str, object]) -> dict[int, dict[str, object]]:
    courses = problem["courses"]
    assert isinstance(courses, list)
    return {one["id"]: one for course in courses for config in course["configs"] for subpart in config["subparts"]
            for one in subpart["classes"]}


def starts(one: dict[str, object]) -> dict[tuple[int, int], int]:
    """The penalties of a class by day and hour of FET."""
    times = one["times"]
    assert isinstance(times, list)
    return {(time["days"].index("1"), time["start"] - 8): time["penalty"] for time in times}


def test_what_becomes_of_activities(school: dict[str, object]) -> None:
    found = classes(school)
    assert sorted(found) == [1, 2, 3, 4, 5]
    assert {time["length"] for time in found[1]["times"]} == {2}  # type: ignore[attr-defined]
    # Ada can't come on Monday at 8, and nothing goes over the break on Wednesday at 11.
    assert (0, 0) not in starts(found[1]) and (0, 1) in starts(found[1])
    assert not {(2, 2), (2, 3)} & starts(found[1]).keys() and {(2, 1), (2, 4)} <= starts(found[1]).keys()
    assert starts(found[4]) == {(3, 4): 0}
    assert starts(found[2]) == {start: 0 if start == (1, 0) else 50 for start in starts(found[2])}
    # Rooms that are large enough, and the home room where no other constraint gives one.
    assert [found[number].get("rooms") for number in (1, 3, 4, 5)] == [
        [{"id": 2, "penalty": 0}], [{"id": 1, "penalty": 0}, {"id": 2, "penalty": 0}], [{"id": 3, "penalty": 0}], None]
    assert [course["id"] for course in school["courses"]] == [1, 3, 4, 5]  # type: ignore[attr-defined]


def test_what_becomes_of_constraints(school: dict[str, object]) -> None:
    rules = [(rule["type"], rule.get("penalty"), sorted(rule["classes"])) for rule in school["distributions"]]  # type: ignore[attr-defined]
    assert rules == [
        ("SameAttendees", None, [1, 2, 3]), ("SameAttendees", None, [4, 5]), ("SameAttendees", None, [1, 2, 4]),
        ("SameAttendees", None, [3, 4, 5]), ("DifferentDays", 95, [1, 2]), ("SameDays", None, [3, 5]), ("NotOverlap", None, [3, 5]),
        ("WorkDay(4)", None, [3, 5]), ("Precedence", None, [3, 5]), ("MaxDays(3)", None, [1, 2, 3])]
    assert school["rooms"][2]["unavailable"] == [  # type: ignore[index]
        {"days": "00001", "start": 13, "length": 1, "weeks": "1"}]
    assert [(student["name"], student["courses"]) for student in school["students"]] == [  # type: ignore[attr-defined]
        ("1A", [1, 4]), ("1B", [3, 4, 5])]


def test_what_is_told(tool: Tool) -> None:
    lines = tool("fet", "problem", SCHOOL, status=1)[1].splitlines()
    assert [line.partition("school.fet: ")[2] for line in lines] == [
        "kept in part: 1 TwoActivitiesConsecutive (first: line 50): " + KINDS["ConstraintTwoActivitiesConsecutive"].but,
        "left out: 1 ActivityEndsStudentsDay (first: line 53): has no counterpart",
        "note: 1 constraints that aren't active",
        "13 active constraints: 11 kept, 1 kept in part, 1 left out"]


def test_the_teachers(tool: Tool, tmp_path: Path) -> None:
    sheet = tmp_path / "teachers.csv"
    tool("fet", "problem", SCHOOL, "--teachers", sheet, status=1)
    assert sheet.read_text() == "teacher,class\nAda,1\nAda,2\nAda,3\nBen,4\nBen,5\n"


@pytest.mark.parametrize("old, new, told", [
    ("<fet version", "<institution version", "can't be read as XML: Opening and ending tag mismatch"),
    ("</fet>", "", "can't be read as XML: Premature end of data in tag fet"),
    ("A School", "<a>" * 300 + "</a>" * 300, "can't be read as XML: Excessive depth"),
    ('encoding="UTF-8"', 'encoding="KLINGON-8"', "line 1: can't be read as XML: Unsupported encoding KLINGON-8"),
    ("<Duration>2", "<Duration>two", "line 30: the <Duration> of <Activity> is 'two', no whole number"),
    ("<Students>1B", "<Students>1C", "line 32: activity 3: there are no students '1C'"),
    ("<Day>Wed</Day>", "<Day>Sat</Day>", "<Day>: there is no 'Sat'"),
    ("<Weight_Percentage>95", "<Weight_Percentage>much", "the <Weight_Percentage> is 'much', no number"),
    ("<Weight_Percentage>95", "<Weight_Percentage>nan", "the <Weight_Percentage> is 'nan', no number"),
    ("<Duration>2", "<Duration>0", "line 30: activity 1 lasts 0 hours, and a day has 6"),
    ("<Duration>2", "<Duration>7", "line 30: activity 1 lasts 7 hours, and a day has 6"),
    ("<Id>2</Id>", "<Id>1</Id>", "line 31: an earlier activity has the <Id> 1"),
])
def test_faults(old: str, new: str, told: str, tool: Tool, write: Write) -> None:
    text = SCHOOL.read_text()
    assert old in text
    assert told in tool("fet", "problem", write("broken.fet", text.replace(old, new)), status=3)[1]


def test_entities_are_not_read(tool: Tool, write: Write) -> None:
    text = SCHOOL.read_text().replace("<fet version", '<!DOCTYPE fet [<!ENTITY x SYSTEM "file:///etc/passwd">]>\n<fet version')
    for name in ("A &x;School", "A School"):
        out, told = tool("fet", "problem", write("entity.fet", text.replace("A School", name)), status=3)
        assert out == "" and "declares entities, which aren't read" in told


@needs_program
def test_the_program_takes_it(tool: Tool, write: Write) -> None:
    assert uttab("check", write("problem.json", tool("fet", "problem", SCHOOL, status=1)[0])).startswith("open 5 3 10 2\n")


def published(write: Write, file: Path) -> str:
    """A timetable of an institution."""
    problem = write("problem.json", json.dumps(problem_of(Institution(str(file)), Report())))
    lines = [line for line in uttab("run", problem, "-", text=SCRIPT).splitlines() if line.startswith('{"classes"')]
    return write("published.json", lines[0] + "\n")


@needs_program
def test_a_timetable_goes_back(tool: Tool, write: Write) -> None:
    timetable = published(write, SCHOOL)
    out, told = tool("fet", "published", SCHOOL, timetable)
    assert "5 activities are locked to their hour, 4 to their room" in told
    root = etree.fromstring(out.encode())
    locked = root.findall("Time_Constraints_List/ConstraintActivityPreferredStartingTime")
    assert sorted(int(one.findtext("Activity_Id")) for one in locked) == [1, 2, 3, 4, 5]
    assert [one.findtext("Permanently_Locked") for one in locked if one.findtext("Activity_Id") == "4"] == ["true"]
    # The same again changes nothing.
    assert tool("fet", "published", write("again.fet", out), timetable)[0] == out


@pytest.mark.parametrize("old, new, told", [
    ('"id":1,', '"id":6,', "class 6 is no active activity"), ('"days":"', '"days":"0', "its days and weeks are no day"),
    ('"start":', '"start":1', "begins at no hour"), ('"room":', '"room":9', "has no room 9")])
@needs_program
def test_a_timetable_of_something_else(old: str, new: str, told: str, tool: Tool, write: Write) -> None:
    text = Path(published(write, SCHOOL)).read_text()
    assert told in tool("fet", "published", SCHOOL, write("other.json", text.replace(old, new, 1)), status=3)[1]


@needs_program
@needs_fet
@pytest.mark.parametrize("file", [SCHOOL, *(EXAMPLES / name for name in SMALL[:3])], ids=lambda path: path.stem)
def test_fet_opens_it(file: Path, tool: Tool, write: Write, tmp_path: Path) -> None:
    if not file.exists():
        pytest.skip("there is no fet-data")
    locked = write("locked.fet", tool("fet", "published", file, published(write, file))[0])
    done = subprocess.run(["fet-cl", f"--inputfile={locked}", f"--outputdir={tmp_path / 'out'}", "--timelimitseconds=20",
                           "--language=en_US"], capture_output=True, text=True, timeout=120, check=False)
    assert "Simulation successful" in done.stdout, done.stdout[-1500:]


@needs_program
@needs_examples
@pytest.mark.parametrize("name", SMALL, ids=lambda name: Path(name).stem)
def test_examples_of_fet_are_read(name: str, write: Write) -> None:
    problem = write("problem.json", json.dumps(problem_of(Institution(str(EXAMPLES / name)), Report())))
    assert uttab("check", problem).startswith("open ")


def test_the_table_of_the_document() -> None:
    """Each kind stands in one row, with what becomes of it."""
    found = {}
    for line in (TOP / "docs/FET.md").read_text().splitlines():
        cells = [cell.strip() for cell in line.strip("|").split(" | ")]
        if len(cells) == 3 and cells[0].startswith("`"):
            found.update({f"Constraint{kind.strip(' `')}": cells[1:] for kind in cells[0].split(",")})
    assert found == {name: [kind.becomes, kind.but or "wholly"] for name, kind in KINDS.items()}
