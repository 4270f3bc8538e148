"""Tests of `page`: what stands in it. tests/test_browser.py looks at it in a browser."""

import json
from collections.abc import Callable
from html.parser import HTMLParser
from pathlib import Path

import pytest
from conftest import DATA, Tool, Write, needs_program, uttab


class Page(HTMLParser):
    """The elements of a page, checked to be closed in order, and the text of those with an id."""

    VOID = ("meta", "br", "input", "link")

    def __init__(self, text: str) -> None:
        super().__init__()
        self.open: list[tuple[str, str | None]] = []
        self.text: dict[str, str] = {}
        self.links: list[str] = []
        self.levels: list[int] = []
        self.feed(text)
        self.close()
        assert self.open == []

    def handle_starttag(self, tag: str, attributes: list[tuple[str, str | None]]) -> None:
        found = dict(attributes)
        name = found.get("id")
        if name is not None:
            assert name not in self.text, name
            self.text[name] = ""
        if tag == "a":
            self.links.append(found["href"] or "")
        if tag[0] == "h" and tag[1:].isdigit():
            self.levels.append(int(tag[1:]))
        for key in ("src", "href"):
            assert not (found.get(key) or "").startswith(("http", "//")), found
        if tag not in self.VOID:
            self.open.append((tag, name))

    def handle_endtag(self, tag: str) -> None:
        assert self.open.pop()[0] == tag, tag

    def handle_data(self, data: str) -> None:
        for _, name in self.open:
            if name:
                self.text[name] += data


Make = Callable[..., Page]


@pytest.fixture
def files(tool: Tool, write: Write) -> tuple[str, str]:
    return (write("problem.json", tool("itc2019", "problem", DATA / "problem.xml")[0]),
            write("published.json", tool("itc2019", "solution", DATA / "solution.xml")[0]))


@pytest.fixture
def page(tool: Tool) -> Make:
    def make(*words: object) -> Page:
        out, told = tool("page", *words)
        assert told == "" and "http" not in out
        return Page(out)
    return make


@pytest.fixture
def changed(files: tuple[str, str], write: Write) -> Callable[..., str]:
    """The published file with parts of the class of that id, `c5` say, put in."""
    def change(**parts: dict[str, object]) -> str:
        value = json.loads(Path(files[1]).read_text(encoding="utf-8"))
        for one in value["classes"]:
            one.update(parts.get(f"c{one['id']}", {}))
        return write("changed.json", json.dumps(value))
    return change


def test_the_whole_page(files: tuple[str, str], page: Make) -> None:
    made = page(*files)
    for link in made.links:
        assert link.removeprefix("#") in made.text
    for earlier, level in zip(made.levels, made.levels[1:]):
        assert level <= earlier + 1
    assert [name for name in made.text if name[0] == "r" and name[1:].isdigit()] == ["r1", "r2", "r9"]
    assert "Class 1 Course 708:00–09:30, all weeks" in " ".join(made.text["r1"].split())
    assert "Weeks 2 and 3" in made.text["r2"] and "Changed time" in made.text["r2"]
    assert "this room isn’t in the problem" in made.text["r9"] and "Odd weeks" in made.text["r9"]
    assert "No class meets in: Room 3." in made.text["rooms"]
    assert "no room" in made.text["k3"] and "2 of 20" in made.text["k1"]
    assert "Classes at another time or room than the problem allows2" in made.text["summary"]
    assert "Rooms used2 of 3, and 1 not in the problem" in made.text["summary"]


def test_clashes_and_closed_rooms(files: tuple[str, str], page: Make, changed: Callable[..., str], tool: Tool) -> None:
    name = changed(c5={"start": 100, "days": "10000"}, c2={"room": 3, "start": 132})
    made = page(files[0], name)
    assert "Clash" in made.text["r1"] and "clash with Class 5" in made.text["r1"]
    assert "--i:1;--n:2" in tool("page", files[0], name)[0]
    assert "Room closed" in made.text["r3"] and "closed 11:00–12:00" in made.text["r3"]
    assert "Course 7: Class 1 and Course 8: Class 5 clash in Room 1, " in made.text["summary"]
    assert "clash with Course 7: Class 1" in made.text["k5"] and "room closed" in made.text["k2"]


def test_kinds_of_weeks(files: tuple[str, str], page: Make, changed: Callable[..., str]) -> None:
    """Two kinds of weeks have a grid each, three have one together, or one each where that is asked for."""
    name = changed(c5={"weeks": "1010", "start": 150}, c4={"room": 1, "weeks": "0001", "start": 200})
    assert "All weeks together" in page(files[0], name).text["r1"]
    made = page(files[0], name, "--grids", 3)
    for words in ("Odd weeks", "Week 2", "Week 4"):
        assert words in made.text["r1"]
    made = page(files[0], changed(c5={"weeks": "1010"}))
    assert "Odd weeks" in made.text["r1"] and "Even weeks" in made.text["r1"]


def test_names_are_text_and_set_apart(files: tuple[str, str], page: Make, tool: Tool) -> None:
    made = page(*files, "--names", DATA / "names.csv")
    assert "Room 1: Great <hall>" in made.text["r1"]
    assert "DB-1 lecture Databases, I" in " ".join(made.text["r1"].split()) and "Lundi" in made.text["r1"]
    out, _ = tool("page", *files, "--names", DATA / "names.csv")
    assert "<hall>" not in out and "<bdi>Great &lt;hall&gt;</bdi>" in out


def test_data_of_students(files: tuple[str, str], page: Make) -> None:
    made = page(*files, "--names", DATA / "names.csv")
    data = json.loads(made.text["data"])
    lines = dict(line.split(" ", 1) for line in made.text["students"].strip("\n").split("\n"))
    ids = [one[0] for one in data["classes"]]
    assert {student: [ids[int(place)] for place in places.split()] for student, places in lines.items()} == {
        "1": [1, 2, 5], "2": [1, 3], "3": []}
    assert data["names"]["student"] == {"1": "Ada Lovelace"}
    assert data["travel"] == [[0, 1, 2], [1, 2, 3]]


def test_a_page_that_can_be_given_away(files: tuple[str, str], page: Make, tool: Tool) -> None:
    made = page(*files, "--names", DATA / "names.csv", "--without-students")
    out, _ = tool("page", *files, "--names", DATA / "names.csv", "--without-students")
    assert "Ada" not in out and made.text["students"].strip() == ""
    assert json.loads(made.text["data"])["classes"] == [] and "student-part" not in made.text
    assert "2 of 20" in made.text["k1"] and 'value="s"' not in out
    assert "nothing would be left" in tool("page", *files, "--without-students", "--student", 1, status=2)[1]


def test_a_page_for_each_part(files: tuple[str, str], tool: Tool, tmp_path: Path, write: Write) -> None:
    teachers = write("teachers.csv", "teacher,class\nGrace Hopper,1\nGrace Hopper,5\n")
    words = ("page", *files, "--names", DATA / "names.csv", "--teachers", teachers, "--folder", tmp_path / "pages")
    assert tool(*words) == ("", "")
    names = {path.name for path in (tmp_path / "pages").iterdir()}
    assert names == {"student_1.html", "student_2.html", "room_1.html", "room_2.html", "room_9.html", "course_7.html", "course_8.html",
                     "teacher_Grace_Hopper.html"}
    student = (tmp_path / "pages/student_2.html").read_text(encoding="utf-8")
    assert "Ada" not in student and "DB-1 lecture" in student and Page(student).text["k1"].startswith("Databases")
    for name in names:
        assert "Ada" not in (tmp_path / "pages" / name).read_text(encoding="utf-8") or name == "student_1.html"
    (tmp_path / "pages/old.html").write_text("")
    _, told = tool(*words, "--of", "room", "--without-students")
    assert "6 files were there already and aren't of this timetable (first: course_7.html)" in told
    assert tool(*words[:-2], "--student", 2)[0] == student
    assert "--room 77: there is none" in tool("page", *files, "--room", 77, status=2)[1]
    assert "-o has no place" in tool(*words, "-o", tmp_path / "x.html", status=2)[1]
    assert "--of pupil: takes student" in tool("page", *files, "--folder", tmp_path / "x", "--of", "pupil", status=2)[1]


def test_names_that_differ_in_signs_alone(files: tuple[str, str], tool: Tool, tmp_path: Path, write: Write) -> None:
    teachers = write("teachers.csv", "teacher,class\nA. North,1\nA North,2\na-north 2,5\n???,5\n")
    tool("page", *files, "--teachers", teachers, "--folder", tmp_path / "pages", "--of", "teacher")
    texts = {path.name: path.read_text(encoding="utf-8") for path in (tmp_path / "pages").iterdir()}
    titles = {name: text.split("<title>")[1].split("</title>")[0] for name, text in texts.items()}
    assert titles == {"teacher_A_North.html": "Teacher: A. North", "teacher_A_North_2.html": "Teacher: A North",
                      "teacher_a_north_2_2.html": "Teacher: a-north 2", "teacher_.html": "Teacher: ???"}


def test_a_student_who_cannot_attend_all(files: tuple[str, str], page: Make, changed: Callable[..., str], tool: Tool) -> None:
    out, _ = tool("page", files[0], changed(c5={"start": 100}), "--student", 1)
    assert "1 pair of classes can’t both be attended" in out and "<strong>Same time as</strong> Class 5" in out


def test_teachers_stand_in_the_page(files: tuple[str, str], page: Make, write: Write) -> None:
    made = page(*files, "--teachers", write("t.csv", "teacher,class\nGrace Hopper,1\nGrace Hopper,2\n"))
    assert "Teacher: Grace Hopper" in made.text["t1"] and "2 classes" in made.text["t1"]
    assert "Grace Hopper" in made.text["k1"]


def test_nothing_published(files: tuple[str, str], page: Make, write: Write) -> None:
    made = page(files[0], write("p.json", '{"classes":[]}'))
    assert "Classes in the timetable0 of 5" in made.text["summary"] and "not in the timetable" in made.text["k1"]
    assert "explain" in made.text["summary"]


def test_a_class_at_a_quarter_to_midnight(page: Make, write: Write) -> None:
    """Each room shows its own hours, and what is after midnight is said so."""
    def inner(number: int, start: int, length: int) -> dict[str, object]:
        return {"id": number, "rooms": [{"id": number, "penalty": 0}],
                "times": [{"days": "10000", "weeks": "1", "start": start, "length": length, "penalty": 0}]}
    problem = {"nrDays": 5, "nrWeeks": 1, "slotsPerDay": 288, "rooms": [{"id": 1}, {"id": 2}], "courses": [
        {"id": 1, "configs": [{"subparts": [{"classes": [inner(1, 285, 18), inner(2, 96, 12)]}]}]}]}
    published = {"classes": [{"id": 1, "days": "10000", "start": 285, "weeks": "1", "room": 1},
                             {"id": 2, "days": "10000", "start": 96, "weeks": "1", "room": 2}]}
    made = page(write("p.json", json.dumps(problem)), write("q.json", json.dumps(published)))
    assert "23:0000:0001:00Monday" in made.text["r1"].replace("\n", "") and "23:45–01:15 next day" in made.text["r1"]
    assert "08:00Monday" in made.text["r2"].replace("\n", "") and "09:00Monday" not in made.text["r2"]


def test_terms_of_more_than_64_weeks(page: Make, write: Write) -> None:
    time = {"days": "1", "weeks": "0" * 99 + "1", "start": 0, "length": 1, "penalty": 0}
    problem = {"version": 2, "nrDays": 1, "nrWeeks": 100, "slotsPerDay": 24, "courses": [
        {"id": 1, "configs": [{"id": 1, "subparts": [{"id": 1, "classes": [{"id": 1, "room": False, "times": [time]}]}]}]}]}
    published = {"classes": [{"id": 1, "days": "1", "weeks": "0" * 99 + "1", "start": 0}]}
    made = page(write("p.json", json.dumps(problem)), write("q.json", json.dumps(published)))
    assert "week 100" in made.text["k1"]
    assert json.loads(made.text["data"])["weeks"] == [[[0, 0, 0, 8], "week 100"]]


@needs_program
def test_the_page_counts_as_the_desk_does(page: Make, write: Write) -> None:
    """The pairs that a student can't both attend are the number that the desk gives after `recall`."""
    problem = write("p.json", uttab("make", 3, 32))
    out = uttab("run", problem, "-", text="enrol all\nsearch 10000 1\npublish\n")
    published = write("q.json", next(line for line in out.splitlines() if line.startswith("{")))
    totals = uttab("run", problem, "-", published, text="recall\n").splitlines()[1].split()
    assert "hard 0 unplaced 0 unsectioned 0" in " ".join(totals)
    student = int(totals[totals.index("student") + 1])
    assert student > 0 and f"students){student}\n" in page(problem, published).text["summary"]
