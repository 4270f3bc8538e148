"""Tests of `itc2019`: problems and solutions, what is told of them, and what can't be read."""

import json
from collections.abc import Callable
from pathlib import Path

import pytest
from competition_files import element, problem_xml
from conftest import DATA, Tool, Write, needs_program, uttab
from lxml import etree

PROBLEM = (DATA / "problem.xml").read_text(encoding="utf-8")


@pytest.fixture
def problem(tool: Tool, write: Write) -> Callable[..., tuple[str, str]]:
    """Turns the XML of a problem."""
    def turn(text: str | bytes, status: int = 0) -> tuple[str, str]:
        return tool("itc2019", "problem", write("a.xml", text), status=status)
    return turn


Turn = Callable[..., tuple[str, str]]


def replaced(old: str, new: str) -> str:
    assert old in PROBLEM
    return PROBLEM.replace(old, new, 1)


def test_a_small_problem(problem: Turn, checked: Callable[[str, str], None]) -> None:
    out, told = problem(PROBLEM)
    value = json.loads(out)
    assert [value[key] for key in ("name", "nrDays", "nrWeeks", "slotsPerDay")] == ["small", 5, 4, 288]
    assert value["optimization"] == {"time": 2, "room": 1, "distribution": 3, "student": 5}
    assert value["rooms"][2] == {
        "id": 3, "capacity": 80, "travel": [{"room": 2, "value": 3}],
        "unavailable": [{"days": "00100", "weeks": "1111", "start": 120, "length": 24},
                        {"days": "10000", "weeks": "1010", "start": 0, "length": 96}]}
    course = value["courses"][0]
    assert [config["id"] for config in course["configs"]] == [70, 71]
    assert [subpart["id"] for subpart in course["configs"][0]["subparts"]] == [700, 701]
    first = course["configs"][0]["subparts"][0]["classes"][0]
    assert first["rooms"] == [{"id": 1, "penalty": 0}, {"id": 2, "penalty": 10}]
    assert first["times"][1] == {"days": "01010", "weeks": "1111", "start": 96, "length": 18, "penalty": 2}
    second, third = course["configs"][0]["subparts"][1]["classes"]
    assert (second["parent"], second["limit"]) == (1, 10)
    assert (third["room"], third.get("rooms")) == (False, None)
    assert "limit" not in course["configs"][1]["subparts"][0]["classes"][0]
    assert len(value["distributions"]) == 19
    assert value["distributions"][0] == {"type": "SameStart", "required": True, "classes": [1, 2]}
    assert value["distributions"][17] == {"type": "MaxBreaks(1,6)", "penalty": 15, "classes": [1, 2]}
    assert value["students"] == [{"id": 1, "courses": [7, 8]}, {"id": 2, "courses": [7]}, {"id": 3, "courses": []}]
    assert "3 rooms have a capacity" in told
    assert "written: 3 rooms, 2 courses, 5 classes, 19 distributions, 3 students" in told
    checked(out, "open 5 3 19 3\n")


def test_the_standard_input(tool: Tool) -> None:
    assert json.loads(tool("itc2019", "problem", "-", text=PROBLEM)[0])["name"] == "small"


@needs_program
def test_a_made_problem_comes_back(problem: Turn) -> None:
    made = json.loads(uttab("make", 11, 203))
    for text in (problem_xml(made), problem_xml(made).replace("><", ">\n  <!-- a comment --><?note x?>\n<")):
        assert json.loads(problem(text)[0]) == made


def test_what_cannot_be_held_is_told(problem: Turn) -> None:
    text = PROBLEM.replace('type="Overlap"', 'type="Nearby(3)"').replace('type="MinGap(6)"', 'type="MinGap(70000)"')
    text = text.replace('<class id="4">', '<class id="4" colour="red">')
    text = text.replace("<students>", '<teachers><t><u a="1"/></t></teachers><students>')
    out, told = problem(text, status=1)
    assert len(json.loads(out)["distributions"]) == 17
    for words in (
        "left out: 1 distributions of the type Nearby(3), which uttab doesn't have (distribution 8)",
        "left out: 1 distributions of the type MinGap(70000)",
        "left out: 1 attributes colour of <class>, which are unknown (course 7, config 71, subpart 702, class 4)",
        "left out: 1 elements <teachers> inside <problem>, which are unknown",
    ):
        assert words in told
    assert "<t>" not in told


def test_terms_of_more_than_64_weeks_are_of_version_2(problem: Turn, checked: Callable[[str, str], None]) -> None:
    def of(weeks: int) -> str:
        time = element("time", {"days": "1", "start": 0, "length": 1, "weeks": "1" * weeks, "penalty": 0})
        return (f'<problem name="a" nrDays="1" nrWeeks="{weeks}" slotsPerDay="24"><optimization time="0" room="0" '
                'distribution="0" student="0"/><courses><course id="1"><config id="1"><subpart id="1">'
                f'<class id="1" room="false">{time}</class></subpart></config></course></courses></problem>')
    out, told = problem(of(80))
    assert json.loads(out)["version"] == 2 and "the file is of version 2" in told
    checked(out, "open 1 0 0 0\n")
    assert "version" not in json.loads(problem(of(64))[0])
    assert "nrWeeks of <problem> is above 128" in problem(of(129), status=1)[1]


def test_travel_that_differs_both_ways(problem: Turn) -> None:
    text = replaced('<room id="1" capacity="50"/>', '<room id="1" capacity="50"><travel room="2" value="9"/></room>')
    _, told = problem(text, status=1)
    assert "a pair of rooms has another travel in a second entry" in told and "to room 1, at room 2" in told


def test_rooms_that_are_skipped(problem: Turn) -> None:
    _, told = problem(replaced('<class id="5" limit="30">', '<class id="5" limit="30" room="false">'), status=1)
    assert '1 classes with room="false" have a list of rooms' in told
    _, told = problem(replaced('limit="10" room="false"', 'limit="10"'))
    assert "1 classes have no room in their list" in told


@pytest.mark.parametrize("old, new, words", [
    ('nrWeeks="4"', 'nrWeeks="129"', "nrWeeks of <problem> is above 128"),
    ('nrDays="5"', 'nrDays="8"', "nrDays of <problem> is above 7"),
    ('student="5"', 'student="100001"', "student of <optimization> is above 100,000"),
    ('travel room="1" value="2"', 'travel room="1" value="65536"', "value of <travel> is above 65,535"),
    ('length="36"', 'length="65535"', "a time ends after slot 65535"),
    ('length="36"', 'length="0"', "length of <time> is below 1"),
    ('penalty="15"', 'penalty="1000001"', "penalty of <distribution> is above 1,000,000"),
    ('<class id="5"', '<class id="4"', "an earlier class has the same id"),
    ('<student id="2">', '<student id="1">', "an earlier student has the same id"),
    ('<course id="8"/>', '<course id="9"/>', "an id stands for no course (course 9 at student 1"),
    ('parent="1" limit="10">', 'parent="77" limit="10">', "an id stands for no class"),
    ('weeks="0110"', 'weeks="0000"', "weeks is no set of 4 places"),
    ('weeks="0110"', 'weeks="011"', "weeks is no set of 4 places"),
    ('<optimization time="2" room="1" distribution="3" student="5"/>', "", "there is no <optimization>"),
    ('<time days="00001" start="200" length="36" weeks="0110" penalty="1"/>', "", "a class has no time"),
])
def test_limits_are_told(old: str, new: str, words: str, problem: Turn, checked: Callable[[str, str], None]) -> None:
    out, told = problem(replaced(old, new), status=1)
    json.loads(out)
    assert "uttab refuses: " in told and words in told
    checked(out, "problem refused")


def test_too_many_classes(problem: Turn, checked: Callable[[str, str], None]) -> None:
    one = element("time", {"days": "1", "start": 0, "length": 1, "weeks": "1", "penalty": 0})
    classes = "".join(element("class", {"id": number, "room": "false"}, one) for number in range(20_001))
    text = ('<problem name="a" nrDays="1" nrWeeks="1" slotsPerDay="1"><optimization time="0" room="0" distribution="0" '
            f'student="0"/><courses><course id="1"><config id="1"><subpart id="1">{classes}</subpart></config></course>'
            "</courses></problem>")
    out, told = problem(text, status=1)
    assert "uttab refuses: 20,001 classes, of which there may be 20,000" in told
    checked(out, "problem refused 39")


@pytest.mark.parametrize("old, new, line, words", [
    ('<room id="2" penalty="10"/>', '<room penalty="10"/>', 23, "course 7, config 70, subpart 700, class 1: its room has no id"),
    ('limit="20"', 'limit="many"', 21, 'course 7, config 70, subpart 700, class 1: limit="many" is no whole number'),
    ('penalty="7"', "", 66, "distribution 8 is neither required nor has a penalty"),
    ('nrDays="5"', "", 4, "problem has no nrDays"),
    ('<class id="5" limit="30">', '<class id="5" room="no">', 50,
     'course 8, config 80, subpart 800, class 5: room="no" is neither true nor false'),
    ("</problem>", "", 85, "can't be read as XML: Premature end of data in tag problem line 4"),
    ("<rooms>", "<rooms></rooms><rooms>", 6, "a second <rooms>"),
    ('<student id="3"/>', '<student id="3">text</student>', 82, "student 3: Did not expect text in element student content"),
])
def test_faults_name_file_line_and_part(old: str, new: str, line: int, words: str, problem: Turn) -> None:
    out, told = problem(replaced(old, new), status=3)
    assert out == "" and f"a.xml: line {line}: " in told and words in told and told.count("\n") == 1


def test_other_files(problem: Turn, tool: Tool, tmp_path: Path) -> None:
    assert "is a <solution>, where a <problem> is wanted" in problem((DATA / "solution.xml").read_bytes(), status=3)[1]
    assert "No such file" in tool("itc2019", "problem", tmp_path / "b.xml", status=3)[1]


def test_lines_above_65535(problem: Turn) -> None:
    """A line is told, or that it is beyond those that the library counts."""
    text = PROBLEM.replace("<students>", "<students>" + "\n" * 70_000)
    _, told = problem(text.replace('<student id="3"/>', '<student id="three"/>'), status=3)
    assert 'student three: id="three" is no whole number' in told
    assert "line 70082: " in told or "line 70083: " in told or "a line after 65,534: " in told


@pytest.mark.parametrize("encoding", ["shift_jis", "gb2312", "gb18030", "euc-kr", "utf-16", "iso-8859-2"])
def test_encodings(encoding: str, problem: Turn) -> None:
    text = PROBLEM.replace("UTF-8", encoding)
    assert json.loads(problem(text.encode(encoding))[0])["nrDays"] == 5


@pytest.mark.parametrize("encoding", ["KLINGON-8", "UTF-7x"])
def test_encodings_that_there_are_not(encoding: str, problem: Turn) -> None:
    out, told = problem(PROBLEM.replace("UTF-8", encoding), status=3)
    assert out == "" and f"line 1: can't be read as XML: Unsupported encoding {encoding}" in told and told.count("\n") == 1


def test_bytes_of_another_encoding(problem: Turn) -> None:
    told = problem(PROBLEM.replace("small", "Größe").encode("latin-1"), status=3)[1]
    assert "can't be read as XML" in told and told.count("\n") == 1


def test_entities_are_not_read(problem: Turn, tmp_path: Path) -> None:
    (tmp_path / "secret").write_text("a secret")
    bomb = "".join(f'<!ENTITY e{place} "{f"&e{place - 1};" * 10 if place else "x" * 10}">' for place in range(9))
    for declared, name in ((bomb, "&e8;"), (f'<!ENTITY secret SYSTEM "file://{tmp_path}/secret">', "&secret;"),
                           ('<!ENTITY % remote SYSTEM "http://127.0.0.1:9/x.dtd"> %remote;', "small")):
        text = PROBLEM.replace('"http://www.itc2019.org/competition-format.dtd">', f'"x.dtd" [{declared}]>')
        out, told = problem(text.replace('name="small"', f'name="{name}"'), status=3)
        assert out == "" and "secret<" not in told and told.count("\n") == 1
        out, told = problem(text.replace("<students>", f"<students>{name}"), status=3)
        assert out == "" and "a secret" not in told and told.count("\n") == 1


# Solutions


@pytest.fixture
def files(tool: Tool, tmp_path: Path) -> tuple[Path, Path]:
    """The small problem and its published timetable."""
    problem, published = tmp_path / "problem.json", tmp_path / "published.json"
    tool("itc2019", "problem", DATA / "problem.xml", "-o", problem)
    tool("itc2019", "solution", DATA / "solution.xml", "-o", published)
    return problem, published


def test_a_solution_and_back(files: tuple[Path, Path], tool: Tool) -> None:
    out, told = tool("itc2019", "solution", DATA / "solution.xml")
    published = json.loads(out)
    assert published["classes"][0] == {"days": "10100", "id": 1, "room": 1, "start": 96, "students": [1, 2], "weeks": "1111"}
    assert "room" not in published["classes"][2]
    assert published["technique"] == "Search & repair"
    assert "written: 5 classes, 5 times a student in a class" in told and "`publish` drops them" in told
    back, told = tool("itc2019", "published", *files, status=1)
    assert "no solution: 1 classes are in a room that isn't one of theirs (class 2)" in told
    assert "no solution: 1 classes are at a time that isn't one of theirs (class 4)" in told

    def shape(root: etree._Element) -> list[tuple[str, dict[str, str]]]:
        return [(part.tag, dict(part.attrib)) for part in root.iter(etree.Element)]
    assert shape(etree.fromstring(back.encode())) == shape(etree.parse(str(DATA / "solution.xml")).getroot())


def test_attributes_and_what_is_missing(files: tuple[Path, Path], tool: Tool, write: Write) -> None:
    published = write("p.json", '{"classes":[{"id":"05","days":"10000","start":"132","weeks":"1111","room":1,"students":["1"]}]}')
    out, told = tool("itc2019", "published", files[0], published, "--author", 'a "b" <c>', "--cores", "4", status=1)
    root = etree.fromstring(out.encode())
    assert dict(root.attrib) == {"name": "small", "author": 'a "b" <c>', "cores": "4"}
    assert dict(root[0].attrib) == {"id": "5", "days": "10000", "start": "132", "weeks": "1111", "room": "1"}
    assert "runtime, technique, institution, country" in told
    assert "no solution: 4 classes of the problem aren't in the timetable (first: class 1)" in told
    assert "no solution: 1 students with courses have no class (student 2)" in told
    assert "written: 1 of 5 classes" in told


def test_the_name_is_that_of_the_problem(files: tuple[Path, Path], tool: Tool, write: Write) -> None:
    empty = write("p.json", '{"classes":[]}')
    assert b'name="small"' in tool("itc2019", "published", files[0], empty, status=1)[0].encode()
    unnamed = write("u.json", files[0].read_text().replace('"name":"small",', ""))
    assert "--name is wanted" in tool("itc2019", "published", unnamed, empty, status=2)[1]
    assert 'name="other"' in tool("itc2019", "published", unnamed, empty, "--name", "other", status=1)[0]


@pytest.mark.parametrize("name", ["a\x01b", "a\ufffe", "\x00"])
def test_characters_that_xml_cannot_hold(name: str, files: tuple[Path, Path], tool: Tool, write: Write) -> None:
    if "\x00" not in name:
        out, told = tool("itc2019", "published", *files, "--name", name, status=2)
        assert out == "" and "has a character that XML can't hold" in told
    published = write("p.json", json.dumps({"classes": [], "author": name}))
    out, told = tool("itc2019", "published", files[0], published, status=2)
    assert out == "" and "author: " in told and "has a character that XML can't hold" in told


def test_classes_without_a_time_are_told(tool: Tool, write: Write) -> None:
    text = ('<solution name="a"><class id="1"><student id="1"/><student id="2"/></class>'
            '<class id="2" days="1" start="0" weeks="1"/></solution>')
    out, told = tool("itc2019", "solution", write("a.xml", text), status=1)
    assert [one["id"] for one in json.loads(out)["classes"]] == [2]
    assert "left out: 1 classes without days, start or weeks (class 1)" in told
    assert "left out: 2 students of classes without" in told


@pytest.mark.parametrize("text, words", [
    ('<solution name="a"><class days="1"/></solution>', "a.xml: line 1: class has no id"),
    ('<solution><class id="1" days="1" start="0" weeks="1"/>\n<class id="1" days="1" start="0" weeks="1"/></solution>',
     "a.xml: line 2: class 1 stands twice"),
])
def test_faults_of_a_solution(text: str, words: str, tool: Tool, write: Write) -> None:
    assert words in tool("itc2019", "solution", write("a.xml", text), status=3)[1]


@pytest.mark.parametrize("text, words", [
    ('{"classes":[{"id":1,"days":"12000","start":0,"weeks":"1"}]}', "/classes/0/days"),
    ('{"classes":[{"id":1,"days":"10000","start":0,"weeks":"1111"},{"id":"1","days":"1","start":0,"weeks":"1"}]}',
     "/classes/1/id: class 1 stands twice"),
    ('{"classes":[{"id":1.5}]}', "/classes/0/id: 1.5 is no number"),
    ('{"classes":[', "line 1, column 13: no JSON text"),
    ("{}", "/classes: is absent"),
])
def test_faults_of_a_published_file(text: str, words: str, files: tuple[Path, Path], tool: Tool, write: Write) -> None:
    assert words in tool("itc2019", "published", files[0], write("p.json", text), status=3)[1]


def test_words(tool: Tool) -> None:
    tool("itc2019", status=2)
    tool("itc2019", "publish", "a", status=2)
