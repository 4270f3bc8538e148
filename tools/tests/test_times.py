"""Tests of times, sets, names and the readers."""

import json
from collections.abc import Callable

import pytest
from conftest import DATA, Tool, Write

from uttab_tools.names import Names
from uttab_tools.problem import Problem
from uttab_tools.program import FileFault
from uttab_tools.published import Meeting, Published
from uttab_tools.times import clock, overlap, set_text, weeks_in_words


def bits(*weeks: int) -> int:
    return sum(1 << (week - 1) for week in weeks)


@pytest.mark.parametrize("weeks, count, words", [
    (range(1, 14), 13, "all weeks"),
    ([1], 1, "week 1"),
    (range(1, 14, 2), 13, "odd weeks"),
    (range(2, 14, 2), 13, "even weeks"),
    ([1, 3], 4, "odd weeks"),
    (range(3, 10, 2), 13, "odd weeks 3 to 9"),
    (range(3, 8), 13, "weeks 3 to 7"),
    ([3, 4], 13, "weeks 3 and 4"),
    ([5], 13, "week 5"),
    ([1, 5], 13, "weeks 1 and 5"),
    ([1, 2, 5, 6, 7, 13], 13, "weeks 1, 2, 5 to 7 and 13"),
    ([*range(1, 7), *range(8, 14)], 13, "all weeks but 7"),
    ([*range(1, 7), *range(9, 14)], 13, "all weeks but 7 and 8"),
    (range(1, 65), 64, "all weeks"),
    ([64], 64, "week 64"),
    ([], 4, "no weeks"),
])
def test_weeks_in_words(weeks: list[int], count: int, words: str) -> None:
    assert weeks_in_words(bits(*weeks), count) == words


def test_times_of_day() -> None:
    assert [clock(slot, 288) for slot in (0, 96, 115, 287)] == ["00:00", "08:00", "09:35", "23:55"]
    assert [clock(1, 24), clock(1, 7)] == ["01:00", "03:25"]
    assert [clock(slot, 288) for slot in (288, 300, 576)] == ["00:00 next day", "01:00 next day", "00:00 2 days later"]


def test_sets_as_texts() -> None:
    assert [set_text(bits(1, 3), 4), set_text(bits(4), 4)] == ["1010", "0001"]


@pytest.fixture
def files(tool: Tool, write: Write) -> tuple[str, str]:
    return (write("problem.json", tool("itc2019", "problem", DATA / "problem.xml")[0]),
            write("published.json", tool("itc2019", "solution", DATA / "solution.xml")[0]))


def test_length_of_a_published_class(files: tuple[str, str], write: Write) -> None:
    with open(files[0], encoding="utf-8") as file:
        value = json.load(file)
    times = value["courses"][0]["configs"][0]["subparts"][0]["classes"][0]["times"]
    times.append({**times[0], "length": 30})
    problem = Problem(write("p.json", json.dumps(value)))
    placed = {one.id: one for one in Published(files[1], problem).classes}
    meeting = Meeting(problem.classes[1], placed[1])
    assert (meeting.time.length, meeting.other_lengths, meeting.other_time) == (18, True, False)
    meeting = Meeting(problem.classes[4], placed[4])
    assert (meeting.time.length, meeting.other_lengths, meeting.other_time) == (36, False, True)


def test_both_spellings(files: tuple[str, str], write: Write) -> None:
    with open(files[0], encoding="utf-8") as file:
        value = json.load(file)

    def spell(part: object) -> object:
        if isinstance(part, dict):
            return {key: spell(inner) for key, inner in part.items()} | {"extra": [1.5]}
        if isinstance(part, list):
            return [spell(inner) for inner in part]
        return str(part).lower() if isinstance(part, int) else part
    spelled = spell(value)
    assert isinstance(spelled, dict)
    one, two = Problem(files[0]), Problem(write("p.json", json.dumps(spelled | {"distributions": None})))
    assert [one_class.rooms for one_class in one.classes.values()] == [one_class.rooms for one_class in two.classes.values()]
    assert (one.travel, one.weeks, list(one.students)) == (two.travel, two.weeks, list(two.students))
    value["rooms"][0]["id"] = "4294967296"
    with pytest.raises(FileFault, match="/rooms/0/id: 4294967296 isn't within 0 to 4294967295"):
        Problem(write("p.json", json.dumps(value)))


def test_overlap(files: tuple[str, str]) -> None:
    times = {one: of_class.times[0] for one, of_class in Problem(files[0]).classes.items()}
    assert not overlap(times[1], times[5]) and overlap(times[1], times[1])


@pytest.fixture
def names(files: tuple[str, str], write: Write) -> Callable[[str], Names]:
    return lambda text: Names(Problem(files[0]), write("names.csv", text))


def test_names_as_spreadsheets_save_them(names: Callable[[str], Names]) -> None:
    found = names("\ufeffKind;Id;Name\r\nRoom;1;The \"Hall\", old\r\nday;6;Samedi\r\n\r\nstudent;9;nobody\r\n")
    assert (found.label("room", 1), found.day(5), found.day(4)) == ('The "Hall", old', "Samedi", "Friday")
    assert names('room,1,"a\nb"\n').get("room", 1) == "a b"
    assert names("room,1,a\u2028b\x0bc\nroom,2,d\n").get("room", 1) == "a b c"


@pytest.mark.parametrize("text, words", [
    ("room,1,a\nhall,1,b\n", "line 2: 'hall' is no kind"),
    ("room,one,a\n", "line 1: 'one' is no id"),
    ("room,1\n", "line 1: has 2 fields in place of kind, id and name"),
    ('room,1,"a\n', "no CSV text"),
])
def test_faults_of_names(text: str, words: str, names: Callable[[str], Names]) -> None:
    with pytest.raises(FileFault, match=words.replace("(", "\\(")):
        names(text)


def test_a_file_that_is_no_utf_8(write: Write, files: tuple[str, str]) -> None:
    with pytest.raises(FileFault, match="n.csv: is no UTF-8"):
        Names(Problem(files[0]), write("n.csv", "room,1,Größe\n".encode("latin-1")))


@pytest.mark.parametrize("command", ["page", "table"])
def test_words_that_are_swapped(command: str, files: tuple[str, str], tool: Tool) -> None:
    assert "this is a published file, where the problem is wanted" in tool(command, files[1], files[0], status=3)[1]
    assert "this is a problem file, where a published one is wanted" in tool(command, files[0], files[0], status=3)[1]


@pytest.mark.parametrize("command", ["page", "table"])
@pytest.mark.parametrize("change, words", [
    ({"id": 99}, "/classes/1/id: the problem has no class 99"),
    ({"students": [8]}, "/classes/1/students/0: the problem has no student 8"),
    ({"weeks": "1"}, "/classes/1/weeks: has 1 characters in place of 4"),
])
def test_faults_of_a_published_file(command: str, change: dict[str, object], words: str, files: tuple[str, str], tool: Tool,
                                    write: Write) -> None:
    with open(files[1], encoding="utf-8") as file:
        value = json.load(file)
    value["classes"][1].update(change)
    assert words in tool(command, files[0], write("changed.json", json.dumps(value)), status=3)[1]


def test_one_file_alone_is_the_standard_input(files: tuple[str, str], tool: Tool) -> None:
    with open(files[0], encoding="utf-8") as file:
        told = tool("table", "-", "-", text=file.read(), status=3)[1]
    assert told == "table: -: nothing is left of the standard input, which can be one file alone\n"


@pytest.mark.parametrize("value, words", [
    ("NaN", "no JSON text: NaN is no number"), ("-Infinity", "no JSON text: -Infinity is no number"),
    (r'"\ud800"', "no JSON text: a text has one half of a character alone"), (r'{"\uDC00": 1}', "one half of a character alone"),
])
def test_what_json_takes_and_uttab_does_not(value: str, words: str, files: tuple[str, str], tool: Tool, write: Write) -> None:
    with open(files[0], encoding="utf-8") as file:
        text = file.read()
    assert words in tool("table", write("p.json", text.replace("{", f'{{"own": {value}, ', 1)), files[1], status=3)[1]
    whole = write("whole.json", text.replace("{", '{"own": "\\ud83d\\ude00", ', 1))
    assert tool("table", whole, files[1]) == tool("table", *files)


def test_versions(write: Write) -> None:
    def problem(**parts: object) -> Problem:
        value = {"nrDays": 1, "nrWeeks": 100, "slotsPerDay": 24, "courses": []}
        return Problem(write("p.json", json.dumps({**value, **parts})))
    assert problem(version=2).weeks == 100
    for parts in ({}, {"version": 1}, {"version": "1"}):
        with pytest.raises(FileFault, match="/nrWeeks: 100 isn't within 1 to 64"):
            problem(**parts)
    with pytest.raises(FileFault, match="/version: 3 isn't within 1 to 2"):
        problem(version=3)
