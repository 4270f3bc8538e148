"""Tests of `calendars`: what they say is read back by the library, and by libical and calcurse, which share nothing with it."""

import json
import subprocess
from collections.abc import Callable
from datetime import date, datetime, timedelta, timezone
from pathlib import Path
from typing import Any
from zoneinfo import ZoneInfo

import pytest
from conftest import TOP, Tool, Write
from dateutil.rrule import rruleset, rrulestr
from icalendar import Calendar, Event

from uttab_tools.calendars import CalendarMaker
from uttab_tools.published import Meeting
from uttab_tools.term import Term

FACULTY = TOP / "examples/a_faculty"
MONDAY = date(2026, 10, 5)


def days_of(event: Event) -> list[datetime]:
    """The days of an event, as its rule, its exceptions and its further days say it."""
    first = event["DTSTART"].dt
    zone = first.tzinfo
    found = rruleset()
    found.rdate(first.replace(tzinfo=None))
    if "RRULE" in event:
        rule = event["RRULE"].to_ical().decode()
        until = event["RRULE"]["UNTIL"][0]
        if zone is not None:
            local = until.astimezone(ZoneInfo("Europe/Prague")).replace(tzinfo=None)
            rule = rule.replace(f"{until:%Y%m%dT%H%M%SZ}", f"{local:%Y%m%dT%H%M%S}")
        found.rrule(rrulestr(rule, dtstart=first.replace(tzinfo=None)))
    for key, enter in (("EXDATE", found.exdate), ("RDATE", found.rdate)):
        values = event.get(key, [])
        for value in values if isinstance(values, list) else [values]:
            for day in value.dts:
                enter(day.dt.replace(tzinfo=None))
    return list(found)


def events(text: str) -> dict[str, Event]:
    return {str(event["UID"]).partition("@")[0]: event for event in Calendar.from_ical(text).walk("VEVENT")}


Make = Callable[..., str]


@pytest.fixture
def make(tool: Tool, write: Write) -> Make:
    """A calendar of one class at a time of the term, which begins on Monday 5 October 2026."""
    def run(*words: object, days: str = "1000000", weeks: str = "1" * 15, start: int = 108, length: int = 24,
            slots: int = 288, holidays: str = "") -> str:
        time = {"days": days, "weeks": weeks, "start": start, "length": length, "penalty": 0}
        inner = {"id": 4, "name": "Lecture, long; \\ and\nbroken", "room": False, "times": [time]}
        problem = {"name": "A Faculty", "nrDays": len(days), "nrWeeks": len(weeks), "slotsPerDay": slots,
                   "courses": [{"id": 1, "configs": [{"id": 1, "subparts": [{"id": 1, "classes": [inner]}]}]}]}
        published = {"classes": [{"id": 4, "days": days, "start": start, "weeks": weeks}]}
        out, told = tool("calendars", write("p.json", json.dumps(problem)), write("q.json", json.dumps(published)),
                         "--first-day", MONDAY, "--holidays", write("holidays.csv", holidays), *words)
        assert told == ""
        return out
    return run


def meant(days: str, weeks: str, start: int) -> list[datetime]:
    return [datetime(2026, 10, 5) + timedelta(7 * week + day, minutes=5 * start)
            for week, has_week in enumerate(weeks) if has_week == "1" for day, has_day in enumerate(days) if has_day == "1"]


@pytest.mark.parametrize("zone", [(), ("--zone", "Europe/Prague")])
@pytest.mark.parametrize("days, weeks, key", [
    ("1000000", "1" * 15, "RRULE"), ("1010100", "1" * 15, "RRULE"), ("0100000", "010101010101010", "INTERVAL=2"),
    ("0011000", "101010101010101", "INTERVAL=2"), ("1000000", "111101111111111", "EXDATE"), ("0100000", "000000000000001", "UID"),
    ("0000001", "100000000000001", "RDATE"), ("1000001", "110000000000011", "RDATE"), ("0101000", "111011101110111", "EXDATE"),
])
def test_an_event_has_the_days_of_its_class(zone: tuple[str, ...], days: str, weeks: str, key: str, make: Make) -> None:
    out = make(*zone, days=days, weeks=weeks)
    assert key in out
    event = events(out)["class-4"]
    assert days_of(event) == meant(days, weeks, 108)
    assert event["DTEND"].dt - event["DTSTART"].dt == timedelta(hours=2)


def test_after_midnight(make: Make) -> None:
    event = events(make(start=300))["class-4"]
    assert days_of(event)[0] == datetime(2026, 10, 6, 1, 0)
    event = events(make(start=285, length=18))["class-4"]
    assert (event["DTSTART"].dt, event["DTEND"].dt) == (datetime(2026, 10, 5, 23, 45), datetime(2026, 10, 6, 1, 15))


def test_holidays_and_pauses(make: Make) -> None:
    holidays = "kind,first,last,name\nholiday,2026-10-28,,A Day\nholiday,2026-11-16,2026-11-18\npause,2026-12-21,2027-01-03,Winter\n"
    found = days_of(events(make(days="1010000", holidays=holidays))["class-4"])
    assert datetime(2026, 10, 28, 9) not in found and datetime(2026, 11, 16, 9) not in found and datetime(2026, 11, 18, 9) not in found
    assert datetime(2026, 12, 16, 9) in found and datetime(2026, 12, 21, 9) not in found and datetime(2027, 1, 4, 9) in found
    assert len(found) == 2 * 15 - 3 and found[-1] == datetime(2027, 1, 27, 9)


@pytest.mark.parametrize("text, words", [
    ("holiday,28.10.2026\n", "line 1: '28.10.2026' is no date such as 2026-10-05"),
    ("holiday,2026-02-30\n", "line 1: '2026-02-30' is no date"),
    ("feast,2026-10-28\n", "line 1: 'feast' is no kind: holiday, pause"),
    ("holiday,2026-10-28,2026-10-27\n", "line 1: 2026-10-27 is before 2026-10-28"),
    ("\npause,2026-12-22,2027-01-04\n", "line 2: a pause is of whole weeks"),
])
def test_faults_of_holidays(text: str, words: str, tool: Tool, write: Write) -> None:
    told = tool("calendars", FACULTY / "problem.json", FACULTY / "term.json", "--first-day", MONDAY, "--holidays",
                write("h.csv", text), status=3)[1]
    assert words in told


def test_faults_of_words(tool: Tool) -> None:
    files = ("calendars", FACULTY / "problem.json", FACULTY / "term.json")
    tool(*files, status=2)
    assert "2026-10-06: is a Tuesday, and the week begins with Monday" in tool(*files, "--first-day", "2026-10-06", status=2)[1]
    assert "the term would end after the year 9999" in tool(*files, "--first-day", "9999-11-29", status=2)[1]
    assert "'today' is no date" in tool(*files, "--first-day", "today", status=2)[1]
    assert "--zone Mars/Olympus: is no time zone" in tool(*files, "--first-day", MONDAY, "--zone", "Mars/Olympus", status=2)[1]
    assert "--student 999: there is none" in tool(*files, "--first-day", MONDAY, "--student", 999, status=2)[1]


def test_texts_are_escaped(make: Make) -> None:
    event = events(make())["class-4"]
    assert event["SUMMARY"] == "Course 1: Lecture, long; \\ and broken"


def student_days(student: int, name: str) -> list[tuple[datetime, str]]:
    """What the calendar of a student of the faculty has to say, straight from the files."""
    problem = json.loads((FACULTY / "problem.json").read_text(encoding="utf-8"))
    classes = {one["id"]: one for course in problem["courses"] for config in course["configs"]
               for subpart in config["subparts"] for one in subpart["classes"]}
    published = json.loads((FACULTY / name).read_text(encoding="utf-8"))
    return sorted((start, classes[one["id"]]["name"]) for one in published["classes"] if student in one["students"]
                  for start in meant(one["days"], one["weeks"], one["start"]))


@pytest.mark.parametrize("zone", [(), ("--zone", "Europe/Prague")])
def test_a_student_of_the_faculty(zone: tuple[str, ...], tool: Tool) -> None:
    out, _ = tool("calendars", FACULTY / "problem.json", FACULTY / "term.json", "--first-day", MONDAY, "--student", 17, *zone)
    found = sorted((day, str(event["SUMMARY"]).split(": ")[1]) for event in events(out).values() for day in days_of(event))
    assert found == student_days(17, "term.json")
    assert len({str(event["UID"]) for event in events(out).values()}) == 9
    assert out.count("\r\n") == out.count("\n") and all(len(line.encode()) <= 75 for line in out.split("\r\n"))


def test_a_zone_says_when_its_clock_changes(make: Make) -> None:
    zone = Calendar.from_ical(make("--zone", "Europe/Prague")).walk("VTIMEZONE")[0]
    changes = [(part.name, part["DTSTART"].dt, part["TZOFFSETTO"].td) for part in zone.subcomponents]
    assert changes[0][0] == "DAYLIGHT" and changes[0][1] < datetime(2026, 10, 5)
    assert changes[1] == ("STANDARD", datetime(2026, 10, 25, 3), timedelta(hours=1))


def test_a_changed_timetable_updates(tool: Tool, tmp_path: Path) -> None:
    """One identifier for a class, a next number where it moved, and a cancelled event where it is gone."""
    target = tmp_path / "s.ics"

    def write_edition(name: str, *words: object) -> dict[str, Any]:
        assert tool("calendars", FACULTY / "problem.json", FACULTY / name, "--first-day", MONDAY, *words, "-o", target) == ("", "")
        return events(target.read_bytes().decode())
    first = write_edition("term.json", "--course", 8)
    again = write_edition("term.json", "--course", 8)
    assert {uid: event["SEQUENCE"] for uid, event in again.items()} == dict.fromkeys(first, 0)
    assert again["class-801"]["DTSTAMP"].dt == first["class-801"]["DTSTAMP"].dt
    moved = write_edition("after_week_4.json", "--course", 8)
    assert {uid: event["SEQUENCE"] for uid, event in moved.items() if event["SEQUENCE"]} == {"class-801": 1}
    back = write_edition("term.json", "--course", 8)
    assert back["class-801"]["SEQUENCE"] == 2
    gone = write_edition("term.json", "--course", 9)
    assert gone["class-801"]["STATUS"] == "CANCELLED" and gone["class-801"]["SEQUENCE"] == 3
    assert "STATUS" not in gone["class-901"]
    target.write_text("no calendar")
    assert "is there already, and is no calendar" in tool(
        "calendars", FACULTY / "problem.json", FACULTY / "term.json", "--first-day", MONDAY, "-o", target, status=3)[1]
    assert target.read_text() == "no calendar"


def test_a_folder_of_calendars(tool: Tool, tmp_path: Path, write: Write) -> None:
    words = ("calendars", FACULTY / "problem.json", FACULTY / "term.json", "--first-day", MONDAY, "--teachers",
             write("t.csv", "teacher,class\nAda Lovelace,801\n"), "--folder", tmp_path / "calendars")
    assert tool(*words) == ("", "")
    names = {path.name for path in (tmp_path / "calendars").iterdir()}
    assert {"student_17.ics", "room_3.ics", "course_8.ics", "teacher_Ada_Lovelace.ics"} <= names
    assert len([name for name in names if name.startswith("student")]) == 200
    text = (tmp_path / "calendars/teacher_Ada_Lovelace.ics").read_bytes().decode()
    assert list(events(text)) == ["class-801"]


def test_terms() -> None:
    term = Term(MONDAY)
    assert term.dates(0b1, 0b11) == [MONDAY, MONDAY + timedelta(7)]
    assert term.dates(0b1, 0b1, later=1) == [MONDAY + timedelta(1)]


# Other readers


def test_libical_reads_the_same_days(tool: Tool, tmp_path: Path) -> None:
    """libical, which Evolution and KDE read calendars with, expands the events to the same days."""
    gi = pytest.importorskip("gi", reason="there is no python3-gi")
    try:
        gi.require_version("ICalGLib", "3.0")
        from gi.repository import ICalGLib
    except (ValueError, ImportError):
        pytest.skip("there is no gir1.2-ical-3.0")
    for zone in ((), ("--zone", "Europe/Prague")):
        out, _ = tool("calendars", FACULTY / "problem.json", FACULTY / "term.json", "--first-day", MONDAY, "--student", 17, *zone)
        calendar = ICalGLib.Component.new_from_string(out)
        found: list[tuple[datetime, str]] = []

        def enter(component: Any, span: Any, data: Any, found: list[tuple[datetime, str]] = found) -> None:
            zone_name = component.get_dtstart().get_tzid()
            at = datetime.fromtimestamp(span.get_start(), timezone.utc)
            local = at.astimezone(ZoneInfo(zone_name)) if zone_name else at
            found.append((local.replace(tzinfo=None), component.get_summary().split(": ")[1]))
        event = calendar.get_first_component(ICalGLib.ComponentKind.VEVENT_COMPONENT)
        while event is not None:
            event.foreach_recurrence(ICalGLib.Time.new_from_string("20260901T000000Z"),
                                     ICalGLib.Time.new_from_string("20270301T000000Z"), enter, None)
            event = calendar.get_next_component(ICalGLib.ComponentKind.VEVENT_COMPONENT)
        assert sorted(found) == student_days(17, "term.json"), zone


def test_calcurse_reads_the_calendar(tool: Tool, tmp_path: Path) -> None:
    calendar = tmp_path / "s.ics"
    tool("calendars", FACULTY / "problem.json", FACULTY / "term.json", "--first-day", MONDAY, "--student", 17, "-o", calendar)
    try:
        done = subprocess.run(["calcurse", "-D", str(tmp_path / "data"), "-q", "-i", str(calendar)], capture_output=True, text=True,
                              check=False, timeout=60)
    except FileNotFoundError:
        pytest.skip("there is no calcurse")
    assert done.returncode == 0, done.stderr
    assert (tmp_path / "data/apts").read_text(encoding="utf-8").count("\n") == 9


def test_a_week_that_comes_again(make: Make) -> None:
    """A timetable of one week, such as a school's, lasts a term; holidays and pauses are left out as in any."""
    out = make("--weeks", 4, days="1010000", weeks="1")
    event = events(out)["class-4"]
    assert days_of(event) == meant("1010000", "1111", 108)
    assert str(event["DESCRIPTION"]).splitlines()[1] == "Mon, Wed 09:00–11:00, all weeks"
    out = make("--weeks", 4, days="1000000", weeks="1", holidays="holiday,2026-10-12\npause,2026-10-19,2026-10-25\n")
    assert days_of(events(out)["class-4"]) == [datetime(2026, 10, 5, 9), datetime(2026, 10, 26, 9), datetime(2026, 11, 2, 9)]


def test_weeks_that_come_by_turns(make: Make) -> None:
    event = events(make("--weeks", 6, weeks="01"))["class-4"]
    assert days_of(event) == meant("1000000", "010101", 108)
    assert str(event["DESCRIPTION"]).splitlines()[1] == "Monday 09:00–11:00, even weeks"


def test_one_week_alone_is_told(tool: Tool, write: Write) -> None:
    time = {"days": "1000000", "weeks": "1", "start": 9, "length": 1, "penalty": 0}
    problem = write("p.json", json.dumps({"nrDays": 7, "nrWeeks": 1, "slotsPerDay": 24, "courses": [
        {"id": 1, "configs": [{"id": 1, "subparts": [{"id": 1, "classes": [{"id": 4, "room": False, "times": [time]}]}]}]}]}))
    words = problem, write("q.json", json.dumps({"classes": [{"id": 4, "days": "1000000", "start": 9, "weeks": "1"}]}))
    out, told = tool("calendars", *words, "--first-day", MONDAY)
    assert told == f"calendars: {problem}: has one week, and so has the calendar; --weeks N repeats it\n"
    assert days_of(events(out)["class-4"]) == [datetime(2026, 10, 5, 9)]
    assert tool("calendars", *words, "--first-day", MONDAY, "--weeks", 2)[1] == ""
    for weeks, said in (("0", "is at least 1"), ("x", "is at least 1"), ("1001", "--weeks 1001: is at most 1000")):
        assert said in tool("calendars", *words, "--first-day", MONDAY, "--weeks", weeks, status=2)[1]


def test_a_class_is_one_text_in_all_calendars(tool: Tool, tmp_path: Path) -> None:
    """Thousands of calendars take seconds, since each class is put into the form once; and each reads as it does alone."""
    made = []
    event = CalendarMaker.event

    def counted(self: CalendarMaker, meeting: Meeting) -> Event | None:
        made.append(meeting.of_class.id)
        return event(self, meeting)
    with pytest.MonkeyPatch.context() as patch:
        patch.setattr(CalendarMaker, "event", counted)
        tool("calendars", FACULTY / "problem.json", FACULTY / "term.json", "--first-day", MONDAY, "--folder", tmp_path / "all",
             "--zone", "Europe/Prague")
    assert len(made) == len(set(made)) == 63
    alone, _ = tool("calendars", FACULTY / "problem.json", FACULTY / "term.json", "--first-day", MONDAY, "--student", 17,
                    "--zone", "Europe/Prague")
    written = (tmp_path / "all/student_17.ics").read_bytes().decode()
    one, other = ([line for line in text.splitlines() if "DTSTAMP" not in line] for text in (written, alone))
    assert one == other
    assert [one.name for one in Calendar.from_ical(written).subcomponents][0] == "VTIMEZONE"
