"""Writes calendars (iCalendar) of a timetable: of a student, a room, a course, a teacher, or of all of them into a folder.

    calendars PROBLEM PUBLISHED --first-day 2026-10-05 --student 17 -o student_17.ics
    calendars PROBLEM PUBLISHED --first-day 2026-10-05 --folder calendars [--of student,room,course,teacher]

--first-day is the first day of the term's first week. --holidays names a CSV file with lines `kind,first,last,name`: a
holiday has no classes, and a pause is a time of whole weeks that don't count. With --weeks the term has so many weeks, and
those of the problem come again and again: a school's timetable of one week lasts a term. With --zone times are of that time
zone, such as Europe/Prague; without it they are of whatever place the reader is in.

A class is one event, with the same identifier in every calendar. Where the file to be written is there already, it is
taken for an earlier edition of the same calendar: an event that changed gets the next number of sequence, and one that is
gone is written as cancelled. So a program that has subscribed to the file, or reads it once more, moves what moved."""

import os
import re
from argparse import ArgumentParser, ArgumentTypeError, Namespace
from collections.abc import Iterable
from datetime import date, datetime, timedelta, timezone
from functools import cache
from pathlib import Path

from icalendar import Calendar, Event

from uttab_tools.given import a_count, add_timetable, timetable_given
from uttab_tools.parts import Part, add_part_words, files_of, kinds_of, part_given, parts
from uttab_tools.program import DONE, Command, FileFault, Folder, Output, Usage, tell
from uttab_tools.published import Meeting
from uttab_tools.term import Term, a_date, read_term
from uttab_tools.times import again, minutes, weeks_in_words
from uttab_tools.timetable import Timetable
from uttab_tools.zone import zone_component, zone_of

DAYS_OF_A_RULE = ("MO", "TU", "WE", "TH", "FR", "SA", "SU")
MOST_WEEKS = 1000
END = b"END:VCALENDAR\r\n"
# What tells an event of today from one of an earlier edition.
COMPARED = ("SUMMARY", "LOCATION", "DESCRIPTION", "DTSTART", "DTEND", "RRULE", "EXDATE", "RDATE", "STATUS")


class CalendarMaker:
    """Makes calendars of a timetable, for a term of so many weeks."""

    def __init__(self, timetable: Timetable, term: Term, weeks: int, zone: str | None) -> None:
        self.timetable, self.term, self.weeks, self.zone = timetable, term, weeks, zone
        self.zone_info = zone_of(zone) if zone else None
        name = re.sub(r"[^a-z0-9]+", "-", timetable.problem.name.lower()).strip("-") or "timetable"
        self.domain = f"{term.first:%Y%m%d}.{name}.uttab"
        self.stamp = datetime.fromtimestamp(int(os.environ.get("SOURCE_DATE_EPOCH") or datetime.now().timestamp()), timezone.utc)
        try:
            last = term.first + timedelta(7 * weeks + len(term.pauses) + 50)
        except OverflowError:
            raise Usage(f"--first-day {term.first}: the term would end after the year 9999") from None
        self.zone_text: bytes = zone_component(zone, term.first, last).to_ical() if zone else b""
        # A class is the same event in every calendar that has no earlier edition.
        self.text_of = cache(self._text_of)

    def calendar(self, title: str, meetings: Iterable[Meeting], earlier: bytes | None, file: str) -> bytes:
        calendar = Calendar()
        calendar.add("prodid", "-//uttab//calendars//EN")
        calendar.add("version", "2.0")
        calendar.add("method", "PUBLISH")
        calendar.add("x-wr-calname", title)
        if self.zone:
            calendar.add("x-wr-timezone", self.zone)
        if earlier:
            events = [event for meeting in meetings if (event := self.event(meeting)) is not None]
            texts = [event.to_ical() for event in after_an_edition(events, earlier, file, self.stamp)]
        else:
            texts = [self.text_of(meeting.of_class.id) for meeting in meetings]
        whole: bytes = calendar.to_ical()
        return whole.removesuffix(END) + self.zone_text + b"".join(texts) + END

    def _text_of(self, number: int) -> bytes:
        """The event of a class as it stands in a calendar, empty where it has none."""
        event = self.event(self.timetable.meetings[number])
        text: bytes = b"" if event is None else event.to_ical()
        return text

    def event(self, meeting: Meeting) -> Event | None:
        """The event of a class, or none where all its days are holidays."""
        timetable, of_class = self.timetable, meeting.of_class
        slots = timetable.problem.slots
        later, minute = divmod(minutes(meeting.time.start, slots), 1440)
        days = self.term.dates(meeting.time.days, self.weeks_of(meeting), later)
        if not days:
            return None
        length = timedelta(minutes=minutes(meeting.time.end, slots) - minutes(meeting.time.start, slots))
        starts = [datetime(day.year, day.month, day.day, minute // 60, minute % 60) for day in days]
        event = Event()
        event.add("uid", f"class-{of_class.id}@{self.domain}")
        event.add("dtstamp", self.stamp)
        event.add("sequence", 0)
        event.add("summary", f"{timetable.names.label('course', of_class.course.id)}: {timetable.names.label('class', of_class.id)}")
        self.add_time(event, "dtstart", starts[0])
        self.add_time(event, "dtend", starts[0] + length)
        self.add_repeats(event, starts)
        if meeting.room is not None:
            event.add("location", timetable.names.label("room", meeting.room))
        event.add("description", self.description(meeting))
        return event

    def weeks_of(self, meeting: Meeting) -> int:
        """The weeks of the term in which a class meets."""
        return again(meeting.time.weeks, self.timetable.problem.weeks, self.weeks)

    def description(self, meeting: Meeting) -> str:
        of_class, time = meeting.of_class, meeting.time
        when = f"{self.timetable.days(time.days)} {self.timetable.hours(time)}, {weeks_in_words(self.weeks_of(meeting), self.weeks)}"
        lines = [f"Class {of_class.id}, {of_class.subpart}", when]
        teachers = ", ".join(teacher.name for teacher in self.timetable.teachers_of.get(of_class.id, ()))
        return "\n".join([*lines, teachers] if teachers else lines)

    def add_time(self, event: Event, key: str, time: datetime | list[datetime]) -> None:
        event.add(key, time, parameters={"TZID": self.zone} if self.zone else {})

    def add_repeats(self, event: Event, starts: list[datetime]) -> None:
        """How an event repeats: every week, or every second one, on the days of the first weeks, with exceptions; by its days
        one by one where there would be more exceptions than days."""
        if len(starts) == 1:
            return
        weekdays = sorted({start.weekday() for start in starts})
        interval, exceptions = min(((step, self._exceptions(starts, weekdays, step)) for step in (1, 2)), key=lambda one: len(one[1]))
        if len(exceptions) >= len(starts):
            self.add_time(event, "rdate", starts[1:])
            return
        # The last day counts in the zone of the first where there is none, and else in universal time.
        until = starts[-1] if self.zone_info is None else starts[-1].replace(tzinfo=self.zone_info).astimezone(timezone.utc)
        rule = {"freq": "weekly", "until": until, "byday": [DAYS_OF_A_RULE[day] for day in weekdays], "wkst": "MO"}
        event.add("rrule", rule | ({"interval": interval} if interval > 1 else {}))
        if exceptions:
            self.add_time(event, "exdate", exceptions)

    @staticmethod
    def _exceptions(starts: list[datetime], weekdays: list[int], step: int) -> list[datetime]:
        """The times of a rule every so many weeks that are none of the starts. A rule that leaves out a start has too many."""
        monday = starts[0] - timedelta(starts[0].weekday())
        wanted = set(starts)
        told = []
        found = set()
        while monday <= starts[-1]:
            for day in weekdays:
                start = monday + timedelta(day)
                if starts[0] <= start <= starts[-1]:
                    found.add(start)
                    if start not in wanted:
                        told.append(start)
            monday += timedelta(7 * step)
        return told if wanted <= found else starts + starts


def after_an_edition(events: list[Event], earlier: bytes, file: str, stamp: datetime) -> list[Event]:
    """The events as they follow those of an earlier edition of their calendar: one that is as it was keeps its number and
    stamp, one that changed gets the next number, and one that is gone is cancelled."""
    try:
        before = {str(event["UID"]): event for event in Calendar.from_ical(earlier).walk("VEVENT")}
        numbers = {uid: int(event.get("SEQUENCE", 0)) for uid, event in before.items()}
    except (ValueError, KeyError, IndexError) as error:
        raise FileFault(f"{file}: is there already, and is no calendar: {error}") from None
    for event in events:
        uid = str(event["UID"])
        old = before.pop(uid, None)
        if old is None:
            continue
        same = all(_as_text(event, key) == _as_text(old, key) for key in COMPARED)
        event["SEQUENCE"] = numbers[uid] + (not same)
        if same and "DTSTAMP" in old:
            event["DTSTAMP"] = old["DTSTAMP"]
    for uid, old in before.items():
        if str(old.get("STATUS", "")) != "CANCELLED":
            old["STATUS"] = "CANCELLED"
            old["SEQUENCE"] = numbers[uid] + 1
            del old["DTSTAMP"]
            old.add("dtstamp", stamp)
        events.append(old)
    return events


def _as_text(event: Event, key: str) -> bytes:
    """What an event says under a key, as it stands in a file."""
    value = event.get(key)
    if value is None:
        return b""
    if isinstance(value, list):
        return b",".join(sorted(one.to_ical() for one in value))
    text: bytes = value.to_ical() if hasattr(value, "to_ical") else str(value).encode()
    return text


def earlier_edition(path: Path) -> bytes | None:
    return path.read_bytes() if path.is_file() and path.stat().st_size else None


def write_folder(maker: CalendarMaker, chosen: Iterable[Part], name: str) -> None:
    """A calendar for each part that has a class, or had one in an earlier edition."""
    with Folder(name) as folder:
        for file, part in files_of(chosen, ".ics"):
            earlier = earlier_edition(folder.path / file)
            if part.meetings or earlier:
                folder.write(file, maker.calendar(part.title, part.meetings, earlier, str(folder.path / file)))
    folder.tell_others("calendars")


def a_day(word: str) -> date:
    try:
        return a_date(word)
    except ValueError as error:
        raise ArgumentTypeError(str(error)) from None


def words(parser: ArgumentParser) -> None:
    add_timetable(parser)
    parser.add_argument("--first-day", metavar="DATE", type=a_day, required=True, help="the first day of the first week, as 2026-10-05")
    parser.add_argument("--holidays", metavar="CSV", help="lines kind,first,last,name; the kinds are holiday and pause")
    parser.add_argument("--weeks", metavar="N", type=a_count, help="the weeks of the term, in which those of the problem come again "
                                                                   "and again (as many as the problem has)")
    parser.add_argument("--zone", metavar="ZONE", help="the time zone, such as Europe/Prague")
    add_part_words(parser)


def run(given: Namespace, output: Output) -> int:
    timetable = timetable_given(given)
    term = read_term(given.first_day, given.holidays, timetable.names.day(0))
    if (given.weeks or 1) > MOST_WEEKS:
        raise Usage(f"--weeks {given.weeks}: is at most {MOST_WEEKS}")
    if timetable.problem.weeks == 1 and given.weeks is None:
        tell("calendars", f"{given.problem}: has one week, and so has the calendar; --weeks N repeats it")
    maker = CalendarMaker(timetable, term, given.weeks or timetable.problem.weeks, given.zone)
    part = part_given(given, timetable)
    if given.folder:
        write_folder(maker, parts(timetable, kinds_of(given)), given.folder)
        return DONE
    title = part.title if part else timetable.title
    meetings = part.meetings if part else list(timetable.meetings.values())
    earlier = earlier_edition(Path(given.output)) if given.output else None
    output.binary.write(maker.calendar(title, meetings, earlier, given.output or ""))
    return DONE


COMMAND = Command("calendars", __doc__ or "", words, run, "0 the calendar is written, or all calendars of the folder")
main = COMMAND.main
