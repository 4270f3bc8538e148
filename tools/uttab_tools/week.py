"""The week's grid of some meetings: days across, time of day down, each meeting a box. Weeks that are alike are shown once."""

from collections.abc import Sequence
from dataclasses import dataclass

from uttab_tools.problem import Course
from uttab_tools.published import Meeting
from uttab_tools.times import Time, clock, minutes
from uttab_tools.timetable import Note, Notes, Timetable

COLOURS = 6
# How many kinds of weeks have a grid of their own where one part alone is shown.
PART_GRIDS = 4
# A grid has no hours after the second midnight.
LAST_HOUR = 48


@dataclass(frozen=True, slots=True)
class Box:
    """A meeting in a grid, or hours at which a room is closed (`meeting` is none then). `top` and `height` are in hours
    from the top of the grid; `lane` of `lanes` tells those side by side that are at one time of day."""

    top: float
    height: float
    words: str
    meeting: Meeting | None = None
    lane: int = 0
    lanes: int = 1
    notes: tuple[Note, ...] = ()
    closed: bool = False


@dataclass(frozen=True, slots=True)
class Day:
    name: str
    boxes: list[Box]


@dataclass(frozen=True, slots=True)
class Grid:
    words: str
    days: list[Day]


@dataclass(frozen=True, slots=True)
class Week:
    """The grids of some meetings, the hours that they show, and the weeks in which there is nothing, in words."""

    grids: list[Grid]
    hours: list[str]
    free: str


class WeekMaker:
    """Makes the grids of a timetable. `most` is how many kinds of weeks have a grid of their own each: where there are more,
    one grid shows all weeks together."""

    def __init__(self, timetable: Timetable, most: int) -> None:
        self.timetable, self.most, self.most_alone = timetable, most, max(most, PART_GRIDS)
        used = 0
        for meeting in timetable.meetings.values():
            used |= meeting.time.days
        # Up to the last day with a class, and from Monday to Friday at least.
        self.days = list(range(max(used.bit_length(), min(5, timetable.problem.days))))
        self.colours = {course: place % COLOURS for place, course in enumerate(timetable.problem.courses)}

    def colour(self, course: Course) -> int:
        return self.colours[course.id]

    def make(self, meetings: Sequence[Meeting], notes: Notes, closed: Sequence[Time] = (), alone: bool = False) -> Week:
        first, last = self._hours(meetings)
        shown = sum(1 << day for day in self.days)
        closed = [time for time in closed
                  if time.days & shown and self._minutes(time.start) < last * 60 and self._minutes(time.end) > first * 60]
        groups, free = self._kinds_of_weeks(meetings, closed)
        together = len(groups) > (self.most_alone if alone else self.most)
        if together:
            groups = [(1 << self.timetable.problem.weeks) - 1 & ~free]
        grids = []
        for bits in groups:
            words = "all weeks together: classes side by side may be in different weeks" if together else self.timetable.weeks(bits)
            grids.append(Grid(words[0].upper() + words[1:], self._days(meetings, notes, closed, bits, first, last)))
        hours = [f"{hour % 24:02}:00" for hour in range(first, last)]
        return Week(grids, hours, self.timetable.weeks(free) if free else "")

    def _minutes(self, slot: int) -> int:
        return minutes(slot, self.timetable.problem.slots)

    def _hours(self, meetings: Sequence[Meeting]) -> tuple[int, int]:
        """The hours shown: from the first start to the last end, but none after the second midnight."""
        if not meetings:
            return 8, 18
        first = min(LAST_HOUR - 1, min(self._minutes(one.time.start) for one in meetings) // 60)
        return first, min(LAST_HOUR, max(first + 1, max(-(-self._minutes(one.time.end) // 60) for one in meetings)))

    def _kinds_of_weeks(self, meetings: Sequence[Meeting], closed: Sequence[Time]) -> tuple[list[int], int]:
        """The sets of weeks that are alike, and the set of those in which there is nothing."""
        kinds: dict[tuple[tuple[int, ...], tuple[int, ...]], int] = {}
        free = 0
        for week in range(self.timetable.problem.weeks):
            bit = 1 << week
            own = tuple(one.of_class.id for one in meetings if one.time.weeks & bit)
            if own:
                kind = own, tuple(place for place, time in enumerate(closed) if time.weeks & bit)
                kinds[kind] = kinds.get(kind, 0) | bit
            else:
                free |= bit
        return list(kinds.values()), free

    def _days(self, meetings: Sequence[Meeting], notes: Notes, closed: Sequence[Time], weeks: int, first: int, last: int) -> list[Day]:
        days = []
        for day in self.days:
            bit = 1 << day
            boxes = [self._closed_box(start, end, first, last) for start, end in self._closed_spans(closed, bit, weeks, first, last)]
            own = [one for one in meetings if one.time.days & bit and one.time.weeks & weeks]
            boxes += [self._box(one, notes, bit, weeks, lane, lanes, first, last) for one, lane, lanes in in_lanes(own)]
            boxes.sort(key=lambda box: (box.top, box.meeting is not None))
            days.append(Day(self.timetable.names.day(day), boxes))
        return days

    def _closed_spans(self, closed: Sequence[Time], bit: int, weeks: int, first: int, last: int) -> list[tuple[int, int]]:
        """Minutes from and to which a room is closed, inside the hours shown and run together."""
        spans: list[tuple[int, int]] = []
        for time in sorted(closed, key=lambda time: time.start):
            if time.days & bit and time.weeks & weeks:
                start, end = max(first * 60, self._minutes(time.start)), min(last * 60, self._minutes(time.end))
                if spans and start <= spans[-1][1]:
                    spans[-1] = (spans[-1][0], max(end, spans[-1][1]))
                elif start < end:
                    spans.append((start, end))
        return spans

    @staticmethod
    def _closed_box(start: int, end: int, first: int, last: int) -> Box:
        top, height = _place(start, end, first, last)
        return Box(top, height, f"closed {clock(start, 1440)}–{clock(end, 1440)}")

    def _box(self, meeting: Meeting, notes: Notes, bit: int, weeks: int, lane: int, lanes: int, first: int, last: int) -> Box:
        time = meeting.time
        top, height = _place(self._minutes(time.start), self._minutes(time.end), first, last)
        own = tuple(note for note in notes.get(meeting.of_class.id, ()) if note.days & bit and note.weeks & weeks)
        shut = any(one.days & bit and one.weeks & weeks for one in self.timetable.closed[meeting.of_class.id])
        return Box(top, height, self.timetable.hours(time), meeting, lane, lanes, own, shut)


def _place(start: int, end: int, first: int, last: int) -> tuple[float, float]:
    """Where a box stands, in hours from the top, and how high it is. What is after the last hour stands there."""
    start = min(start, last * 60 - 30)
    end = max(start + 15, min(end, last * 60))
    return round(start / 60 - first, 3), round((end - start) / 60, 3)


def in_lanes(meetings: Sequence[Meeting]) -> list[tuple[Meeting, int, int]]:
    """Each meeting of a day with its lane and the number of lanes, so that those that overlap in time of day stand
    side by side."""
    placed: list[tuple[Meeting, int, int]] = []
    group: list[tuple[Meeting, int]] = []
    ends: list[int] = []
    for meeting in sorted(meetings, key=lambda meeting: (meeting.time.start, -meeting.time.end)):
        if group and meeting.time.start >= max(ends):
            placed += [(one, lane, len(ends)) for one, lane in group]
            group, ends = [], []
        lane = next((lane for lane, end in enumerate(ends) if end <= meeting.time.start), len(ends))
        if lane == len(ends):
            ends.append(0)
        ends[lane] = meeting.time.end
        group.append((meeting, lane))
    return placed + [(one, lane, len(ends)) for one, lane in group]
