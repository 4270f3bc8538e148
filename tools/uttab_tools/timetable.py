"""A timetable, and what is to be looked at in it: clashes, closed rooms, changed times, and whom a change of rooms is too far for.

What a timetable costs is said by `uttab` alone; here it is found which classes a page has to mark."""

from collections.abc import Sequence
from dataclasses import dataclass
from itertools import combinations

from uttab_tools.names import Names
from uttab_tools.problem import Problem, Room, Student
from uttab_tools.published import Meeting, Published, meetings_of
from uttab_tools.teachers import Teacher
from uttab_tools.times import Time, clock, overlap, weeks_in_words


@dataclass(frozen=True, slots=True)
class Note:
    """What is wrong between a meeting and another one, on these days of these weeks."""

    words: str
    other: Meeting
    days: int
    weeks: int


Notes = dict[int, list[Note]]


class Timetable:
    """The meetings of a timetable, by class in the problem's order, and what is to be looked at."""

    def __init__(self, problem: Problem, published: Published, names: Names, teachers: Sequence[Teacher] = ()) -> None:
        self.problem, self.names, self.teachers = problem, names, teachers
        self.meetings = meetings_of(problem, published)
        self.rooms = dict(problem.rooms)
        for meeting in self.meetings.values():
            if meeting.room is not None and meeting.room not in self.rooms:
                self.rooms[meeting.room] = Room(meeting.room, "", [], known=False)
        self.in_room: dict[int, list[Meeting]] = {room: [] for room in self.rooms}
        for meeting in self.meetings.values():
            if meeting.room is not None:
                self.in_room[meeting.room].append(meeting)
        self.clash_pairs: list[tuple[Meeting, Meeting]] = []
        self.clashes: Notes = {one: [] for one in self.meetings}
        for meetings in self.in_room.values():
            self._find_clashes(meetings)
        self.closed = {one: self._closed(meeting) for one, meeting in self.meetings.items()}
        self.classes_of: dict[int, list[int]] = {student: [] for student in problem.students}
        for one, meeting in self.meetings.items():
            for student in meeting.students:
                self.classes_of[student].append(one)
        self.teachers_of: dict[int, list[Teacher]] = {}
        for teacher in self.teachers:
            for one in teacher.classes:
                self.teachers_of.setdefault(one, []).append(teacher)
        self._weeks: dict[int, str] = {}

    @property
    def title(self) -> str:
        return f"Timetable: {self.problem.name}" if self.problem.name else "Timetable"

    def _find_clashes(self, meetings: list[Meeting]) -> None:
        meetings.sort(key=lambda meeting: meeting.time.start)
        for place, one in enumerate(meetings):
            for other in meetings[place + 1:]:
                if other.time.start >= one.time.end:
                    break
                if overlap(one.time, other.time):
                    days, weeks = one.time.days & other.time.days, one.time.weeks & other.time.weeks
                    self.clash_pairs.append((one, other))
                    self.clashes[one.of_class.id].append(Note("clash with", other, days, weeks))
                    self.clashes[other.of_class.id].append(Note("clash with", one, days, weeks))

    def _closed(self, meeting: Meeting) -> list[Time]:
        room = None if meeting.room is None else self.rooms[meeting.room]
        return [time for time in room.closed if overlap(meeting.time, time)] if room else []

    def conflict(self, one: Meeting, other: Meeting) -> str | None:
        """Why nobody can attend both: they overlap, or share a day and a week with fewer slots between them than the
        travel of their rooms."""
        a, b = one.time, other.time
        if not (a.days & b.days and a.weeks & b.weeks):
            return None
        travel = 0
        if one.room is not None and other.room is not None:
            travel = self.problem.travel.get((min(one.room, other.room), max(one.room, other.room)), 0)
        if a.start >= b.end + travel or b.start >= a.end + travel:
            return None
        return "same time as" if a.start < b.end and b.start < a.end else "too far from"

    def conflicts(self, classes: list[int]) -> Notes:
        """For each of some classes the others of them that nobody can attend too."""
        notes: Notes = {one: [] for one in classes}
        for one, other in combinations(classes, 2):
            first, second = self.meetings[one], self.meetings[other]
            words = self.conflict(first, second)
            if words:
                days, weeks = first.time.days & second.time.days, first.time.weeks & second.time.weeks
                notes[one].append(Note(words, second, days, weeks))
                notes[other].append(Note(words, first, days, weeks))
        return notes

    def student_pairs(self) -> tuple[int, int]:
        """Over all students the pairs of classes that one can't both attend, and how many students have such a pair."""
        known: dict[tuple[int, int], bool] = {}
        pairs = students = 0
        for classes in self.classes_of.values():
            own = 0
            for pair in combinations(classes, 2):
                if pair not in known:
                    known[pair] = self.conflict(self.meetings[pair[0]], self.meetings[pair[1]]) is not None
                own += known[pair]
            pairs += own
            students += bool(own)
        return pairs, students

    def without_classes(self) -> list[Student]:
        """The students who have a course and no class."""
        return [student for student in self.problem.students.values() if student.courses and not self.classes_of[student.id]]

    def hours_a_week(self, meetings: list[Meeting]) -> float:
        """Hours of a week that some meetings take, on average over the term."""
        slots = sum(one.time.length * one.time.days.bit_count() * one.time.weeks.bit_count() for one in meetings)
        return slots * 24 / self.problem.slots / self.problem.weeks

    def weeks(self, bits: int) -> str:
        if bits not in self._weeks:
            self._weeks[bits] = weeks_in_words(bits, self.problem.weeks)
        return self._weeks[bits]

    def hours(self, time: Time) -> str:
        """A time of day, such as `09:00–10:30`."""
        return f"{clock(time.start, self.problem.slots)}–{clock(time.end, self.problem.slots)}"

    def days(self, bits: int) -> str:
        """Days in words: one in full, several by their first letters."""
        names = [self.names.day(place) for place in range(bits.bit_length()) if bits >> place & 1]
        return names[0] if len(names) == 1 else ", ".join(name[:3] for name in names)

    def when(self, time: Time) -> str:
        """A time in words, such as `Mon, Wed 09:00–10:30, odd weeks`."""
        return f"{self.days(time.days)} {self.hours(time)}, {self.weeks(time.weeks)}"

    @staticmethod
    def shared(one: Time, other: Time) -> Time:
        """What two times that overlap have in common."""
        start = max(one.start, other.start)
        return Time(one.days & other.days, one.weeks & other.weeks, start, min(one.end, other.end) - start)

    def remarks(self, meeting: Meeting) -> str:
        """How a meeting differs from what the problem allows, in words."""
        words = []
        if meeting.other_time:
            words.append("time isn’t one of the class’s (shown with the length of its first)")
        if meeting.other_lengths:
            words.append("has times that differ in length alone, of which the first is shown")
        if meeting.other_room and meeting.room is None:
            words.append("no room, though the class has rooms")
        elif meeting.other_room and meeting.room is not None:
            words.append("room isn’t one of the class’s" if self.rooms[meeting.room].known else "room isn’t in the problem")
        return "; ".join(words)
