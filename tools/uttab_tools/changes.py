"""What changes from one timetable of a problem to another: for classes, and for the people who have them."""

from collections.abc import Iterable
from dataclasses import dataclass, field

from uttab_tools.problem import Class
from uttab_tools.published import Meeting
from uttab_tools.timetable import Timetable


@dataclass(frozen=True, slots=True)
class ClassChange:
    """A class that is elsewhere, `gone` from the timetable, or `new` in it. `was` and `now` say when and where it meets, and
    are empty where it isn't in the timetable. `students` is how many have it now."""

    of_class: Class
    kind: str
    what: str
    was: str
    now: str
    students: int


@dataclass(frozen=True, slots=True, eq=False)
class Change:
    """What changes for a person: in words, and in columns. It is one object for all to whom it happens, and equal to itself
    alone."""

    course: str
    class_name: str
    what: str
    was: str
    now: str

    @property
    def words(self) -> str:
        head = f"{self.course}: {self.class_name}: {self.what}" if self.class_name else f"{self.course}: {self.what}"
        if self.was:
            return f"{head}: was {self.was}" + (f", is {self.now}" if self.now else "")
        return f"{head}: {self.now}" if self.now else head


@dataclass(slots=True)
class PersonChange:
    """A student or a teacher (who has no number), with all that changes for him."""

    number: int | None
    name: str
    changes: list[Change] = field(default_factory=list)


class Changes:
    """All that changes from `old` to `new`, two timetables of one problem."""

    def __init__(self, old: Timetable, new: Timetable) -> None:
        self.old, self.new = old, new
        self.classes = [change for of_class in new.problem.classes.values() if (change := self._class_change(of_class))]
        self.gone = {change.of_class.id for change in self.classes if change.kind == "gone"}
        self.moved = {change.of_class.id: self._moved(change) for change in self.classes}
        self._group_changes: dict[tuple[int | None, int | None], Change] = {}
        self.students = [person for student in new.problem.students if (person := self._student(student)).changes]
        self.teachers = self._teachers()

    def class_words(self, of_class: Class) -> str:
        """A class with its course, by their names or numbers."""
        return f"{self._course(of_class)}: {self._label(of_class)}"

    def _course(self, of_class: Class) -> str:
        return self.new.names.label("course", of_class.course.id)

    def _label(self, of_class: Class) -> str:
        name = self.new.names.get("class", of_class.id)
        return f"{name} ({of_class.id})" if name else f"Class {of_class.id}"

    def place(self, timetable: Timetable, meeting: Meeting | None) -> str:
        """When and where a class meets, in words."""
        if meeting is None:
            return ""
        room = "no room" if meeting.room is None else self.new.names.label("room", meeting.room)
        return f"{timetable.when(meeting.time)}, {room}"

    def _class_change(self, of_class: Class) -> ClassChange | None:
        was, now = self.old.meetings.get(of_class.id), self.new.meetings.get(of_class.id)
        if was is None and now is None:
            return None
        if was is None or now is None:
            kind, what = ("new", "new in the timetable") if was is None else ("gone", "no longer in the timetable")
        else:
            parts = [word for word, differs in (("time", was.time != now.time), ("room", was.room != now.room)) if differs]
            if not parts:
                return None
            kind, what = "moved", f"other {' and '.join(parts)}"
        students = len(now.students if now is not None else was.students if was is not None else [])
        return ClassChange(of_class, kind, what, self.place(self.old, was), self.place(self.new, now), students)

    def _student(self, student: int) -> PersonChange:
        person = PersonChange(student, self.new.names.get("student", student))
        before, after = self.old.classes_of[student], self.new.classes_of[student]
        left, joined = [one for one in before if one not in after], [one for one in after if one not in before]
        for one in before:
            # A class that is gone has no list any more: that it is gone is what changes.
            if one in self.moved and (one in after or one in self.gone):
                person.changes.append(self.moved[one])
        person.changes += self._groups([one for one in left if one in self.new.meetings], joined)
        return person

    def _moved(self, change: ClassChange) -> Change:
        return Change(self._course(change.of_class), self._label(change.of_class), change.what, change.was, change.now)

    def _groups(self, left: list[int], joined: list[int]) -> list[Change]:
        """Groups that a student leaves and joins: a class of the same part of a course is another group."""
        changes = []
        rest = list(joined)
        classes = self.new.problem.classes
        for one in left:
            other = next((two for two in rest if self._part(classes[two]) == self._part(classes[one])), None)
            if other is not None:
                rest.remove(other)
            changes.append(self._group(one, other))
        return changes + [self._group(None, one) for one in rest]

    def _group(self, left: int | None, joined: int | None) -> Change:
        """A group that is left, joined, or another one than before."""
        known = self._group_changes.get((left, joined))
        if known is None:
            what = "group joined" if left is None else "group left" if joined is None else "other group"
            own = left if left is not None else joined
            assert own is not None
            course = self._course(self.new.problem.classes[own])
            known = Change(course, "", what, self._label_and_place(self.old, left), self._label_and_place(self.new, joined))
            self._group_changes[left, joined] = known
        return known

    def _label_and_place(self, timetable: Timetable, number: int | None) -> str:
        """A group of a timetable with when and where it meets, in words."""
        if number is None:
            return ""
        return f"{self._label(timetable.problem.classes[number])}, {self.place(timetable, timetable.meetings[number])}"

    @staticmethod
    def _part(of_class: Class) -> tuple[int, str, str]:
        return of_class.course.id, of_class.config, of_class.subpart

    def _teachers(self) -> list[PersonChange]:
        people = []
        for teacher in self.new.teachers:
            own: Iterable[int] = teacher.classes
            changes = [self.moved[one] for one in own if one in self.moved]
            if changes:
                people.append(PersonChange(None, teacher.name, changes))
        return people
