"""What the page knows of the problem file: names, times, which classes may be in a room. It is told as it is asked for."""

from collections.abc import Callable, Iterable
from dataclasses import dataclass

from uttab_tools import limits
from uttab_tools.names import Names
from uttab_tools.problem import Class, Problem
from uttab_tools.reading import Reader
from uttab_tools.teachers import Teacher
from uttab_tools.times import Time, minutes, set_text, weeks_in_words

FOUND = 14
LAST_HOUR = 48
KINDS = ("class", "room", "course", "student", "teacher")


@dataclass(frozen=True, slots=True)
class Rule:
    """A distribution of the problem file, as `uttab` counts them, from 1."""

    name: str
    kind: str
    required: bool
    classes: list[int]


def rules_of(problem: Problem) -> list[Rule]:
    reader = Reader(problem.file)
    rules = []
    for value, path in reader.items(problem.value, "distributions", "", limits.DISTRIBUTIONS):
        item = reader.fields(value, path)
        classes = reader.references(item, "classes", path, limits.CLASSES, True)
        rules.append(Rule(reader.name_of(item), str(item.get("type")), reader.truth(item, "required", path, False),
                          list(dict.fromkeys(classes))))
    return rules


class Facts:
    """The parts of a problem, with their names, in the form in which the page reads them."""

    def __init__(self, problem: Problem, names: Names, teachers: Iterable[Teacher] = ()) -> None:
        self.problem, self.names = problem, names
        self.teachers = {place: teacher for place, teacher in enumerate(teachers, 1)}
        self.rules = rules_of(problem)
        self.weeks: dict[int, int] = {}
        self.in_room: dict[int, list[int]] = {room: [] for room in problem.rooms}
        for one in problem.classes.values():
            for room in dict.fromkeys(one.rooms):
                if room in self.in_room:
                    self.in_room[room].append(one.id)
        self.places = {course: place for place, course in enumerate(problem.courses)}
        self.taught_by: dict[int, list[int]] = {}
        for place, teacher in self.teachers.items():
            for taught in teacher.classes:
                self.taught_by.setdefault(taught, []).append(place)
        self.ids: dict[str, list[int]] = {
            "class": list(problem.classes), "room": list(problem.rooms), "course": list(problem.courses),
            "student": list(problem.students), "teacher": list(self.teachers)}
        self.at = {kind: {one: place for place, one in enumerate(ids)} for kind, ids in self.ids.items()}
        self.labels = {kind: [(one, label, label.casefold()) for one in ids for label in [self.label(kind, one)]]
                       for kind, ids in self.ids.items()}
        self.tellers: dict[str, Callable[[int], dict[str, object]]] = {
            "class": self._class, "room": self._room, "course": self._course, "student": self._student,
            "teacher": self._teacher, "rule": self._rule}
        self.head = self._head()

    def label(self, kind: str, number: int) -> str:
        if kind == "teacher":
            return self.teachers[number].name
        if kind != "class":
            return self.names.label(kind, number)
        course = self.problem.classes[number].course.id
        return f"{self.names.label('course', course)}: {self.names.get('class', number) or f'class {number}'}"

    def _head(self) -> dict[str, object]:
        """What doesn't depend on a part."""
        problem = self.problem
        times = [time for one in problem.classes.values() for time in one.times]
        slots = problem.slots
        first = min((minutes(time.start, slots) // 60 for time in times), default=8)
        last = max((-(-minutes(time.end, slots) // 60) for time in times), default=18)
        used = max((time.days.bit_length() for time in times), default=0)
        closed = [time for room in problem.rooms.values() for time in room.closed]
        for time in times + closed:
            self._week(time)
        return {
            "name": problem.name, "days": [self.names.day(day) for day in range(problem.days)],
            "shownDays": max(used, min(5, problem.days)), "firstHour": min(first, LAST_HOUR - 1),
            "lastHour": min(LAST_HOUR, max(first + 1, last)), "slots": slots, "weekCount": problem.weeks,
            "weeks": [[set_text(bits, problem.weeks), weeks_in_words(bits, problem.weeks)] for bits in self.weeks],
            "counts": {kind: len(ids) for kind, ids in self.ids.items()},
            "first": {kind: ids[0] for kind, ids in self.ids.items() if ids},
            "rooms": [[room, label] for room, label, _ in self.labels["room"]],
        }

    def _week(self, time: Time) -> int:
        """The place of the time's weeks among all sets of weeks."""
        return self.weeks.setdefault(time.weeks, len(self.weeks))

    def _time(self, time: Time) -> list[int]:
        return [time.days, time.start, time.length, self._week(time)]

    def tell(self, wanted: dict[str, list[int]]) -> dict[str, list[dict[str, object]]]:
        """The parts of these ids. Unknown ones are left out."""
        told: dict[str, list[dict[str, object]]] = {}
        for kind, teller in self.tellers.items():
            told[kind] = []
            for number in wanted.get(kind, []):
                try:
                    part = teller(number)
                except (KeyError, IndexError):
                    continue
                part["id"] = number
                told[kind].append(part)
        return told

    def _class(self, number: int) -> dict[str, object]:
        one: Class = self.problem.classes[number]
        several = len({other.config for other in one.course.classes}) > 1
        parent = one.parent if one.parent in self.problem.classes else None
        return {
            "label": self.label("class", number), "name": self.names.get("class", number),
            "course": one.course.id, "courseLabel": self.names.label("course", one.course.id),
            "colour": self.places[one.course.id], "limit": one.limit,
            "part": ", ".join(words for words in ([one.config] * several + [one.subpart]) if words),
            "parent": None if parent is None else [parent, self.label("class", parent)],
            "rooms": list(dict.fromkeys(one.rooms)), "times": [self._time(time) for time in one.times],
            "teachers": [[place, self.teachers[place].name] for place in self.taught_by.get(number, [])],
        }

    def _room(self, number: int) -> dict[str, object]:
        room = self.problem.rooms[number]
        return {"label": self.label("room", number), "closed": [self._time(time) for time in room.closed],
                "classes": self.in_room[number]}

    def _course(self, number: int) -> dict[str, object]:
        return {"id": number, "label": self.label("course", number), "classes": [one.id for one in self.problem.courses[number].classes]}

    def _student(self, number: int) -> dict[str, object]:
        courses = list(dict.fromkeys(self.problem.students[number].courses))
        return {"label": self.label("student", number),
                "courses": [self._course(course) for course in courses if course in self.problem.courses]}

    def _teacher(self, number: int) -> dict[str, object]:
        return {"label": self.label("teacher", number), "classes": list(self.teachers[number].classes)}

    def _rule(self, number: int) -> dict[str, object]:
        if number < 1:
            raise IndexError
        rule = self.rules[number - 1]
        return {"name": rule.name, "kind": rule.kind, "required": rule.required, "classes": rule.classes}

    def find(self, text: str, kinds: Iterable[str] = KINDS) -> list[list[object]]:
        """The parts of which this is the id, the front of the name, or whose name has all of its words: a few of them."""
        wanted = text.casefold().split()
        if not wanted:
            return []
        ranked: list[tuple[int, int, str, int, str]] = []
        for order, kind in enumerate(kind for kind in KINDS if kind in kinds):
            if text.strip().isdecimal() and int(text) in self.at[kind]:
                ranked.append((0, order, kind, int(text), self.label(kind, int(text))))
            some = 0
            for number, label, folded in self.labels[kind]:
                if all(word in folded for word in wanted):
                    ranked.append((1 if folded.startswith(wanted[0]) else 2, order, kind, number, label))
                    some += 1
                    if some > 20 * FOUND:
                        break
        ranked.sort(key=lambda hit: hit[:2])
        hits = {(kind, number): label for _, _, kind, number, label in ranked}
        return [[kind, number, label] for (kind, number), label in list(hits.items())[:FOUND]]

    def beside(self, kind: str, number: int, by: int) -> int:
        """The part that stands so many places after this one, and round the end."""
        ids = self.ids[kind]
        return ids[(self.at[kind][number] + by) % len(ids)]

    def listed(self, kind: str) -> list[list[object]]:
        return [[number, label] for number, label, _ in self.labels[kind]]

    def who_may_attend(self, number: int) -> list[int]:
        """The students with the course of a class."""
        one = self.problem.classes.get(number)
        return [] if one is None else [student.id for student in self.problem.students.values() if one.course.id in student.courses]
