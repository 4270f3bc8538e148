"""Writes a problem as sheets. A problem that is made of them again is the same, but for keys that nothing reads."""

from collections.abc import Iterable, Iterator

from uttab_tools.names import DAY_NAMES
from uttab_tools.problem import Problem
from uttab_tools.raw import Value, parts, rules_of
from uttab_tools.sheet import csv_text
from uttab_tools.sheets.columns import CLASSES, CLOSED, ROOMS, RULES, STUDENTS, TERM, TERM_NUMBERS, TERM_WEIGHTS, TIMES, TRAVEL
from uttab_tools.times import Time, clock, places, weeks_in_words

Line = list[object]


def sheets_of(problem: Problem) -> dict[str, str]:
    """The texts of the sheets, by their names."""
    return {name: csv_text(lines) for name, lines in _Writing(problem).sheets().items()}


class _Writing:
    def __init__(self, problem: Problem) -> None:
        self.problem, self.value = problem, problem.value
        # The names of lists of times with their penalties.
        self.patterns: dict[tuple[tuple[Time, object], ...], str] = {}

    def sheets(self) -> dict[str, Iterable[Line]]:
        classes = list(self._classes())
        return {TERM: self._term(), ROOMS: self._rooms(), TRAVEL: self._travel(), CLOSED: self._closed(), CLASSES: classes,
                TIMES: self._times(), RULES: self._rules(), STUDENTS: self._students()}

    def _term(self) -> Iterator[Line]:
        yield ["what", "value"]
        yield ["name", self.problem.name]
        weights = self.value["optimization"]
        assert isinstance(weights, dict)
        yield from ([what, self.value[key]] for what, key in TERM_NUMBERS.items())
        yield from ([what, weights[key]] for what, key in TERM_WEIGHTS.items())

    def _rooms(self) -> Iterator[Line]:
        yield ["room", "name", "capacity"]
        for number, room in zip(self.problem.rooms, parts(self.value, "rooms"), strict=True):
            yield [number, room.get("name", ""), room.get("capacity", "")]

    def _travel(self) -> Iterator[Line]:
        yield ["room", "to", "slots"]
        for number, room in zip(self.problem.rooms, parts(self.value, "rooms"), strict=True):
            yield from ([number, _reference(entry["room"]), entry["value"]] for entry in parts(room, "travel"))

    def _closed(self) -> Iterator[Line]:
        yield ["room", "days", "begin", "end", "weeks"]
        for room in self.problem.rooms.values():
            yield from ([room.id, *self._time(time)] for time in room.closed)

    def _time(self, time: Time) -> Line:
        days = " ".join(DAY_NAMES[place] for place in places(time.days))
        return [days, self._clock(time.start), self._clock(time.end), weeks_in_words(time.weeks, self.problem.weeks)]

    def _clock(self, slot: int) -> str:
        """A slot as the time of day, or as its number where it begins within a minute."""
        return clock(slot, self.problem.slots) if 1440 % self.problem.slots == 0 else str(slot)

    def _classes(self) -> Iterator[Line]:
        yield ["course", "course name", "configuration", "configuration name", "subpart", "subpart name", "class", "class name",
               "seats", "parent", "rooms", "times"]
        of_class = iter(self.problem.classes.values())
        for course in parts(self.value, "courses"):
            for config in parts(course, "configs"):
                for subpart in parts(config, "subparts"):
                    for value in parts(subpart, "classes"):
                        one = next(of_class)
                        yield [*_words(course), *_words(config), *_words(subpart), *_words(value),
                               "" if one.limit is None else one.limit, "" if one.parent is None else one.parent,
                               _rooms_of(value, one.rooms), self._pattern(one.times, parts(value, "times"))]

    def _pattern(self, times: list[Time], values: list[Value]) -> str:
        key = tuple((time, value.get("penalty")) for time, value in zip(times, values, strict=True))
        return self.patterns.setdefault(key, f"times {len(self.patterns) + 1}")

    def _times(self) -> Iterator[Line]:
        yield ["times", "days", "begin", "end", "weeks", "penalty"]
        for times, name in self.patterns.items():
            yield from ([name, *self._time(time), penalty] for time, penalty in times)

    def _rules(self) -> Iterator[Line]:
        yield ["rule", "type", "required", "penalty", "classes"]
        for rule in rules_of(self.problem):
            required = rule.value.get("required") in (True, "true")
            yield [rule.value.get("name", ""), rule.value["type"], "yes" if required else "no",
                   "" if required else rule.value.get("penalty", ""), " ".join(map(str, rule.classes))]

    def _students(self) -> Iterator[Line]:
        yield ["student", "name", "courses"]
        for student in self.problem.students.values():
            yield [student.id, student.name, " ".join(map(str, student.courses))]


def _rooms_of(value: Value, rooms: list[int]) -> str:
    """The rooms of a class, each with its penalty where it has one."""
    penalties = [str(room.get("penalty")) for room in parts(value, "rooms")][:len(rooms)]
    return ", ".join(str(room) if penalty == "0" else f"{room} ({penalty})" for room, penalty in zip(rooms, penalties, strict=True))


def _words(value: Value) -> Line:
    """The id and the name of a part, empty where it has none."""
    return [value.get("id", ""), value.get("name", "")]


def _reference(value: object) -> int:
    found = value.get("id") if isinstance(value, dict) else value
    return int(str(found))
