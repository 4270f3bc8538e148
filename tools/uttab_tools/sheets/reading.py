"""Makes a problem of sheets. Whatever is wrong is told with the file and the line."""

import re
from collections.abc import Iterator
from pathlib import Path

from uttab_tools import limits
from uttab_tools.program import FileFault
from uttab_tools.raw import Value
from uttab_tools.sheet import Row, rows
from uttab_tools.sheets.columns import (
    CLASSES,
    CLOSED,
    COLUMNS,
    MAY_BE_ABSENT,
    ROOMS,
    RULES,
    STUDENTS,
    TERM,
    TERM_NUMBERS,
    TERM_WEIGHTS,
    TIMES,
    TRAVEL,
)
from uttab_tools.sizes import lists_above
from uttab_tools.times import Time, set_text

_ROOM = re.compile(r"(\d+)(?: *\( *(\d+) *\))?", re.ASCII)
_YES, _NO = ("yes", "true", "1", "x"), ("no", "false", "0", "")


def problem_of(folder: str) -> Value:
    """The problem of the sheets in a folder."""
    problem = _Sheets(Path(folder)).problem()
    for words in lists_above(problem):
        raise FileFault(f"{folder}: has {words}")
    return problem


class _Sheets:
    def __init__(self, folder: Path) -> None:
        self.folder = folder
        self.days = self.weeks = self.slots = 0
        self.rooms: dict[int, Value] = {}
        self.patterns: dict[str, list[Value]] = {}
        self.courses: dict[int, Value] = {}
        self.classes: dict[int, Row] = {}
        self.needs_version_2 = False

    def problem(self) -> Value:
        term = self._term()
        self._read_rooms()
        self._read_times()
        self._read_classes()
        rules = [self._rule(row) for row in self._rows(RULES)]
        students = list(self._students())
        version = {"version": 2} if self.needs_version_2 or self.weeks > limits.weeks_of_version(1).most else {}
        return {**version, **term, "rooms": list(self.rooms.values()), "courses": list(self.courses.values()),
                "distributions": rules, "students": students}

    def _rows(self, sheet: str) -> Iterator[Row]:
        return rows(self.folder / sheet, *COLUMNS[sheet], may_be_absent=sheet in MAY_BE_ABSENT)

    def _term(self) -> Value:
        found = {}
        for row in self._rows(TERM):
            what = row.needed("what").lower()
            if what not in ("name", *TERM_NUMBERS, *TERM_WEIGHTS):
                row.fault(f"what: {what!r} is none of name, {', '.join([*TERM_NUMBERS, *TERM_WEIGHTS])}")
            found[what] = row

        def number(what: str, within: limits.Range) -> int:
            if what not in found:
                raise FileFault(f"{self.folder / TERM}: there is no line {what!r}")
            return found[what].number("value", within)

        self.days, self.slots = number("days", limits.DAYS), number("slots a day", limits.SLOTS_PER_DAY)
        self.weeks = number("weeks", limits.weeks_of_version(limits.VERSION.most))
        weights = {key: number(what, limits.WEIGHT) for what, key in TERM_WEIGHTS.items()}
        name = {"name": found["name"].text("value")} if "name" in found else {}
        return {**name, "nrDays": self.days, "nrWeeks": self.weeks, "slotsPerDay": self.slots, "optimization": weights}

    def _read_rooms(self) -> None:
        for row in self._rows(ROOMS):
            number = row.number("room")
            if number in self.rooms:
                row.fault(f"room: an earlier line has the room {number}")
            self.rooms[number] = {"id": number, **_texts(row, {"name": "name"}), **_numbers(row, {"capacity": "capacity"})}
        for row in self._rows(TRAVEL):
            entry: Value = {"room": row.known("to", self.rooms, "room"), "value": row.number("slots", limits.SLOT)}
            _append(self.rooms[row.known("room", self.rooms, "room")], "travel", entry)
        for row in self._rows(CLOSED):
            room = self.rooms[row.known("room", self.rooms, "room")]
            _append(room, "unavailable", self._time(row.time(self.days, self.weeks, self.slots)))

    def _time(self, time: Time) -> Value:
        return {"days": set_text(time.days, self.days), "start": time.start, "length": time.length,
                "weeks": set_text(time.weeks, self.weeks)}

    def _read_times(self) -> None:
        for row in self._rows(TIMES):
            time = self._time(row.time(self.days, self.weeks, self.slots))
            time["penalty"] = row.number("penalty", limits.PENALTY, 0)
            self.patterns.setdefault(row.needed("times"), []).append(time)

    def _read_classes(self) -> None:
        for row in self._rows(CLASSES):
            number = row.number("class")
            if number in self.classes:
                row.fault(f"class: line {self.classes[number].line} has the class {number}")
            self.classes[number] = row
            course = self.courses.setdefault(row.number("course"), {"id": row.number("course")})
            course.update(_texts(row, {"course name": "name"}))
            config = _part_of(course, "configs", row, "configuration")
            _append(_part_of(config, "subparts", row, "subpart"), "classes", self._class(row, number))
        for row in self.classes.values():
            if row.text("parent"):
                row.known("parent", set(self.classes), "class")

    def _class(self, row: Row, number: int) -> Value:
        times = row.needed("times")
        if times not in self.patterns:
            row.fault(f"times: {self.folder / TIMES} has no times {times!r}")
        rooms = list(self._rooms_of(row))
        return {"id": number, **_texts(row, {"class name": "name"}), **_numbers(row, {"seats": "limit", "parent": "parent"}),
                "rooms" if rooms else "room": rooms or False, "times": self.patterns[times]}

    def _rooms_of(self, row: Row) -> Iterator[Value]:
        """The rooms of a class, as in `2, 3, 11 (4)`: room 11 has the penalty 4."""
        for item in filter(None, re.split(r"[,;]\s*|\s+(?!\()", row.text("rooms"))):
            match = _ROOM.fullmatch(item)
            if not match:
                row.fault(f"rooms: {item[:60]!r} is neither a room nor a room with a penalty, such as 11 (4)")
            room = row.number_in(match[1], "rooms")
            if room not in self.rooms:
                row.fault(f"rooms: there is no room {room}")
            yield {"id": room, "penalty": row.number_in(match[2] or "0", "rooms", limits.PENALTY)}

    def _rule(self, row: Row) -> Value:
        text = row.needed("type")
        kind = limits.type_name(text, limits.VERSION.most)
        if kind is None:
            row.fault(f"type: {text[:60]!r} is no type of a rule")
        self.needs_version_2 |= kind in limits.TYPES_OF_VERSION_2
        required = row.text("required").lower()
        if required not in _YES + _NO:
            row.fault(f"required: {required[:60]!r} is neither yes nor no")
        amount: Value = {"required": True} if required in _YES else {"penalty": row.number("penalty", limits.PENALTY)}
        return {**_texts(row, {"rule": "name"}), "type": text, **amount, "classes": _ids(row, "classes", set(self.classes), "class")}

    def _students(self) -> Iterator[Value]:
        seen: set[int] = set()
        for row in self._rows(STUDENTS):
            number = row.number("student")
            if number in seen:
                row.fault(f"student: an earlier line has the student {number}")
            seen.add(number)
            yield {"id": number, **_texts(row, {"name": "name"}), "courses": _ids(row, "courses", set(self.courses), "course")}


def _texts(row: Row, columns: dict[str, str]) -> Value:
    """The keys of the texts that a line has."""
    return {key: row.text(column) for column, key in columns.items() if row.text(column)}


def _numbers(row: Row, columns: dict[str, str]) -> Value:
    return {key: row.number(column) for column, key in columns.items() if row.text(column)}


def _append(value: Value, key: str, item: Value) -> None:
    items = value.setdefault(key, [])
    assert isinstance(items, list)
    items.append(item)


def _part_of(value: Value, key: str, row: Row, column: str) -> Value:
    """The configuration or the subpart of a line: that with the same id and name in the course, or a new one."""
    own = {**_numbers(row, {column: "id"}), **_texts(row, {f"{column} name": "name"})}
    found = value.setdefault(key, [])
    assert isinstance(found, list)
    for part in found:
        if isinstance(part, dict) and {name: part[name] for name in ("id", "name") if name in part} == own:
            return part
    found.append(own)
    return own


def _ids(row: Row, column: str, among: set[int], words: str) -> list[int]:
    """The ids in a field, parted by spaces, commas or semicolons."""
    found = [row.number_in(item, column) for item in re.split(r"[,;\s]+", row.text(column)) if item]
    for number in found:
        if number not in among:
            row.fault(f"{column}: there is no {words} {number}")
    return found
