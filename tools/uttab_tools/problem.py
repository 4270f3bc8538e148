"""Reads a problem file.

Checked is what the commands need, no more: `uttab check` finds every fault."""

from collections.abc import Container
from dataclasses import dataclass, field

from uttab_tools import limits
from uttab_tools.reading import Reader, load_json
from uttab_tools.times import Time


@dataclass(slots=True)
class Room:
    """A room, and the times at which the problem closes it. One that isn't `known` is none of the problem's."""

    id: int
    name: str
    closed: list[Time]
    known: bool = True


@dataclass(slots=True)
class Course:
    id: int
    name: str
    classes: list["Class"] = field(default_factory=list)


@dataclass(slots=True)
class Class:
    """A class of a course. `config` and `subpart` are its configuration and subpart in words, `rooms` the ids
    of its rooms, none of them where it needs no room."""

    id: int
    name: str
    course: Course
    config: str
    subpart: str
    limit: int | None
    parent: int | None
    rooms: list[int]
    times: list[Time]


@dataclass(slots=True)
class Student:
    id: int
    name: str
    courses: list[int]


class Problem:
    """A problem file, without what only the desk needs: weights, penalties and distributions.

    `classes`, `courses`, `rooms` and `students` are by id, in the file's order; `travel` is by pairs of room
    ids, the lesser first; `value` is the JSON value that it was read from."""

    def __init__(self, name: str) -> None:
        reader = Reader(name)
        value = self.value = reader.fields(load_json(name), "")
        if value.get("nrDays") is None and isinstance(value.get("classes"), list):
            reader.fault("/nrDays", "is absent: this is a published file, where the problem is wanted")
        self.file = name
        self.name = reader.name_of(value)
        self.days = reader.number_of(value, "nrDays", "", limits.DAYS)
        self.version = reader.number_or(value, "version", "", limits.VERSION, 1) or 1
        self.weeks = reader.number_of(value, "nrWeeks", "", limits.weeks_of_version(self.version))
        self.slots = reader.number_of(value, "slotsPerDay", "", limits.SLOTS_PER_DAY)
        self.rooms: dict[int, Room] = {}
        self.courses: dict[int, Course] = {}
        self.classes: dict[int, Class] = {}
        self.students: dict[int, Student] = {}
        self.travel: dict[tuple[int, int], int] = {}
        for item, path in reader.items(value, "rooms", "", limits.ROOMS):
            self._read_room(reader, item, path)
        for item, path in reader.items(value, "courses", "", limits.COURSES, True):
            self._read_course(reader, item, path)
        for item, path in reader.items(value, "students", "", limits.STUDENTS):
            self._read_student(reader, item, path)

    def _new_id(self, reader: Reader, item: object, path: str, earlier: Container[int]) -> int:
        found = reader.id_of(item, "id", path)
        if found in earlier:
            reader.fault(f"{path}/id", f"an earlier part has the id {found}")
        return found

    def _read_time(self, reader: Reader, item: object, path: str) -> Time:
        return Time(
            reader.set_of(item, "days", path, self.days),
            reader.set_of(item, "weeks", path, self.weeks),
            reader.number_of(item, "start", path, limits.SLOT),
            reader.number_of(item, "length", path, limits.LENGTH),
        )

    def _read_room(self, reader: Reader, item: object, path: str) -> None:
        room_id = self._new_id(reader, item, path, self.rooms)
        for entry, entry_path in reader.items(item, "travel", path, limits.TRAVEL):
            room, room_path = reader.part(entry, "room", entry_path)
            other = reader.reference(room, room_path)
            if other != room_id:
                slots = reader.number_of(entry, "value", entry_path, limits.SLOT)
                self.travel[min(room_id, other), max(room_id, other)] = slots
        closed = [self._read_time(reader, time, time_path)
                  for time, time_path in reader.items(item, "unavailable", path, limits.UNAVAILABLE)]
        self.rooms[room_id] = Room(room_id, reader.name_of(reader.fields(item, path)), closed)

    def _read_course(self, reader: Reader, item: object, path: str) -> None:
        course_id = self._new_id(reader, item, path, self.courses)
        course = self.courses[course_id] = Course(course_id, reader.name_of(reader.fields(item, path)))
        for config, config_path in reader.items(item, "configs", path, limits.CLASSES, True):
            config_words = part_words(reader, "configuration", config, config_path)
            for subpart, subpart_path in reader.items(config, "subparts", config_path, limits.CLASSES, True):
                subpart_words = part_words(reader, "subpart", subpart, subpart_path)
                for inner, inner_path in reader.items(subpart, "classes", subpart_path, limits.CLASSES, True):
                    self._read_class(reader, inner, inner_path, course, config_words, subpart_words)

    def _read_class(self, reader: Reader, value: object, path: str, course: Course, config: str, subpart: str) -> None:
        class_id = self._new_id(reader, value, path, self.classes)
        item = reader.fields(value, path)
        limit = reader.number_or(item, "limit", path, limits.SEATS, None)
        parent = None if item.get("parent") is None else reader.reference(item["parent"], f"{path}/parent")
        rooms = []
        if reader.truth(item, "room", path, True):
            rooms = [reader.id_of(room, "id", room_path)
                     for room, room_path in reader.items(item, "rooms", path, limits.ROOMS_OF_A_CLASS)]
        times = [self._read_time(reader, time, time_path)
                 for time, time_path in reader.items(item, "times", path, limits.TIMES_OF_A_CLASS, True)]
        if not times:
            reader.fault(f"{path}/times", "is empty")
        of_class = Class(class_id, reader.name_of(item), course, config, subpart, limit, parent, rooms, times)
        self.classes[class_id] = of_class
        course.classes.append(of_class)

    def _read_student(self, reader: Reader, item: object, path: str) -> None:
        student_id = self._new_id(reader, item, path, self.students)
        courses = reader.references(item, "courses", path, limits.COURSES_OF_A_STUDENT, True)
        self.students[student_id] = Student(student_id, reader.name_of(reader.fields(item, path)), list(dict.fromkeys(courses)))


def part_words(reader: Reader, kind: str, value: object, path: str) -> str:
    """A configuration or a subpart by its name, else by its id where it has one."""
    item = reader.fields(value, path)
    found = item.get("id")
    return reader.name_of(item) or (f"{kind} {found}" if isinstance(found, int | str) else "")
