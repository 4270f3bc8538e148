"""Reads a published file, and says when and where its classes meet."""

from collections.abc import Iterator
from dataclasses import dataclass

from uttab_tools import limits
from uttab_tools.problem import Class, Problem
from uttab_tools.reading import Reader, load_json
from uttab_tools.times import Time


@dataclass(slots=True)
class Placed:
    """A published class: its days, weeks, start and room (`None` for none), and the ids of its students. `texts` are
    its days and weeks as the file has them."""

    id: int
    days: int
    weeks: int
    start: int
    room: int | None
    students: list[int]
    texts: tuple[str, str]


class Published:
    """A published file: `classes` in the file's order, `value` the JSON value that it was read from.

    With a problem its sets have to fit the problem, and its ids be known ones."""

    def __init__(self, name: str, problem: Problem | None = None) -> None:
        reader = Reader(name)
        self.file = name
        self.value = reader.fields(load_json(name), "")
        if self.value.get("classes") is None and self.value.get("nrDays") is not None:
            reader.fault("/classes", "is absent: this is a problem file, where a published one is wanted")
        self.classes = list(_placed_classes(reader, self.value, problem))


def _placed_classes(reader: Reader, value: object, problem: Problem | None) -> Iterator[Placed]:
    days, weeks = (problem.days, problem.weeks) if problem else (None, None)
    seen: set[int] = set()
    for item, path in reader.items(value, "classes", "", limits.CLASSES, True):
        class_id = reader.id_of(item, "id", path)
        if class_id in seen:
            reader.fault(f"{path}/id", f"class {class_id} stands twice")
        seen.add(class_id)
        if problem and class_id not in problem.classes:
            reader.fault(f"{path}/id", f"the problem has no class {class_id}")
        inner = reader.fields(item, path)
        yield Placed(
            class_id,
            reader.set_of(item, "days", path, days),
            reader.set_of(item, "weeks", path, weeks),
            reader.number_of(item, "start", path, limits.SLOT),
            None if inner.get("room") is None else reader.id_of(item, "room", path),
            _students_of(reader, item, path, problem),
            (str(inner["days"]), str(inner["weeks"])),
        )


def _students_of(reader: Reader, item: object, path: str, problem: Problem | None) -> list[int]:
    listed = reader.references(item, "students", path, limits.STUDENTS_OF_A_CLASS)
    students = dict.fromkeys(listed)
    if problem and not students.keys() <= problem.students.keys():
        place, unknown = next((place, one) for place, one in enumerate(listed) if one not in problem.students)
        reader.fault(f"{path}/students/{place}", f"the problem has no student {unknown}")
    return list(students)


class Meeting:
    """A published class as it meets: its time, and how it differs from the values that the problem gives it.

    A published class has no length: it is that of the class's first time with the same days, weeks and start,
    which is also the one that `recall` takes. `other_lengths` says that a later such time has another length.
    Where there is none (`other_time`), it is the length of the class's first time."""

    __slots__ = ("of_class", "time", "room", "students", "other_time", "other_lengths", "other_room")

    def __init__(self, of_class: Class, placed: Placed) -> None:
        same = [time for time in of_class.times
                if (time.days, time.weeks, time.start) == (placed.days, placed.weeks, placed.start)]
        length = (same or of_class.times)[0].length
        self.of_class, self.room, self.students = of_class, placed.room, placed.students
        self.time = Time(placed.days, placed.weeks, placed.start, length)
        self.other_time = not same
        self.other_lengths = any(time.length != length for time in same)
        self.other_room = placed.room not in of_class.rooms if of_class.rooms else placed.room is not None


def meetings_of(problem: Problem, published: Published) -> dict[int, Meeting]:
    """The meetings of a published timetable by class, in the problem's order."""
    placed = {one.id: one for one in published.classes}
    return {class_id: Meeting(of_class, placed[class_id]) for class_id, of_class in problem.classes.items() if class_id in placed}
