"""Names of rooms, courses, classes, students and days."""

import csv
import io

from uttab_tools.problem import Problem
from uttab_tools.program import FileFault
from uttab_tools.reading import reading

DAY_NAMES = ("Monday", "Tuesday", "Wednesday", "Thursday", "Friday", "Saturday", "Sunday")
KINDS = ("room", "course", "class", "student", "day")


class Names:
    """Names of parts: those of the optional CSV file `kind,id,name`, else those in the problem file."""

    def __init__(self, problem: Problem, name: str | None = None) -> None:
        self.of: dict[str, dict[int, str]] = {
            "room": {room.id: room.name for room in problem.rooms.values() if room.name},
            "course": {course.id: course.name for course in problem.courses.values() if course.name},
            "class": {one.id: one.name for one in problem.classes.values() if one.name},
            "student": {student.id: student.name for student in problem.students.values() if student.name},
            "day": {place + 1: day for place, day in enumerate(DAY_NAMES)},
        }
        if name is not None:
            self._read(name)

    def _read(self, name: str) -> None:
        for line, row in rows_of(name):
            fields = [" ".join(field.split()) for field in row]
            if not any(fields) or [field.lower() for field in fields] == ["kind", "id", "name"]:
                continue
            where = f"{name}: line {line}"
            if len(fields) != 3:
                raise FileFault(f"{where}: has {len(fields)} fields in place of kind, id and name")
            kind, number, words = fields
            if kind.lower() not in KINDS:
                raise FileFault(f"{where}: {kind!r} is no kind: {', '.join(KINDS)}")
            if not (number.isascii() and number.isdigit()):
                raise FileFault(f"{where}: {number!r} is no id")
            self.of[kind.lower()][int(number)] = words

    def get(self, kind: str, number: int | None) -> str:
        """The name of a part, empty where it has none."""
        return "" if number is None else self.of[kind].get(number, "")

    def label(self, kind: str, number: int) -> str:
        """A part by its name, or by its kind and id."""
        return self.get(kind, number) or f"{kind.capitalize()} {number}"

    def full_label(self, kind: str, number: int) -> str:
        """A part by its kind and id, and its name where it has one."""
        name = self.get(kind, number)
        return f"{kind.capitalize()} {number}" + (f": {name}" if name else "")

    def day(self, place: int) -> str:
        return self.of["day"][place + 1]


def rows_of(name: str) -> list[tuple[int, list[str]]]:
    """The rows of a CSV file, each with the number of its last line. Fields are parted by commas, or by semicolons
    where the first line has these and no comma."""
    with reading(name) as file:
        text = file.read()
    first = text.partition("\n")[0]
    delimiter = ";" if ";" in first and "," not in first else ","
    try:
        rows = csv.reader(io.StringIO(text, newline=""), delimiter=delimiter, strict=True)
        return [(rows.line_num, row) for row in rows]
    except csv.Error as error:
        raise FileFault(f"{name}: no CSV text: {error}") from None
