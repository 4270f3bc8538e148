"""The parts of a timetable that have a week of their own: students, rooms, courses and teachers."""

import re
from argparse import ArgumentParser, Namespace
from collections.abc import Iterable, Iterator
from dataclasses import dataclass

from uttab_tools.program import Usage
from uttab_tools.published import Meeting
from uttab_tools.timetable import Timetable

KINDS = ("student", "room", "course", "teacher")


@dataclass(frozen=True, slots=True)
class Part:
    """A student, a room, a course or a teacher, with its meetings. A teacher has no number."""

    kind: str
    number: int | None
    name: str
    meetings: list[Meeting]

    @property
    def title(self) -> str:
        words = self.kind.capitalize() if self.number is None else f"{self.kind.capitalize()} {self.number}"
        return f"{words}: {self.name}" if self.name else words


def files_of(chosen: Iterable[Part], ending: str) -> Iterator[tuple[str, Part]]:
    """Parts, each with the name of its file. Of names that differ in signs alone the later ones get a number."""
    taken = set[str]()
    for part in chosen:
        own = re.sub(r"\W+", "_", part.name).strip("_")[:50] if part.number is None else str(part.number)
        file, count = f"{part.kind}_{own}", 1
        while file.casefold() in taken:
            count += 1
            file = f"{part.kind}_{own}_{count}"
        taken.add(file.casefold())
        yield file + ending, part


def add_part_words(parser: ArgumentParser) -> None:
    """The words that choose one part, or a file for each."""
    one = parser.add_mutually_exclusive_group()
    for kind in KINDS[:3]:
        one.add_argument(f"--{kind}", metavar="ID", type=int, help=f"of the {kind} of this id alone")
    one.add_argument("--teacher", metavar="NAME", help="of the teacher of this name alone, as the file of teachers has it")
    one.add_argument("--folder", metavar="FOLDER", help="a file for each part, in this folder")
    parser.add_argument("--of", metavar="KINDS", default=",".join(KINDS),
                        help=f"with --folder: the kinds of parts that get a file (all: {','.join(KINDS)})")


def kinds_of(given: Namespace) -> list[str]:
    if given.output:
        raise Usage("--folder and -o: the files are written into the folder, so -o has no place")
    kinds: list[str] = given.of.split(",")
    if not set(kinds) <= set(KINDS):
        raise Usage(f"--of {given.of}: takes {', '.join(KINDS)}, parted by commas")
    return kinds


def part_given(given: Namespace, timetable: Timetable) -> Part | None:
    """The part that the words choose, if they choose one."""
    for kind in KINDS:
        wanted = getattr(given, kind)
        if wanted is None:
            continue
        for part in parts(timetable, [kind]):
            if wanted == (part.name if kind == "teacher" else part.number):
                return part
        raise Usage(f"--{kind} {wanted}: there is none")
    return None


def parts(timetable: Timetable, kinds: Iterable[str]) -> Iterator[Part]:
    """The parts of these kinds, each kind in the problem's order."""
    names = timetable.names
    for kind in kinds:
        if kind == "student":
            for student in timetable.problem.students:
                yield Part(kind, student, names.get(kind, student), meetings_of(timetable, timetable.classes_of[student]))
        elif kind == "room":
            for room in timetable.rooms:
                yield Part(kind, room, names.get(kind, room), in_order(timetable.in_room[room]))
        elif kind == "course":
            for course in timetable.problem.courses.values():
                yield Part(kind, course.id, names.get(kind, course.id), meetings_of(timetable, [one.id for one in course.classes]))
        else:
            for teacher in timetable.teachers:
                yield Part(kind, None, teacher.name, meetings_of(timetable, teacher.classes))


def meetings_of(timetable: Timetable, classes: Iterable[int]) -> list[Meeting]:
    """The meetings of those of some classes that are in the timetable."""
    return [timetable.meetings[one] for one in classes if one in timetable.meetings]


def in_order(meetings: list[Meeting]) -> list[Meeting]:
    """Meetings by their first day and start."""
    return sorted(meetings, key=lambda one: (one.time.days & -one.time.days, one.time.start, one.of_class.id))
