"""Makes one page of a timetable: a summary, a week's grid for each room, the classes of each course, and a search for a
student's week. The page is whole in itself and asks for nothing from a network.

    page PROBLEM PUBLISHED [--names CSV] [--teachers CSV] -o page.html
    page PROBLEM PUBLISHED --without-students -o for_everybody.html
    page PROBLEM PUBLISHED --student 17 -o student_17.html
    page PROBLEM PUBLISHED --folder pages [--of student,room,course,teacher]

With --reasons the whole page says why a class isn't in the timetable, as `uttab` has it. With --without-students nothing of a
student is in it but how many each class has. The page of one student, room, course or teacher has that week alone, and of
students no more than their number. One of the files may be `-`, the standard input."""

import json
from argparse import ArgumentParser, Namespace
from collections.abc import Iterable
from pathlib import Path

from jinja2 import Environment, FileSystemLoader, StrictUndefined
from markupsafe import Markup

from uttab_tools.given import PROGRAM, a_count, add_timetable, timetable_given
from uttab_tools.parts import Part, add_part_words, files_of, in_order, kinds_of, meetings_of, part_given, parts
from uttab_tools.problem import Class, Room
from uttab_tools.program import DONE, Command, Folder, Output, Usage
from uttab_tools.published import Meeting
from uttab_tools.reasons import reasons_of
from uttab_tools.timetable import Timetable
from uttab_tools.week import WeekMaker

DATA = Path(__file__).resolve().parent / "data"
LOOKS = 200


class Looks:
    """What is to be looked at, the first of each kind, and how much more there is."""

    def __init__(self, timetable: Timetable) -> None:
        meetings = timetable.meetings.values()
        self.left: list[Class] = [one for one in timetable.problem.classes.values() if one.id not in timetable.meetings]
        self.clashes = timetable.clash_pairs
        self.closed = [one for one in meetings if timetable.closed[one.of_class.id]]
        self.other = [one for one in meetings if one.other_time or one.other_room]
        self.over = [one for one in meetings if one.of_class.limit is not None and len(one.students) > one.of_class.limit]
        self.unsure = [one for one in meetings if one.other_lengths]

    @property
    def more(self) -> int:
        counts = (len(self.left), len(self.clashes), len(self.closed), len(self.other), len(self.over), len(self.unsure))
        return sum(max(0, count - LOOKS) for count in counts)


class PageMaker:
    """Makes pages of a timetable. Names are escaped wherever they stand."""

    def __init__(self, timetable: Timetable, grids: int) -> None:
        self.timetable, self.maker = timetable, WeekMaker(timetable, grids)
        self.environment = Environment(loader=FileSystemLoader(DATA), autoescape=True, undefined=StrictUndefined)
        self.environment.globals |= {
            "timetable": timetable, "problem": timetable.problem, "names": timetable.names, "maker": self.maker,
            "style": Markup(texts("grid.css", "timetable.css")),
        }

    def whole(self, looks: Looks, reasons: dict[int, str], with_students: bool) -> str:
        """The whole page. `reasons` says of classes why they aren't in the timetable."""
        timetable = self.timetable
        rooms = timetable.rooms.values()
        used = [room for room in rooms if timetable.in_room[room.id]]
        script = texts("grid.js", "week.js", "timetable.js")
        return self.environment.get_template("page_whole.html.jinja").render(
            title=timetable.title, with_students=with_students,
            figures=self.figures(looks, used), looks=looks, reasons=reasons, room_for_looks=LOOKS, used=used,
            empty=[room for room in rooms if not timetable.in_room[room.id]],
            roomless=sum(one.room is None for one in timetable.meetings.values()), marks_of=self.marks_of,
            meetings_of=lambda classes: in_order(meetings_of(timetable, classes)),
            ids_of=lambda meetings: [one.of_class.id for one in meetings],
            data=as_script(self.data(with_students)), students=Markup(self.student_lines() if with_students else ""),
            script=Markup(script))

    def part(self, part: Part) -> str:
        """The page of one student, room, course or teacher."""
        timetable = self.timetable
        pairs = 0
        if part.kind in ("student", "teacher"):
            notes = timetable.conflicts([one.of_class.id for one in part.meetings])
            pairs = sum(map(len, notes.values())) // 2
        else:
            notes = {one.of_class.id: timetable.clashes[one.of_class.id] for one in part.meetings}
        closed = timetable.rooms[part.number].closed if part.kind == "room" and part.number is not None else []
        week = self.maker.make(in_order(part.meetings), notes, closed, alone=True)
        return self.environment.get_template("page_part.html.jinja").render(title=part.title, part=part, week=week, pairs=pairs)

    def figures(self, looks: Looks, used: list[Room]) -> list[tuple[str, str, str]]:
        """The figures of the summary, each with its kind (what is wrong, what is to be looked at, or neither)."""
        timetable, problem = self.timetable, self.timetable.problem
        unknown = sum(not room.known for room in used)
        pairs, students = timetable.student_pairs()
        beside = f", and {unknown:,} not in the problem" if unknown else ""
        rooms = f"{len(used) - unknown:,} of {len(problem.rooms):,}{beside}"
        conflicts = "Pairs of classes that a student can’t both attend"
        if pairs:
            conflicts += f" ({students:,} student{'s' * (students > 1)})"
        plain = [("Classes in the timetable", f"{len(timetable.meetings):,} of {len(problem.classes):,}"), ("Rooms used", rooms),
                 ("Courses", f"{len(problem.courses):,}"), ("Students", f"{len(problem.students):,}")]
        counted = [
            ("warn", "Classes not in the timetable", len(looks.left)),
            ("warn", "Clashes: pairs of classes in one room at one time", len(looks.clashes)),
            ("warn", "Classes while their room is closed", len(looks.closed)),
            ("look", "Classes at another time or room than the problem allows", len(looks.other)),
            ("look", "Classes of more students than seats", len(looks.over)),
            ("look", "Classes whose length isn’t sure", len(looks.unsure)),
            ("look", "Students with courses and no classes", len(timetable.without_classes())),
            ("look", conflicts, pairs),
        ]
        return [("", *one) for one in plain] + [(kind if count else "", words, f"{count:,}") for kind, words, count in counted]

    def marks_of(self, room: Room) -> str:
        """What is wrong in a room, in words."""
        meetings = self.timetable.in_room[room.id]
        clashes = sum(len(self.timetable.clashes[one.of_class.id]) for one in meetings) // 2
        shut = sum(bool(self.timetable.closed[one.of_class.id]) for one in meetings)
        words = [f"{clashes} clash{'es' * (clashes > 1)}"] * bool(clashes) + [f"{shut} while closed"] * bool(shut)
        return ", ".join(words)

    def data(self, with_students: bool) -> dict[str, object]:
        """What the script finds parts by, and builds a student's week from: the classes in columns."""
        timetable, problem, names = self.timetable, self.timetable.problem, self.timetable.names
        rooms = {room: place for place, room in enumerate(timetable.rooms)}
        courses = {course: place for place, course in enumerate(problem.courses)}
        weeks: dict[int, int] = {}
        classes = [self.class_columns(one, courses, weeks, rooms) for one in timetable.meetings.values()] if with_students else []
        kinds = ("student", "class", "course", "room") if with_students else ("class", "course", "room")
        return {
            "slots": problem.slots, "weekCount": problem.weeks, "grids": self.maker.most_alone,
            "days": [names.day(day) for day in self.maker.days],
            # A set of weeks is given by 32 of them at a time, since the script's numbers are exact to 53 bits.
            "weeks": [[[bits >> place & 2**32 - 1 for place in range(0, problem.weeks, 32)], timetable.weeks(bits)] for bits in weeks],
            "courses": list(courses), "rooms": list(rooms), "classes": classes,
            "travel": [[rooms[one], rooms[other], slots] for (one, other), slots in problem.travel.items()
                       if with_students and slots and one in rooms and other in rooms],
            "names": {kind: {str(number): words for number, words in names.of[kind].items() if words} for kind in kinds},
        }

    @staticmethod
    def class_columns(meeting: Meeting, courses: dict[int, int], weeks: dict[int, int], rooms: dict[int, int]) -> list[int]:
        time = meeting.time
        week = weeks.setdefault(time.weeks, len(weeks))
        return [meeting.of_class.id, courses[meeting.of_class.course.id], time.days, time.start, time.length, week,
                -1 if meeting.room is None else rooms[meeting.room], meeting.other_time + 2 * meeting.other_room]

    def student_lines(self) -> str:
        """A line for each student: his id, and the places of his classes."""
        place_of = {one: place for place, one in enumerate(self.timetable.meetings)}
        return "".join(f"{student} {' '.join(str(place_of[one]) for one in own)}\n"
                       for student, own in self.timetable.classes_of.items())


def texts(*names: str) -> str:
    """Files of the data, one behind the other."""
    return "".join((DATA / name).read_text(encoding="utf-8") for name in names)


def as_script(value: object) -> Markup:
    """A value as JSON that can stand in a script's element."""
    return Markup(json.dumps(value, separators=(",", ":"), ensure_ascii=False).replace("<", "\\u003c"))


def write_folder(maker: PageMaker, chosen: Iterable[Part], name: str) -> None:
    """A page for each part that has a class."""
    with Folder(name) as folder:
        for file, part in files_of(chosen, ".html"):
            if part.meetings:
                folder.write(file, maker.part(part).encode())
    folder.tell_others("page")


def words(parser: ArgumentParser) -> None:
    add_timetable(parser)
    add_part_words(parser)
    parser.add_argument("--without-students", action="store_true", help="leave out all that is known of students, but their number")
    parser.add_argument("--reasons", action="store_true", help="say why classes aren't in the timetable, as `uttab` has it")
    parser.add_argument("--program", metavar="FILE", help=f"with --reasons: {PROGRAM}")
    parser.add_argument("--grids", metavar="N", type=a_count, default=2,
                        help="a room has a grid for each kind of weeks up to N of them, else one for all together (2); what is shown "
                             "alone, such as a student's week, has up to 4 at the least")


def run(given: Namespace, output: Output) -> int:
    if given.without_students and given.student is not None:
        raise Usage("--without-students and --student: nothing would be left")
    if given.reasons and "-" in (given.problem, given.published):
        raise Usage("--reasons: reads the files once more, so none of them may be `-`")
    timetable = timetable_given(given)
    maker = PageMaker(timetable, given.grids)
    part = part_given(given, timetable)
    if given.folder:
        kinds = [kind for kind in kinds_of(given) if not (given.without_students and kind == "student")]
        write_folder(maker, parts(timetable, kinds), given.folder)
    elif part is not None:
        output.write(maker.part(part))
    else:
        looks = Looks(timetable)
        left = [one.id for one in looks.left[:LOOKS]]
        reasons = reasons_of(given.problem, given.published, left, given.program) if given.reasons and left else {}
        output.write(maker.whole(looks, reasons, not given.without_students))
    return DONE


COMMAND = Command("page", __doc__ or "", words, run, "0 the page is written, or all pages of the folder; 1 --reasons: uttab didn’t answer")
main = COMMAND.main
