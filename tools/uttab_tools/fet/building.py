"""What a problem is built of while a FET file is gone through: the starts that each activity may have, its rooms, and rules."""

from collections.abc import Collection, Iterable, Sequence
from dataclasses import dataclass, field
from enum import IntEnum

from lxml import etree

from uttab_tools.fet.institution import Activity, Institution
from uttab_tools.fet.layout import Layout

Cell = tuple[int, int]  # a day and an hour


class Kept(IntEnum):
    """How much of a constraint a problem holds."""

    NOT, IN_PART, WHOLLY = range(3)


@dataclass(slots=True)
class Attendance:
    """Who can't be at two places at once: a teacher, or a smallest part of the students. `away` are the hours at which
    he can't come, `classes` what he has."""

    name: str
    classes: list[int] = field(default_factory=list)
    away: set[Cell] = field(default_factory=set)


@dataclass(slots=True)
class Wish:
    """Rooms that a constraint wants for an activity, and how much: 100 is always."""

    rooms: frozenset[str]
    weight: float


class Constraint:
    """A constraint of the file."""

    def __init__(self, kind: str, element: etree._Element, institution: Institution) -> None:
        self.kind, self.element, self.institution = kind, element, institution
        self.weight = institution.weight(element)

    @property
    def line(self) -> int:
        return int(self.element.sourceline or 0)

    @property
    def penalty(self) -> int | None:
        """What it costs to break it, or none where it may not be broken."""
        return None if self.weight >= 100 else max(1, int(self.weight))

    def text(self, *keys: str) -> str:
        """The text of the first of these parts that is there."""
        return next((found for key in keys if (found := self.institution.text(self.element, key))), "")

    def texts(self, key: str) -> list[str]:
        return [(part.text or "").strip() for part in self.element.iterfind(key)]

    def number(self, key: str) -> int:
        return self.institution.number(self.element, key)

    def activities(self, *keys: str) -> list[int]:
        """The ids of its active activities, in its order."""
        found = [text for key in keys or ("Activity_Id",) for text in self.texts(key)]
        return [int(text) for text in found if text.isdecimal() and int(text) in self.institution.activities]

    def cells(self, path: str, day_key: str, hour_key: str) -> set[Cell]:
        return {(self.day(part, day_key), self.hour(part, hour_key)) for part in self.element.iterfind(path)}

    def day(self, element: etree._Element, key: str) -> int:
        return self._place(element, key, self.institution.day_places)

    def hour(self, element: etree._Element, key: str) -> int:
        return self._place(element, key, self.institution.hour_places)

    def _place(self, element: etree._Element, key: str, places: dict[str, int]) -> int:
        name = self.institution.needed(element, key)
        if name not in places:
            self.institution.fault(element, f"<{key}>: there is no {name[:60]!r}")
        return places[name]


class Building:
    """The parts of the problem. `starts` has for each activity the starts that are left, with their penalties."""

    def __init__(self, institution: Institution, layout: Layout) -> None:
        self.institution, self.layout = institution, layout
        self.hours = len(institution.hours)
        self.breaks: set[Cell] = set()
        self.starts = {activity.id: self.all_starts(activity) for activity in institution.activities.values()}
        self.wishes: dict[int, list[Wish]] = {}
        self.home_wishes: dict[int, list[Wish]] = {}
        self.closed: dict[str, set[Cell]] = {}
        self.rules: list[dict[str, object]] = []
        self.teachers = {name: Attendance(name) for name in institution.teachers}
        self.students = {leaf: Attendance(leaf) for leaves in institution.leaves.values() for leaf in leaves}
        for activity in institution.activities.values():
            for teacher in dict.fromkeys(activity.teachers):
                self.teachers.setdefault(teacher, Attendance(teacher)).classes.append(activity.id)
            for leaf in dict.fromkeys(leaf for name in activity.groups for leaf in institution.leaves[name]):
                self.students[leaf].classes.append(activity.id)

    def all_starts(self, activity: Activity) -> dict[Cell, int]:
        last = self.hours - activity.hours
        return {(day, hour): 0 for day in range(len(self.institution.days)) for hour in range(last + 1)}

    def activity(self, number: int) -> Activity:
        return self.institution.activities[number]

    def slots_of(self, number: int, start: Cell) -> list[Cell]:
        """The hours that an activity takes from a start on."""
        day, hour = start
        return [(day, hour + place) for place in range(self.activity(number).hours)]

    def forbid(self, numbers: Iterable[int], cells: Collection[Cell]) -> None:
        """Takes out the starts at which an activity would take one of these hours."""
        for number in numbers:
            starts = self.starts[number]
            for start in [start for start in starts if any(cell in cells for cell in self.slots_of(number, start))]:
                del starts[start]

    def prefer(self, numbers: Iterable[int], cells: Collection[Cell], penalty: int | None, whole: bool) -> None:
        """Takes out the starts that aren't among these, or lets them cost so much. `whole`: all hours of the activity
        have to be among them."""
        for number in numbers:
            starts = self.starts[number]
            for start in list(starts):
                if all(cell in cells for cell in (self.slots_of(number, start) if whole else [start])):
                    continue
                if penalty is None:
                    del starts[start]
                else:
                    starts[start] += penalty

    def rule(self, kind: str, classes: Sequence[int], constraint: Constraint | None, name: str, times: int = 1) -> None:
        """Adds a rule: a required one, or one that costs the constraint's penalty, so many times."""
        penalty = constraint.penalty if constraint else None
        amount: dict[str, object] = {"required": True} if penalty is None else {"penalty": penalty * times}
        if len(classes) > 1 or (classes and kind.startswith("Max")):
            self.rules.append({"name": name, "type": kind, **amount, "classes": list(classes)})
