"""Reads a FET file: days, hours, rooms, teachers, sets of students, activities and constraints.

Checked is what the reading needs, no more: FET finds every fault of its files."""

import re
from collections.abc import Iterator
from dataclasses import dataclass
from typing import NoReturn

from lxml import etree

from uttab_tools.program import FileFault
from uttab_tools.xml_tree import read_tree

TRUE = ("true", "yes", "1")

# What FET calls anew where it opens a file of its older versions for mornings and afternoons: half days are days there, and
# days are real days.
OLD_HALF_DAYS = ("-ma", "-morocco", "-algeria")
RENAMED = {
    f"Constraint{who}{old}": f"Constraint{who}{new}"
    for old, new, kinds in (
        ("MaxDaysPerWeek", "MaxRealDaysPerWeek", "Teacher Teachers Students StudentsSet"),
        ("MinDaysPerWeek", "MinRealDaysPerWeek", "Teacher Teachers"),
        ("MaxHoursDaily", "MaxHoursDailyRealDays", "Teacher Teachers Students StudentsSet"),
        ("MaxHoursDailyHalfDays", "MaxHoursDaily", "Teacher Teachers"),
        ("ActivityTagMaxHoursDaily", "ActivityTagMaxHoursDailyRealDays", "Teacher Teachers Students StudentsSet"),
    )
    for who in kinds.split()
}


@dataclass(frozen=True, slots=True)
class Room:
    """A room. One that is `virtual` stands for several real ones at once."""

    id: int
    name: str
    building: str
    capacity: int
    virtual: bool


@dataclass(frozen=True, slots=True)
class Activity:
    """An activity: a class of its subject for so many hours. `group` is the id of those that it was split into, `groups`
    the names of its sets of students, `students` their number."""

    id: int
    group: int
    subject: str
    tags: tuple[str, ...]
    teachers: tuple[str, ...]
    groups: tuple[str, ...]
    hours: int
    students: int

    @property
    def component(self) -> int:
        """Its place among those that it was split into."""
        return self.id - self.group + 1 if self.group else 1


class Institution:
    """A FET file. `leaves` has for each set of students its smallest parts: subgroups, or a group or a year without any."""

    def __init__(self, name: str) -> None:
        self.file = name
        self.tree = read_tree(name)
        self.root = self.tree.getroot()
        if self.root.tag != "fet":
            raise FileFault(f"{name}: line {self.root.sourceline}: is a <{self.root.tag}>, no <fet>")
        self.name = (self.root.findtext("Institution_Name") or "").strip()
        version = (self.root.get("version") or "").lower()
        self.old_half_days = any(word in version for word in OLD_HALF_DAYS)
        self.half_days = self.old_half_days or self.root.findtext("Mode") == "Mornings_Afternoons"
        # Its days are teachers there and its hours the hours of a week, so that students have one activity an hour on all days.
        self.blocks = self.root.findtext("Mode") == "Block_Planning" or "-bp" in version
        self.days = self._names("Days_List/Day")
        self.hours = self._names("Hours_List/Hour")
        self.day_places = {words: place for place, words in enumerate(self.days)}
        self.hour_places = {words: place for place, words in enumerate(self.hours)}
        self.teachers = self._names("Teachers_List/Teacher")
        self.rooms = {room.name: room for room in self._rooms()}
        self.leaves: dict[str, tuple[str, ...]] = {}
        self.sizes: dict[str, int] = {}
        for year in self.root.iterfind("Students_List/Year"):
            self._read_students(year)
        self.activities: dict[int, Activity] = {}
        self._read_activities()
        self.inactive = len(self.root.findall("Activities_List/Activity")) - len(self.activities)

    def fault(self, element: etree._Element, words: str) -> NoReturn:
        raise FileFault(f"{self.file}: line {element.sourceline}: {words}")

    def text(self, element: etree._Element, key: str) -> str:
        """The text of a part, empty where there is none."""
        return str(element.findtext(key) or "").strip()

    def needed(self, element: etree._Element, key: str) -> str:
        found = element.findtext(key)
        if found is None:
            self.fault(element, f"<{element.tag}> has no <{key}>")
        return str(found).strip()

    def number(self, element: etree._Element, key: str, absent: int | None = None) -> int:
        """A whole number. Where it is absent or empty it is `absent`, which there has to be then."""
        text = self.text(element, key)
        if not text and absent is not None:
            return absent
        if not (text.isascii() and text.isdecimal() and len(text) <= 9):
            self.fault(element, f"the <{key}> of <{element.tag}> is {text[:60]!r}, no whole number")
        return int(text)

    def weight(self, element: etree._Element) -> float:
        """How much a constraint counts: 100 is always."""
        text = self.text(element, "Weight_Percentage") or "100"
        if not re.fullmatch(r"-?\d+(\.\d*)?", text, re.ASCII):
            self.fault(element, f"the <Weight_Percentage> is {text[:60]!r}, no number")
        return float(text)

    def is_active(self, element: etree._Element) -> bool:
        return (element.findtext("Active") or "true").strip() in TRUE

    def constraints(self) -> Iterator[tuple[str, etree._Element]]:
        """The constraints, each with its kind as FET calls it today."""
        for part in ("Time_Constraints_List", "Space_Constraints_List"):
            for element in self.root.iterfind(f"{part}/*"):
                if isinstance(element.tag, str):
                    kind = RENAMED.get(element.tag, element.tag) if self.old_half_days else element.tag
                    yield kind, element

    def _names(self, path: str) -> list[str]:
        found = [self.needed(element, "Name") for element in self.root.iterfind(path)]
        return list(dict.fromkeys(found))

    def _rooms(self) -> Iterator[Room]:
        for place, element in enumerate(self.root.iterfind("Rooms_List/Room"), 1):
            yield Room(place, self.needed(element, "Name"), self.text(element, "Building"),
                       self.number(element, "Capacity", 30_000), self.text(element, "Virtual") in TRUE)

    def _read_students(self, element: etree._Element) -> tuple[str, ...]:
        """Reads a year, a group or a subgroup with all that it has. The answer is its smallest parts."""
        name = self.needed(element, "Name")
        inner = [part for part in element if part.tag in ("Group", "Subgroup")]
        leaves: dict[str, bool] = {}
        for part in inner:
            leaves.update(dict.fromkeys(self._read_students(part), True))
        # A group may stand in several years, written out in each of them.
        leaves.update(dict.fromkeys(self.leaves.get(name, ()) if inner else (), True))
        self.leaves[name] = tuple(leaves) or (name,)
        self.sizes[name] = self.number(element, "Number_of_Students", 0)
        return self.leaves[name]

    def _read_activities(self) -> None:
        for element in self.root.iterfind("Activities_List/Activity"):
            if not self.is_active(element):
                continue
            groups = tuple((part.text or "").strip() for part in element.iterfind("Students"))
            for name in groups:
                if name not in self.leaves:
                    self.fault(element, f"activity {self.text(element, 'Id')}: there are no students {name!r}")
            number, hours = self.number(element, "Id"), self.number(element, "Duration")
            if number in self.activities:
                self.fault(element, f"an earlier activity has the <Id> {number}")
            if not 1 <= hours <= len(self.hours):
                self.fault(element, f"activity {number} lasts {hours} hours, and a day has {len(self.hours)}")
            self.activities[number] = Activity(
                number, self.number(element, "Activity_Group_Id", 0), self.needed(element, "Subject"),
                tuple((part.text or "").strip() for part in element.iterfind("Activity_Tag")),
                tuple((part.text or "").strip() for part in element.iterfind("Teacher")),
                groups, hours, self.number(element, "Number_Of_Students", sum(self.sizes[name] for name in groups)),
            )
