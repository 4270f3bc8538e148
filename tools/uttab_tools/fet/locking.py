"""Puts a published timetable into the FET file that its problem was made of: each activity is locked to its hour and room."""

from dataclasses import dataclass

from lxml import etree

from uttab_tools.fet.institution import TRUE, Institution
from uttab_tools.fet.layout import Layout, layout_of
from uttab_tools.program import FileFault
from uttab_tools.published import Placed, Published

TIME, ROOM = "ConstraintActivityPreferredStartingTime", "ConstraintActivityPreferredRoom"


@dataclass(slots=True)
class Locked:
    """How many activities were locked: to their hour, to their room, and how many have a room that can't be locked since it
    stands for several real ones."""

    times: int = 0
    rooms: int = 0
    virtual: int = 0


def lock(institution: Institution, published: Published) -> Locked:
    """Writes the timetable into the institution's tree."""
    layout = layout_of(len(institution.days), len(institution.hours), institution.half_days)
    if layout is None:
        raise FileFault(f"{institution.file}: has more days or hours than a term has places for")
    rooms = {room.id: room for room in institution.rooms.values()}
    times, places, done = _section(institution, "Time"), _section(institution, "Space"), Locked()
    earlier = {path: _by_activity(institution, path) for path in (f"Time_Constraints_List/{TIME}", f"Space_Constraints_List/{ROOM}")}
    for placed in published.classes:
        if placed.id not in institution.activities:
            raise FileFault(f"{published.file}: class {placed.id} is no active activity of {institution.file}")
        day, hour = _start(institution, published, layout, placed)
        _replace(institution, times, earlier[f"Time_Constraints_List/{TIME}"].get(placed.id, []), TIME, {
            "Activity_Id": str(placed.id), "Preferred_Day": institution.days[day], "Preferred_Hour": institution.hours[hour]})
        done.times += 1
        if placed.room is None:
            continue
        if placed.room not in rooms:
            raise FileFault(f"{published.file}: class {placed.id}: {institution.file} has no room {placed.room}")
        room = rooms[placed.room]
        if room.virtual:
            done.virtual += 1
            continue
        _replace(institution, places, earlier[f"Space_Constraints_List/{ROOM}"].get(placed.id, []), ROOM, {
            "Activity_Id": str(placed.id), "Room": room.name})
        done.rooms += 1
    return done


def _section(institution: Institution, kind: str) -> etree._Element:
    found = institution.root.find(f"{kind}_Constraints_List")
    if found is None:
        raise FileFault(f"{institution.file}: has no <{kind}_Constraints_List>")
    return found


def _by_activity(institution: Institution, path: str) -> dict[int, list[etree._Element]]:
    found: dict[int, list[etree._Element]] = {}
    for element in institution.root.iterfind(path):
        found.setdefault(institution.number(element, "Activity_Id"), []).append(element)
    return found


def _start(institution: Institution, published: Published, layout: Layout, placed: Placed) -> tuple[int, int]:
    """The day and the hour at which a class begins."""
    days, weeks = placed.texts
    hour = placed.start - layout.first_slot
    if (len(days), len(weeks)) != (layout.days, layout.weeks) or days.count("1") != 1 or weeks.count("1") != 1:
        raise FileFault(f"{published.file}: class {placed.id}: its days and weeks are no day of {institution.file}")
    day = layout.day_of(days, weeks)
    if not (0 <= hour < len(institution.hours) and day < len(institution.days)):
        raise FileFault(f"{published.file}: class {placed.id}: begins at no hour of {institution.file}")
    return day, hour


def _replace(institution: Institution, section: etree._Element, earlier: list[etree._Element], kind: str, parts: dict[str, str]) -> None:
    """Adds a constraint of weight 100 in the place of those that the activity has and that always have to hold. One that is
    locked for good stays, and so does one that says the same."""
    for element in earlier:
        if institution.weight(element) < 100 or not institution.is_active(element):
            continue
        if all((element.findtext(key) or "").strip() == words for key, words in parts.items()):
            return
        if (element.findtext("Permanently_Locked") or "").strip() not in TRUE:
            section.remove(element)
    added = etree.SubElement(section, kind)
    added.text = "\n\t"
    added.tail = "\n"
    words = {"Weight_Percentage": "100", **parts, "Permanently_Locked": "false", "Active": "true", "Comments": ""}
    for place, (key, text) in enumerate(words.items(), 1):
        part = etree.SubElement(added, key)
        part.text = text or None
        part.tail = "\n\t" if place < len(words) else "\n"
