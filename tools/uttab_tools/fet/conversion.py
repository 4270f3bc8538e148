"""Turns a FET institution into a problem."""

from collections import Counter
from collections.abc import Iterable, Iterator

from uttab_tools import limits
from uttab_tools.fet.building import Attendance, Building, Constraint, Kept, Wish
from uttab_tools.fet.institution import Activity, Institution
from uttab_tools.fet.kinds import KINDS
from uttab_tools.fet.layout import layout_of
from uttab_tools.fet.report import Report
from uttab_tools.program import FileFault

WEIGHTS = {"time": 1, "room": 1, "distribution": 1, "student": 1}


def problem_of(institution: Institution, report: Report) -> dict[str, object]:
    """The problem of an institution. What of it isn't kept is counted in the report."""
    layout = layout_of(len(institution.days), len(institution.hours), institution.half_days)
    if layout is None:
        days, hours = len(institution.days), len(institution.hours)
        raise FileFault(f"{institution.file}: has {days} days of {hours} hours, for which a term has no place")
    building = Building(institution, layout)
    constraints = list(_constraints(institution, report))
    _read_absences(building, constraints)
    for constraint in constraints:
        report.count(constraint, _carry(building, constraint))
    rules = [*_attendance_rules(building), *building.rules]
    students = list(_students(building, report))
    version_2 = layout.weeks > limits.weeks_of_version(1).most or any(
        str(rule["type"]).partition("(")[0] in limits.TYPES_OF_VERSION_2 for rule in rules)
    return {
        **({"version": 2} if version_2 else {}),
        "name": institution.name, "nrDays": layout.days, "nrWeeks": layout.weeks, "slotsPerDay": layout.slots,
        "optimization": WEIGHTS, "rooms": list(_rooms(building, report)), "courses": list(_courses(building, report)),
        "distributions": rules, "students": students,
    }


def _carry(building: Building, constraint: Constraint) -> Kept:
    """Carries a constraint over. One of no weight asks for nothing."""
    kind = KINDS.get(constraint.kind)
    if constraint.weight <= 0:
        return Kept.WHOLLY
    return kind.carry(building, constraint) if kind else Kept.NOT


def _constraints(institution: Institution, report: Report) -> Iterator[Constraint]:
    """The active constraints. The others are counted."""
    for kind, element in institution.constraints():
        if institution.is_active(element):
            yield Constraint(kind, element, institution)
        else:
            report.inactive += 1


def _read_absences(building: Building, constraints: Iterable[Constraint]) -> None:
    """Reads the hours of breaks and those at which somebody can't come: rules on gaps need them all."""
    for constraint in constraints:
        if constraint.kind == "ConstraintBreakTimes":
            building.breaks.update(constraint.cells("Break_Time", "Day", "Hour"))
        elif constraint.kind == "ConstraintTeacherNotAvailableTimes":
            teacher = building.teachers.get(constraint.text("Teacher"))
            if teacher:
                teacher.away.update(constraint.cells("Not_Available_Time", "Day", "Hour"))
        elif constraint.kind == "ConstraintStudentsSetNotAvailableTimes":
            cells = constraint.cells("Not_Available_Time", "Day", "Hour")
            for leaf in building.institution.leaves.get(constraint.text("Students"), ()):
                building.students[leaf].away.update(cells)


def _attendance_rules(building: Building) -> Iterator[dict[str, object]]:
    """A required rule over the classes of each teacher and each smallest part of the students: nobody is at two places at
    once."""
    students = "DifferentTime" if building.institution.blocks else "SameAttendees"
    for kind, attending in (("SameAttendees", building.teachers.values()), (students, building.students.values())):
        for one in _largest(attending):
            yield {"name": one.name, "type": kind, "required": True, "classes": one.classes}


def _largest(attending: Iterable[Attendance]) -> Iterator[Attendance]:
    """Those with two classes or more, but for one whose classes all are among those of an earlier one."""
    holders: dict[int, set[int]] = {}
    for place, one in enumerate(sorted(attending, key=lambda one: -len(one.classes))):
        if len(one.classes) < 2 or set.intersection(*(holders.get(number, set()) for number in one.classes)):
            continue
        for number in one.classes:
            holders.setdefault(number, set()).add(place)
        yield one


def _rooms(building: Building, report: Report) -> Iterator[dict[str, object]]:
    layout = building.layout
    for room in building.institution.rooms.values():
        closed = [layout.time(day, hour, 1) for day, hour in sorted(building.closed.get(room.name, ()))]
        if room.virtual:
            report.note("note: % virtual rooms are rooms by themselves: the rooms that they stand for aren't kept free", room.name)
        yield {"id": room.id, "name": room.name, "capacity": room.capacity, **({"unavailable": closed} if closed else {})}


def _courses(building: Building, report: Report) -> Iterator[dict[str, object]]:
    """A course for each activity, or for those that one was split into: a subpart of one class for each of them."""
    courses: dict[int, list[Activity]] = {}
    for activity in building.institution.activities.values():
        courses.setdefault(course_id(activity), []).append(activity)
    for number, activities in courses.items():
        subparts = [{"id": activity.id, "classes": [_class(building, activity, report)]} for activity in activities]
        yield {"id": number, "name": activities[0].subject, "configs": [{"id": number, "subparts": subparts}]}


def course_id(activity: Activity) -> int:
    return activity.group or activity.id


def _class(building: Building, activity: Activity, report: Report) -> dict[str, object]:
    words = ", ".join([*activity.groups, *activity.teachers]) or " ".join(activity.tags)
    rooms: object = _rooms_of(building, activity, report)
    starts = building.starts[activity.id]
    if not starts:
        report.note("left out: the constraints on the times of % activities, which leave none of them", f"activity {activity.id}")
        starts = building.all_starts(activity)
    times = [building.layout.time(day, hour, activity.hours) | {"penalty": min(penalty, limits.PENALTY.most)}
             for (day, hour), penalty in sorted(starts.items())]
    return {"id": activity.id, "name": words, "rooms" if rooms else "room": rooms or False, "times": times}


def _rooms_of(building: Building, activity: Activity, report: Report) -> list[dict[str, object]]:
    """The rooms of an activity: those that all constraints allow which have to hold, else those that any of them names."""
    wishes = building.wishes.get(activity.id) or building.home_wishes.get(activity.id, [])
    if not wishes:
        return []
    musts = [wish.rooms for wish in wishes if wish.weight >= 100]
    names = frozenset.intersection(*musts) if musts else frozenset[str]().union(*(wish.rooms for wish in wishes))
    rooms = [room for room in building.institution.rooms.values() if room.name in names]
    if not rooms:
        report.note("left out: the rooms of % activities, which no room suits", f"activity {activity.id}")
        return []
    large = [room for room in rooms if room.capacity >= activity.students]
    if not large:
        report.note("left out: the number of students of % activities, which none of its rooms holds", f"activity {activity.id}")
    return [{"id": room.id, "penalty": _room_penalty(wishes, room.name)} for room in large or rooms]


def _room_penalty(wishes: Iterable[Wish], name: str) -> int:
    return sum(int(wish.weight) for wish in wishes if wish.weight < 100 and name not in wish.rooms)


def _students(building: Building, report: Report) -> Iterator[dict[str, object]]:
    """The smallest parts of the students that have activities, each as one student of their courses, so that the page has
    a week for each of them."""
    activities = building.institution.activities
    for number, one in enumerate(building.students.values(), 1):
        courses = list(Counter(course_id(activities[own]) for own in one.classes))
        if len(courses) > limits.COURSES_OF_A_STUDENT:
            report.note(f"note: % parts of the students have more than {limits.COURSES_OF_A_STUDENT} courses and no week on the "
                        "page; that they are at one place at a time holds", one.name)
        elif courses:
            yield {"id": number, "name": one.name, "courses": courses}
