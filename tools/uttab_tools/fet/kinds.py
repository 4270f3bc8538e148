"""The kinds of FET's constraints that have a counterpart: what becomes of each, and how much of it is kept.

What is kept in part asks for less than FET does, but for rooms that are only wished for, of which a class gets one.
docs/FET.md has the table, which a test holds to this one."""

from collections.abc import Callable, Iterator
from dataclasses import dataclass
from itertools import groupby

from uttab_tools.fet.building import Attendance, Building, Cell, Constraint, Kept, Wish
from uttab_tools.fet.institution import Activity

Handler = Callable[[Building, Constraint], Kept]


@dataclass(frozen=True, slots=True)
class Kind:
    """A kind of constraint: what carries it over, and in words what it becomes and where it isn't kept wholly."""

    carry: Handler
    becomes: str
    but: str = ""


KINDS: dict[str, Kind] = {}


def _kind(names: str, becomes: str, but: str = "") -> Callable[[Handler], Handler]:
    """Enters a handler for these kinds. `*` in a name stands for each of those who attend."""
    def enter(handler: Handler) -> Handler:
        for name in names.split():
            for who in ("Teacher", "Teachers", "Students", "StudentsSet") if "*" in name else ("",):
                KINDS[f"Constraint{name.replace('*', who)}"] = Kind(handler, becomes, but)
        return handler
    return enter


# Who and which activities a constraint speaks of.


def _attending(building: Building, constraint: Constraint) -> list[Attendance]:
    """The teachers or smallest parts of students that a constraint speaks of, those with equal classes and hours once."""
    kind = constraint.kind.removeprefix("Constraint")
    if kind.startswith("Teachers"):
        return list(building.teachers.values())
    if kind.startswith("Teacher"):
        name = constraint.text("Teacher_Name", "Teacher")
        return [building.teachers[name]] if name in building.teachers else []
    if kind.startswith("StudentsSet"):
        leaves = building.institution.leaves.get(constraint.text("Students"), ())
        return _distinct([building.students[leaf] for leaf in leaves])
    return _distinct(list(building.students.values()))


def _distinct(attending: list[Attendance]) -> list[Attendance]:
    found = {(tuple(one.classes), frozenset(one.away)): one for one in reversed(attending)}
    return list(reversed(found.values()))


def _classes(building: Building, constraint: Constraint, one: Attendance) -> list[int]:
    """The classes of one who attends, or those with the activity tag that the constraint has."""
    tag = constraint.text("Activity_Tag_Name", "Activity_Tag") if "ActivityTag" in constraint.kind else ""
    return [number for number in one.classes if not tag or tag in building.activity(number).tags]


def _selected(building: Building, constraint: Constraint) -> Iterator[int]:
    """The activities that have the teacher, students, subject, tag, length and component that the constraint has."""
    teacher, students, subject, tag, hours, component = (constraint.text(key) for key in (
        "Teacher_Name", "Students_Name", "Subject_Name", "Activity_Tag_Name", "Duration", "Component_Number"))
    wanted = set(building.institution.leaves.get(students, ()))
    for activity in building.institution.activities.values():
        if (teacher in ("", *activity.teachers) and subject in ("", activity.subject) and tag in ("", *activity.tags)
                and hours in ("", str(activity.hours)) and component in ("", str(activity.component))
                and (not students or wanted.intersection(_leaves(building, activity)))):
            yield activity.id


def _leaves(building: Building, activity: Activity) -> Iterator[str]:
    for name in activity.groups:
        yield from building.institution.leaves[name]


def _longest_absence(building: Building, one: Attendance) -> int:
    """The most hours on end within a day that FET counts as no gap: breaks, and hours at which he can't come."""
    longest = 0
    for day in range(len(building.institution.days)):
        gone = [(day, hour) in building.breaks or (day, hour) in one.away for hour in range(building.hours)]
        runs = [(out, len(list(run))) for out, run in groupby(gone)]
        longest = max([longest, *(length for out, length in runs[1:-1] if out)])
    return longest


def _longest_break(building: Building) -> int:
    return _longest_absence(building, Attendance(""))


# When activities are.


@_kind("BasicCompulsoryTime", "a required `SameAttendees` over the classes of each teacher and of each smallest part of the students; "
       "`DifferentTime` for the students of blocks")
def _compulsory_time(building: Building, constraint: Constraint) -> Kept:
    """Nobody is at two places at once. The rules are added at the end, when all classes are known."""
    return Kept.WHOLLY


@_kind("BreakTimes", "starts that are left out")
def _breaks(building: Building, constraint: Constraint) -> Kept:
    building.forbid(building.starts, building.breaks)
    return Kept.WHOLLY


@_kind("TeacherNotAvailableTimes StudentsSetNotAvailableTimes", "starts that are left out")
def _not_available(building: Building, constraint: Constraint) -> Kept:
    for one in _attending(building, constraint):
        building.forbid(one.classes, constraint.cells("Not_Available_Time", "Day", "Hour"))
    return Kept.WHOLLY


@_kind("ActivityPreferredStartingTime", "starts that are left out, or a penalty")
def _preferred_start(building: Building, constraint: Constraint) -> Kept:
    days, hours = range(len(building.institution.days)), range(building.hours)
    if constraint.text("Preferred_Day"):
        days = range(start := constraint.day(constraint.element, "Preferred_Day"), start + 1)
    if constraint.text("Preferred_Hour"):
        hours = range(start := constraint.hour(constraint.element, "Preferred_Hour"), start + 1)
    wanted = {(day, hour) for day in days for hour in hours}
    building.prefer(constraint.activities(), wanted, constraint.penalty, whole=False)
    return Kept.WHOLLY


@_kind("ActivityPreferredDay", "starts that are left out, or a penalty")
def _preferred_day(building: Building, constraint: Constraint) -> Kept:
    return _preferred_start(building, constraint)


@_kind("ActivityPreferredStartingTimes ActivitiesPreferredStartingTimes SubactivitiesPreferredStartingTimes",
       "starts that are left out, or a penalty")
def _preferred_starts(building: Building, constraint: Constraint) -> Kept:
    wanted = constraint.cells("Preferred_Starting_Time", "Preferred_Starting_Day", "Preferred_Starting_Hour")
    return _prefer(building, constraint, wanted, whole=False)


@_kind("ActivityPreferredTimeSlots ActivitiesPreferredTimeSlots SubactivitiesPreferredTimeSlots",
       "starts that are left out, or a penalty")
def _preferred_slots(building: Building, constraint: Constraint) -> Kept:
    wanted = constraint.cells("Preferred_Time_Slot", "Preferred_Day", "Preferred_Hour")
    return _prefer(building, constraint, wanted, whole=True)


def _prefer(building: Building, constraint: Constraint, wanted: set[Cell], whole: bool) -> Kept:
    one = constraint.kind.startswith("ConstraintActivityP")
    numbers = constraint.activities() if one else list(_selected(building, constraint))
    building.prefer(numbers, wanted, constraint.penalty, whole)
    return Kept.WHOLLY


@_kind("*IntervalMaxDaysPerWeek", "starts that are left out", "kept for no days at all, else left out")
def _interval(building: Building, constraint: Constraint) -> Kept:
    if constraint.number("Max_Days_Per_Week"):
        return Kept.NOT
    first = constraint.hour(constraint.element, "Interval_Start_Hour")
    end = constraint.hour(constraint.element, "Interval_End_Hour") if constraint.text("Interval_End_Hour") else building.hours
    cells = {(day, hour) for day in range(len(building.institution.days)) for hour in range(first, end)}
    for one in _attending(building, constraint):
        building.forbid(one.classes, cells)
    return Kept.WHOLLY


@_kind("*MaxMorningsPerWeek *MaxAfternoonsPerWeek", "starts that are left out", "kept for none at all, else left out")
def _half_days(building: Building, constraint: Constraint) -> Kept:
    afternoons = "Afternoons" in constraint.kind
    if constraint.number("Max_Afternoons_Per_Week" if afternoons else "Max_Mornings_Per_Week"):
        return Kept.NOT
    days = range(int(afternoons), len(building.institution.days), 2)
    for one in _attending(building, constraint):
        building.forbid(one.classes, {(day, hour) for day in days for hour in range(building.hours)})
    return Kept.WHOLLY


# How activities stand to one another.


@_kind("MinDaysBetweenActivities", "`DifferentDays`, or `DifferentWeeks` where a day of FET is a week",
       "of more than one day between, one is asked for; that those of one day follow one another is left out")
def _days_between(building: Building, constraint: Constraint) -> Kept:
    least = constraint.number("MinDays")
    if least == 0:
        return Kept.WHOLLY
    building.rule(building.layout.other_days, constraint.activities(), constraint, "on different days")
    consecutive = constraint.text("Consecutive_If_Same_Day") in ("true", "yes", "1") and constraint.penalty is not None
    exact = building.institution.half_days == building.layout.half_days
    return Kept.WHOLLY if least == 1 and exact and not consecutive else Kept.IN_PART


@_kind("MaxDaysBetweenActivities", "`SameDays`", "kept for no days between, else left out")
def _most_days_between(building: Building, constraint: Constraint) -> Kept:
    if constraint.number("MaxDays") or building.institution.half_days:
        return Kept.NOT
    return _same_day(building, constraint)


@_kind("ActivitiesSameStartingDay", "`SameDays`; `SameWeeks` where a day of FET is a week, and both for half days")
def _same_day(building: Building, constraint: Constraint) -> Kept:
    for kind in building.layout.same_day:
        building.rule(kind, constraint.activities(), constraint, "on the same day")
    return Kept.WHOLLY


@_kind("ActivitiesSameStartingHour", "`SameStart`")
def _same_hour(building: Building, constraint: Constraint) -> Kept:
    building.rule("SameStart", constraint.activities(), constraint, "at the same hour")
    return Kept.WHOLLY


@_kind("ActivitiesSameStartingTime", "`SameStart`, and the rules of `ActivitiesSameStartingDay`")
def _same_time(building: Building, constraint: Constraint) -> Kept:
    _same_hour(building, constraint)
    return _same_day(building, constraint)


@_kind("ActivitiesNotOverlapping", "`NotOverlap`", "of blocks, those of one day of FET alone")
def _not_overlapping(building: Building, constraint: Constraint) -> Kept:
    building.rule("NotOverlap", constraint.activities(), constraint, "not at once")
    return Kept.IN_PART if building.institution.blocks else Kept.WHOLLY


@_kind("MinGapsBetweenActivities", "`MinGap`")
def _gaps_between(building: Building, constraint: Constraint) -> Kept:
    building.rule(f"MinGap({constraint.number('MinGaps')})", constraint.activities(), constraint, "with hours between")
    return Kept.WHOLLY


@_kind("TwoActivitiesOrdered", "`Precedence`", "left out for half days")
def _ordered(building: Building, constraint: Constraint) -> Kept:
    if not building.layout.ordered:
        return Kept.NOT
    building.rule("Precedence", constraint.activities("First_Activity_Id", "Second_Activity_Id"), constraint, "in this order")
    return Kept.WHOLLY


@_kind("TwoActivitiesConsecutive", "the rules of `ActivitiesSameStartingDay`, `Precedence` and `WorkDay`",
       "`WorkDay` allows the longest break of a day wherever there are breaks; without the order for half days")
def _consecutive(building: Building, constraint: Constraint) -> Kept:
    return min(_grouped(building, constraint), _ordered(building, constraint) or Kept.IN_PART)


@_kind("TwoActivitiesGrouped ThreeActivitiesGrouped", "the rules of `ActivitiesSameStartingDay`, `NotOverlap` and `WorkDay`",
       "`WorkDay` allows the longest break of a day wherever there are breaks")
def _grouped(building: Building, constraint: Constraint) -> Kept:
    numbers = constraint.activities("First_Activity_Id", "Second_Activity_Id", "Third_Activity_Id")
    longest = _longest_break(building)
    hours = sum(building.activity(number).hours for number in numbers) + longest * (len(numbers) - 1)
    for kind in (*building.layout.same_day, "NotOverlap", f"WorkDay({hours})"):
        building.rule(kind, numbers, constraint, "one after another")
    return Kept.IN_PART if longest else Kept.WHOLLY


# What a day or a week holds of one who attends.


@_kind("*MaxHoursDaily *ActivityTagMaxHoursDaily", "`MaxDayLoad`")
def _most_hours(building: Building, constraint: Constraint) -> Kept:
    return _each(building, constraint, f"MaxDayLoad({constraint.number('Maximum_Hours_Daily')})", "hours a day")


@_kind("*MaxHoursDailyRealDays *ActivityTagMaxHoursDailyRealDays", "`MaxDayLoad`", "each half day by itself may have as many hours")
def _most_hours_of_real_days(building: Building, constraint: Constraint) -> Kept:
    _most_hours(building, constraint)
    return Kept.IN_PART


@_kind("*MaxHoursContinuously *ActivityTagMaxHoursContinuously", "`MaxBlock`")
def _most_hours_on_end(building: Building, constraint: Constraint) -> Kept:
    return _each(building, constraint, f"MaxBlock({constraint.number('Maximum_Hours_Continuously')},0)", "hours on end")


@_kind("*MaxGapsPerDay *MaxGapsPerWeek", "`MaxBreaks`",
       "wholly where no gap is allowed and no hour is left out within a day; else breaks are counted, not their hours")
def _most_gaps(building: Building, constraint: Constraint) -> Kept:
    most, kept = constraint.number("Max_Gaps"), Kept.WHOLLY
    for one in _attending(building, constraint):
        absence = _longest_absence(building, one)
        building.rule(f"MaxBreaks({most},{absence})", one.classes, constraint, f"{one.name}: gaps", building.layout.weeks)
        kept = min(kept, Kept.IN_PART if most or absence else Kept.WHOLLY)
    return kept


@_kind("*MaxGapsPerRealDay", "`MaxBreaks`", "each half day by itself may have as many")
def _most_gaps_of_real_days(building: Building, constraint: Constraint) -> Kept:
    _most_gaps(building, constraint)
    return Kept.IN_PART


@_kind("*MaxSpanPerDay", "`WorkDay`", "with the exception of one day, all days may be longer by an hour")
def _most_span(building: Building, constraint: Constraint) -> Kept:
    exception = constraint.text("Allow_One_Day_Exception_of_Plus_One") in ("true", "yes", "1")
    _each(building, constraint, f"WorkDay({constraint.number('Max_Span') + exception})", "span of a day")
    return Kept.IN_PART if exception else Kept.WHOLLY


@_kind("*MaxDaysPerWeek", "`MaxDays`, or `MaxWeeks` where a day of FET is a week", "of half days the days are counted")
def _most_days(building: Building, constraint: Constraint) -> Kept:
    _each(building, constraint, f"{building.layout.most_days}({constraint.number('Max_Days_Per_Week')})", "days")
    return Kept.IN_PART if building.layout.half_days else Kept.WHOLLY


@_kind("*MaxRealDaysPerWeek", "`MaxDays`", "left out where days of half days are more than seven")
def _most_real_days(building: Building, constraint: Constraint) -> Kept:
    if not building.layout.half_days:
        return Kept.NOT
    return _each(building, constraint, f"MaxDays({constraint.number('Max_Days_Per_Week')})", "days")


def _each(building: Building, constraint: Constraint, kind: str, words: str) -> Kept:
    """Adds a rule over the classes of each of those who attend. What is divided by the weeks costs as much as one of FET's."""
    times = building.layout.weeks if kind.startswith(("MaxDayLoad", "MaxBlock")) else 1
    for one in _attending(building, constraint):
        building.rule(kind, _classes(building, constraint, one), constraint, f"{one.name}: {words}", times)
    return Kept.WHOLLY


# Where activities are.


@_kind("BasicCompulsorySpace", "one class at once in a room, and rooms that are large enough", "of blocks, one class a day of FET")
def _compulsory_space(building: Building, constraint: Constraint) -> Kept:
    """A room has one class at once in every problem. Rooms that are too small are left out at the end."""
    return Kept.IN_PART if building.institution.blocks else Kept.WHOLLY


@_kind("RoomNotAvailableTimes", "`unavailable` of the room")
def _closed_room(building: Building, constraint: Constraint) -> Kept:
    building.closed.setdefault(constraint.text("Room"), set()).update(constraint.cells("Not_Available_Time", "Day", "Hour"))
    return Kept.WHOLLY


@_kind("ActivityPreferredRoom ActivityPreferredRooms SubjectPreferredRoom SubjectPreferredRooms ActivityTagPreferredRoom "
       "ActivityTagPreferredRooms SubjectActivityTagPreferredRoom SubjectActivityTagPreferredRooms",
       "the rooms of the class", "an activity that needn't have its room gets one of those that are wanted, at a penalty")
def _preferred_rooms(building: Building, constraint: Constraint) -> Kept:
    subject, tag = constraint.text("Subject"), constraint.text("Activity_Tag")
    numbers = constraint.activities() or [
        activity.id for activity in building.institution.activities.values()
        if (subject or tag) and subject in ("", activity.subject) and tag in ("", *activity.tags)]
    return _wish(building.wishes, numbers, constraint)


@_kind("StudentsSetHomeRoom StudentsSetHomeRooms TeacherHomeRoom TeacherHomeRooms",
       "the rooms of a class that no other constraint gives rooms",
       "an activity that needn't have its room gets one of those that are wanted, at a penalty")
def _home_rooms(building: Building, constraint: Constraint) -> Kept:
    students, teacher = constraint.text("Students"), constraint.text("Teacher")
    numbers = [activity.id for activity in building.institution.activities.values()
               if (activity.groups == (students,) if students else activity.teachers == (teacher,))]
    return _wish(building.home_wishes, numbers, constraint)


def _wish(wishes: dict[int, list[Wish]], numbers: list[int], constraint: Constraint) -> Kept:
    rooms = frozenset(constraint.texts("Room") + constraint.texts("Preferred_Room"))
    for number in numbers:
        wishes.setdefault(number, []).append(Wish(rooms, constraint.weight))
    return Kept.WHOLLY if constraint.penalty is None else Kept.IN_PART


@_kind("ActivitiesOccupyMaxDifferentRooms", "`SameRoom`", "kept for one room, else left out")
def _few_rooms(building: Building, constraint: Constraint) -> Kept:
    if constraint.number("Max_Number_of_Different_Rooms") != 1:
        return Kept.NOT
    building.rule("SameRoom", constraint.activities(), constraint, "in the same room")
    return Kept.WHOLLY
