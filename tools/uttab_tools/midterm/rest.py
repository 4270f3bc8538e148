"""The rest of a problem from a week on.

The weeks gone by are taken out of the times of all classes, so that nothing can be placed in them any more. A class whose
weeks are all gone by is over: it is kept apart, in a gone week, at a slot of its own, without a room and with as many seats
as it has students. So its students go on having it, nobody else gets it, and it is in nobody's way. A class of a draft that
was never placed, and has no time left, is kept apart with the seats that it has: whoever needs it for his course gets it."""

from collections.abc import Iterator
from dataclasses import dataclass, field

from uttab_tools.problem import Class, Problem
from uttab_tools.published import Placed, Published
from uttab_tools.raw import Rule, Value, parts, rules_of, with_parts
from uttab_tools.times import Time, set_text


@dataclass(slots=True)
class Rest:
    """The problem and its published timetable. `over` are the classes that are kept apart, `shorter` those that have a time
    with fewer weeks left than the class has still to be taught, `waiting` those that aren't placed yet, and `never` those
    that were never placed and can't be now."""

    problem: Value
    published: Value
    over: list[int] = field(default_factory=list)
    shorter: list[int] = field(default_factory=list)
    waiting: list[int] = field(default_factory=list)
    never: list[int] = field(default_factory=list)


def to_come(first: int) -> int:
    """The set of all weeks from a week on, for cutting others: bits below it are 0."""
    return -1 << (first - 1)


def is_over(placed: Placed, first: int) -> bool:
    return not placed.weeks & to_come(first)


def rest_of(problem: Problem, published: Published, first: int) -> Rest:
    """The rest of a problem from the week `first` on, which is the second or a later one."""
    return _Cutting(problem, published, first).rest()


class _Cutting:
    def __init__(self, problem: Problem, published: Published, first: int) -> None:
        self.problem, self.published, self.first = problem, published, first
        self.placed = {one.id: one for one in published.classes}
        self.apart: dict[int, Time] = {}
        self.found = Rest({}, {})

    def rest(self) -> Rest:
        classes = iter(self.problem.classes.values())
        courses = [with_parts(course, configs=[
            with_parts(config, subparts=[
                with_parts(subpart, classes=[self._class(value, next(classes)) for value in parts(subpart, "classes")])
                for subpart in parts(config, "subparts")])
            for config in parts(course, "configs")])
            for course in parts(self.problem.value, "courses")]
        rules = [self._rule(rule) for rule in rules_of(self.problem)]
        self.found.problem = with_parts(self.problem.value, courses=courses, distributions=rules)
        self.found.published = {"classes": list(self._published())}
        return self.found

    def _class(self, value: Value, of_class: Class) -> Value:
        placed = self.placed.get(of_class.id)
        times = {} if placed and is_over(placed, self.first) else cut_times(self.problem, value, of_class, to_come(self.first))
        if not times:
            return self._kept_apart(value, of_class, placed)
        if placed is None:
            self.found.waiting.append(of_class.id)
        wanted = (placed.weeks & to_come(self.first)).bit_count() if placed else 0
        if any(time.weeks.bit_count() < wanted for time in times):
            self.found.shorter.append(of_class.id)
        return with_parts(value, times=list(times.values()))

    def _kept_apart(self, value: Value, of_class: Class, placed: Placed | None) -> Value:
        (self.found.over if placed else self.found.never).append(of_class.id)
        day, slot = divmod(len(self.apart), self.problem.slots)
        week, day = divmod(day, self.problem.days)
        time = self.apart[of_class.id] = Time(1 << day, 1 << week % (self.first - 1), slot, 1)
        kept = {key: inner for key, inner in value.items() if key != "rooms"}
        if placed:
            kept["limit"] = len(placed.students)
        return with_parts(kept, room=False, times=[{
            "days": set_text(time.days, self.problem.days), "start": time.start, "length": time.length,
            "weeks": set_text(time.weeks, self.problem.weeks), "penalty": 0}])

    def _rule(self, rule: Rule) -> Value:
        """A rule over the classes that aren't over. What comes first is asked only of those that haven't begun, and of the
        weeks that a MaxWeeks allows those that were used are taken off."""
        classes = [number for number in rule.classes if number not in self.apart]
        if rule.kind == "Precedence":
            return rule.over([number for number in classes if not self._has_begun(number)])
        if rule.kind != "MaxWeeks":
            return rule.over(classes)
        gone = 0
        for number in rule.classes:
            if number in self.placed:
                gone |= self.placed[number].weeks & ~to_come(self.first)
        return rule.over(classes, (max(0, rule.parameters[0] - gone.bit_count()),))

    def _has_begun(self, number: int) -> bool:
        return number in self.placed and bool(self.placed[number].weeks & ~to_come(self.first))

    def _published(self) -> Iterator[Value]:
        for placed in self.published.classes:
            apart = self.apart.get(placed.id)
            if apart:
                days, weeks, start, room = apart.days, apart.weeks, apart.start, None
            else:
                days, weeks, start, room = placed.days, placed.weeks & to_come(self.first), placed.start, placed.room
            yield published_class(self.problem, placed.id, Time(days, weeks, start, 1), room, placed.students)


def cut_times(problem: Problem, value: Value, of_class: Class, within: int) -> dict[Time, Value]:
    """The times of a class with the weeks of a set alone. Of equal ones the first stays, as `recall` takes it."""
    found: dict[Time, Value] = {}
    for item, time in zip(parts(value, "times"), of_class.times, strict=True):
        weeks = time.weeks & within
        if weeks:
            cut = Time(time.days, weeks, time.start, time.length)
            found.setdefault(cut, with_parts(item, weeks=set_text(weeks, problem.weeks)))
    return found


def published_class(problem: Problem, number: int, time: Time, room: int | None, students: list[int]) -> Value:
    """A class as a published file has it, with its keys in the order that `publish` writes."""
    return {
        "days": set_text(time.days, problem.days), "id": number, **({} if room is None else {"room": room}),
        "start": time.start, "students": students, "weeks": set_text(time.weeks, problem.weeks),
    }
