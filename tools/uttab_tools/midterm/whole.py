"""The whole term put together again: what was published for the weeks gone by, and what is published for the rest.

A class that is elsewhere from a week on, or has other students, becomes two: one of the weeks gone by, with its id, and one
of the weeks to come, with an id of its own. So page, table and calendars are true before and after, and `verify` looks at
all weeks. In the place of a course with such a class stands one course for each of its subparts, and one more for classes
that begin in the weeks to come; a student has those in which he has a class."""

from collections.abc import Iterator
from dataclasses import dataclass, field
from itertools import count

from uttab_tools.midterm.rest import cut_times, is_over, published_class, to_come
from uttab_tools.problem import Class, Course, Problem
from uttab_tools.program import FileFault
from uttab_tools.published import Placed, Published
from uttab_tools.raw import Rule, Value, classes_of_course, parts, rules_of, with_parts
from uttab_tools.times import Time

# Types that look at weeks that classes share, or count over all weeks: both halves of a class may be in one rule. Any
# other type is asked of what meets in the weeks gone by and of what meets in the weeks to come, by a rule each, but for
# Precedence, which looks at the first meeting alone.
BY_WEEKS = frozenset({"NotOverlap", "SameAttendees", "WorkDay", "MinGap", "DifferentWeeks", "MaxWeeks", "MaxDayLoad", "MaxBreaks",
                      "MaxBlock"})


@dataclass(slots=True)
class Half:
    """A class, or one half of it: where it is, and what the problem says of it. `late` says that it begins in the weeks
    to come."""

    id: int
    value: Value
    placed: Placed
    weeks: int
    late: bool


@dataclass(slots=True)
class Whole:
    """The problem and the timetable of the whole term. `halves` are the classes that became two, by id the new one's, `lost`
    those of the weeks to come that the new timetable hasn't got, and `never` those that never had a place."""

    problem: Value
    published: Value
    halves: dict[int, int] = field(default_factory=dict)
    lost: list[int] = field(default_factory=list)
    never: list[int] = field(default_factory=list)


def whole_of(problem: Problem, old: Published, new: Published, first: int) -> Whole:
    """The whole term: `old` up to the week before `first`, `new` from there on."""
    return _Joining(problem, old, new, first).whole()


class _Joining:
    def __init__(self, problem: Problem, old: Published, new: Published, first: int) -> None:
        self.problem, self.first = problem, first
        self.to_come, self.gone = to_come(first), ~to_come(first)
        self.old = {one.id: one for one in old.classes}
        self.new = {one.id: one for one in new.classes}
        self.new_file = new.file
        self.found = Whole({}, {})
        self.new_classes = count(max(problem.classes, default=0) + 1)
        self.new_courses = count(max(problem.courses, default=0) + 1)
        self.halves: dict[int, list[Half]] = {}
        self.parted = self._parted()
        # The courses that stand in the place of one, by it and the student who has them.
        self.in_place: dict[tuple[int, int], list[int]] = {}

    def whole(self) -> Whole:
        pairs = list(zip(parts(self.problem.value, "courses"), self.problem.courses.values(), strict=True))
        for value, course in pairs:
            for of_class, class_value in zip(course.classes, classes_of_course(value), strict=True):
                self.halves[of_class.id] = self._halves(of_class, class_value)
        for of_class in self.problem.classes.values():
            if of_class.parent is not None:
                self._set_parents(of_class, of_class.parent)
        courses = [one for value, course in pairs for one in self._courses(value, course)]
        rules = [one for rule in rules_of(self.problem) for one in self._rules(rule)]
        students = [with_parts(value, courses=self._courses_of(number))
                    for value, number in zip(parts(self.problem.value, "students"), self.problem.students, strict=True)]
        self.found.problem = with_parts(self.problem.value, courses=courses, distributions=rules, students=students)
        self.found.published = {"classes": [
            published_class(self.problem, half.id, Time(half.placed.days, half.weeks, half.placed.start, 1), half.placed.room,
                            half.placed.students)
            for halves in self.halves.values() for half in halves]}
        return self.found

    # What becomes of a class.

    def _parted(self) -> set[int]:
        """The classes whose weeks gone by stand alone: what changed, and what a SameWeeks holds beside such a one, since
        weeks of the whole term aren't those of a half."""
        found = {number for number, old in self.old.items() if old.weeks & self.gone and not is_over(old, self.first)
                 and not (number in self.new and self._is_as_before(old, self.new[number]))}
        together = [set(rule.classes) for rule in rules_of(self.problem) if rule.kind == "SameWeeks"]
        while added := {number for classes in together if classes & found for number in classes} - found:
            found |= added
        return found

    def _halves(self, of_class: Class, value: Value) -> list[Half]:
        """The class as it is in the whole term: once, twice where it changed, or not at all where it is in no timetable."""
        old, new = self.old.get(of_class.id), self.new.get(of_class.id)
        if old and (is_over(old, self.first) or new and of_class.id not in self.parted and self._is_as_before(old, new)):
            return [Half(of_class.id, value, old, old.weeks, not old.weeks & self.gone)]
        if new and not old and not cut_times(self.problem, value, of_class, self.to_come):
            new = None  # It was kept apart.
        if new and new.weeks & self.gone:
            raise FileFault(f"{self.new_file}: class {of_class.id}: has weeks before week {self.first}")
        if not old and not new:
            self.found.never.append(of_class.id)
        if old and not new:
            self.found.lost.append(of_class.id)
        halves = []
        if old and old.weeks & self.gone:
            times = cut_times(self.problem, value, of_class, self.gone)
            own = [item for time, item in times.items()
                   if (time.days, time.weeks, time.start) == (old.days, old.weeks & self.gone, old.start)]
            halves.append(Half(of_class.id, with_parts(value, times=own or list(times.values())), old, old.weeks & self.gone, False))
        if new:
            times = cut_times(self.problem, value, of_class, self.to_come)
            halves.append(Half(of_class.id, with_parts(value, times=list(times.values())), new, new.weeks, True))
        if len(halves) == 2:
            self._part(of_class, *halves)
        return halves

    def _is_as_before(self, old: Placed, new: Placed) -> bool:
        return ((old.days, old.weeks & self.to_come, old.start, old.room) == (new.days, new.weeks, new.start, new.room)
                and sorted(old.students) == sorted(new.students))

    def _part(self, of_class: Class, before: Half, after: Half) -> None:
        """Gives the second half an id of its own, and both their names."""
        after.id = self.found.halves[of_class.id] = next(self.new_classes)
        name = of_class.name or f"Class {of_class.id}"
        before.value["name"] = f"{name} (to week {self.first - 1})"
        after.value |= {"id": after.id, "name": f"{name} (from week {self.first} on)"}

    def _set_parents(self, of_class: Class, parent: int) -> None:
        """Gives each half the parent of its weeks, where all its students have that one."""
        parents = self.halves.get(parent)
        if not parents or not {of_class.id, parent} & self.found.halves.keys():
            return
        for half in self.halves[of_class.id]:
            own = parents[-1 if half.late else 0]
            half.value["parent"] = own.id if set(half.placed.students) <= set(own.placed.students) else None

    # What becomes of a course.

    def _courses(self, value: Value, course: Course) -> Iterator[Value]:
        """The course with its classes as they are now, or the courses that stand in its place."""
        changed = any(one.id in self.found.halves for one in course.classes)
        own = iter(course.classes)
        configs = []
        for config in parts(value, "configs"):
            subparts = []
            for subpart in parts(config, "subparts"):
                listed = [(self.halves[next(own).id], inner) for inner in parts(subpart, "classes")]
                if changed:
                    yield from self._courses_in_place(course, value, config, subpart, listed)
                subparts.append(with_parts(subpart, classes=[halves[0].value if halves else inner for halves, inner in listed]))
            configs.append(with_parts(config, subparts=subparts))
        if not changed:
            yield with_parts(value, configs=configs)

    def _courses_in_place(self, course: Course, value: Value, config: Value, subpart: Value,
                          listed: list[tuple[list[Half], Value]]) -> Iterator[Value]:
        for late in (False, True):
            halves = [half for halves, _ in listed for half in halves if half.late == late]
            classes = [half.value for half in halves] + [inner for own, inner in listed if not own and not late]
            if not classes:
                continue
            number = next(self.new_courses)
            for student in dict.fromkeys(student for half in halves for student in half.placed.students):
                self.in_place.setdefault((course.id, student), []).append(number)
            yield with_parts(value, id=number, configs=[with_parts(config, subparts=[with_parts(subpart, classes=classes)])])

    def _courses_of(self, student: int) -> list[int]:
        """A student's courses. Whoever has no class of a course that others stand in the place of has none of these."""
        changed = {self.problem.classes[number].course.id for number in self.found.halves}
        return [number for course in self.problem.students[student].courses
                for number in (self.in_place.get((course, student), []) if course in changed else [course])]

    # What becomes of a rule.

    def _rules(self, rule: Rule) -> Iterator[Value]:
        listed = [self.halves[number] for number in rule.classes if self.halves[number]]
        if all(self._is_old(halves) for halves in listed):
            yield rule.value
        elif rule.kind in BY_WEEKS:
            yield rule.over([half.id for halves in listed for half in halves])
        elif rule.kind == "Precedence":
            yield from self._precedence(rule, [halves[0] for halves in listed])
        else:
            for within in (self.gone, self.to_come):
                yield rule.over([half.id for halves in listed for half in halves if half.weeks & within])

    def _is_old(self, halves: list[Half]) -> bool:
        """Whether a class is over the whole term as it was published."""
        return len(halves) == 1 and halves[0].placed is self.old.get(halves[0].id) and halves[0].weeks == halves[0].placed.weeks

    @staticmethod
    def _precedence(rule: Rule, firsts: list[Half]) -> Iterator[Value]:
        """What comes first, by the first half of each class. Where a class has begun before one that was to come before it,
        the rule is asked of those that had begun, and of the others."""
        lates = [half.late for half in firsts]
        if lates == sorted(lates):
            yield rule.over([half.id for half in firsts])
        else:
            for late in (False, True):
                yield rule.over([half.id for half in firsts if half.late == late])
