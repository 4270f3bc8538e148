"""Turns the competition's problem into a problem file, part by part, and counts what the file's limits speak of."""

import json
from collections import Counter
from collections.abc import Callable, Iterable, Iterator

from lxml.etree import _Element as Element

from uttab_tools import limits
from uttab_tools.competition_xml import line_of, place
from uttab_tools.limits import Range
from uttab_tools.program import FileFault, Output
from uttab_tools.report import Report

Value = dict[str, object]


class Ids:
    """The ids of each kind that have stood, and those that were referred to, with the first place."""

    def __init__(self, report: Report) -> None:
        self.report = report
        self.known: dict[str, set[int]] = {kind: set() for kind in ("room", "course", "class", "student")}
        self.wanted: dict[str, dict[int, Element]] = {kind: {} for kind in ("room", "course", "class")}

    def enter(self, kind: str, number: int, element: Element) -> None:
        if number in self.known[kind]:
            self.report.add("refused", f"an earlier {kind} has the same id", place(element))
        self.known[kind].add(number)

    def refer(self, kind: str, number: int, element: Element) -> None:
        self.wanted[kind].setdefault(number, element)

    def finish(self) -> None:
        for kind, wanted in self.wanted.items():
            for number in wanted.keys() - self.known[kind]:
                self.report.add("refused", f"an id stands for no {kind}", f"{kind} {number} at {place(wanted[number])}")


class Sums:
    """What the limits on sums speak of."""

    def __init__(self) -> None:
        self.cells: dict[int, int] = {}
        self.subparts: dict[int, int] = {}
        self.distributions = self.members = self.links = self.listed = 0

    def enter_class(self, class_id: int, times: Iterable[Value]) -> None:
        self.cells[class_id] = max((str(time["days"]).count("1") * str(time["weeks"]).count("1") for time in times), default=0)

    def enter_distribution(self, name: str, classes: set[int]) -> None:
        self.distributions += 1
        self.members += len(classes)
        if name in limits.TYPES_WITH_LINKS:
            self.links += sum(self.cells.get(one, 0) for one in classes)

    def enter_student(self, courses: set[int]) -> None:
        self.listed += sum(self.subparts.get(course, 0) for course in courses)


class ProblemWriter:
    """Writes the problem file of a competition's problem."""

    def __init__(self, root: Element, report: Report, output: Output) -> None:
        self.root, self.report, self.output = root, report, output
        self.ids, self.sums = Ids(report), Sums()
        self.days = self.number(root, "nrDays", limits.DAYS)
        weeks = int(root.get("nrWeeks"))
        self.version = 2 if weeks > limits.weeks_of_version(1).most else 1
        self.weeks = self.number(root, "nrWeeks", limits.weeks_of_version(self.version))
        self.travel: dict[tuple[int, int], int] = {}
        self.bytes = 0

    def write(self) -> None:
        """Writes the file: courses before distributions and students, whose sums speak of them."""
        self._write_json(self._head(), {
            "rooms": (self.room, "room"), "courses": (self.course, "course"),
            "distributions": (self.distribution, "distribution"), "students": (self.student, "student")})
        self.ids.finish()
        self._finish()

    def _head(self) -> Value:
        head: Value = {"name": self.root.get("name", "")}
        if self.version > 1:
            head["version"] = self.version
            self.report.add("note", f"the term has {self.weeks} weeks, so the file is of version 2")
        head |= {"nrDays": self.days, "nrWeeks": self.weeks, "slotsPerDay": self.number(self.root, "slotsPerDay", limits.SLOTS_PER_DAY)}
        weights = self.section("optimization")
        if weights is not None:
            head["optimization"] = {key: self.number(weights, key, limits.WEIGHT) for key in limits.WEIGHTS}
        return head

    def section(self, tag: str) -> Element | None:
        """The section of that name, which stands once at the most."""
        found = self.root.findall(tag)
        if len(found) > 1:
            raise FileFault(f"{self.report.file}: {line_of(found[1])}: a second <{tag}>")
        if not found and tag in ("optimization", "courses"):
            self.report.add("refused", f"there is no <{tag}>")
        return found[0] if found else None

    def _write_json(self, head: Value, lists: dict[str, tuple[Callable[[Element], Value | None], str]]) -> None:
        self.put(json.dumps(head, separators=(",", ":"))[:-1])
        for key, (turn, tag) in lists.items():
            section = self.section(key)
            if section is None:
                continue
            self.put(f',"{key}":[')
            comma = ""
            for value in self._values(section, tag, turn):
                self.put(comma + json.dumps(value, separators=(",", ":")))
                comma = ","
            self.put("]")
        self.put("}\n")

    def _values(self, section: Element, tag: str, turn: Callable[[Element], Value | None]) -> Iterator[Value]:
        for element in section.iterchildren(tag):
            value = turn(element)
            if value is not None:
                yield value

    def put(self, text: str) -> None:
        self.bytes += len(text)
        self.output.write(text)

    def number(self, element: Element, key: str, within: Range) -> int:
        """A whole number. One that `uttab` refuses is told and written."""
        number = int(element.get(key))
        if number not in within:
            words = f"above {within.most:,}, the most that there is" if number > within.most else f"below {within.least}"
            self.report.add("refused", f"{key} of <{element.tag}> is {words}", f"{number} at {place(element)}")
        return number

    def id(self, element: Element, key: str = "id") -> int:
        return self.number(element, key, limits.ID)

    def penalty(self, element: Element) -> int:
        if element.get("penalty") is None:
            self.report.add("note", f"a <{element.tag}> has no penalty: 0 is written", place(element))
            return 0
        return self.number(element, "penalty", limits.PENALTY)

    def at_most(self, items: list[Value] | list[int], most: int, words: str, element: Element) -> None:
        if len(items) > most:
            self.report.add("refused", f"more than {most:,} {words}", f"{len(items)} at {place(element)}")

    def time(self, element: Element) -> Value:
        value: Value = {}
        for key, count in (("days", self.days), ("weeks", self.weeks)):
            text = value[key] = element.get(key)
            if not limits.is_set(text, count):
                words = f"{key} is no set of {count} places: {count} characters 0 and 1, with a 1 in it"
                self.report.add("refused", words, f'"{text[:130]}" at {place(element)}')
        start = value["start"] = self.number(element, "start", limits.SLOT)
        length = value["length"] = self.number(element, "length", limits.LENGTH)
        if start + length > limits.LAST_SLOT:
            self.report.add("refused", f"a time ends after slot {limits.LAST_SLOT}", place(element))
        return value

    def room(self, element: Element) -> Value:
        number = self.id(element)
        self.ids.enter("room", number, element)
        value: Value = {"id": number}
        if element.get("capacity") is not None:
            value["capacity"] = int(element.get("capacity"))
            self.report.add("note", "% rooms have a capacity, which is written and which no rule of uttab checks")
        travel: list[Value] = [self.travel_entry(number, part) for part in element.iterchildren("travel")]
        closed = [self.time(part) for part in element.iterchildren("unavailable")]
        self.at_most(travel, limits.TRAVEL, "travel entries of a room", element)
        self.at_most(closed, limits.UNAVAILABLE, "unavailable times of a room", element)
        return value | ({"travel": travel} if travel else {}) | ({"unavailable": closed} if closed else {})

    def travel_entry(self, room: int, element: Element) -> Value:
        """An entry of travel. Told is one that isn't the same both ways: in our file the last entry of a pair counts."""
        other, slots = self.id(element, "room"), self.number(element, "value", limits.SLOT)
        self.ids.refer("room", other, element)
        pair = (min(room, other), max(room, other))
        if other != room and self.travel.setdefault(pair, slots) != slots:
            words = "a pair of rooms has another travel in a second entry: the last one counts, both ways"
            self.report.add("left out", words, f"to room {other}, at {place(element.getparent())}")
            self.travel[pair] = slots
        return {"room": other, "value": slots}

    def course(self, element: Element) -> Value:
        number = self.id(element)
        self.ids.enter("course", number, element)
        configs = [{"id": self.id(config), "subparts": self.subparts(config)} for config in element.iterchildren("config")]
        self.not_empty(configs, element, "configuration")
        self.sums.subparts[number] = max((len(config) for config in element.iterchildren("config")), default=0)
        return {"id": number, "configs": configs}

    def subparts(self, config: Element) -> list[Value]:
        subparts: list[Value] = [{"id": self.id(subpart), "classes": self.classes(subpart)}
                                 for subpart in config.iterchildren("subpart")]
        self.not_empty(subparts, config, "subpart")
        return subparts

    def classes(self, subpart: Element) -> list[Value]:
        classes = [self.class_of(one) for one in subpart.iterchildren("class")]
        self.not_empty(classes, subpart, "class")
        return classes

    def not_empty(self, items: list[Value], element: Element, words: str) -> None:
        if not items:
            self.report.add("refused", f"a {element.tag} has no {words}", place(element))

    def class_of(self, element: Element) -> Value:
        number = self.id(element)
        self.ids.enter("class", number, element)
        value: Value = {"id": number}
        if element.get("limit") is not None:
            value["limit"] = self.number(element, "limit", limits.SEATS)
        if element.get("parent") is not None:
            parent = value["parent"] = self.id(element, "parent")
            self.ids.refer("class", parent, element)
        value |= self.rooms_of(element)
        times = [self.time(part) | {"penalty": self.penalty(part)} for part in element.iterchildren("time")]
        self.not_empty(times, element, "time")
        self.at_most(times, limits.TIMES_OF_A_CLASS, "times of a class", element)
        self.sums.enter_class(number, times)
        return value | {"times": times}

    def rooms_of(self, element: Element) -> Value:
        """The rooms of a class: `room` false where it needs none, or the list."""
        rooms: list[Value] = [{"id": self.id(part), "penalty": self.penalty(part)} for part in element.iterchildren("room")]
        for part in element.iterchildren("room"):
            self.ids.refer("room", int(part.get("id")), part)
        self.at_most(rooms, limits.ROOMS_OF_A_CLASS, "rooms of a class", element)
        if element.get("room") == "false":
            if rooms:
                self.report.add("left out", "% classes with room=\"false\" have a list of rooms", place(element))
            return {"room": False}
        if not rooms:
            self.report.add("note", "% classes have no room in their list: they need none for uttab", place(element))
        return {"rooms": rooms} if rooms else {}

    def distribution(self, element: Element) -> Value | None:
        text = element.get("type")
        name = limits.type_name(text, self.version)
        if name is None:
            self.report.add("left out", f"% distributions of the type {text[:60]}, which uttab doesn't have", place(element))
            return None
        value: Value = {"type": text}
        if element.get("required") == "true":
            value["required"] = True
            if element.get("penalty") is not None:
                self.report.add("note", "% required distributions have a penalty, which is skipped", place(element))
        elif element.get("penalty") is None:
            raise FileFault(f"{self.report.file}: {line_of(element)}: {place(element)} is neither required nor has a penalty")
        else:
            value["penalty"] = self.number(element, "penalty", limits.PENALTY)
        classes = value["classes"] = [self.id(part) for part in element.iterchildren("class")]
        for part in element.iterchildren("class"):
            self.ids.refer("class", int(part.get("id")), part)
        self.at_most(classes, limits.CLASSES_OF_A_DISTRIBUTION, "classes of a distribution", element)
        self.sums.enter_distribution(name, set(classes))
        return value

    def student(self, element: Element) -> Value:
        number = self.id(element)
        self.ids.enter("student", number, element)
        courses = [self.id(part) for part in element.iterchildren("course")]
        for part in element.iterchildren("course"):
            self.ids.refer("course", int(part.get("id")), part)
        self.at_most(courses, limits.COURSES_OF_A_STUDENT, "courses of a student", element)
        self.sums.enter_student(set(courses))
        return {"id": number, "courses": courses}

    def _finish(self) -> None:
        """Tells counts and sums above the limits, and how much was written."""
        sums = self.sums
        counts = Counter({kind: len(known) for kind, known in self.ids.known.items()})
        for count, words, most in (
            (counts["room"], "rooms", limits.ROOMS),
            (counts["course"], "courses", limits.COURSES),
            (counts["class"], "classes", limits.CLASSES),
            (sums.distributions, "distributions", limits.DISTRIBUTIONS),
            (counts["student"], "students", limits.STUDENTS),
            (sum(sums.cells.values()), "cells (days times weeks of a class's largest time, over all classes)", limits.CELLS),
            (sums.members, "members of all distributions", limits.MEMBERS),
            (sums.links, "links (cells of the members of all MaxBreaks and MaxBlock)", limits.LINKS),
            (sums.listed, "classes in lists (subparts of the largest configuration, over all students' courses)", limits.LISTED),
            (self.bytes, "bytes of the problem file", limits.FILE_BYTES),
        ):
            if count > most:
                self.report.add("refused", f"{count:,} {words}, of which there may be {most:,}")
        self.report.write(
            f"written: {counts['room']} rooms, {counts['course']} courses, {counts['class']} classes, "
            f"{sums.distributions} distributions, {counts['student']} students")
