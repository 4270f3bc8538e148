"""Turns the competition's solution into a published file, and a published file into a solution."""

import json
import re
from argparse import Namespace

from lxml import etree

from uttab_tools import limits
from uttab_tools.competition_xml import line_of, place
from uttab_tools.problem import Problem
from uttab_tools.program import FileFault, Output, Usage
from uttab_tools.published import Meeting, Placed, Published
from uttab_tools.report import Report

ATTRIBUTES = ("name", "runtime", "cores", "technique", "author", "institution", "country")
# Characters that XML can't hold.
NO_XML = re.compile("[^\t\n\r\u0020-\ud7ff\ue000-\ufffd\U00010000-\U0010ffff]")


def write_published(root: etree._Element, report: Report, output: Output) -> None:
    """Writes the published file of a solution. The solution's attributes go along, under their names, as keys that uttab
    skips."""
    classes: dict[int, dict[str, object]] = {}
    students = 0
    for element in root.iterchildren("class"):
        listed = [int(student.get("id")) for student in element.iterchildren("student")]
        if any(element.get(key) is None for key in ("days", "start", "weeks")):
            report.add("left out", "% classes without days, start or weeks", place(element))
            if listed:
                report.add("left out", "% students of classes without days, start or weeks", count=len(listed))
            continue
        value = _published_class(element, listed, report)
        if classes.setdefault(int(element.get("id")), value) is not value:
            raise FileFault(f"{report.file}: {line_of(element)}: {place(element)} stands twice")
        students += len(listed)
    head = {key: root.get(key) for key in ATTRIBUTES if root.get(key) is not None}
    if len(classes) > limits.CLASSES:
        report.add("refused", f"{len(classes):,} classes, of which there may be {limits.CLASSES:,}")
    if head:
        report.add("note", f"{', '.join(head)} of the solution are written, and skipped by uttab: `publish` drops them")
    output.write(json.dumps({"classes": list(classes.values()), **head}, separators=(",", ":")) + "\n")
    report.write(f"written: {len(classes)} classes, {students} times a student in a class")


def _published_class(element: etree._Element, listed: list[int], report: Report) -> dict[str, object]:
    value: dict[str, object] = {"days": element.get("days"), "id": int(element.get("id"))}
    if element.get("room") is not None:
        value["room"] = int(element.get("room"))
    value |= {"start": int(element.get("start")), "students": listed, "weeks": element.get("weeks")}
    for key in ("days", "weeks"):
        if not limits.is_set(value[key]):
            report.add("refused", f"{key} is no set: a text of 0 and 1 with a 1 in it", place(element))
    if len(listed) > limits.STUDENTS_OF_A_CLASS:
        report.add("refused", f"% classes of more than {limits.STUDENTS_OF_A_CLASS:,} students", place(element))
    if value["start"] not in limits.SLOT:  # type: ignore[operator]
        report.add("refused", f"a start is above {limits.SLOT.most:,}", place(element))
    return value


def write_solution(given: Namespace, output: Output) -> int:
    """Writes the solution of a published file, with the attributes that the options, the file's own keys or the problem
    give."""
    problem = Problem(given.problem)
    published = Published(given.published, problem)
    report = Report("itc2019", given.published)
    attributes = _attributes(given, problem, published)
    _tell_what_is_wrong(problem, published, report)
    with etree.xmlfile(output.binary, encoding="UTF-8") as file:
        file.write_declaration()
        with file.element("solution", attributes):
            file.write("\n")
            for placed in published.classes:
                file.write("  ")
                file.write(_class_element(placed), pretty_print=True)
    output.binary.write(b"\n")
    missing = [key for key in ATTRIBUTES if key not in attributes]
    if missing:
        report.add("note", f"the competition asks for more attributes: {', '.join(missing)}")
    report.write(f"written: {len(published.classes)} of {len(problem.classes)} classes")
    return report.status


def _attributes(given: Namespace, problem: Problem, published: Published) -> dict[str, str]:
    attributes = {}
    for key in ATTRIBUTES:
        value = getattr(given, key)
        if value is None:
            value = published.value.get(key)
        if key == "name" and value is None:
            value = problem.name or None
        if isinstance(value, str | int | float) and not isinstance(value, bool):
            if NO_XML.search(str(value)):
                raise Usage(f"{key}: {ascii(str(value))[:60]} has a character that XML can't hold")
            attributes[key] = str(value)
    if "name" not in attributes:
        raise Usage("--name is wanted: the name of the problem that the solution belongs to, which the problem file hasn't got")
    return attributes


def _tell_what_is_wrong(problem: Problem, published: Published, report: Report) -> None:
    """Tells what makes it no solution of the problem. `uttab verify` tells all else."""
    listed = {placed.id for placed in published.classes}
    for class_id in problem.classes:
        if class_id not in listed:
            report.add("wrong", "% classes of the problem aren't in the timetable", f"class {class_id}")
    for placed in published.classes:
        meeting = Meeting(problem.classes[placed.id], placed)
        if meeting.other_time:
            report.add("wrong", "% classes are at a time that isn't one of theirs", f"class {placed.id}")
        if meeting.other_room:
            report.add("wrong", "% classes are in a room that isn't one of theirs", f"class {placed.id}")
    with_classes = {student for placed in published.classes for student in placed.students}
    for student in problem.students.values():
        if student.courses and student.id not in with_classes:
            report.add("wrong", "% students with courses have no class", f"student {student.id}")


def _class_element(placed: Placed) -> etree._Element:
    days, weeks = placed.texts
    element = etree.Element("class", {"id": str(placed.id), "days": days, "start": str(placed.start), "weeks": weeks})
    if placed.room is not None:
        element.set("room", str(placed.room))
    for student in placed.students:
        etree.SubElement(element, "student", {"id": str(student)})
    return element
