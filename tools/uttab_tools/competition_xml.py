"""Reads the competition's XML. A Relax NG schema says what a file holds; faults name the line and the part.

What the schema doesn't know, elements and attributes alike, is told and taken out before the file is held against it."""

import re
from dataclasses import dataclass, field
from pathlib import Path
from typing import NoReturn

from lxml import etree

from uttab_tools.program import FileFault
from uttab_tools.report import Report
from uttab_tools.xml_tree import read_tree

DATA = Path(__file__).resolve().parent / "data"
RELAX_NG = "{http://relaxng.org/ns/structure/1.0}"
SECTIONS = ("rooms", "courses", "distributions", "students")
# Elements that a part refers to or has, by the element around them: they are no parts of their own.
INNER = {("room", "travel"), ("room", "unavailable"), ("class", "room"), ("class", "time"), ("class", "student"),
         ("distribution", "class"), ("student", "course")}


@dataclass
class Form:
    """What the schema says of one kind of element: its attributes, those that it has to have, numbers and truth values."""

    known: set[str] = field(default_factory=set)
    needed: set[str] = field(default_factory=set)
    numbers: set[str] = field(default_factory=set)
    truths: set[str] = field(default_factory=set)


class Schema:
    """A Relax NG schema, and what it says of each kind of element, which is named by the element around it and its own."""

    def __init__(self, kind: str) -> None:
        tree = etree.parse(str(DATA / f"competition_{kind}.rng"))
        self.relax_ng = etree.RelaxNG(tree)
        self.forms: dict[tuple[str, str], Form] = {}
        self._defines = {define.get("name"): define for define in tree.iter(f"{RELAX_NG}define")}
        self._enter(tree.find(f"{RELAX_NG}start"), ("", ""), False)

    def _enter(self, part: etree._Element, kind: tuple[str, str], optional: bool) -> None:
        for inner in part.iterchildren(tag=etree.Element):
            name = inner.get("name")
            if inner.tag == f"{RELAX_NG}element":
                self.forms[kind[1], name] = Form()
                self._enter(inner, (kind[1], name), False)
            elif inner.tag == f"{RELAX_NG}attribute":
                self.forms[kind].known.add(name)
                if not optional:
                    self.forms[kind].needed.add(name)
                for value, names in (("number", self.forms[kind].numbers), ("truth", self.forms[kind].truths)):
                    if inner.find(f"{RELAX_NG}ref[@name='{value}']") is not None:
                        names.add(name)
            elif inner.tag == f"{RELAX_NG}ref":
                self._enter(self._defines[name], kind, optional)
            else:
                self._enter(inner, kind, optional or inner.tag == f"{RELAX_NG}optional")


def place(element: etree._Element) -> str:
    """An element in words, such as `course 3, config 1, class 17`."""
    words: list[str] = []
    for part in [element, *element.iterancestors()]:
        number = part.get("id")
        if number is not None:
            words.append(f"{part.tag} {number[:40]}")
        elif part.tag == "distribution":
            words.append(f"distribution {sum(1 for _ in part.itersiblings('distribution', preceding=True)) + 1}")
        elif part.tag not in SECTIONS:
            words.append(str(part.tag))
    return ", ".join(list(reversed(words))[1:] or words)


def line_of(element: etree._Element) -> str:
    """Where an element begins. The library doesn't always know lines from 65,535 on."""
    return f"line {element.sourceline}" if element.sourceline != 65_535 else "a line after 65,534"


def read_xml(file: str, kind: str, report: Report) -> etree._Element:
    """The root of a competition's file, held against the schema of its kind."""
    tree = read_tree(file, bare=True)
    root = tree.getroot()
    if root.tag != kind:
        raise FileFault(f"{file}: is a <{root.tag}>, where a <{kind}> is wanted")
    schema = Schema(kind)
    _survey(file, root, schema, report)
    if not schema.relax_ng.validate(tree):
        _invalid(file, tree, schema)
    return root


def _survey(file: str, root: etree._Element, schema: Schema, report: Report) -> None:
    """Takes out what the schema doesn't know, and finds attributes that are absent."""
    unknown = []
    for element in root.iter(etree.Element):
        form = schema.forms.get(_kind(element))
        if form is None:
            if _kind(element.getparent()) in schema.forms:
                unknown.append(element)
            continue
        keys = element.keys()
        for key in form.needed.difference(keys):
            raise FileFault(f"{file}: {line_of(element)}: {_of(element)} has no {key}")
        for key in sorted(set(keys) - form.known):
            report.add("left out", f"% attributes {key} of <{element.tag}>, which are unknown", place(element))
            del element.attrib[key]
    for element in unknown:
        parent = element.getparent()
        report.add("left out", f"% elements <{element.tag}> inside <{parent.tag}>, which are unknown", place(parent))
        parent.remove(element)


def _kind(element: etree._Element) -> tuple[str, str]:
    """The name of the element around an element, and its own."""
    parent = element.getparent()
    return "" if parent is None else parent.tag, element.tag


def _of(element: etree._Element) -> str:
    """An element as the owner of what is said of it. One that is no part of its own is called its part's."""
    kind = _kind(element)
    if kind in INNER:
        return f"{place(element.getparent())}: its {element.tag}"
    return place(element)


def _invalid(file: str, tree: etree._ElementTree, schema: Schema) -> NoReturn:
    """The first fault that the schema found, in words."""
    error = schema.relax_ng.error_log[0]
    found = tree.xpath(error.path) if error.path else []
    if not found:
        raise FileFault(f"{file}: line {error.line}: {error.message}")
    element = found[0]
    words = _wrong_attribute(element, schema.forms[_kind(element)]) or error.message
    raise FileFault(f"{file}: {line_of(element)}: {_of(element)}: {words}")


def _wrong_attribute(element: etree._Element, form: Form) -> str | None:
    """Which attribute isn't what the schema wants, in words."""
    for key, value in element.items():
        if key in form.numbers and not re.fullmatch("[0-9]{1,20}", value.strip()):
            return f'{key}="{value[:60]}" is no whole number'
        if key in form.truths and value not in ("true", "false"):
            return f'{key}="{value[:60]}" is neither true nor false'
    return None
