"""Breaks a clause that is wider than a line, at its arrows, its relations, its binders and the arguments of its calls.

A clause is broken at blanks alone, so what it says stays as it is. The toolchain keeps line breaks inside a clause."""

import re
from dataclasses import dataclass

STEP = 4
# What binds the least comes first; a clause is broken at these.
RELATIONS = (("→",), ("⊎",), ("×",), ("↔",), ("≡", "≢", "≤", "<", ">", "≥"), ("||",), ("&&",), ("++",), ("∷",), ("+", "-"))
TOKEN = re.compile(r"\s*([(){}\[\]⟦⟧]|[^\s(){}\[\]⟦⟧]+)")
CLOSES = {"(": ")", "{": "}", "[": "]", "⟦": "⟧"}


@dataclass
class Item:
    """A word of a clause, or what stands in brackets, and whether a blank stands before it."""

    text: str
    blank: bool
    inner: "list[Item] | None" = None
    closed: str = ""  # the closing bracket, with the blank before it where there is one

    @property
    def flat(self) -> str:
        return self.text if self.inner is None else self.text + flat(self.inner, True) + self.closed


Items = list[Item]


def flat(items: Items, first: bool = False) -> str:
    """The text of some items on one line; the blank before the first is left out unless it is asked for."""
    text = "".join((" " if item.blank else "") + item.flat for item in items)
    return text if first else text.removeprefix(" ")


def items_of(text: str) -> Items:
    """The items of a clause's text."""
    found: Items = []
    open_ones: list[Items] = [found]
    for match in TOKEN.finditer(text):
        word, blank = match[1], text[match.start()].isspace()
        if word in CLOSES:
            item = Item(word, blank, [])
            open_ones[-1].append(item)
            open_ones.append(item.inner or [])
            item.inner = open_ones[-1]
        elif len(open_ones) > 1 and word in CLOSES.values():
            open_ones.pop()
            open_ones[-1][-1].closed = (" " if blank else "") + word
        else:
            open_ones[-1].append(Item(word, blank))
    return found


def groups_of(items: Items) -> list[Items]:
    """The arguments of a call: the items between which there is a blank, each with what stands right behind it."""
    found: list[Items] = []
    for item in items:
        if item.blank or not found:
            found.append([item])
        else:
            found[-1].append(item)
    return found


def places_of(items: Items, words: tuple[str, ...]) -> list[int]:
    """The places of some words, each with something before it and behind it."""
    return [at for at in range(1, len(items) - 1) if items[at].text in words and items[at].inner is None]


def end_of_binder(items: Items) -> int:
    """The number of items of a binder `λ x (y : A).`, 0 where there is none."""
    if items[0].text != "λ" and not items[0].text.startswith("λ"):
        return 0
    return next((at + 1 for at, item in enumerate(items) if item.inner is None and item.text.endswith(".")), 0)


@dataclass
class Layout:
    """How wide a line may be."""

    width: int

    def lay(self, items: Items, indent: int, line: str, end: str) -> list[str]:
        """The lines of some items, the first of which goes on with `line`; the others begin at `indent` or beyond, and `end`
        stands behind the last."""
        if not items or self.has_room(line, items, end):
            return [line + flat(items) + end]
        binder = end_of_binder(items)
        if binder and binder < len(items):
            inner = indent + STEP
            return [line + flat(items[:binder]), *self.lay(items[binder:], inner, " " * inner, end)]
        if items[0].text == "let" and (found := places_of(items, ("in",))):
            at = found[0] + 1
            return [*self.lay(items[:at], indent + STEP, line, ""), *self.lay(items[at:], indent, " " * indent, end)]
        if items[0].text == "if":
            cuts = [0, *places_of(items, ("then", "else")), len(items)]
        elif items[0].text == "record":
            cuts = []
        else:
            cuts = next(([0, *found, len(items)] for words in RELATIONS if (found := places_of(items, words))), [])
        if len(cuts) > 2:
            starts = not line.strip()
            inner = indent if starts and items[cuts[1]].text in ("→", "∷") else indent + STEP
            return self.lay_parts([items[a:b] for a, b in zip(cuts, cuts[1:])], inner, line, end)
        return self.lay_call(groups_of(items), indent, line, end)

    def lay_call(self, groups: list[Items], indent: int, line: str, end: str) -> list[str]:
        """The lines of a call: as many arguments on a line as have room, and an argument that has none in lines of its own."""
        lines: list[str] = []
        inner = indent + STEP
        for at, group in enumerate(groups):
            last = at == len(groups) - 1
            behind = end if last else ""
            start = line + " " if at else line
            if self.has_room(start, group, behind):
                line = start + flat(group)
                continue
            opens = any(item.inner for item in group) and not self.has_room(" " * inner, group, behind)
            stays = at == 0 or (last and opens and not lines and len(start) < self.width - 2 * STEP)
            if not stays:
                lines.append(line)
                start = " " * inner
            more = self.lay_group(group, indent if stays else inner, start, behind)
            lines += more[:-1]
            line = more[-1].removesuffix(behind)
        return [*lines, line + end]

    def lay_parts(self, parts: list[Items], indent: int, line: str, end: str) -> list[str]:
        """The lines of some parts, the first of which goes on with `line`; each other one begins a line with its first word, at
        which it was cut."""
        lines = self.lay(parts[0], indent, line, "")
        for part in parts[1:]:
            lines += self.lay(part[1:], indent, f"{' ' * indent}{part[0].text} ", end if part is parts[-1] else "")
        return lines

    def has_room(self, line: str, items: Items, end: str) -> bool:
        """Whether some items have room on a line."""
        return len(line) + len(flat(items)) + len(end) <= self.width

    def lay_group(self, group: Items, indent: int, line: str, end: str) -> list[str]:
        """The lines of an argument, which are broken within its first brackets that don't fit."""
        at = next((at for at, item in enumerate(group) if item.inner), None)
        if at is None or self.has_room(line, group, end):
            return [line + flat(group) + end]
        opened, rest = group[at], flat(group[at + 1:], True)
        inner = opened.inner or []
        line += flat(group[:at]) + opened.text
        if opened.text == "{":
            return [*self.lay_fields(inner, indent + STEP, line), " " * indent + "}" + rest + end]
        return self.lay(inner, indent, line, opened.closed + rest + end)

    def lay_fields(self, items: Items, indent: int, line: str) -> list[str]:
        """The lines of the fields of a record, one below the other."""
        lines, field = [line], Items()
        for at, item in enumerate(items):
            field.append(item)
            if item.text.endswith(";") or at == len(items) - 1:
                lines += self.lay(field, indent, " " * indent, "")
                field = []
        return lines


def broken(clause: list[str], width: int) -> list[str]:
    """The lines of a clause, where one of them is wider than a width."""
    text = " ".join(line.strip() for line in clause)
    indent = len(clause[0]) - len(clause[0].lstrip())
    head, _, body = text.partition("{")
    body, _, behind = body.rpartition("}")
    return Layout(width).lay(items_of(body.strip()), indent, f"{' ' * indent}{head.strip()} {{ ", " }" + behind)
