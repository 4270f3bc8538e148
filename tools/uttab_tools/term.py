"""The dates of a term: which day a day of a week of the timetable is, and which days have no classes."""

import re
from dataclasses import dataclass, field
from datetime import date, timedelta

from uttab_tools.names import DAY_NAMES, rows_of
from uttab_tools.program import FileFault, Usage

KINDS = ("holiday", "pause")
HEAD = ["kind", "first", "last", "name"]


def a_date(text: str) -> date:
    if not re.fullmatch(r"\d{4}-\d{2}-\d{2}", text, re.ASCII):
        raise ValueError(f"{text!r} is no date such as 2026-10-05")
    try:
        return date.fromisoformat(text)
    except ValueError as error:
        raise ValueError(f"{text!r} is no date: {error}") from None


@dataclass
class Term:
    """A term that begins on a day. A holiday has no classes, and a pause is a time of whole weeks that don't count: the week
    after it has the next number."""

    first: date
    holidays: set[date] = field(default_factory=set)
    pauses: set[date] = field(default_factory=set)

    def dates(self, days: int, weeks: int, later: int = 0) -> list[date]:
        """The days on which something meets that has these days and weeks, without holidays. `later` is how many days after
        its day it begins, which is 1 for a class after midnight."""
        found = []
        monday = self.first
        week = 0
        while weeks >> week:
            while monday in self.pauses:
                monday += timedelta(7)
            if weeks >> week & 1:
                found += [day + timedelta(later) for place in range(7) if days >> place & 1
                          and (day := monday + timedelta(place)) not in self.holidays]
            week += 1
            monday += timedelta(7)
        return sorted(found)


def read_term(first: date, file: str | None, first_name: str) -> Term:
    """The term that begins on this day, with the holidays and pauses of a CSV file `kind,first,last,name`."""
    if first_name in DAY_NAMES and first.weekday() != DAY_NAMES.index(first_name):
        raise Usage(f"--first-day {first}: is a {DAY_NAMES[first.weekday()]}, and the week begins with {first_name}")
    term = Term(first)
    for line, row in rows_of(file) if file else []:
        fields = [" ".join(one.split()) for one in row]
        if not any(fields) or [one.lower() for one in fields] == HEAD[:len(fields)]:
            continue
        try:
            _enter(term, fields)
        except ValueError as error:
            raise FileFault(f"{file}: line {line}: {error}") from None
    return term


def _enter(term: Term, fields: list[str]) -> None:
    if not 2 <= len(fields) <= 4:
        raise ValueError(f"has {len(fields)} fields in place of kind, first, last and name")
    kind, first = fields[0].lower(), a_date(fields[1])
    last = a_date(fields[2]) if len(fields) > 2 and fields[2] else first
    if kind not in KINDS:
        raise ValueError(f"{fields[0]!r} is no kind: {', '.join(KINDS)}")
    if last < first:
        raise ValueError(f"{last} is before {first}")
    days = [first + timedelta(place) for place in range((last - first).days + 1)]
    if kind == "holiday":
        term.holidays.update(days)
    elif len(days) % 7 or (first - term.first).days % 7:
        raise ValueError("a pause is of whole weeks, from the first day of one to the last day of one")
    else:
        term.pauses.update(days)
