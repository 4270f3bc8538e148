"""Reads and writes sheets: CSV files whose first line has the names of the columns. A fault names the file and the line."""

import csv
import io
import re
from collections.abc import Callable, Container, Iterable, Iterator
from pathlib import Path
from typing import NoReturn, TypeVar

from uttab_tools import limits
from uttab_tools.limits import Range
from uttab_tools.names import rows_of
from uttab_tools.program import FileFault
from uttab_tools.times import Time
from uttab_tools.words import NoWords, days_of, slot_of, weeks_of

# The apostrophe that is written before what a spreadsheet would take for a formula.
FORMULA = re.compile(r"^'(?=[=+\-@])")
# A column that everyone may have for themselves.
NOTE = "note"
Found = TypeVar("Found")


class Row:
    """A line of a sheet, by the names of its columns."""

    def __init__(self, file: str, line: int, fields: dict[str, str]) -> None:
        self.file, self.line, self.fields = file, line, fields

    def fault(self, words: str) -> NoReturn:
        raise FileFault(f"{self.file}: line {self.line}: {words}")

    def text(self, column: str) -> str:
        """A field, empty where it is or the column is absent."""
        return self.fields.get(column, "")

    def needed(self, column: str) -> str:
        if not self.text(column):
            self.fault(f"{column} is empty")
        return self.text(column)

    def number(self, column: str, within: Range = limits.ID, absent: int | None = None) -> int:
        text = self.text(column)
        if not text and absent is not None:
            return absent
        return self.number_in(self.needed(column), column, within)

    def number_in(self, text: str, column: str, within: Range = limits.ID) -> int:
        if not (text.isascii() and text.isdecimal() and len(text) <= 20):
            self.fault(f"{column}: {text[:60]!r} is no number")
        if int(text) not in within:
            self.fault(f"{column}: {text} isn't within {within.least} to {within.most}")
        return int(text)

    def known(self, column: str, among: Container[int], words: str) -> int:
        """The id of a part that is there."""
        found = self.number(column)
        if found not in among:
            self.fault(f"{column}: there is no {words} {found}")
        return found

    def read(self, column: str, reader: Callable[[str, int], Found], count: int) -> Found:
        """A field in words."""
        try:
            return reader(self.text(column), count)
        except NoWords as error:
            self.fault(f"{column}: {error}")

    def time(self, days: int, weeks: int, slots: int) -> Time:
        """The time of the columns days, begin, end and weeks. A time that ends by the hour at which it begins goes on after
        midnight."""
        self.needed("days"), self.needed("begin"), self.needed("end")
        start, end = self.read("begin", slot_of, slots), self.read("end", slot_of, slots)
        if end <= start:
            end += slots
        if end > limits.LAST_SLOT:
            self.fault(f"end: ends after slot {limits.LAST_SLOT}")
        return Time(self.read("days", days_of, days), self.read("weeks", weeks_of, weeks), start, end - start)


def rows(file: Path | str, columns: str, may_have: str = "", may_be_absent: bool = False) -> Iterator[Row]:
    """The lines of a sheet that has these columns and may have those. Empty lines are skipped."""
    if may_be_absent and not Path(file).exists():
        return
    name, head = str(file), list[str]()
    for line, fields in rows_of(name):
        found = [FORMULA.sub("", " ".join(field.split())) for field in fields]
        if not any(found):
            continue
        if not head:
            head = [field.lower() for field in found]
            _check_head(name, line, head, columns.split(","), may_have.split(",") if may_have else [])
            continue
        if any(found[len(head):]):
            raise FileFault(f"{name}: line {line}: has {len(found)} fields, and the first line has {len(head)}")
        yield Row(name, line, dict(zip(head, found)))
    if not head:
        raise FileFault(f"{name}: is empty: its first line has the columns {columns}")


def _check_head(name: str, line: int, head: list[str], columns: list[str], may_have: list[str]) -> None:
    for column in columns:
        if column not in head:
            raise FileFault(f"{name}: line {line}: there is no column {column!r} among {', '.join(head)}")
    for column in head:
        if head.count(column) > 1:
            raise FileFault(f"{name}: line {line}: the column {column!r} stands twice")
        if column not in (*columns, *may_have, NOTE, ""):
            raise FileFault(f"{name}: line {line}: there may be no column {column!r}, but for {', '.join([*columns, *may_have, NOTE])}")


def plain(value: object) -> str:
    """A field that no spreadsheet takes for a formula: one that begins like a formula gets an apostrophe before it."""
    text = str(value)
    return f"'{text}" if text[:1] in ("=", "+", "-", "@", "\t", "\r") else text


def csv_text(rows: Iterable[Iterable[object]]) -> str:
    text = io.StringIO()
    csv.writer(text, lineterminator="\n").writerows([plain(value) for value in row] for row in rows)
    return text.getvalue()
