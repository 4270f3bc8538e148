"""The log of a desk: a script of all accepted commands, which `uttab run` carries out to the same timetable.

A comment before a command has the time of day and what the step is called, one after it the totals of its reply. `#-`
begins a step, `#+` goes on with it. What is kept at once ends in a comment `#=`, and each command of it before the last
has `#,` there: what ends otherwise was never answered. An entry is in the file, and the disk told to keep it, before
anyone learns of the reply."""

import errno
import fcntl
import os
import time
from collections.abc import Iterable, Sequence
from dataclasses import dataclass
from pathlib import Path

from uttab_tools.program import FileFault

FIRST_LINE = "# A session of the desk. It is a script: uttab run PROBLEM THIS [PUBLISHED]"
STAMP = "%Y-%m-%d %H:%M:%S"
BEFORE, AFTER, LAST = ("#- ", "#+ "), ("#, ", "#= "), "#= "
LABEL_AT = len("#- 2026-10-05 09:00:00 ")


@dataclass(frozen=True, slots=True)
class Entry:
    """An accepted command, the totals of its reply, whether it belongs to the step before, and what the step is called."""

    line: str
    totals: str | None
    joined: bool
    label: str


class Log:
    """The file. It is locked as long as it is open, so that no second desk writes to it."""

    def __init__(self, path: Path, heading: str) -> None:
        self.path = path
        try:
            self.file = os.open(path, os.O_RDWR | os.O_CREAT | os.O_APPEND, 0o600)
        except OSError as error:
            raise FileFault(f"{path}: {error.strerror}") from None
        try:
            fcntl.flock(self.file, fcntl.LOCK_EX | fcntl.LOCK_NB)
        except OSError:
            os.close(self.file)
            raise FileFault(f"{path}: another desk has this log open") from None
        self.size = 0
        self.entries = list(entries_of(self._lines(heading)))

    def _lines(self, heading: str) -> list[str]:
        """The lines after the front of the log, which a new one gets. What isn't whole at the end was never answered, and
        is taken off. A file that isn't this log stays as it is."""
        front, content = f"{FIRST_LINE}\n{heading}\n".encode(), self.path.read_bytes()
        if not content.startswith(front) and not front.startswith(content):
            self.close()
            what = "the log of another problem or published file" if content.startswith(FIRST_LINE.encode()) else "no log of a desk"
            raise FileFault(f"{self.path}: is {what}")
        lines = without_torn(content[len(front):content.rfind(b"\n") + 1].decode(errors="surrogateescape").split("\n")[:-1])
        if len(content) < len(front):
            os.ftruncate(self.file, 0)
            self._append([FIRST_LINE, heading])
            sync_folder(self.path.parent)
            return []
        self.size = len(front) + sum(len(line.encode(errors="surrogateescape")) + 1 for line in lines)
        os.ftruncate(self.file, self.size)
        return lines

    def keep(self, entries: Sequence[Entry]) -> None:
        """Adds entries. Where that fails the file is as it was."""
        stamp = time.strftime(STAMP)
        lines = []
        for entry in entries:
            lines += [f"#{'+' if entry.joined else '-'} {stamp} {entry.label}", entry.line,
                      f"#{'=' if entry is entries[-1] else ','} {entry.totals}"]
        self._append(lines)
        self.entries += entries

    def _append(self, lines: Iterable[str]) -> None:
        text = "".join(line + "\n" for line in lines).encode()
        own, there = os.fstat(self.file), os.stat(self.path)
        if (own.st_size, own.st_dev, own.st_ino) != (self.size, there.st_dev, there.st_ino):
            raise OSError(errno.EBUSY, "another program has changed it")
        try:
            written = os.write(self.file, text)
            if written < len(text):
                raise OSError(errno.ENOSPC, os.strerror(errno.ENOSPC))
            os.fsync(self.file)
        except OSError:
            os.ftruncate(self.file, self.size)
            raise
        self.size += len(text)

    def close(self) -> None:
        os.close(self.file)


def sync_folder(path: Path) -> None:
    """Tells the disk to keep the names of a folder's files."""
    folder = os.open(path, os.O_RDONLY | os.O_DIRECTORY)
    try:
        os.fsync(folder)
    finally:
        os.close(folder)


def without_torn(lines: list[str]) -> list[str]:
    """The lines without what was kept at once at the end and isn't whole. What someone wrote by hand has no comment of the
    desk before it, and stays."""
    last = max((place for place, line in enumerate(lines) if line.startswith(LAST)), default=-1)
    begun = [place for place in range(last + 1, len(lines)) if lines[place].startswith(BEFORE)]
    if not begun or any(lines[place].startswith("#- ") for place in begun[1:]):
        return lines
    return lines[:begun[0]]


def entries_of(lines: Iterable[str]) -> Iterable[Entry]:
    """The commands of a log. A command that someone wrote into it by hand is a step of its own."""
    joined, label, line = False, "", ""
    for one in lines:
        totals = one[len(LAST):] if one.startswith(AFTER) else None
        if line:
            yield Entry(line, totals, joined, label or line)
            joined, label, line = False, "", ""
        if one.startswith(BEFORE):
            joined, label = one[1] == "+", one[LABEL_AT:]
        elif not one.lstrip().startswith("#"):
            line = " ".join(one.split())
    if line:
        yield Entry(line, None, joined, label or line)


def without_undone(entries: list[Entry]) -> list[Entry]:
    """Leaves out each command that was undone, with its `undo`: the desk was then as before. What was published in
    between stays, and so does what it needs."""
    left: list[Entry] = []
    for entry in entries:
        if entry.line == "undo" and left and left[-1].line not in ("undo", "publish"):
            left.pop()
        else:
            left.append(entry)
    return left
