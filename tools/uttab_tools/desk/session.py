"""A desk's session: the program, its log, and the steps that can be taken back.

It says nothing about the timetable by itself. It passes lines on, hands replies back, and knows beside which lines were
accepted. But for `stop`, `end`, `state` and `wait` its calls are made by one thread, so that each is whole before the
next begins."""

import json
import os
import threading
import time
from collections.abc import Sequence
from dataclasses import dataclass
from pathlib import Path

from uttab_tools.desk.log import Entry, Log, without_undone
from uttab_tools.desk.process import Ended, Process, Reply, accepted
from uttab_tools.desk.search import LOWERING, PLACING, Search
from uttab_tools.program import FileFault
from uttab_tools.published import Published

QUESTIONS = {"totals", "explain", "why", "stats", "suggest", "values", "violations", "student", "meets", "costs"}
NEWER = {"place", "deluge"}  # searches that a program may lack
SEARCHES = PLACING | LOWERING
CHANGES = {"assign", "unassign", "force", "section", "drop", "enrol", "recall", "close", "reopen", "lock", "unlock"} | SEARCHES

MOST_CHARACTERS = 65_000
MOST_STEPS = 200

# The program reads a script of 128 MiB at most. Before that another takes its place.
MOST_SENT = 128 * 2**20 - 2**18


class Unasked(Exception):
    """A request that was never sent to the program, or that it didn't answer. The text says why."""


@dataclass
class Step:
    """What the user did at once, which is taken back at once: its commands, and the totals after it."""

    label: str
    lines: list[str]
    totals: str


def checked(line: str, words: set[str]) -> str:
    """A line that has one reply and begins with one of these words."""
    parts = line.split(" ")
    if len(line) > MOST_CHARACTERS:
        raise Unasked("The line is too long.")
    if not line.isascii() or not line.isprintable():
        raise Unasked("A line has letters, digits and spaces alone.")
    if parts[0] not in words:
        raise Unasked(f"{parts[0]!r} is nothing that can be asked here." if parts[0] else "The line is empty.")
    return line


def write_whole(path: Path, text: str) -> None:
    """Writes a file, and tells the disk to keep it. Where that fails there is none."""
    try:
        with path.open("w", encoding="ascii") as file:
            file.write(text)
            file.flush()
            os.fsync(file.fileno())
    except OSError:
        path.unlink(missing_ok=True)
        raise


def label_of(text: str, line: str) -> str:
    """What a step is called: printable, and without the marks that turn the direction of a text."""
    return "".join(one for one in text if one.isprintable())[:200].strip() or line


class Session:
    """The session of a problem. `words` begin the program; `save` is where `publish` writes the timetable."""

    def __init__(self, words: Sequence[str], log: Log, save: Path, published: str | None) -> None:
        self.words, self.log, self.save = words, log, save
        self.given = published
        self.published = published
        self.steps: list[Step] = []
        self.search: Search | None = None
        self.notice: dict[str, object] | None = None
        self.replaying: str | None = None
        self.fault: str | None = None
        self.behind = False  # whether the program isn't where the log ends: another has to take its place first
        self.ending = False
        self.asked = 0  # how often something was asked, as whoever asks counts it
        self.version = 0  # goes up with each command that is carried out
        self.seen = 0
        self.changed = threading.Condition()
        self.process = self._started()
        self.totals = self.process.ask(["totals"])[0][-1]
        self.knows = self._what_it_knows()
        self._replay()
        try:
            self._put_in_place()
        except Unasked as fault:
            raise FileFault(str(fault)) from None

    def _started(self) -> Process:
        process = Process(self.words)
        if not process.opening.startswith("open "):
            process.end()
            raise FileFault(f"uttab: {process.opening}")
        return process

    def _what_it_knows(self) -> list[str]:
        """The newer searches that the program has. A turn of none is made, and taken back."""
        found = []
        for word in sorted(NEWER):
            if accepted(self.process.ask([f"{word} 0 1"])[0]):
                self.process.ask(["undo"])
                found.append(word)
        if not accepted(self.process.ask(["costs"])[0]):
            self.process.end()
            raise FileFault("uttab: this program is too old for the desk: it has no command `costs`")
        return found

    # What is asked.

    def ask(self, lines: Sequence[str], which_locked: Sequence[int] = ()) -> tuple[list[Reply], list[int]]:
        """The replies to questions, and which of these classes are locked, all of one moment."""
        for line in lines:
            checked(line, QUESTIONS)
        return self._ask_all(lines), self._locked(which_locked)

    def _locked(self, classes: Sequence[int]) -> list[int]:
        """No command tells what is locked, but `unlock` of another class is refused. What was accepted is taken back."""
        replies = self._ask_all([f"unlock {one}" for one in classes])
        found = [one for one, reply in zip(classes, replies) if accepted(reply)]
        self._ask_all(["undo"] * len(found))
        return found

    def draft(self) -> str:
        """The present timetable on one line, as a published file."""
        reply = self._ask_all(["draft"])[0]
        if not accepted(reply):
            raise Unasked(f"There is no draft: {reply[-1]}")
        return reply[0]

    # What changes something.

    def do(self, lines: Sequence[str], label: str) -> list[Reply]:
        """Commands that are one step. Where one is refused none of them is done."""
        self._free()
        for line in lines:
            checked(line, CHANGES)
        if not lines:
            raise Unasked("There is no line.")
        label = label_of(label, lines[0])
        replies: list[Reply] = []
        for line in lines:
            replies.append(self._ask_all([line])[0])
            if not accepted(replies[-1]):
                self._ask_all(["undo"] * (len(replies) - 1))
                return replies[-1:]
        entries = [Entry(line, reply[-1], place > 0, label) for place, (line, reply) in enumerate(zip(lines, replies))]
        self._keep(entries)
        for entry in entries:
            self._note(entry)
        return replies

    def undo(self, count: int) -> list[Reply]:
        """Takes back the last steps."""
        self._free()
        if count < 1:
            raise Unasked("No step is to be undone.")
        lines = sum(len(step.lines) for step in self.steps[len(self.steps) - min(count, len(self.steps)):])
        replies = self._ask_all(["undo"] * max(1, lines))
        if not accepted(replies[-1]):
            return replies[-1:]
        entries = [Entry("undo", reply[-1], place > 0, "undo") for place, reply in enumerate(replies)]
        self._keep(entries)
        for entry in entries:
            self._note(entry)
        return replies[-1:]

    def publish(self) -> Reply:
        """Publishes the timetable, and writes the file: beside it first, so that what can't be written isn't published."""
        self._free()
        reply = self._ask_all(["publish"])[0]
        if accepted(reply):
            entry = Entry("publish", reply[-1], False, "publish")
            try:
                write_whole(self._part(), reply[0] + "\n")
            except OSError as error:
                self._begin_anew()
                raise Unasked(f"{self.save} can't be written: {error.strerror}. Nothing is published.") from None
            try:
                self._keep([entry])
            except Unasked:
                self._part().unlink(missing_ok=True)
                raise
            self.published = reply[0]
            self._note(entry)
            self._put_in_place()
        return reply[-1:]

    def _part(self) -> Path:
        return self.save.with_name(self.save.name + ".part")

    def _put_in_place(self) -> None:
        """Gives the published file its name, now or, where the desk was ended in between, when it begins again."""
        part = self._part()
        try:
            if self.published is not None and part.exists() and part.read_text(encoding="ascii") == self.published + "\n":
                part.replace(self.save)
        except (OSError, UnicodeDecodeError) as error:
            raise Unasked(f"It is published, but {part} can't be renamed to {self.save}: {error}.") from None

    def _free(self) -> None:
        if self.search:
            raise Unasked("A search is running: stop it first.")

    def _keep(self, entries: list[Entry]) -> None:
        """Writes to the log. What can't be kept isn't done: the desk is as its log says."""
        try:
            self.log.keep(entries)
        except OSError as error:
            self._begin_anew()
            raise Unasked(f"The log {self.log.path} can't be written: {error.strerror}. "
                          "The command is taken back; all before it is kept.") from None

    def _note(self, entry: Entry) -> None:
        """Takes note of a command that is kept."""
        self.totals = entry.totals or self.totals
        self.version += 1
        if entry.line == "undo":
            self.steps[-1].lines.pop()
            if self.steps[-1].lines:
                self.steps[-1].totals = self.totals
            else:
                self.steps.pop()
        elif entry.line != "publish":
            if entry.joined and self.steps:
                self.steps[-1].lines.append(entry.line)
                self.steps[-1].totals = self.totals
            else:
                self.steps.append(Step(entry.label, [entry.line], self.totals))
        self.tell()

    # A search.

    def start(self, word: str, seconds: float, seed: int) -> None:
        self._free()
        if word not in SEARCHES - NEWER | set(self.knows):
            raise Unasked(f"{word!r} is no search.")
        if not (0 < seconds <= 86_400 and 0 <= seed < 2**63):
            raise Unasked("A search has a time of at most a day, and a seed.")
        self.search = Search(word, seconds, seed, self.totals)
        self.notice = None
        self.tell()

    def slice(self) -> bool:
        """A slice of the running search. The answer is whether there is another."""
        search = self.search
        if search is None:
            return False
        try:
            why = search.over() or self._slice(search)
        except Unasked as fault:
            why = "stopped at once" if search.stopping else str(fault)
        if why:
            self._end_search(search, why)
        return not why

    def _slice(self, search: Search) -> str | None:
        line, asked = search.line(), self.asked
        began = time.monotonic()
        reply = self._ask_all([line])[0]
        took = time.monotonic() - began
        if not accepted(reply):
            return reply[-1]
        better = reply[-1] != self.totals
        if better:
            entry = Entry(line, reply[-1], search.kept > 0, label_of(f"{search.word} for {search.seconds:g} s", line))
            self._keep([entry])
            self._note(entry)
        else:
            self._ask_all(["undo"])
        made = int(reply[0].split(" ")[1])
        why = search.after_slice(made, took, better, " unplaced 0 " in reply[-1], self.asked != asked)
        self.tell()
        return why

    def _end_search(self, search: Search, why: str) -> None:
        self.search = None
        self.notice = {"word": search.word, "why": why, "turns": search.turns, "seconds": search.gone(), "from": search.opening}
        self.tell()

    # The program, and another that takes its place.

    def _ask_all(self, lines: Sequence[str]) -> list[Reply]:
        """Asks the program. Where it has ended, another takes its place, at the end of the log."""
        if self.behind:
            self._begin_anew()
        try:
            return self.process.ask(lines)
        except Ended as ended:
            self._begin_anew()
            raise Unasked(f"{ended} Another took its place, and the desk is as its log says.") from None

    def keep_fresh(self) -> None:
        """Begins the program anew where it has read nearly as much as it reads. A search goes on."""
        if self.process.sent > MOST_SENT:
            search, self.search = self.search, None
            self._begin_anew()
            self.search = search

    def _begin_anew(self) -> None:
        """Another program takes the place of this one, and is brought to the end of the log. Where that fails nothing is
        asked or done, until it is tried again with success."""
        if self.ending:
            raise Unasked("The desk has ended.")
        if self.search:
            self._end_search(self.search, "the program ended")
        self.behind, self.replaying = True, f"0 of {len(self.log.entries)}"
        self.tell()
        self.process.end()
        try:
            self.process = self._started()
            self._replay()
        except (Ended, FileFault, OSError) as error:
            self.replaying, self.fault = None, f"The desk can’t go on: {error}"
            self.tell()
            raise Unasked(self.fault) from None
        self.behind, self.fault = False, None

    def _replay(self) -> None:
        """Brings a program that has just begun to the end of the log."""
        self.steps, self.published = [], self.given
        entries = self.log.entries = without_undone(self.log.entries)
        for place, entry in enumerate(entries):
            self.replaying = f"{place} of {len(entries)}"
            self.tell()
            try:
                reply = self.process.ask([checked(entry.line, CHANGES | {"undo", "publish"})])[0]
            except Unasked as fault:
                raise FileFault(f"{self.log.path}: {entry.line!r}: {fault}") from None
            if not accepted(reply) or (entry.totals and reply[-1] != entry.totals):
                raise FileFault(f"{self.log.path}: {entry.line!r} is answered {reply[-1]!r}"
                                + (f" and not {entry.totals!r}" if entry.totals else ""))
            if entry.line == "publish":
                self.published = reply[0]
            self._note(Entry(entry.line, reply[-1], entry.joined, entry.label))
        self.replaying = None
        self.tell()

    # What follows is called by any thread.

    def tell(self) -> None:
        with self.changed:
            self.seen += 1
            self.changed.notify_all()

    def wait(self, seen: int, seconds: float) -> None:
        """Waits until something has changed since then."""
        with self.changed:
            self.changed.wait_for(lambda: self.seen != seen, seconds)

    def stop(self, at_once: bool) -> None:
        if self.search:
            self.search.stopping = True
        if at_once:
            self.behind = True
            self.process.kill()
        self.tell()

    def end(self) -> None:
        self.ending = True
        self.process.kill()

    def state(self) -> dict[str, object]:
        search = self.search
        steps = self.steps
        return {
            "seen": self.seen, "version": self.version, "totals": self.totals, "said": self.process.said, "notice": self.notice,
            "replaying": self.replaying, "fault": self.fault, "published": self.published is not None, "knows": self.knows,
            "closures": closures(steps), "stepCount": len(steps),
            "steps": [{"label": step.label, "count": len(step.lines), "totals": step.totals} for step in steps[-MOST_STEPS:]],
            "search": search and {"word": search.word, "seconds": search.seconds, "gone": search.gone(), "turns": search.turns,
                                  "idle": search.idle, "from": search.opening, "stopping": search.stopping},
        }


def closures(steps: Sequence[Step]) -> list[list[object]]:
    """The closures that aren't lifted: the lines `close` that no `reopen` of the room follows."""
    found: list[list[object]] = []
    for step in list(steps):
        for line in step.lines:
            word, *rest = line.split()
            if word == "close":
                found.append([int(rest[0]), rest[1], int(rest[2]), int(rest[3]), rest[4]])
            elif word == "reopen":
                found = [one for one in found if one[0] != int(rest[0])]
    return found


def published_text(published: Published) -> str:
    """A published file on one line, in the form in which `publish` writes one."""
    return json.dumps({"classes": [
        {"id": one.id, "days": one.texts[0], "weeks": one.texts[1], "start": one.start, "room": one.room, "students": one.students}
        for one in published.classes]})


def moved(published: str, draft: str) -> list[dict[str, object]]:
    """The published classes that the draft has at other days, weeks, another start or room, or not at all."""
    now = {one["id"]: one for one in json.loads(draft)["classes"]}
    keys = ("days", "weeks", "start", "room")
    return [{key: one.get(key) for key in ("id", *keys)} for one in json.loads(published)["classes"]
            if [one.get(key) for key in keys] != [now.get(one["id"], {}).get(key) for key in keys]]
