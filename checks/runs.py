"""Runs of the built program over worked cases: what the checks share."""

import argparse
import os
import re
import signal
import subprocess
import sys
import tempfile
from collections.abc import Callable, Iterable, Iterator, Sequence
from concurrent.futures import ThreadPoolExecutor
from dataclasses import dataclass
from pathlib import Path
from typing import Any

HERE = Path(__file__).resolve().parent
PROGRAM = HERE.parent / "crates/uttab/out/uttab"
DATA = HERE.parent / "crates/worked_cases/data"

UNREADABLE = 5
UNWRITABLE = 6
NO_MEMORY = 7
TOLD = (5, 6, 7, 8)  # the statuses that come with a line on the standard error
SHOWN = 5  # wrong runs of one case that are written whole
CALLS = ("open", "read", "write", "tell")  # kinds of calls on files: a write to the standard error is one that tells
ERRORS = ("EIO", "ENOSPC", "EPIPE", "EISDIR", "EINTR")
FEW = 100  # failures of one kind that are tried in a case, where there are more than can be tried


class Stop(Exception):
    """Why a check can't be made."""


@dataclass(frozen=True)
class Case:
    """A worked case: its name, and the words that the program is given where it runs, in the folder of the cases."""

    name: str
    words: tuple[str, ...]


@dataclass(frozen=True)
class Done:
    """A run: its status, what it wrote on the output and on the standard error, and the counts of the library in front of it.
    The status is minus the number of a signal where one ended the run, and None where it didn't end in time."""

    status: int | None
    text: bytes
    told: bytes
    counts: dict[str, int]


def lines_of(path: Path) -> list[list[str]]:
    """The lines of a list that aren't empty and no comment, each as its words."""
    lines = (line.split() for line in path.read_text(encoding="utf-8").splitlines())
    return [words for words in lines if words and not words[0].startswith("#")]


def place_of(name: str, word: str) -> str:
    """The path of a file of a case. It is looked for in the case's folder, and then beside the list."""
    return f"{name}/{word}" if (DATA / name / word).is_file() else word


def chosen_cases(only: Sequence[str] | None) -> list[Case]:
    """The cases of the list whose names have one of these words, or all of them where there is none."""
    words_of = {name: words for name, *words in lines_of(DATA / "cases.txt")}
    cases = []
    for [name] in lines_of(HERE / "cases.txt"):
        if name not in words_of:
            raise Stop(f"cases.txt: there is no worked case {name}")
        form, *files = words_of[name]
        if not only or any(word in name for word in only):
            cases.append(Case(name, (form, *(place_of(name, file) for file in files))))
    if not cases:
        raise Stop("no case has such a name")
    return cases


def program_at(path: str | Path) -> str:
    """The whole path of a program."""
    whole = Path(path).resolve()
    if not (whole.is_file() and os.access(whole, os.X_OK)):
        raise Stop(f"there is no program {path}: ./uttab makes the one of this repository")
    return str(whole)


class Program:
    """The built program, with a small library in front of the C library."""

    def __init__(self, path: str | Path, source: str, folder: str, seconds: int) -> None:
        self.path = program_at(path)
        self.library = f"{folder}/{Path(source).stem}.so"
        self.seconds = seconds
        words = ["cc", "-std=c11", "-O2", "-Wall", "-Wextra", "-shared", "-fPIC", "-o", self.library, str(HERE / source)]
        try:
            subprocess.run(words, check=True)
        except (OSError, subprocess.CalledProcessError) as fault:
            raise Stop(f"{source} can't be compiled: {fault}") from fault

    def run(self, case: Case, **settings: object) -> Done:
        """Runs a case. The settings are variables that the library reads."""
        reader, writer = os.pipe()
        environment = {"LD_PRELOAD": self.library, "CHECK_REPORT": str(writer), **{key: str(value) for key, value in settings.items()}}
        try:
            done = subprocess.run([self.path, *case.words], cwd=DATA, env=environment, stdin=subprocess.DEVNULL,
                                  capture_output=True, pass_fds=(writer,), timeout=self.seconds)
        except subprocess.TimeoutExpired as fault:
            return Done(None, fault.stdout or b"", fault.stderr or b"", {})
        finally:
            os.close(writer)
            with open(reader, "rb") as report:
                words = report.read().split()
        counts = {words[place].decode(): int(words[place + 1]) for place in range(0, len(words), 2)}
        return Done(done.returncode, done.stdout, done.stderr, counts)


def fronts_of(case: Case, text: bytes) -> set[int]:
    """The lengths of the fronts of a text that a run may leave that ends before its time: nothing, the first line, and so on
    by one whole reply each. A reply ends with the line of totals or of a refusal. What `verify` writes is one piece."""
    if case.words[0] == "verify":
        return {0, len(text)}
    ends = [line.end() for line in re.finditer(rb"[^\n]*\n", text)]
    starts = [0, *ends]
    whole = {end for start, end in zip(starts, ends) if text.startswith((b"ok ", b"refused "), start)}
    return {0, *ends[:1], *whole}


class Plain:
    """The run of a case in which nothing fails."""

    def __init__(self, case: Case, done: Done) -> None:
        self.done = done
        self.fronts = fronts_of(case, done.text)
        # Memory may be wanting after all of the text only where that is empty, or the first line before a script.
        self.may_be_whole = not done.text or (case.words[0] == "run" and len(self.fronts) == 2)

    def is_like(self, done: Done) -> bool:
        return (done.status, done.text) == (self.done.status, self.done.text)

    def early_fault(self, done: Done) -> str | None:
        """What is wrong, in words, with what a run wrote that ended before its time. None where nothing is."""
        if not self.done.text.startswith(done.text):
            return "what it wrote is no front of the text"
        if len(done.text) not in self.fronts:
            return "what it wrote ends within a reply"
        return told_fault(done.status, done.told)


def failed_call_fault(plain: Plain, kind: str, error: str, done: Done) -> str | None:
    """What is wrong with a run of which a call of this kind failed, in words. None where nothing is."""
    if kind == "tell" or error == "EINTR":
        return None if plain.is_like(done) else f"{status_in_words(done.status)}, or wrote another text"
    status = UNWRITABLE if kind == "write" else UNREADABLE
    if done.status != status:
        return f"{status_in_words(done.status)}, not with {status}"
    if kind == "write":
        return told_fault(status, done.told) if plain.done.text.startswith(done.text) else "what it wrote is no front of the text"
    return plain.early_fault(done)


def told_fault(status: int | None, told: bytes) -> str | None:
    """What is wrong, in words, with what a run that ended with this status told on the standard error. None where nothing is."""
    lines = b"uttab: [^\n]+\n" if status in TOLD else b"(uttab: [^\n]+\n)?"
    return None if re.fullmatch(lines, told) else f"told {told[:200]!r} on the standard error"


def status_in_words(status: int | None) -> str:
    if status is None:
        return "didn't end in time"
    return f"ended with {status}" if status >= 0 else f"was ended by {signal.Signals(-status).name}"


def some_of(count: int, most: int) -> Sequence[int]:
    """The numbers from 1 to a count, or so many of them at most: half of these the first, the others evenly over the rest,
    with the last."""
    if count <= most:
        return range(1, count + 1)
    first = most // 2
    rest = most - first
    return [*range(1, first + 1), *(first + (count - first) * step // rest for step in range(1, rest + 1))]


@dataclass
class Tally:
    """What was tried of one case: how many runs, and what is wrong in words for each that was wrong."""

    tried: int
    wrong: list[str]

    def write(self) -> None:
        for words in self.wrong[:SHOWN]:
            print(f"  wrong: {words}")
        if len(self.wrong) > SHOWN:
            print(f"  and {len(self.wrong) - SHOWN} more")
        sys.stdout.flush()


def parser_of(name: str, text: str | None) -> argparse.ArgumentParser:
    parser = argparse.ArgumentParser(prog=name, description=text, formatter_class=argparse.RawDescriptionHelpFormatter,
                                     epilog="status: 0 nothing was wrong; 1 a run was wrong; 2 the check can't be made")
    parser.add_argument("program", metavar="PROGRAM", nargs="?", default=PROGRAM, help="the built program; else the one that ./uttab makes")
    parser.add_argument("--only", metavar="WORD", action="append", help="cases with this word in their names alone; may be given again")
    parser.add_argument("--most", metavar="N", type=int,
                        help="failures of one kind that are tried in a case, at most (`calls`: 100; `memory`: all of up to 1,000, else 100)")
    parser.add_argument("--at", metavar="N", type=int, help="the Nth failure of each kind alone")
    parser.add_argument("--jobs", metavar="N", type=int, default=os.cpu_count(), help="runs at a time (the number of processors)")
    parser.add_argument("--seconds", metavar="N", type=int, default=60, help="the time that a run may take (60)")
    return parser


def numbers(at: int | None, count: int, most: int) -> Sequence[int]:
    """Which failures of so many are tried: one alone, or so many at most."""
    if at is not None:
        return [at] if at <= count else []
    return some_of(count, most)


InTurn = Callable[[Callable[[Any], Done], Iterable[Any]], Iterator[Done]]  # makes runs side by side, and answers them in turn
CheckCase = Callable[[Program, Case, argparse.Namespace, InTurn], Tally]


def carry_out(name: str, given: argparse.Namespace, source: str, check_case: CheckCase) -> int:
    """Makes a check: compiles its library, and hands each case to `check_case`, which writes its line and answers its tally."""
    try:
        with tempfile.TemporaryDirectory() as folder, ThreadPoolExecutor(given.jobs) as pool:
            program = Program(given.program, source, folder, given.seconds)
            tallies = [check_case(program, case, given, pool.map) for case in chosen_cases(given.only)]
    except Stop as stop:
        print(f"{name}: {stop}", file=sys.stderr)
        return 2
    tried = sum(tally.tried for tally in tallies)
    wrong = sum(len(tally.wrong) for tally in tallies)
    print(f"{name}: {len(tallies)} cases, {tried:,} runs, {wrong:,} wrong")
    return 1 if wrong else 0
