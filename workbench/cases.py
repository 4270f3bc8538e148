"""Carries out worked cases by the built program, and compares what they write with `crates/worked_cases/stdout`.

The program is the one that UTTAB names, else the proved one, else the one that `./uttab try` compiled. `rt ci` carries the
cases out over files in memory; here they are files of the system, and the same must come."""

import difflib
import hashlib
import os
import subprocess
import sys
import tempfile
from collections.abc import Iterator
from dataclasses import dataclass
from pathlib import Path

from repository import CRATES, Stop

DATA = CRATES / "worked_cases/data"
STDOUT = CRATES / "worked_cases/stdout"
PROGRAMS = ("uttab", "tried")
MOST_OF_A_LINE = 100  # bytes of the last line of an output that is written as its summary


@dataclass(frozen=True)
class Case:
    """A case: its name, its words, and the name under which later cases find its output, if there is one."""

    name: str
    words: list[str]
    keep_as: str | None


def listed_cases() -> list[Case]:
    found = []
    for line in (DATA / "cases.txt").read_text(encoding="utf-8").splitlines():
        front, _, keep_as = line.partition(" > ")
        if front and not front.startswith("#"):
            name, *words = front.split()
            found.append(Case(name, words, keep_as or None))
    return found


def program() -> str:
    built = [str(CRATES / "uttab/out" / name) for name in PROGRAMS]
    for path in [os.environ.get("UTTAB", ""), *built]:
        if path and os.access(path, os.X_OK):
            return str(Path(path).resolve())
    raise Stop("there is no program: ./uttab builds it, ./uttab try compiles it unproved, UTTAB names another one")


def place_of(case: Case, word: str, kept: Path) -> str:
    """The path of a file of a case: an earlier output, a file in its folder, or one beside the list."""
    places = (kept / word, DATA / case.name / word, DATA / word)
    return next((str(place) for place in places if place.is_file()), word)


def summary(output: bytes) -> bytes:
    """What is written of a long output."""
    last = output.removesuffix(b"\n").rpartition(b"\n")[2][:MOST_OF_A_LINE]
    digest = hashlib.md5(output, usedforsecurity=False).hexdigest()
    return f"bytes {len(output)} lines {output.count(10)} md5 {digest}\n".encode() + last + b"\n"


def carried_out(path: str, case: Case, kept: Path) -> bytes:
    """What is written for a case."""
    words = [*case.words[:1], *(place_of(case, word, kept) for word in case.words[1:])]
    done = subprocess.run([path, *words], cwd=kept, stdin=subprocess.DEVNULL, capture_output=True, check=False)
    output = done.stdout
    if case.keep_as:
        (kept / case.keep_as).write_bytes(output)
        output = summary(output)
    return b"case %s\n%sstatus %d\n\n" % (case.name.encode(), output, done.returncode)


def needed_for(case: Case, cases: list[Case]) -> list[Case]:
    """A case, behind those whose outputs it has as files."""
    earlier = [other for other in cases if other.keep_as and other.keep_as in case.words]
    return [*(one for other in earlier for one in needed_for(other, cases)), case]


def texts_of(cases: list[Case]) -> Iterator[bytes]:
    path = program()
    with tempfile.TemporaryDirectory() as folder:
        for case in cases:
            yield carried_out(path, case, Path(folder))


def told(text: bytes) -> list[str]:
    return text.decode(errors="replace").splitlines(keepends=True)


def one_case(name: str) -> int:
    """Writes what a case writes, and whether that is as it stands."""
    cases = listed_cases()
    chosen = next((case for case in cases if case.name == name), None)
    if chosen is None:
        near = difflib.get_close_matches(name, [case.name for case in cases], n=3, cutoff=0.4)
        raise Stop(f"there is no worked case {name}" + (f"; near to it are {', '.join(near)}" if near else ""))
    text = [*texts_of(needed_for(chosen, cases))][-1]
    sys.stdout.write("".join(told(text)))
    stands = text in STDOUT.read_bytes()
    print("as it stands in worked_cases/stdout" if stands else "in worked_cases/stdout stands something else: ./dev cases shows it")
    return 0 if stands else 1


def all_cases(write: bool) -> int:
    """Compares what all cases write with what stands, and writes it anew where that is asked for."""
    cases = listed_cases()
    text, before = b"".join(texts_of(cases)), STDOUT.read_bytes()
    sys.stdout.writelines(difflib.unified_diff(told(before), told(text), "stands", "is written", n=2))
    if write and text != before:
        STDOUT.write_bytes(text)
    print(f"{len(cases)} cases: " + ("all as they stand" if text == before else "written anew" if write else "not as they stand"))
    return 0 if write or text == before else 1
