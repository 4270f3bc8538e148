"""The clauses of contracts that have a line wider than 100 columns, which is the toolchain's own measure, and how they are
broken into lines.

A clause is what stands behind `requires` or `ensures`, up to the brace that closes it."""

import re
from collections import Counter
from dataclasses import dataclass
from pathlib import Path

from breaking import broken
from repository import CRATES, TOP, listed_crates

MOST = 100
BEGINS = re.compile(r"\s*(?:requires|ensures)\b.*\{")


@dataclass(frozen=True)
class Clause:
    """A clause: its file, the number of its first line, and its lines."""

    path: Path
    at: int
    lines: tuple[str, ...]

    @property
    def width(self) -> int:
        return max(map(len, self.lines))


def clauses_of(path: Path) -> list[Clause]:
    """The clauses of a file of code."""
    found = []
    lines = path.read_text(encoding="utf-8").splitlines()
    for at, line in enumerate(lines):
        if BEGINS.match(line):
            end, depth = at, line.count("{") - line.count("}")
            while depth > 0 and end + 1 < len(lines):
                end += 1
                depth += lines[end].count("{") - lines[end].count("}")
            found.append(Clause(path, at + 1, tuple(lines[at:end + 1])))
    return found


def break_in(path: Path) -> None:
    """Breaks the wide clauses of a file of code."""
    lines = path.read_text(encoding="utf-8").split("\n")
    for clause in reversed([clause for clause in clauses_of(path) if clause.width > MOST]):
        lines[clause.at - 1:clause.at - 1 + len(clause.lines)] = broken(list(clause.lines), MOST)
    path.write_text("\n".join(lines), encoding="utf-8")


def files_of(crate: str) -> list[Path]:
    """The files of code of a crate."""
    return sorted((CRATES / crate / "src").rglob("*.rt"))


def wide(crate: str | None, listed: bool, write: bool) -> int:
    """Writes how many clauses of each crate are wide, and with `listed` each of them, the widest of a crate first. With `write`
    it breaks them before."""
    all_of, wide_of = Counter[str](), Counter[str]()
    for name in listed_crates() if crate is None else [crate]:
        for path in files_of(name) if write else []:
            break_in(path)
        clauses = [clause for path in files_of(name) for clause in clauses_of(path)]
        wide_ones = sorted((one for one in clauses if one.width > MOST), key=lambda one: -one.width)
        all_of[name], wide_of[name] = len(clauses), len(wide_ones)
        if wide_ones:
            print(f"{name}: {len(wide_ones)} of {len(clauses)}, the widest {wide_ones[0].width}")
        for one in wide_ones if listed else []:
            print(f"  {one.path.relative_to(TOP)}:{one.at}: {one.width}  {one.lines[0].strip()[:70]}")
    print(f"{wide_of.total()} of {all_of.total()} clauses are wider than {MOST} columns")
    return 0
