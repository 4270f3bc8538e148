"""The words of ./dev, and what each does."""

import argparse
import os
import subprocess
import sys
from collections.abc import Callable
from contextlib import nullcontext
from pathlib import Path

import cases
import refusals
import theorem
import times
import uses
import wide
from repository import CRATES, TOP, Stop, folder_of
from wrong_bodies import GATE, SHELF, edits_in, taken_from_the_shelf

Words = argparse.ArgumentParser


def rt(crate: str, *words: str) -> int:
    """Runs the kit's command in the folder of a crate."""
    try:
        return subprocess.run(["rt", *words], cwd=folder_of(crate), check=False).returncode
    except FileNotFoundError:
        raise Stop("the Rattle kit's command rt is not on the path") from None


def try_crate(given: argparse.Namespace) -> int:
    """runs the crate's tests, unproved

    A program without tests, as `uttab`, is tried by ./uttab try. The tests of what is public stand in crates of their
    own: ./dev uses CRATE lists them among the crates above."""
    if "#[test]" not in "".join(path.read_text(encoding="utf-8") for path in (CRATES / given.crate).rglob("src/**/*.rt")):
        above = [name for name in uses.above(given.crate) if name.endswith("_tests")]
        raise Stop(f"{given.crate} has no test of its own; above it stand {', '.join(above) or 'no crates of tests'}")
    return rt(given.crate, "try", "--test")


def check_crate(given: argparse.Namespace) -> int:
    """proves the crate over what is built below it

    What changed since the last check is proved; crates below are built first where they changed."""
    return rt(given.crate, "check")


def edits(given: argparse.Namespace) -> int:
    """tries the crate's wrong bodies

    The prover must refuse each. It begins with what ./dev check kept, and tries again only what changed. Those in must-fail/
    are tried, as the gate does; with --shelf those in wrong-bodies/ too, which the gate leaves out for their time."""
    folder = folder_of(given.crate)
    if not edits_in(folder, GATE) and not (given.shelf and edits_in(folder, SHELF)):
        raise Stop(f"{given.crate} has no wrong body there; docs/PLANTS.md says why where that is meant")
    with taken_from_the_shelf(folder) if given.shelf else nullcontext():
        return rt(given.crate, "must-fail", given.crate)


def refused(given: argparse.Namespace) -> int:
    """shows which function and which goal refuses each wrong body of the gate

    LOG has what a whole run of rt ci printed. The goal names the clause: of what the function ensures, of what a call
    requires, or what a loop keeps."""
    return refusals.refusals(given.log)


def case(given: argparse.Namespace) -> int:
    """carries out a worked case, and compares what it writes with worked_cases/stdout

    The program is the one that UTTAB names, else the proved one, else the one that ./uttab try compiled."""
    return cases.one_case(given.name)


def all_cases(given: argparse.Namespace) -> int:
    """carries out all worked cases, and shows what they write otherwise than worked_cases/stdout

    With --write what they write is written there; the difference is shown all the same, to be read line by line."""
    return cases.all_cases(given.write)


def reached(given: argparse.Namespace) -> int:
    """counts the definitions that the theorem reaches, and compares the marks of their files

    It reads the sources alone. The status is 1 where a file is marked Theorem and isn't reached, or is reached and isn't
    marked."""
    return theorem.theorem(given.files, given.words)


def used(given: argparse.Namespace) -> int:
    """compares crates.txt with what the sources use; with CRATE lists the crates above it

    Those above a crate are proved anew when it changes. --write writes the lines that have a fault anew; a new crate wants
    its name and a colon at its place, and what more a line must name by way of another crate the toolchain says."""
    return uses.uses(given.crate, given.write)


def wide_clauses(given: argparse.Namespace) -> int:
    """counts the clauses of contracts that are wider than 100 columns, by crate

    A clause may stand on several lines, each of which is measured. It reads the sources alone. --write breaks those that are
    wider, at blanks alone; ./dev edits then says where an edit named such a line."""
    return wide.wide(given.crate, given.list, given.write)


def timed(given: argparse.Namespace) -> int:
    """proves the crate from nothing, and tells which functions take the prover longest

    The first function has what comes before it too: reading the crates below, which are built first where they changed.
    With --tests the crate's tests are proved as well. What ./dev check kept is put back."""
    return times.times(given.crate, given.tests, given.most)


def gate(_: argparse.Namespace) -> int:
    """runs the gate, .ci/run

    It proves, tests and runs every crate, and then tests what stands beside them. From nothing it takes one to two
    hours."""
    os.execv(TOP / ".ci/run", [".ci/run"])


def with_crate(parser: Words) -> None:
    parser.add_argument("crate", metavar="CRATE", help="a crate of crates.txt")


def add_words(parser: Words) -> None:
    parser_of = parser.add_subparsers(metavar="WORD", required=True)

    def add(name: str, does: Callable[[argparse.Namespace], int]) -> Words:
        text = does.__doc__ or ""
        words = parser_of.add_parser(name, help=text.split("\n")[0], description=text.replace("\n\n", ". ", 1))
        words.set_defaults(does=does)
        return words

    for name, does in (("try", try_crate), ("check", check_crate)):
        with_crate(add(name, does))
    words = add("edits", edits)
    with_crate(words)
    words.add_argument("--shelf", action="store_true", help="tries those on the shelf too")
    add("refusals", refused).add_argument("log", metavar="LOG", type=Path, help="what rt ci printed")
    add("case", case).add_argument("name", metavar="NAME", help="its name in crates/worked_cases/data/cases.txt")
    add("cases", all_cases).add_argument("--write", action="store_true", help="writes worked_cases/stdout anew")
    words = add("theorem", reached)
    words.add_argument("--files", action="store_true", help="lists the files that are reached")
    words.add_argument("--words", action="store_true", help="lists the words that stand for more than one definition")
    words = add("uses", used)
    words.add_argument("crate", metavar="CRATE", nargs="?", help="lists the crates above this one")
    words.add_argument("--write", action="store_true", help="writes the lines that have a fault anew")
    words = add("wide", wide_clauses)
    words.add_argument("crate", metavar="CRATE", nargs="?", help="counts those of this crate alone")
    words.add_argument("--list", action="store_true", help="lists them, the widest of a crate first")
    words.add_argument("--write", action="store_true", help="breaks them into lines")
    words = add("times", timed)
    with_crate(words)
    words.add_argument("--tests", action="store_true", help="proves the crate with its tests")
    words.add_argument("--most", type=int, default=15, metavar="N", help="how many functions are listed (15)")
    add("gate", gate)


def main() -> int:
    parser = argparse.ArgumentParser(prog="dev", description="The day's work on uttab. CONTRIBUTING.md says when each word is of use.")
    add_words(parser)
    given = parser.parse_args()
    try:
        if hasattr(given, "crate") and given.crate is not None:
            folder_of(given.crate)
        status: int = given.does(given)
        return status
    except Stop as stop:
        print(f"dev: {stop}", file=sys.stderr)
        return 2
