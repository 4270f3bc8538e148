"""Tries a script with many seeds, finds the best one, and publishes the timetable that it leads to.

    best_of_seeds try PROBLEM SCRIPT SEED          writes the seed and the script's last line of totals
    best_of_seeds best [TRIED ..]                  of such lines writes the best one
    best_of_seeds publish PROBLEM SCRIPT SEED      makes the run again, and writes the published timetable

In SCRIPT the word SEED stands where the seed is to be, such as `search 3000 SEED`. What a seed leads to is the same
on every machine, so seeds may be tried anywhere, and the best run made again from its number. docs/SCALING.md says
how they are tried on many processors and machines."""

import re
import sys
from argparse import ArgumentParser, ArgumentTypeError, Namespace
from collections.abc import Iterator

from uttab_tools import limits
from uttab_tools.given import PROGRAM
from uttab_tools.program import DONE, Command, FileFault, Output, Refused, Usage, add_output
from uttab_tools.reading import reading
from uttab_tools.uttab_program import run_uttab, totals_of

COUNTS = ("time", "room", "distribution", "student", "total", "hard", "unplaced", "unsectioned", "moved")
ORDER = "unplaced,hard,total"
TRIED = re.compile(r"(\d+) ok " + " ".join(rf"{word} (?P<{word}>\d+|-)" for word in COUNTS), re.ASCII)


def script_with(name: str, seed: int) -> str:
    """The text of a script with this seed."""
    with reading(name) as file:
        text, places = re.subn(r"\bSEED\b", str(seed), file.read())
    if places == 0:
        raise FileFault(f"{name}: the word SEED stands nowhere in it")
    return text if text.endswith("\n") else text + "\n"


def answer(given: Namespace, script: str) -> tuple[list[str], str]:
    """The lines that `uttab` answers to a script, and the last line of totals."""
    words = ["run", given.problem, "-", *([given.published] if given.published else [])]
    lines = run_uttab(words, script, given.program)
    totals = totals_of(lines)
    if totals is None:
        raise Refused("the script has no command")
    return lines, totals


def try_seed(given: Namespace, output: Output) -> None:
    _, totals = answer(given, script_with(given.script, given.seed))
    output.write(f"{given.seed} {totals}\n")


def publish(given: Namespace, output: Output) -> None:
    lines, totals = answer(given, script_with(given.script, given.seed) + "publish\n")
    timetable = next((line for line in reversed(lines) if line.startswith("{")), None)
    if timetable is None:
        raise Refused("the script ends before it is published")
    print(given.seed, totals, file=sys.stderr)
    output.write(f"{timetable}\n")


def tried_lines(name: str) -> Iterator[tuple[int, dict[str, int], str]]:
    """The seeds and counts of a file of tried seeds, each with its line."""
    with reading(name) as file:
        for number, line in enumerate(file, 1):
            match = TRIED.fullmatch(line.strip())
            if not match:
                raise FileFault(f"{name}: line {number}: is no seed with a line of totals")
            counts = {word: 0 if match[word] == "-" else int(match[word]) for word in COUNTS}
            yield int(match[1]), counts, match[0]


def best(given: Namespace, output: Output) -> None:
    order = given.by.split(",")
    if not set(order) <= set(COUNTS):
        raise Usage(f"--by {given.by}: takes words of a line of totals: {', '.join(COUNTS)}")
    tried = [one for name in given.tried or ["-"] for one in tried_lines(name)]
    if not tried:
        raise FileFault("no seed was tried")
    _, _, line = min(tried, key=lambda one: ([one[1][word] for word in order], one[0]))
    output.write(f"{line}\n")


def a_seed(word: str) -> int:
    if not re.fullmatch(r"\d{1,20}", word, re.ASCII) or int(word) not in limits.SEED:
        raise ArgumentTypeError(f"{word!r} is no seed")
    return int(word)


def words(parser: ArgumentParser) -> None:
    commands = parser.add_subparsers(metavar="try|best|publish", required=True)
    for name, does, text in (("try", try_seed, "tries one seed"), ("publish", publish, "publishes what one seed leads to")):
        command = commands.add_parser(name, help=text, description=text)
        command.add_argument("problem", metavar="PROBLEM", help="the problem file")
        command.add_argument("script", metavar="SCRIPT", help="the script, with the word SEED; `-` is the standard input")
        command.add_argument("seed", metavar="SEED", type=a_seed, help=f"the seed, at most {limits.SEED.most}")
        command.add_argument("--published", metavar="FILE", help="a timetable that is published from the start, as `repair` needs")
        command.add_argument("--program", metavar="FILE", help=PROGRAM)
        add_output(command)
        command.set_defaults(does=does)
    command = commands.add_parser("best", help="finds the best of the tried seeds", description="finds the best of the tried seeds")
    command.add_argument("tried", metavar="TRIED", nargs="*", help="files of lines that `try` wrote; else the standard input")
    command.add_argument("--by", metavar="WORDS", default=ORDER,
                         help=f"what is to be least, first the first ({ORDER}; after `repair` unplaced,hard,moved,total); "
                              "where all are equal the least seed is taken")
    add_output(command)
    command.set_defaults(does=best)


def run(given: Namespace, output: Output) -> int:
    given.does(given, output)
    return DONE


COMMAND = Command("best_of_seeds", __doc__ or "", words, run,
                  "0 all is written; 1 the run ended early, or a command was refused", has_forms=True)
main = COMMAND.main
