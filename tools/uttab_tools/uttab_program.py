"""Runs `uttab`: what is said of a timetable's costs comes from it."""

import os
import re
import shutil
import subprocess
from collections.abc import Sequence
from pathlib import Path

from uttab_tools.program import Refused, Usage

BUILT = Path(__file__).resolve().parents[2] / "crates/uttab/out/uttab"
REFUSED = re.compile(r"(?:\w+ )?refused ")


def program_of(given: str | None) -> str:
    """The program: the one that is given, else that of the environment's UTTAB, else the one that ./uttab makes, and where
    that isn't built, the one that is installed."""
    if named := given or os.environ.get("UTTAB"):
        return named
    return str(BUILT) if BUILT.exists() else shutil.which("uttab") or str(BUILT)


def run_uttab(words: Sequence[str], script: str, program: str | None = None) -> list[str]:
    """The lines that `uttab` answers to a script, given as the file `-` among the words. What it refuses is told with the
    line of the script that it was."""
    path = program_of(program)
    try:
        done = subprocess.run([path, *words], input=script, capture_output=True, encoding="utf-8", errors="replace", check=False)
    except OSError as error:
        raise Usage(f"{path}: {error.strerror}: ./uttab makes the program; UTTAB or --program names another one") from None
    lines = done.stdout.splitlines()
    if done.returncode != 0:
        raise Refused(refusal_in(lines, script) or done.stderr.strip() or f"uttab ended with {done.returncode}")
    return lines


def refusal_in(lines: Sequence[str], script: str) -> str | None:
    """The first refusal among the replies, with the line of the script that it answers: each command is answered by lines
    of its own, of which the last one begins with `ok` or `refused`."""
    commands = [(number, line) for number, line in enumerate(script.splitlines(), 1) if line.split() and line.split()[0][0] != "#"]
    answered = 0
    for line in lines:
        if REFUSED.match(line):
            if line.startswith("refused") and answered < len(commands):
                number, words = commands[answered]
                return f"{line} (line {number} of the script: {words.strip()[:80]})"
            return line
        answered += line.startswith("ok ")
    return None


def totals_of(lines: Sequence[str]) -> str | None:
    """The last line of totals among the replies."""
    return next((line for line in reversed(lines) if line.startswith("ok ")), None)


def verified_sum(problem: str, published: str, program: str | None = None) -> str:
    """The line `sum` that `uttab verify` writes of a timetable, with the number of violations where there are some."""
    path = program_of(program)
    try:
        done = subprocess.run([path, "verify", problem, published], capture_output=True, encoding="utf-8", errors="replace", check=False)
    except OSError as error:
        raise Usage(f"{path}: {error.strerror}: ./uttab makes the program; UTTAB or --program names another one") from None
    lines = done.stdout.splitlines()
    found = next((line for line in lines if line.startswith("sum ")), None)
    if found is None:
        raise Refused(f"{published}: {lines[0] if lines else done.stderr.strip()}")
    return found if lines[-1] == "valid" else f"{found}, {lines[-1]}"
