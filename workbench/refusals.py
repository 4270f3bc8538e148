"""What refuses each wrong body of the gate: the function whose proof fails, and of its goals the first that does.

`returns-clause-NAME` is the clause NAME of what the function ensures, `CALL-requires-clause-NAME` that of what a call of it
requires, and `loop-..` what its loop keeps."""

import re
from dataclasses import dataclass
from pathlib import Path

from repository import CRATES, Stop
from wrong_bodies import GATE, edits_in

TRIED = re.compile(r"rt: must-fail (\w+)/(\w+)\.edit: refused, as it must be: (.*)")
IN_SOURCE = re.compile(r"note: (src/[\w/]+\.rt):(\d+):")
IN_ANSWERS = re.compile(r"\./proofs/([\w/+]+)/(?:Answers|Invariants)\.antt:")
GOAL = re.compile(r"`([a-z][\w+-]*)`")
FUNCTION = re.compile(r"\s*(?:pub(?:\(crate\))? )?fn (\w+)")


@dataclass(frozen=True)
class Refusal:
    """A wrong body of a crate, and what refuses it."""

    crate: str
    edit: str
    function: str
    goal: str


def function_at(crate: str, path: str, line: int) -> str:
    """The function of a source file in which a line stands."""
    found = ""
    for text in (CRATES / crate / path).read_text(encoding="utf-8").splitlines()[:line]:
        match = FUNCTION.match(text)
        found = match[1] if match else found
    return found


def refusal_in(line: str) -> Refusal | None:
    """What a line of rt ci says of a wrong body that was refused, if it is such a line."""
    tried = TRIED.match(line)
    if tried is None:
        return None
    crate, edit, why = tried.groups()
    goal = GOAL.search(why)
    source, answers = IN_SOURCE.search(why), IN_ANSWERS.search(why)
    if goal is None or not (source or answers):
        raise Stop(f"the line on {crate}/{edit} names no goal")
    function = function_at(crate, source[1], int(source[2])) if source else answers[1].rpartition("/")[2] if answers else ""
    return Refusal(crate, edit, function.lstrip("+"), goal[1])


def table(found: list[Refusal]) -> str:
    """The rows of a page."""
    rows = [f"| `{one.crate}` | `{one.edit}` | `{one.function}` | `{one.goal}` |" for one in found]
    return "\n".join(["| Crate | Wrong body | Function | Goal |", "|---|---|---|---|", *rows]) + "\n"


def refusals(log: Path) -> int:
    """Reads what rt ci printed, and shows the table."""
    lines = log.read_text(encoding="utf-8").splitlines()
    found = {(one.crate, one.edit): one for one in map(refusal_in, lines) if one is not None}
    wanted = [(folder.name, edit.stem) for folder in sorted(CRATES.iterdir()) for edit in edits_in(folder, GATE)]
    missing = [f"{crate}/{edit}" for crate, edit in wanted if (crate, edit) not in found]
    if missing:
        raise Stop(f"the log says nothing of {len(missing)} wrong bodies, the first of which is {missing[0]}")
    print(table([found[one] for one in wanted]), end="")
    return 0
