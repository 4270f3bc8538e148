"""Takes the timetable out of the replies of a run.

    uttab run PROBLEM SCRIPT | timetable -o published.json

It is the last one that the run wrote, published or a draft. Where the run wrote none, or refused to publish after the
last one, nothing is written, and the standard error has the reason. Nor is a timetable written that is cut off."""

import json
from argparse import ArgumentParser, Namespace

from uttab_tools.program import DONE, Command, FileFault, Output, Refused
from uttab_tools.reading import reading

NOT_READY = "refused 22 "


def timetable_in(replies: str, name: str) -> str:
    """The line of the last timetable among the replies, which the file of that name has."""
    timetable, refusal = None, None
    for line in replies.split("\n"):
        if line.startswith("{"):
            timetable, refusal = line, None
        elif line.startswith(NOT_READY) or " refused " in line:
            timetable, refusal = None, line
    if timetable is None:
        raise Refused(f"the run wrote no timetable: {refusal or 'it has no command `publish`, or ended before it'}")
    if not _is_whole(timetable):
        raise FileFault(f"{name}: its last timetable is cut off, or is none: the run ended before all of it was written")
    return timetable


def _is_whole(timetable: str) -> bool:
    try:
        value = json.loads(timetable)
    except (ValueError, RecursionError):
        return False
    return isinstance(value, dict) and isinstance(value.get("classes"), list)


def words(parser: ArgumentParser) -> None:
    parser.add_argument("replies", metavar="REPLIES", nargs="?", default="-", help="what `uttab run` wrote; else the standard input")


def run(given: Namespace, output: Output) -> int:
    with reading(given.replies) as file:
        output.write(f"{timetable_in(file.read(), given.replies)}\n")
    return DONE


COMMAND = Command("timetable", __doc__ or "", words, run, "0 the timetable is written; 1 the run wrote none")
main = COMMAND.main
