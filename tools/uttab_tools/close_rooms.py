"""Writes closures into a problem, so that they are there in every session and `verify` knows them.

    close_rooms PROBLEM CLOSURES -o closed.json

CLOSURES has lines `close ROOM DAYS START LENGTH WEEKS`, as a session takes them and as `closures` writes them. Other lines, such as
comments and the rest of a script, are skipped. Each becomes a time at which its room is unavailable."""

import argparse
from collections.abc import Iterator

from uttab_tools import limits
from uttab_tools.problem import Problem
from uttab_tools.program import DONE, Command, FileFault, Output, tell
from uttab_tools.raw import Value, parts, with_parts
from uttab_tools.reading import Reader, reading


def words(parser: argparse.ArgumentParser) -> None:
    parser.add_argument("problem", metavar="PROBLEM", help="the problem file")
    parser.add_argument("closures", metavar="CLOSURES", help="a text with lines `close`")


def run(given: argparse.Namespace, output: Output) -> int:
    problem = Problem(given.problem)
    closed: dict[int, list[Value]] = {}
    for room, time in _closures(given.closures, problem):
        closed.setdefault(room, []).append(time)
    rooms = [_with(room, closed.get(number, []), given.closures)
             for number, room in zip(problem.rooms, parts(problem.value, "rooms"), strict=True)]
    output.write_json(with_parts(problem.value, rooms=rooms))
    if not closed:
        tell("close_rooms", f"{given.closures}: has no line `close`: the problem is as it was")
    return DONE


def _with(room: Value, times: list[Value], file: str) -> Value:
    """A room with more closed times."""
    closed = [*parts(room, "unavailable"), *times]
    if len(closed) > limits.UNAVAILABLE:
        raise FileFault(f"{file}: room {room['id']} is closed at {len(closed):,} times, of which there may be {limits.UNAVAILABLE:,}")
    return with_parts(room, unavailable=closed) if closed else room


def _closures(name: str, problem: Problem) -> Iterator[tuple[int, Value]]:
    """The rooms and times of the lines `close`."""
    with reading(name) as file:
        lines = file.read().splitlines()
    for number, line in enumerate(lines, 1):
        fields = line.split()
        if not fields or fields[0] != "close":
            continue
        reader = Reader(f"{name}: line {number}")
        if len(fields) != 6:
            raise FileFault(f"{reader.name}: is no `close ROOM DAYS START LENGTH WEEKS`")
        _, room, days, start, length, weeks = fields
        value: Value = {"room": room, "days": days, "start": start, "length": length, "weeks": weeks}
        found = reader.id_of(value, "room", "")
        if found not in problem.rooms:
            reader.fault("/room", f"the problem has no room {found}")
        reader.set_of(value, "days", "", problem.days)
        reader.set_of(value, "weeks", "", problem.weeks)
        start_slot, slots = (reader.number_of(value, "start", "", limits.SLOT), reader.number_of(value, "length", "", limits.LENGTH))
        if start_slot + slots > limits.LAST_SLOT:
            reader.fault("/length", f"ends after slot {limits.LAST_SLOT}")
        yield found, {"days": days, "start": start_slot, "length": slots, "weeks": weeks}


COMMAND = Command("close_rooms", __doc__ or "", words, run, "0 the problem is written")
main = COMMAND.main
