"""Tests of taking the timetable out of the replies of a run."""

import pytest
from conftest import WORKED_CASES, Tool, needs_cases

OPEN = "open 1 0 0 0\n"
OK = "ok time 0 room 0 distribution 0 student 0 total 0 hard 0 unplaced 0 unsectioned 0 moved -\n"


def test_the_last_timetable_is_taken(tool: Tool) -> None:
    text = f'{OPEN}{{"classes":[]}}\n{OK}{{"classes":[{{}}]}}\n{OK}'
    assert tool("timetable", text=text) == ('{"classes":[{}]}\n', "")


@pytest.mark.parametrize("text, reason", [
    (f"{OPEN}refused 22 not ready 26 0 0\n", "refused 22 not ready 26 0 0"),
    (f'{OPEN}{{"classes":[]}}\n{OK}refused 22 not ready 1 0 0\n', "refused 22 not ready 1 0 0"),
    ("problem refused 31 /rooms\n", "problem refused 31 /rooms"),
    ("published refused 30 /\n", "published refused 30 /"),
    (OPEN + OK, "it has no command `publish`, or ended before it"),
    ("", "it has no command `publish`, or ended before it"),
])
def test_a_run_without_a_timetable(text: str, reason: str, tool: Tool) -> None:
    assert tool("timetable", text=text, status=1) == ("", f"timetable: the run wrote no timetable: {reason}\n")


@pytest.mark.parametrize("line", ['{"classes":[{"days":"10","id', '{"classes":[]', "{}", '{"classes":1}', "{" * 3000])
def test_a_timetable_that_is_cut_off(line: str, tool: Tool) -> None:
    told = "timetable: -: its last timetable is cut off, or is none: the run ended before all of it was written\n"
    assert tool("timetable", text=f'{OPEN}{{"classes":[]}}\n{OK}{line}', status=3) == ("", told)


@needs_cases
def test_the_timetable_of_a_worked_case(tool: Tool) -> None:
    assert WORKED_CASES is not None
    told = (WORKED_CASES / "stdout").read_text(encoding="utf-8", errors="replace")
    replies = told.split("case tour/a_faculty\n")[1].split("\ncase ")[0]
    assert tool("timetable", text=replies)[0] == (WORKED_CASES / "data/tour/a_faculty/after_week_4.json").read_text(encoding="utf-8")
