"""Tests of `best_of_seeds`: by a stand-in for the program, and by the program over a worked case."""

import json
from collections.abc import Callable
from pathlib import Path

import pytest
from conftest import PROGRAM, WORKED_CASES, Tool, Write, needs_cases, needs_program, uttab

TOTALS = "time 0 room 0 distribution 0 student 0 total {} hard {} unplaced {} unsectioned 0 moved {}"

# Answers `search N SEED` with the total 100 - SEED, `publish` with a timetable, and each other line with a refusal.
STAND_IN = """\
#!/bin/sh
[ "$1 $3" = 'run -' ] || exit 2
[ "$2" != absent.json ] || { echo "uttab: a file can't be read" >&2; exit 5; }
echo open 0 0 0 0
status=0
while read -r command turns seed; do
  case $command in
    search) echo "turns $turns"; echo "ok TOTALS" | sed "s/TOTAL/$((100 - seed))/" ;;
    quit) break ;;
    publish) echo '{"classes":[]}'; echo 'ok TOTALS' | sed 's/TOTAL/7/' ;;
    '#'*) ;;
    *) echo 'refused 10 bad line'; status=1 ;;
  esac
done
exit $status
""".replace("TOTALS", TOTALS.format("TOTAL", 0, 0, "-"))

Run = Callable[..., tuple[str, str]]


def lines(*tried: tuple[int, int, int, int, object]) -> list[str]:
    return [f"{seed} ok {TOTALS.format(total, hard, unplaced, moved)}\n" for seed, total, hard, unplaced, moved in tried]


def test_the_order(tool: Tool) -> None:
    tried = lines((1, 10, 0, 2, "-"), (2, 90, 1, 0, 5), (3, 95, 0, 0, 3), (20, 80, 0, 0, 4), (4, 80, 0, 0, 6))
    assert tool("best_of_seeds", "best", text="".join(tried))[0] == tried[4]
    assert tool("best_of_seeds", "best", "--by", "unplaced,hard,moved,total", text="".join(tried))[0] == tried[2]
    assert tool("best_of_seeds", "best", "--by", "total", text="".join(tried))[0] == tried[0]


def test_lines_of_several_files(tool: Tool, write: Write) -> None:
    tried = lines((1, 8, 0, 0, "-"), (2, 7, 0, 0, "-"))
    names = [write(f"{place}.txt", line) for place, line in enumerate(tried)]
    assert tool("best_of_seeds", "best", *names)[0] == tried[1]


@pytest.mark.parametrize("text, words, status, told", [
    ("1 ok 2\n", [], 3, "-: line 1: is no seed with a line of totals"),
    ("", [], 3, "no seed was tried"),
    ("1 ok 2\n", ["--by", "totals"], 2, "--by totals: takes words of a line of totals"),
    ("", ["absent.txt"], 3, "absent.txt: No such file or directory"),
])
def test_faults_of_tried_seeds(text: str, words: list[str], status: int, told: str, tool: Tool) -> None:
    assert f"best_of_seeds: {told}" in tool("best_of_seeds", "best", *words, status=status, text=text)[1]


@pytest.fixture
def run_with(tool: Tool, write: Write) -> Run:
    """Runs a form with the stand-in as the program."""
    program = write("program", STAND_IN)
    Path(program).chmod(0o755)

    def run(form: str, script: str, problem: str = "problem.json", seed: object = 3, status: int = 0) -> tuple[str, str]:
        return tool("best_of_seeds", form, problem, write("script.txt", script), seed, "--program", program, status=status)
    return run


def test_a_seed_is_tried(run_with: Run) -> None:
    assert run_with("try", "search 9 SEED\nsearch 10 SEED")[0] == f"3 ok {TOTALS.format(97, 0, 0, '-')}\n"


def test_a_seed_is_published(run_with: Run) -> None:
    assert run_with("publish", "search 10 SEED") == ('{"classes":[]}\n', f"3 ok {TOTALS.format(7, 0, 0, '-')}\n")


@pytest.mark.parametrize("form", ["try", "publish"])
@pytest.mark.parametrize("script, problem, seed, status, told", [
    ("search 1 1", "problem.json", 3, 3, "script.txt: the word SEED stands nowhere in it"),
    ("search 1 SEEDS", "problem.json", 3, 3, "script.txt: the word SEED stands nowhere in it"),
    ("# first\nsearch 1 2\n\nfind 1 SEED", "problem.json", 3, 1, "refused 10 bad line (line 4 of the script: find 1 3)"),
    ("search 1 SEED", "absent.json", 3, 1, "uttab: a file can't be read"),
    ("search 1 SEED", "problem.json", 2**64, 2, "'18446744073709551616' is no seed"),
    ("search 1 SEED", "problem.json", "-1", 2, ""),
])
def test_faults(form: str, script: str, problem: str, seed: object, status: int, told: str, run_with: Run) -> None:
    out, said = run_with(form, script, problem, seed, status)
    assert out == "" and told in said


def test_other_faults(run_with: Run, tool: Tool, write: Write, monkeypatch: pytest.MonkeyPatch) -> None:
    assert "ends before it is published" in run_with("publish", "search 1 SEED\nquit", status=1)[1]
    monkeypatch.setenv("UTTAB", "absent")
    words = ("best_of_seeds", "try", "problem.json", write("s.txt", "search 1 SEED"), 1)
    assert "absent: No such file or directory" in tool(*words, status=2)[1]


@needs_program
@needs_cases
def test_the_best_is_published_and_valid(tool: Tool, write: Write, monkeypatch: pytest.MonkeyPatch) -> None:
    assert WORKED_CASES is not None
    monkeypatch.setenv("UTTAB", str(PROGRAM))
    problem = WORKED_CASES / "data/tour/a_small_department/problem.json"
    script = write("script.txt", "enrol all\nsearch 200 SEED\n")
    tried = [tool("best_of_seeds", "try", problem, script, seed)[0] for seed in range(1, 9)]
    found, _ = tool("best_of_seeds", "best", text="".join(tried))
    assert found in tried
    out, told = tool("best_of_seeds", "publish", problem, script, found.split()[0])
    assert told.rpartition(" ")[0] == found.rpartition(" ")[0]
    assert set(json.loads(out)) == {"classes"}
    assert uttab("verify", problem, write("published.json", out)).splitlines()[-1] == "valid"
