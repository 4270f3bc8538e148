"""Tests that the documents show what the worked cases have, and that links between them lead somewhere."""

import re
import subprocess
from pathlib import Path

import pytest
from conftest import PROGRAM, TOP, WORKED_CASES, needs_cases, needs_program

Outputs = dict[str, list[str]]


MIDDLE_OF_THE_TERM = "## In the middle of the term"


def blocks(document: str, part: str = "") -> list[list[str]]:
    """The indented blocks of a document, each as its lines without the indent: those before the heading of the tutorial's
    last part, or those after it."""
    found: list[list[str]] = []
    open_block = False
    front, _, back = (TOP / document).read_text(encoding="utf-8").partition(MIDDLE_OF_THE_TERM)
    for line in (back if part else front).splitlines():
        if line.startswith("    "):
            if not open_block:
                found.append([])
            found[-1].append(line[4:])
        open_block = line.startswith("    ")
    return found


@pytest.fixture(scope="module")
def outputs() -> Outputs:
    """What the worked cases write, by their names."""
    assert WORKED_CASES is not None
    told = (WORKED_CASES / "stdout").read_text(encoding="utf-8", errors="replace")
    found = {}
    for part in re.split(r"^case ", told, flags=re.M)[1:]:
        name, *lines = part.rstrip("\n").split("\n")
        found[name] = lines[:-1]
    return found


def assert_shown(lines: list[str], output: list[str]) -> None:
    """That these are the lines of an output: one that ends in ` ..` may be cut, and `..` alone stands for some left out."""
    left = iter(output)
    skips = False
    for shown in lines:
        if shown == "..":
            skips = True
            continue
        line = next((line for line in left if line == shown), None) if skips else next(left, None)
        skips = False
        assert line is not None, shown
        if shown.endswith(" .."):
            assert line.startswith(shown.removesuffix(" ..")), shown
        else:
            assert shown == line
    assert skips or next(left, None) is None


@needs_cases
def test_the_tutorial(outputs: Outputs) -> None:
    assert WORKED_CASES is not None
    case = WORKED_CASES / "data/tour/a_faculty"
    problem = {line.strip() for line in (case / "problem.json").read_text(encoding="utf-8").splitlines()}
    commands, replies, verified = [], [], []
    for lines in blocks("docs/TUTORIAL.md"):
        if lines[0].startswith(("./uttab ", "tools/")):
            for word in lines[0].split():
                assert not word.startswith("examples/") or (TOP / word).is_file(), word
        elif lines[0].startswith("sum "):
            verified.append(lines)
        elif lines[0].startswith("{"):
            for line in lines:
                assert line.strip() in problem, line
        else:
            commands += [line[2:] for line in lines if line.startswith("> ")]
            replies += [line for line in lines if not line.startswith("> ")]
    script = (case / "script.txt").read_text(encoding="utf-8").splitlines()
    assert commands == [line for line in script if not line.startswith("#")]
    assert_shown(replies, outputs["tour/a_faculty"])
    assert verified == [outputs[f"tour/a_faculty_{name}"] for name in ("for_the_term", "after_week_4")]


@needs_cases
def test_the_published_files(outputs: Outputs) -> None:
    assert WORKED_CASES is not None
    lines = [line for line in outputs["tour/a_faculty"] if line.startswith("{")]
    for line, name in zip(lines, ("term", "after_week_4"), strict=True):
        assert (WORKED_CASES / f"data/tour/a_faculty/{name}.json").read_text(encoding="utf-8") == line + "\n"


def test_commands_that_documents_show_are_there() -> None:
    for document in ["README.md", *(f"docs/{path.name}" for path in (TOP / "docs").glob("*.md"))]:
        for name in re.findall(r"\btools/([a-z_0-9/.]+\w)", (TOP / document).read_text(encoding="utf-8")):
            assert (TOP / "tools" / name).exists(), f"{document}: tools/{name}"


@needs_cases
@needs_program
def test_the_change_in_the_middle_of_the_term(tmp_path: Path) -> None:
    """Its commands, carried out as they stand there, write what is shown below them."""
    assert WORKED_CASES is not None and PROGRAM is not None
    (tmp_path / "tools").symlink_to(TOP / "tools")
    (tmp_path / "examples").symlink_to(WORKED_CASES / "data/tour")
    (tmp_path / "uttab").symlink_to(PROGRAM)
    written, checked = "", 0
    for lines in blocks("docs/TUTORIAL.md", MIDDLE_OF_THE_TERM):
        if lines[0].startswith(("printf ", "tools/", "./uttab ", "grep ")):
            done = subprocess.run(["sh", "-e"], input="\n".join(lines), cwd=tmp_path, stdout=subprocess.PIPE, stderr=subprocess.STDOUT,
                                  text=True, timeout=120, check=False)
            written = done.stdout
        else:
            assert_shown(lines, written.splitlines())
            checked += 1
    assert checked == 6
