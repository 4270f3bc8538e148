"""Tests that the page on adding names what is there: its paths, its words, and for each example the files that name it."""

import re
from functools import cache
from pathlib import Path

import pytest
from conftest import TOP

PAGE = (TOP / "docs/ADDING.md").read_text(encoding="utf-8")
CRATES = TOP / "crates"
BASES = [CRATES, TOP, TOP / "docs", CRATES / "worked_cases", CRATES / "worked_cases/data", CRATES / "tt_desk/proofs"]
IN_A_FOLDER = re.compile(r"`(tt_\w+)/(src|specs|proofs)`: ((?:`[^`]+`(?:, and |, | and )?)+)")
EXAMPLES = {"stats": "Stats", "suggest": "Suggest", "improve": "Improve", "close": "Close"}
Row = list[str]


@cache
def files() -> list[Path]:
    """All files of the crates, of the tools and of what stands beside them."""
    places = [CRATES, TOP / "tools", TOP / "checks", TOP / "workbench"]
    return [path for place in places for path in place.rglob("*") if path.is_file() and "out" not in path.relative_to(TOP).parts]


def is_there(name: str) -> bool:
    return any((base / name).exists() for base in BASES)


def tables() -> list[list[Row]]:
    """The tables of the page, each as its rows with the head."""
    parts = re.findall(r"(?:^\|.*\|\n)+", PAGE, re.M)
    return [[[cell.strip() for cell in line.strip("|").split("|")] for line in part.splitlines() if "---" not in line] for part in parts]


def paths_in(text: str) -> set[str]:
    """The paths in a text: those with a folder, and those behind their folder, as `tt_load/specs`: `Shapes`."""
    found = set()
    for crate, folder, names in IN_A_FOLDER.findall(text):
        found |= {f"{crate}/{folder}/{name}" for name in re.findall(r"`([^`]+)`", names)}
    return found | {name for name in re.findall(r"`([\w.+-]+/[\w./+-]+)`", IN_A_FOLDER.sub("", text))}


@cache
def sources() -> str:
    """All text in which a word of the page may stand."""
    wanted = (".rt", ".antt", ".py", ".toml", ".rng", ".json")
    return "\n".join(path.read_text(encoding="utf-8", errors="replace") for path in files() if path.suffix in wanted)


def test_each_path_is_there() -> None:
    ends = {name: ["", ".antt"] if re.match(r"tt_\w+/(specs|proofs)/", name) else [""] for name in paths_in(PAGE)}
    assert {name for name in ends if not any(is_there(name + end) for end in ends[name])} == set()


def test_each_crate_and_file_is_there() -> None:
    named = {name for name in re.findall(r"`([\w.]+)`", PAGE) if re.fullmatch(r"tt_\w+|\w+_tests|\w+\.\w+", name)}
    assert {name for name in named if not is_there(name)} - {path.name for path in files()} == set()


def test_each_word_stands_in_the_sources() -> None:
    named = {name for name in re.findall(r"`([A-Za-z_]\w*)`", PAGE) if not is_there(name)}
    words = set(re.findall(r"\w+", sources())) | {Path(name).name for name in paths_in(PAGE)} | {path.stem for path in files()}
    assert named - words == set()


@pytest.mark.parametrize("example", EXAMPLES)
def test_each_file_that_names_an_example_stands_in_its_column(example: str) -> None:
    head, *rows = next(table for table in tables() if f"`{example}`" in table[0])
    column = head.index(f"`{example}`")
    listed = {path for row in rows if row[column] for path in paths_in(row[0])}
    word = re.compile(rf"(?:(?<![\w.])|Command\.){EXAMPLES[example]}\b")
    places = [path for path in files() if path.suffix in (".rt", ".antt") and path.is_relative_to(CRATES)]
    naming = {str(path.relative_to(CRATES)) for path in places if word.search(path.read_text(encoding="utf-8"))}
    naming = {name for name in naming if name.startswith("tt_")}
    assert naming - listed == set()


def test_the_columns_add_up() -> None:
    for head, *rows in tables():
        *parts, last = rows
        for column in range(2, len(head) if last[0].startswith("together") else 0):
            assert sum(int(row[column]) for row in parts if row[column]) == int(last[column]), head[column]
