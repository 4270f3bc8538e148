"""Tests of what stands at the door: the first page shows what the program writes, leads to pages that are there, and is
short; the version is the same wherever it is told."""

import re
import subprocess
import tomllib
from itertools import pairwise
from pathlib import Path

import pytest
from conftest import TOOLS, TOP, WORKED_CASES, needs_cases

README = (TOP / "README.md").read_text(encoding="utf-8")
PAGES = [TOP / name for name in ("README.md", "CONTRIBUTING.md", "SECURITY.md", "NEWS.md")] + sorted((TOP / "docs").glob("*.md"))


def replies_of(commands: list[str], lines: list[str]) -> list[tuple[str, list[str]]]:
    """Each command of a script with its reply, which ends with the line of totals or of a refusal."""
    ends = [-1, *(place for place, line in enumerate(lines) if line.startswith(("ok ", "refused ")))]
    replies = [lines[before + 1:end + 1] for before, end in pairwise(ends)]
    return list(zip(commands, replies, strict=True))


def shown_in(text: str) -> list[tuple[str, list[str]]]:
    """The commands of a page, those behind `>`, each with the lines below it."""
    found: list[tuple[str, list[str]]] = []
    for line in text.splitlines():
        if line.startswith("    > "):
            found.append((line[6:], []))
        elif line.startswith("    ") and found:
            found[-1][1].append(line[4:])
        elif found:
            break
    return found


@needs_cases
def test_the_commands_of_the_first_page() -> None:
    assert WORKED_CASES is not None
    told = (WORKED_CASES / "stdout").read_text(encoding="utf-8", errors="replace")
    _, *lines, _ = told.split("case tour/a_small_department\n")[1].split("\n\ncase ")[0].split("\n")
    script = (WORKED_CASES / "data/tour/a_small_department/script.txt").read_text(encoding="utf-8")
    carried_out = replies_of([line for line in script.splitlines() if not line.startswith("#")], lines)
    shown = shown_in(README)
    assert len(shown) == 5
    places = [carried_out.index(one) for one in shown]
    assert places == sorted(places)


def test_the_first_page_is_short() -> None:
    lines = README.splitlines()
    assert len(lines) <= 70
    assert max(map(len, lines)) <= 400


def anchors_of(path: Path) -> set[str]:
    """The anchors of a page's headings."""
    headings = re.findall(r"^#+ (.*)$", path.read_text(encoding="utf-8"), re.M)
    return {re.sub(r"[^\w\- ]", "", heading.lower()).replace(" ", "-") for heading in headings}


@pytest.mark.parametrize("page", PAGES, ids=[page.name for page in PAGES])
def test_the_links_of_a_page(page: Path) -> None:
    for target in re.findall(r"\]\(([^)]+)\)", page.read_text(encoding="utf-8")):
        name, _, anchor = target.partition("#")
        path = page.parent / name if name else page
        assert "://" in target or path.exists(), target
        assert not anchor or anchor in anchors_of(path), target


def test_the_version_is_told_alike() -> None:
    said = subprocess.run([TOP / "uttab", "--version"], capture_output=True, text=True, check=True).stdout.split()[1]
    newest = re.search(r"^## (\S+)$", (TOP / "NEWS.md").read_text(encoding="utf-8"), re.M)
    package = tomllib.loads((TOOLS / "pyproject.toml").read_text())["project"]["version"]
    assert newest is not None and f"Version {newest[1]};" in README
    assert (said, package) == (newest[1], newest[1])


def cases_in(text: str) -> list[str]:
    """The worked cases that a text names, by the folders in which they stand."""
    assert WORKED_CASES is not None
    folders = "|".join(sorted(path.name for path in (WORKED_CASES / "data").iterdir() if path.is_dir()))
    return re.findall(rf"`((?:{folders})/[a-z0-9_]+)`", text)


def words_of_cases() -> dict[str, list[str]]:
    """The words of each worked case, by its name."""
    assert WORKED_CASES is not None
    lines = (WORKED_CASES / "data/cases.txt").read_text(encoding="utf-8").splitlines()
    listed = [line.split(" > ")[0].split() for line in lines if line and not line.startswith("#")]
    return {name: words for name, *words in listed}


@needs_cases
@pytest.mark.parametrize("page", PAGES, ids=[page.name for page in PAGES])
def test_the_worked_cases_that_a_page_names(page: Path) -> None:
    assert set(cases_in(page.read_text(encoding="utf-8"))) <= words_of_cases().keys()


@needs_cases
def test_each_command_and_refusal_stands_in_its_worked_case() -> None:
    assert WORKED_CASES is not None
    told = (WORKED_CASES / "stdout").read_text(encoding="utf-8", errors="replace")
    outputs = dict(part.split("\n", 1) for part in re.split(r"^case ", told, flags=re.M)[1:])
    words = words_of_cases()
    for line in (TOP / "docs/COMMANDS.md").read_text(encoding="utf-8").splitlines():
        row = re.match(r"\| `(refused \d+|[a-z]+) ", line.replace("` ", " ", 1))
        for case in cases_in(line.rstrip("| ").rpartition(" | ")[2]) if row else []:
            places = [WORKED_CASES / "data" / case / words[case][2], WORKED_CASES / "data" / words[case][2]]
            script = next(path for path in places if path.is_file()).read_text(encoding="utf-8")
            where = outputs[case] if row and row[1].startswith("refused") else script
            assert row and re.search(rf"^{row[1]}\b", where, re.M), f"{line[:30]} isn't in {case}"


def test_what_must_be_believed_is_counted() -> None:
    told = subprocess.run([TOP / "dev", "theorem"], capture_output=True, text=True, check=True).stdout
    counts = re.findall(r": (\d+) definitions in (\d+) lines, (\d+) with their comments", told)
    text = (TOP / "docs/THEOREM.md").read_text(encoding="utf-8").replace(",", "")
    numbers = r"(\d+) in (\d+) lines (\d+) with their comments"
    shown = re.search(rf"these are {numbers}; with `verify` {numbers}; with `demo` and `make` {numbers} ", text)
    assert shown is not None
    assert shown.groups() == tuple(number for pair in counts for number in pair)


def test_crates_txt_says_what_the_sources_use() -> None:
    assert subprocess.run([TOP / "dev", "uses"], capture_output=True, check=False).returncode == 0
