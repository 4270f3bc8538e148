"""Tests that the pages on the sources say what the sources are: the crates by layers and the files of the theorem; and that no word
stands for two things in it."""

import re
import subprocess

from conftest import TOP

Pair = tuple[str, str]

ARCHITECTURE = (TOP / "docs/ARCHITECTURE.md").read_text(encoding="utf-8")


def part_of(page: str, heading: str) -> str:
    """What stands below a heading, up to the next of its kind."""
    return page.split(f"\n## {heading}\n")[1].split("\n## ")[0]


def layers() -> list[tuple[str, list[str]]]:
    """The layers of `crates.txt`, lowest first, with their crates."""
    parts = re.split(r"^# ([a-z][a-z ]*): .*$", (TOP / "crates.txt").read_text(encoding="utf-8"), flags=re.M)[1:]
    return [(name, re.findall(r"^(\w+):", text, re.M)) for name, text in zip(parts[::2], parts[1::2], strict=True)]


def crates_of_table() -> list[str]:
    named = re.findall(r"^\|[^|]*\| ([^|]*) \|", part_of(ARCHITECTURE, "The crates"), re.M)[1:]
    return [crate for crates in named for crate in re.findall(r"`(\w+)`", crates)]


def test_the_layers_are_drawn_as_crates_txt_has_them() -> None:
    drawn = part_of(ARCHITECTURE, "The layers").split("```")[1]
    found: dict[str, list[str]] = {}
    name = ""
    for line in drawn.splitlines()[2:]:
        name = line[:20].strip() or name
        if line.strip():
            found.setdefault(name, []).extend(re.split(r" {3,}", line[20:].split("    ")[0].strip()))
    *below, (last, _) = layers()
    assert last == "tests"
    assert [(name, crates[::-1]) for name, crates in found.items()][::-1] == below


def test_each_crate_has_its_place_in_a_table() -> None:
    *below, (_, tests) = layers()
    assert crates_of_table()[::-1] == [crate for _, crates in below for crate in crates]
    shown = re.findall(r"`(\w+)`", "\n".join(row.split("|")[1] for row in re.findall(r"^\| `.*", part_of(ARCHITECTURE, "The tests"), re.M)))
    assert sorted(shown) == sorted(tests)


def test_the_files_of_the_theorem_are_listed() -> None:
    listed: set[Pair] = set()
    for files in re.findall(r"^\| .* \| (.*) \|$", part_of(ARCHITECTURE, "The theorem, in reading order"), re.M):
        for crate, names in re.findall(r"(?:^|; )(?:of )?`(\w+)`: ([^;]*)", files):
            listed |= {(crate, name) for name in re.findall(r"`(\w+)`", names)}
    definitions = TOP.glob("crates/*/specs/*.antt")
    marked = {(path.parts[-3], path.stem) for path in definitions if path.read_text(encoding="utf-8").startswith("-- Theorem")}
    assert listed == marked


def test_no_word_stands_for_two_definitions() -> None:
    told = subprocess.run([TOP / "dev", "theorem", "--words"], capture_output=True, encoding="utf-8", check=True).stdout
    # The toolchain writes each step of a `do` block with this name.
    assert re.findall(r"^  (\S+): ", told, re.M) == ["◌>>=◌"]


def test_what_a_change_costs_is_counted() -> None:
    text = (TOP / "CONTRIBUTING.md").read_text(encoding="utf-8").split("**What a change costs.**")[1].split("\n")[0]
    counts = re.findall(r"`(\w+)` (?:stand )?(\d+)", text)
    assert len(counts) == 8
    for crate, count in counts:
        told = subprocess.run([TOP / "dev", "uses", crate], capture_output=True, encoding="utf-8", check=True).stdout
        assert told.startswith(f"{count} crates stand above {crate}: ")
