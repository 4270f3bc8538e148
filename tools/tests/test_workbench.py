"""Tests of the words of ./dev that read the sources, over a house of three crates."""

import os
import shutil
import subprocess
import sys
from pathlib import Path

import pytest
from conftest import TOP

LIST = "# numbers: at the ground\none:\ntwo: one md5\n\n# above: what counts\nthree: one two md5\n"
CODE = {
    "one": "//! The first.\n",
    "two": "use one::Number;\nuse md5::sum;\n",
    "three": "ghost use Rattle.two.specs.Sums.{sum};\nfn add()\n    requires few {\n        1 < 2\n    }\n"
             f"    ensures sum {{ {'1 + ' * 30}1 ≡ 31 }}\n    ensures one {{ 1 ≡ 1 }}\n{{\n}}\n",
}


@pytest.fixture
def house(tmp_path: Path) -> Path:
    shutil.copy(TOP / "dev", tmp_path)
    shutil.copytree(TOP / "workbench", tmp_path / "workbench")
    (tmp_path / "crates.txt").write_text(LIST, encoding="utf-8")
    for name, text in CODE.items():
        folder = tmp_path / "crates" / name / "src"
        folder.mkdir(parents=True)
        (folder / "lib.rt").write_text(text, encoding="utf-8")
    return tmp_path


def dev(house: Path, *words: str) -> tuple[int, list[str]]:
    done = subprocess.run([house / "dev", *words], capture_output=True, encoding="utf-8", check=False)
    return done.returncode, (done.stdout + done.stderr).splitlines()


def with_list(house: Path, old: str, new: str) -> Path:
    assert old in LIST
    (house / "crates.txt").write_text(LIST.replace(old, new), encoding="utf-8")
    return house


def test_a_list_that_says_what_is_used(house: Path) -> None:
    assert dev(house, "uses") == (0, ["crates.txt: 3 crates in 2 layers, 0 faults"])
    assert dev(house, "uses", "--write") == (0, ["crates.txt: 3 crates in 2 layers, 0 faults"])
    assert (house / "crates.txt").read_text(encoding="utf-8") == LIST
    assert dev(house, "uses", "one") == (0, ["2 crates stand above one: two three"])


@pytest.mark.parametrize(("old", "new", "fault"), [
    ("two: one md5", "two: one", "two: uses md5, which its line doesn't name"),
    ("one:\n", "one: md5\n", "one: names md5, which neither it nor a crate that it names uses"),
    ("three: one two", "three: one two one", "three: names one twice"),
    ("# numbers: at the ground\n", "", "one: stands below no heading of a layer"),
])
def test_a_fault_of_the_list_is_told(house: Path, old: str, new: str, fault: str) -> None:
    status, lines = dev(with_list(house, old, new), "uses")
    assert status == 1 and fault in lines


def test_a_crate_stands_behind_those_that_it_names(house: Path) -> None:
    moved = "# numbers: at the ground\none:\nthree: one two md5\n\n# above: what counts\ntwo: one md5\n"
    (house / "crates.txt").write_text(moved, encoding="utf-8")
    assert dev(house, "uses") == (1, ["three: stands before two, which it names", "crates.txt: 3 crates in 2 layers, 1 faults"])


def test_a_line_with_a_fault_is_written_anew(house: Path) -> None:
    with_list(house, "three: one two md5", "three: two three two")
    assert dev(house, "uses", "--write") == (0, ["three: two", "crates.txt: 3 crates in 2 layers, 0 faults"])
    assert (house / "crates.txt").read_text(encoding="utf-8") == LIST.replace("three: one two md5", "three: two")


def test_a_new_crate_names_what_its_crates_name(house: Path) -> None:
    with_list(house, "three: one two md5", "three:")
    assert dev(house, "uses", "--write") == (0, ["three: one two md5", "crates.txt: 3 crates in 2 layers, 0 faults"])
    assert (house / "crates.txt").read_text(encoding="utf-8") == LIST


def test_wide_clauses_are_counted(house: Path) -> None:
    width = len(CODE["three"].splitlines()[5])
    found = [f"three: 1 of 3, the widest {width}", "1 of 3 clauses are wider than 100 columns"]
    assert dev(house, "wide") == (0, found)
    assert dev(house, "wide", "two") == (0, ["0 of 0 clauses are wider than 100 columns"])
    assert dev(house, "wide", "--list")[1][1].startswith(f"  crates/three/src/lib.rt:6: {width}  ensures sum {{ 1 + ")


def test_the_help_of_a_word_is_in_sentences(house: Path) -> None:
    assert "runs the gate, .ci/run. It proves, " in " ".join(dev(house, "gate", "--help")[1])


RT = """#!/usr/bin/env python3
import sys, time
print(" ".join(sys.argv[1:]), flush=True)
for name, seconds in ("two::add", 0.1), ("two::sum", 0.5), ("one::other", 0.0), ("two::put", 0.2):
    time.sleep(seconds)
    print(f"checked {name}, 1 of 3", flush=True)
sys.exit(len(list(__import__("pathlib").Path("out/incremental").glob("*"))))
"""


@pytest.fixture
def kit(house: Path, monkeypatch: pytest.MonkeyPatch) -> Path:
    """A kit whose check takes known times, and fails where there is kept work."""
    folder = house / "kit"
    folder.mkdir()
    (folder / "rt").write_text(RT, encoding="utf-8")
    (folder / "rt").chmod(0o755)
    monkeypatch.setenv("PATH", f"{folder}:{os.environ['PATH']}")
    return folder


def test_the_functions_that_take_longest_come_first(house: Path, kit: Path) -> None:
    kept = house / "crates/two/out/incremental/kept"
    kept.mkdir(parents=True)
    status, lines = dev(house, "times", "two")
    assert status == 0 and lines[0].startswith("two: 3 functions in ")
    # The first function has what comes before it too, however long that is.
    assert [name for line in lines[1:] if (name := line.split()[-1]) != "two::add"] == ["two::sum", "two::put"]
    assert len(dev(house, "times", "two", "--most", "1")[1]) == 2
    assert kept.is_dir() and not (house / "crates/two/out/incremental.aside").exists()


def test_a_check_that_fails_says_why(house: Path, kit: Path) -> None:
    (kit / "rt").write_text(RT.replace("sys.exit(", "sys.exit(7 + "), encoding="utf-8")
    assert dev(house, "times", "two", "--tests") == (7, ["check --jobs 1 --test", "checked one::other, 1 of 3"])


def test_a_wide_clause_is_broken(house: Path) -> None:
    """It is broken at blanks alone, once; what isn't wide stays as it is, and so do the files that the toolchain made."""
    code = house / "crates/three/src/lib.rt"
    record = "record { first = made; rest = all_of (those_of made); middle = some_of (those_of made); last = none_of made }"
    long = f"OnOk result (λ made. first_of made (second_of made (third_of made)) ≡ {record})"
    code.write_text(f"fn f()\n    ensures short {{ 1 ≡ 1 }}\n    ensures long {{ {long} }}\n{{\n}}\n", encoding="utf-8")
    made = house / "crates/three/out/src/lib.rt"
    made.parent.mkdir(parents=True)
    shutil.copy(code, made)
    assert dev(house, "wide", "three", "--write") == (0, ["0 of 2 clauses are wider than 100 columns"])
    lines = code.read_text(encoding="utf-8").splitlines()
    assert lines[1:5] == [
        "    ensures short { 1 ≡ 1 }", "    ensures long { OnOk result (λ made.",
        "        first_of made (second_of made (third_of made))", "            ≡ record {"]
    assert " ".join(" ".join(lines[2:-2]).split()) == f"ensures long {{ {long} }}"
    assert "λ made. first_of" in made.read_text(encoding="utf-8")
    again = code.read_text(encoding="utf-8")
    dev(house, "wide", "three", "--write")
    assert code.read_text(encoding="utf-8") == again


def test_each_wrong_body_applies() -> None:
    """An edit whose line is gone shows nothing, and those on the shelf no gate tries."""
    words = "import wrong_bodies; print(*wrong_bodies.faults(), sep='\\n', end='')"
    done = subprocess.run([sys.executable, "-B", "-c", words], cwd=TOP / "workbench", capture_output=True, encoding="utf-8", check=True)
    assert done.stdout == ""


def test_what_an_edit_lacks_is_told(house: Path) -> None:
    shelf = house / "crates/one/wrong-bodies"
    shelf.mkdir()
    (house / "crates/one/must-fail").mkdir()
    for name, text in {"a": "file: src/lib.rt\nold: The first\nnew: The last\n", "b": "file: src/lib.rt\nold: The second\nnew:\n",
                       "c": "file: src/main.rt\nold: The\nnew: A\n", "d": "file: src/lib.rt\n"}.items():
        (shelf / f"{name}.edit").write_text(text, encoding="utf-8")
    shutil.copy(shelf / "a.edit", house / "crates/one/must-fail")
    words = "import wrong_bodies; print(*wrong_bodies.faults(), sep='\\n')"
    done = subprocess.run([sys.executable, "-B", "-c", words], cwd=house / "workbench", capture_output=True, encoding="utf-8", check=True)
    assert done.stdout.splitlines() == [
        "one: a.edit stands twice", "one/wrong-bodies/b.edit: its old text stands 0 times in src/lib.rt",
        "one/wrong-bodies/c.edit: there is no file src/main.rt", "one/wrong-bodies/d.edit: it has no pair of texts"]


def test_the_shelf_is_tried_and_put_back(house: Path) -> None:
    shelf = house / "crates/one/wrong-bodies"
    shelf.mkdir()
    (shelf / "a.edit").write_text("file: src/lib.rt\nold: The first\nnew: The last\n", encoding="utf-8")
    (house / "bin").mkdir()
    (house / "bin/rt").write_text("#!/bin/sh\necho $* $(ls must-fail)\n", encoding="utf-8")
    (house / "bin/rt").chmod(0o755)
    told = os.environ | {"PATH": f"{house}/bin:{os.environ['PATH']}"}
    done = subprocess.run([house / "dev", "edits", "one", "--shelf"], env=told, capture_output=True, encoding="utf-8", check=False)
    assert (done.returncode, done.stdout) == (0, "must-fail one a.edit\n")
    assert sorted(path.name for path in (house / "crates/one").iterdir()) == ["src", "wrong-bodies"]
    assert dev(house, "edits", "one")[0] != 0


def test_what_refuses_each_wrong_body_is_told(house: Path) -> None:
    folder = house / "crates/three/must-fail"
    folder.mkdir()
    for name in ("one_less", "two_less"):
        (folder / f"{name}.edit").write_text("file: src/lib.rt\nold: fn add\nnew: fn less\n", encoding="utf-8")
    refused = "rt: must-fail three/{}.edit: refused, as it must be: {}\n"
    log = house / "log"
    one = refused.format("one_less", "note: src/lib.rt:8:1: it is not proved (`returns-clause-sum`); `search` gave up")
    log.write_text(one, encoding="utf-8")
    assert dev(house, "refusals", str(log))[0] == 2
    with log.open("a", encoding="utf-8") as file:
        file.write(refused.format("two_less", "./proofs/lib/Sum/add/Answers.antt:7:54: error: `loop-k-preserved`: `omega`: no"))
    rows = ["| `three` | `one_less` | `add` | `returns-clause-sum` |", "| `three` | `two_less` | `add` | `loop-k-preserved` |"]
    assert dev(house, "refusals", str(log))[1][2:] == rows
