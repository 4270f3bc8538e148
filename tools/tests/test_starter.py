"""Tests of `./uttab` in a checkout without a built program, over a kit that does what a test wants."""

import os
import shutil
import subprocess
from pathlib import Path

import pytest
from conftest import TOP

FAILS = "echo error: no such thing; exit 1"


def start(folder: Path, kit: str, *words: str) -> subprocess.CompletedProcess[str]:
    """What the starter does in a checkout of one crate, with a command `rt` of these lines."""
    (folder / "crates/uttab").mkdir(parents=True)
    (folder / "bin").mkdir()
    (folder / "temporary").mkdir()
    shutil.copy(TOP / "uttab", folder)
    (folder / "crates/uttab/src").mkdir()
    (folder / "crates.txt").write_text("# run: words\nuttab: std\n\n# tests: of what is public\nsome_tests: uttab\n")
    (folder / "HANDLES").touch()
    (folder / "problem.json").touch()
    (folder / "bin/rt").write_text(f"#!/bin/sh\n{kit}\n")
    (folder / "bin/rt").chmod(0o755)
    told = os.environ | {"PATH": f"{folder}/bin:{os.environ['PATH']}", "TMPDIR": f"{folder}/temporary"}
    return subprocess.run(["./uttab", *words], cwd=folder, env=told, stdin=subprocess.DEVNULL, capture_output=True, text=True, check=False)


@pytest.mark.parametrize("words, status", [
    ("", 2), ("help", 2), ("run problem.json", 2), ("try", 2), ("try desk", 2),
    ("make 1", 2), ("run problem.json absent", 5), ("try check absent", 5)])
def test_nothing_is_built_to_tell_of_a_slip(tmp_path: Path, words: str, status: int) -> None:
    done = start(tmp_path, FAILS, *words.split())
    assert (done.returncode, done.stdout) == (status, "")
    assert done.stderr.startswith("uttab: ") and done.stderr.count("\n") == 1


@pytest.mark.parametrize("words, told", [("check problem.json", 0), ("try check problem.json", 1)])
def test_what_is_installed_is_run_also_after_try(tmp_path: Path, words: str, told: int) -> None:
    shutil.copy(TOP / "uttab", tmp_path)
    (tmp_path / "program").write_text('#!/bin/sh\necho "$@"\nexit 3\n')
    (tmp_path / "program").chmod(0o755)
    done = subprocess.run([tmp_path / "uttab", *words.split()], capture_output=True, text=True, check=False)
    assert (done.returncode, done.stdout, done.stderr.count("\n")) == (3, "check problem.json\n", told)


@pytest.mark.parametrize("words, program", [("desk problem.json", "uttab"), ("try desk problem.json", "tried")])
def test_the_desk_is_opened_over_what_is_built(tmp_path: Path, words: str, program: str) -> None:
    (tmp_path / "tools").mkdir()
    (tmp_path / "tools/desk").write_text('#!/bin/sh\necho "$@ ${UTTAB##*/}"\n')
    (tmp_path / "tools/desk").chmod(0o755)
    built = tmp_path / "crates/uttab/out" / program
    built.parent.mkdir(parents=True)
    built.touch(0o755)
    for name in ("uttab", "crates.txt"):
        (tmp_path / name).write_bytes((TOP / "uttab").read_bytes() if name == "uttab" else b"")
    (tmp_path / "uttab").chmod(0o755)
    os.utime(tmp_path / "crates.txt", (1, 1))
    told = {name: value for name, value in os.environ.items() if name != "UTTAB"}
    done = subprocess.run([tmp_path / "uttab", *words.split()], env=told, capture_output=True, text=True, check=False)
    assert done.stdout == f"--open problem.json {'tried' if program == 'tried' else ''}\n"


@pytest.mark.parametrize("words", ["check problem.json", "check -", "try check problem.json", "make 1 1"])
def test_what_cannot_be_built_ends_with_a_status_of_its_own(tmp_path: Path, words: str) -> None:
    done = start(tmp_path, FAILS, *words.split())
    assert (done.returncode, done.stdout) == (10, "")
    assert "error: no such thing" in done.stderr
    assert not [*(tmp_path / "temporary").iterdir()]


def test_what_is_built_is_run(tmp_path: Path) -> None:
    """The kit builds a program out of its crates alone; a second run builds nothing."""
    kit = "[ \"$(ls crates) $1\" = 'uttab ci' ] && mkdir crates/uttab/out && cd crates/uttab/out || exit 1\n" \
        "printf '#!/bin/sh\\necho \"$@\"\\nexit 3\\n' > uttab; chmod +x uttab"
    done = start(tmp_path, kit, "check", "problem.json")
    assert (done.returncode, done.stdout) == (3, "check problem.json\n")
    (tmp_path / "bin/rt").unlink()
    again = subprocess.run(["./uttab", "make", "1", "1"], cwd=tmp_path, capture_output=True, text=True, check=False)
    assert (again.returncode, again.stdout, again.stderr) == (3, "make 1 1\n", "")
