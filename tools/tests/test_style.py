"""Tests that the types hold, and that no linter that is there finds anything."""

import shutil
import subprocess

import pytest
from conftest import TOOLS

# What mypy found out is kept beside the package, so that it looks anew at what changed alone. `out` is in no commit.
CACHE = TOOLS / "out/mypy"


@pytest.mark.parametrize("words", [
    ["mypy", "--cache-dir", str(CACHE)],
    ["flake8", "--isolated", "--max-line-length=140", "--per-file-ignores=tests/*desk*:E501,F401", "."],
    ["ruff", "check", "--no-cache", "."],
], ids=lambda words: words[0])
def test_nothing_is_found(words: list[str]) -> None:
    if not shutil.which(words[0]):
        pytest.skip(f"there is no {words[0]}")
    done = subprocess.run(words, cwd=TOOLS, capture_output=True, text=True, check=False)
    assert done.returncode == 0, done.stdout
