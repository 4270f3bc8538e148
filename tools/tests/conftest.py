"""What the tests share: running a command, writing files, and where the program and the worked cases are."""

import io
import os
import subprocess
import sys
from collections.abc import Callable
from pathlib import Path
from typing import Protocol

import pytest

from uttab_tools.__main__ import main

TESTS = Path(__file__).resolve().parent
TOOLS = TESTS.parent
TOP = TOOLS.parent
DATA = TESTS / "data"
SCHEMAS = TOOLS / "uttab_tools/data"


def first_there(variable: str, *names: str) -> Path | None:
    """The path that a variable of the environment names, or the first of the names that is there."""
    given = os.environ.get(variable)
    paths = [Path(given).resolve()] if given else [TOP / name for name in names]
    return next((path for path in paths if path.exists()), None)


PROGRAM = first_there("UTTAB", "crates/uttab/out/uttab")
WORKED_CASES = first_there("UTTAB_WORKED_CASES", "crates/worked_cases")

needs_program = pytest.mark.skipif(PROGRAM is None, reason="uttab isn't built, and UTTAB names no other one")
needs_cases = pytest.mark.skipif(WORKED_CASES is None, reason="the worked cases aren't there")


def uttab(*words: object, text: str = "") -> str:
    """What `uttab` writes."""
    done = subprocess.run([str(PROGRAM), *map(str, words)], input=text, capture_output=True, encoding="utf-8", timeout=120, check=False)
    return done.stdout


class Tool(Protocol):
    def __call__(self, command: str, *words: object, status: int = 0, text: str = "") -> tuple[str, str]:
        """Runs a command in this process. The answer is what it wrote, on the output and on the standard error."""


class Write(Protocol):
    def __call__(self, name: str, text: str | bytes) -> str:
        """Writes a file, and answers its path."""


@pytest.fixture
def tool(monkeypatch: pytest.MonkeyPatch, capsysbinary: pytest.CaptureFixture[bytes]) -> Tool:
    def run(command: str, *words: object, status: int = 0, text: str = "") -> tuple[str, str]:
        monkeypatch.setattr(sys, "stdin", io.TextIOWrapper(io.BytesIO(text.encode())))
        capsysbinary.readouterr()
        try:
            ended = main([command, *map(str, words)])
        except SystemExit as end:
            ended = end.code if isinstance(end.code, int) else 0
        out, told = capsysbinary.readouterr()
        assert ended == status, told.decode()
        return out.decode(), told.decode()
    return run


@pytest.fixture
def write(tmp_path: Path) -> Write:
    def file(name: str, text: str | bytes) -> str:
        path = tmp_path / name
        path.write_bytes(text.encode() if isinstance(text, str) else text)
        return str(path)
    return file


@pytest.fixture
def checked(write: Write) -> Callable[[str, str], None]:
    """That what `uttab check` says of a problem's text begins so. Nothing is asked where the program isn't built."""
    def check(problem: str, front: str) -> None:
        if PROGRAM is not None:
            assert uttab("check", write("checked.json", problem))[:len(front)] == front
    return check
