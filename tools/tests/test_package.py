"""Tests of the package: every command can be found, is linked, is an entry point, and keeps to the habits that all have."""

import os
import stat
import subprocess
import sys
import tomllib
from argparse import Namespace
from pathlib import Path

import pytest
from conftest import TOOLS, Tool, Write

from uttab_tools.__main__ import COMMANDS
from uttab_tools.program import Command, FileFault, Output, Usage

COMPLETION = Path("/usr/share/bash-completion/bash_completion")


def command(run: object) -> Command:
    return Command("trial", "A trial.", lambda parser: None, run)  # type: ignore[arg-type]


def test_each_command_has_a_launcher_and_an_entry_point() -> None:
    scripts = tomllib.loads((TOOLS / "pyproject.toml").read_text())["project"]["scripts"]
    assert scripts == {f"uttab-{name.replace('_', '-')}": f"uttab_tools.{module}:main" for name, module in COMMANDS.items()}
    files = {path.name for path in TOOLS.iterdir() if path.is_file() and os.access(path, os.X_OK)}
    assert files == {"launch", *COMMANDS}
    assert all((TOOLS / name).read_text().endswith(f'/launch" {name} "$@"\n') for name in COMMANDS)


def test_a_command_that_is_installed_is_called_by_its_name_there(monkeypatch: pytest.MonkeyPatch) -> None:
    kept = Command("close_it", "Closes it.\n\n    close_it WORDS\n", lambda parser: None, lambda given, output: 0)
    assert kept.parser().format_help().startswith("usage: close_it ")
    monkeypatch.setattr(sys, "argv", ["/usr/bin/uttab-close-it"])
    assert kept.parser().format_help().startswith("usage: uttab-close-it ")
    assert "\n    uttab-close-it WORDS\n" in kept.parser().format_help()


@pytest.mark.parametrize("name", COMMANDS)
def test_each_command_says_what_it_is(name: str, tool: Tool) -> None:
    out, _ = tool(name, "--help")
    assert "status: 0" in out and "9 the command itself failed" in out
    tool(name, "--unknown", status=2)


@pytest.mark.skipif(not COMPLETION.exists(), reason="there is no bash-completion")
@pytest.mark.parametrize("words, found", [
    ("midterm ''", "rest whole"), ("fet p", "problem published"), ("best_of_seeds b", "best"), ("midterm rest --f", "--from"),
    ("page --with", "--without-students")])
def test_words_are_completed(words: str, found: str) -> None:
    script = f'''
        . {COMPLETION}
        . {TOOLS}/../package/uttab.bash-completion
        COMP_WORDS=({words})
        COMP_LINE=${{COMP_WORDS[*]}} COMP_CWORD=$((${{#COMP_WORDS[@]}} - 1))
        COMP_POINT=${{#COMP_LINE}}
        _uttab_tool {TOOLS}/${{COMP_WORDS[0]}}
        echo ${{COMPREPLY[@]}}'''
    done = subprocess.run(["bash", "-c", script], capture_output=True, text=True, check=False)
    assert (done.stdout, done.stderr) == (f"{found}\n", "")


def test_the_launcher_runs_from_any_folder(tmp_path: Path) -> None:
    (tmp_path / "json.py").write_text("raise SystemExit(77)")
    done = subprocess.run([TOOLS / "table", "absent.json", "-"], cwd=tmp_path, input="", capture_output=True, text=True, check=False)
    assert (done.returncode, done.stderr) == (3, "table: absent.json: No such file or directory\n")


def test_a_file_is_there_only_when_it_is_whole(tmp_path: Path) -> None:
    target = tmp_path / "out.txt"

    def fails(given: Namespace, output: Output) -> int:
        output.write("half")
        raise FileFault("x: is broken")

    target.write_text("before")
    assert command(fails).main(["-o", str(target)]) == 3
    assert target.read_text() == "before"

    def writes(given: Namespace, output: Output) -> int:
        output.write("all\n")
        return 1

    target.chmod(0o640)
    assert command(writes).main(["-o", str(target)]) == 1
    assert (target.read_text(), stat.S_IMODE(target.stat().st_mode)) == ("all\n", 0o640)
    link = tmp_path / "link.txt"
    link.symlink_to(target)
    assert command(writes).main(["-o", str(link)]) == 1
    assert link.is_symlink()
    assert sorted(path.name for path in tmp_path.iterdir()) == ["link.txt", "out.txt"]
    new = tmp_path / "new.txt"
    mask = os.umask(0o027)
    try:
        assert command(writes).main(["-o", str(new)]) == 1
    finally:
        os.umask(mask)
    assert stat.S_IMODE(new.stat().st_mode) == 0o640


@pytest.mark.parametrize("name, words", [
    ("absent/out.txt", "absent/out.txt: No such file or directory"), (".", ".: is a folder")])
def test_a_target_that_cannot_be(name: str, words: str, tmp_path: Path, monkeypatch: pytest.MonkeyPatch,
                                 capsys: pytest.CaptureFixture[str]) -> None:
    monkeypatch.chdir(tmp_path)
    assert command(lambda given, output: 0).main(["-o", name]) == 6
    assert capsys.readouterr().err == f"trial: {words}\n"


@pytest.mark.parametrize("error, status, words", [
    (FileFault("a.json: /x: is absent"), 3, "a.json: /x: is absent"),
    (Usage("no such form"), 2, "no such form"),
    (MemoryError(), 7, "there is no memory"),
    (OSError(28, "No space left on device"), 6, "the output failed: No space left on device"),
    (KeyError("x\ny"), 9, "the command itself failed, at test_package.py, line "),
    (UnicodeEncodeError("utf-8", "\ud800", 0, 1, "surrogates not allowed"), 9, "UnicodeEncodeError"),
])
def test_a_crash_is_never_a_half_success(error: Exception, status: int, words: str, capsys: pytest.CaptureFixture[str]) -> None:
    def run(given: Namespace, output: Output) -> int:
        output.write("half")
        raise error

    assert command(run).main([]) == status
    out, told = capsys.readouterr()
    assert out == "" and words in told and told.startswith("trial: ") and told.count("\n") == 1


def test_a_closed_output_ends_it_quietly(tmp_path: Path) -> None:
    reader, writer = os.pipe()
    os.close(reader)
    done = subprocess.run([TOOLS / "table", "--help"], stdout=writer, stderr=subprocess.PIPE, check=False)
    os.close(writer)
    assert b"Traceback" not in done.stderr


def test_a_closed_input_is_a_fault(write: Write) -> None:
    done = subprocess.run(["sh", "-c", f"{TOOLS}/table - x.json <&-"], capture_output=True, text=True, check=False)
    assert (done.returncode, done.stderr) == (3, "table: -: the standard input is closed\n")


def test_a_stopped_command(capsys: pytest.CaptureFixture[str]) -> None:
    def run(given: Namespace, output: Output) -> int:
        raise KeyboardInterrupt

    assert command(run).main([]) == 130
    assert capsys.readouterr() == ("", "")
