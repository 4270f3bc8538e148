"""How each command runs: its words, its output, its faults and its status.

A command writes to a temporary file. Only when all is written does that become the file of `-o`, by a rename, or go to
the standard output. So a command that fails leaves nothing that could be taken for a whole answer."""

import argparse
import json
import os
import re
import shutil
import sys
import tempfile
import traceback
from collections.abc import Callable, Sequence
from dataclasses import dataclass
from io import TextIOWrapper
from pathlib import Path
from typing import IO, Self

DONE, PARTLY, WRONG_WORDS, NO_FILE, NO_OUTPUT, NO_MEMORY, CRASHED, STOPPED = 0, 1, 2, 3, 6, 7, 9, 130
STATUSES = "2 the words are wrong; 3 a file can't be read; 6 the output failed; 7 there is no memory; 9 the command itself failed"


class Fault(Exception):
    """What ends a command, told in one line. Each kind has its status."""

    status = CRASHED


class FileFault(Fault):
    """A file that can't be read. The text names the file and the place in it."""

    status = NO_FILE


class Usage(Fault):
    """Words that don't fit together."""

    status = WRONG_WORDS


class Refused(Fault):
    """What can't be done with files that are in order, such as what `uttab` refuses. Nothing is written."""

    status = PARTLY


class OutputFault(Fault):
    """An output that failed."""

    status = NO_OUTPUT


class Output:
    """What a command writes: a temporary file until `finish`. The name is that of `-o`, or `None` for the standard output."""

    def __init__(self, name: str | None) -> None:
        self.name = name
        self.target: Path | None = None
        self.temporary: Path | None = None
        self.binary: IO[bytes]
        if name is None:
            self.binary = tempfile.TemporaryFile()
        else:
            self.binary = self._open_beside(Path(name))
        self.text = TextIOWrapper(self.binary, encoding="utf-8", newline="")

    def _open_beside(self, path: Path) -> IO[bytes]:
        """A temporary file in the folder of the target, so that a rename puts it in its place. What is no plain file,
        such as `/dev/null`, is written to at the end."""
        target = Path(os.path.realpath(path))
        if target.exists() and not target.is_file():
            if target.is_dir():
                raise OutputFault(f"{path}: is a folder")
            self.target = target
            return tempfile.TemporaryFile()
        try:
            handle, name = tempfile.mkstemp(prefix=f".{target.name}.", dir=target.parent)
        except OSError as error:
            raise OutputFault(f"{path}: {error.strerror}") from None
        self.target, self.temporary = target, Path(name)
        return os.fdopen(handle, "w+b")

    def write(self, text: str) -> None:
        self.text.write(text)

    def write_json(self, value: object) -> None:
        """Writes a value as a line of JSON."""
        json.dump(value, self.text, ensure_ascii=False, separators=(",", ":"))
        self.write("\n")

    def finish(self) -> None:
        """Puts what was written where it belongs."""
        self.text.flush()
        if self.temporary is not None and self.target is not None:
            os.chmod(self.temporary, _mode_of(self.target))
            self.text.close()
            os.replace(self.temporary, self.target)
            self.temporary = None
            return
        self.binary.seek(0)
        if self.target is not None:
            with open(self.target, "wb") as sink:
                shutil.copyfileobj(self.binary, sink)
        else:
            if sys.stdout is None:
                raise OutputFault("the standard output is closed")
            shutil.copyfileobj(self.binary, sys.stdout.buffer)
            sys.stdout.buffer.flush()

    def discard(self) -> None:
        """Leaves nothing behind of an output that wasn't finished."""
        if self.temporary is not None:
            self.temporary.unlink(missing_ok=True)


def _mode_of(target: Path) -> int:
    """The rights of a file that is replaced, or those that a new file gets."""
    if target.exists():
        return target.stat().st_mode & 0o777
    mask = os.umask(0)
    os.umask(mask)
    return 0o666 & ~mask


class Folder:
    """Files that are written into a folder. They are put in their places, each by a rename, when all are written, which is
    where the `with` ends that makes the folder."""

    def __init__(self, name: str) -> None:
        self.path = Path(name)
        try:
            self.path.mkdir(parents=True, exist_ok=True)
            self.before = {path.name for path in self.path.iterdir()}
            self.temporary = Path(tempfile.mkdtemp(prefix=".writing.", dir=self.path))
        except OSError as error:
            raise OutputFault(f"{name}: {error.strerror}") from None

    def write(self, name: str, content: bytes) -> None:
        (self.temporary / name).write_bytes(content)

    def __enter__(self) -> Self:
        return self

    def __exit__(self, kind: type[BaseException] | None, *others: object) -> None:
        """Puts the files in their places, and leaves nothing behind of files that weren't finished."""
        try:
            if kind is None:
                written = {path.name for path in self.temporary.iterdir()}
                for name in written:
                    os.replace(self.temporary / name, self.path / name)
                self.before -= written
        finally:
            shutil.rmtree(self.temporary, ignore_errors=True)

    def tell_others(self, command: str) -> None:
        """Tells of files that were there and weren't written anew."""
        if self.before:
            tell(command, f"{self.path}: {len(self.before):,} files were there already and aren't of this timetable "
                          f"(first: {min(self.before)})")


def tell(command: str, words: str) -> None:
    """Writes one line on the standard error."""
    print(f"{command}: {words}", file=sys.stderr)


def add_output(parser: argparse.ArgumentParser) -> None:
    parser.add_argument("-o", "--output", metavar="FILE",
                        help="the file to write, which is there only when all of it is; else the standard output")


@dataclass(frozen=True)
class Command:
    """A command. `about` is what `--help` says of it, `words` adds its words to a parser, and `run` carries it out: it
    writes to the output that it is handed, and answers the status. One that `has_forms` has parsers for its forms, and
    adds the words of the output to each of these."""

    name: str
    about: str
    words: Callable[[argparse.ArgumentParser], None]
    run: Callable[[argparse.Namespace, Output], int]
    statuses: str = "0 all is written"
    has_forms: bool = False

    @property
    def called(self) -> str:
        """The name by which the command is called: where it is installed another one than in a checkout."""
        installed = f"uttab-{self.name.replace('_', '-')}"
        return installed if Path(sys.argv[0]).name == installed else self.name

    def parser(self) -> argparse.ArgumentParser:
        about = re.sub(rf"^    {self.name}\b", f"    {self.called}", self.about, flags=re.M)
        parser = argparse.ArgumentParser(
            prog=self.called, description=about, formatter_class=argparse.RawDescriptionHelpFormatter,
            epilog=f"status: {self.statuses}; {STATUSES}")
        self.words(parser)
        if not self.has_forms:
            add_output(parser)
        return parser

    def main(self, words: Sequence[str] | None = None) -> int:
        """Carries the command out and answers its status. What goes wrong is told in one line."""
        try:
            return self._run(words)
        except Fault as fault:
            tell(self.called, str(fault))
            return fault.status
        except BrokenPipeError:
            sys.stdout = None  # type: ignore[assignment]  # its flush at the end would fail too
            return NO_OUTPUT
        except OSError as error:
            tell(self.called, f"the output failed: {error.strerror}")
            return NO_OUTPUT
        except MemoryError:
            tell(self.called, "there is no memory")
            return NO_MEMORY
        except KeyboardInterrupt:
            return STOPPED
        except Exception as error:
            tell(self.called, _crash(error))
            return CRASHED

    def _run(self, words: Sequence[str] | None) -> int:
        given = self.parser().parse_args(words)
        output = Output(given.output)
        try:
            status = self.run(given, output)
            output.finish()
            return status
        finally:
            output.discard()


def _crash(error: Exception) -> str:
    """A fault of the command itself in one line: what it was, and where."""
    if os.environ.get("UTTAB_TRACE"):
        traceback.print_exception(error)
    frames = traceback.extract_tb(error.__traceback__)
    place = f"{Path(frames[-1].filename).name}, line {frames[-1].lineno}" if frames else "?"
    words = " ".join(str(error).split())[:200]
    return f"the command itself failed, at {place}: {type(error).__name__}: {words} (UTTAB_TRACE=1 shows more)"
