"""A running `uttab run PROBLEM -`, which is asked line by line."""

import os
import subprocess
import threading
from collections.abc import Sequence

# The lines of a reply: its own lines, and last that of totals or of a refusal.
Reply = list[str]

# What is written at once is less than a pipe holds, so that neither side waits for the other.
MOST_AT_ONCE = 60_000
READ_AT_ONCE = 2**18
# How the last line of a reply begins, after the line before it.
ACCEPTED, REFUSED = b"\nok ", b"\nrefused "


class Ended(Exception):
    """The program ended. The text is what it said."""


def accepted(reply: Reply) -> bool:
    return reply[-1].startswith("ok ")


class Process:
    """The program. `opening` is its first line, `said` what it says of a long command, `sent` how much it has read."""

    def __init__(self, words: Sequence[str]) -> None:
        # At a terminal the program tells how far a long command is, so its standard error is one.
        ours, theirs = os.openpty()
        try:
            self.running = subprocess.Popen(
                words, stdin=subprocess.PIPE, stdout=subprocess.PIPE, stderr=theirs, bufsize=2**18, start_new_session=True)
        except OSError:
            os.close(ours)
            raise
        finally:
            os.close(theirs)
        assert self.running.stdin is not None and self.running.stdout is not None
        self.input, self.output = self.running.stdin, self.running.stdout
        self.said, self.sent = "", 0
        self.read = bytearray(b"\n")  # what is read and not handed on, with a line feed before it
        self.listener = threading.Thread(target=self._listen, args=(ours,), daemon=True)
        self.listener.start()
        self.opening = self._line()

    def _listen(self, terminal: int) -> None:
        text = b""
        try:
            while piece := os.read(terminal, 4096):
                text = (text + piece)[-4096:]
                parts = [part.strip() for part in text.decode(errors="replace").replace("\x1b[K", "").split("\r")]
                self.said = next((part for part in reversed(parts) if part), "")
        except OSError:
            pass
        os.close(terminal)

    def _line(self) -> str:
        while (end := self.read.find(b"\n", 1)) < 0:
            self._read()
        return self._taken(end)[0]

    def _read(self) -> None:
        piece = os.read(self.output.fileno(), READ_AT_ONCE)
        if not piece:
            status = self.running.wait()
            self.listener.join(1)
            how = f"ended with status {status}" if status >= 0 else f"was killed by signal {-status}"
            why = self.said if self.said.startswith("uttab: ") else ""
            raise Ended(f"uttab {how}. {why}".strip())
        self.read += piece

    def _taken(self, end: int) -> list[str]:
        """The lines up to the line feed at this place, which stays."""
        lines = self.read[1:end].decode(errors="replace").split("\n")
        del self.read[:end]
        return lines

    def ask(self, lines: Sequence[str]) -> list[Reply]:
        """The reply to each line. Several lines are written at once."""
        replies: list[Reply] = []
        while len(replies) < len(lines):
            some: list[str] = []
            size = 0
            for line in lines[len(replies):]:
                size += len(line) + 1
                if some and size > MOST_AT_ONCE:
                    break
                some.append(line)
            self._write(some)
            replies += [self._reply() for _ in some]
        return replies

    def _write(self, lines: Sequence[str]) -> None:
        text = "".join(line + "\n" for line in lines).encode("ascii")
        self.sent += len(text)
        try:
            self.input.write(text)
            self.input.flush()
        except OSError:
            pass  # It has ended, as the next line shows.

    def _reply(self) -> Reply:
        """The next lines, up to the first that ends a reply."""
        looked = 0
        while True:
            accepted_at = self.read.find(ACCEPTED, looked)
            refused_at = self.read.find(REFUSED, looked, accepted_at if accepted_at >= 0 else None)
            last = accepted_at if refused_at < 0 else refused_at
            if last >= 0 and (end := self.read.find(b"\n", last + 1)) >= 0:
                return self._taken(end)
            looked = last if last >= 0 else max(0, len(self.read) - len(REFUSED))
            self._read()

    def kill(self) -> None:
        self.running.kill()

    def end(self) -> None:
        self.kill()
        self.running.wait()
        for pipe in (self.input, self.output):
            try:
                pipe.close()
            except OSError:
                pass
        self.listener.join(1)
