"""How long the prover takes for each function of a crate, so that the dear ones are found.

All is proved anew, one function after another; what earlier checks kept is set aside for that, and put back."""

import re
import shutil
import subprocess
import time
from collections.abc import Iterable, Iterator
from contextlib import contextmanager
from dataclasses import dataclass
from pathlib import Path

from repository import Stop, folder_of

ENDED = re.compile(r"checked (\S+), \d+ of \d+")


@dataclass(frozen=True)
class Share:
    """What a function took of a check: seconds by the clock."""

    seconds: float
    name: str


@contextmanager
def set_aside(kept: Path) -> Iterator[None]:
    """Without a folder, which is put back in the end, also where an earlier run didn't come to that."""
    aside = kept.with_name(f"{kept.name}.aside")
    if kept.exists() and not aside.exists():
        kept.rename(aside)
    try:
        shutil.rmtree(kept, ignore_errors=True)
        yield
    finally:
        shutil.rmtree(kept, ignore_errors=True)
        if aside.exists():
            aside.rename(kept)


def shares_of(crate: str, lines: Iterable[str], said: list[str]) -> list[Share]:
    """What each function of a crate took, by the lines that a check writes as it goes; its other lines go to `said`. The first
    of them has what comes before: reading the crates below."""
    found = []
    before = time.monotonic()
    for line in lines:
        now = time.monotonic()
        match = ENDED.match(line)
        if match and match[1].startswith(f"{crate}::"):
            found.append(Share(now - before, match[1]))
            before = now
        else:
            said.append(line)
    return found


def times(crate: str, tests: bool, most: int) -> int:
    """Proves a crate from nothing, with its tests where asked, and writes what its dearest functions take."""
    folder, said = folder_of(crate), list[str]()
    words = ["rt", "check", "--jobs", "1", *["--test"][:tests]]
    with set_aside(folder / "out/incremental"):
        try:
            with subprocess.Popen(words, cwd=folder, stdout=subprocess.PIPE, encoding="utf-8") as process:
                shares = shares_of(crate, process.stdout or (), said)
        except FileNotFoundError:
            raise Stop("the Rattle kit's command rt is not on the path") from None
    if process.returncode:
        print("".join(said), end="")
        return process.returncode
    print(f"{crate}: {len(shares)} functions in {sum(share.seconds for share in shares):.0f} s")
    for share in sorted(shares, key=lambda share: -share.seconds)[:most]:
        print(f"{share.seconds:7.1f} s  {share.name}")
    return 0
