"""What the words of ./dev share: where things are, and the list of crates."""

import re
from pathlib import Path

TOP = Path(__file__).resolve().parent.parent
CRATES = TOP / "crates"
LIST = TOP / "crates.txt"
HEADING = re.compile(r"# ([a-z][a-z ]*): ")


class Stop(Exception):
    """Why a word can't be carried out."""


def listed_crates() -> dict[str, list[str]]:
    """The crates of `crates.txt`, lowest first, each with the libraries that it names."""
    return {name: names for _, name, names in lines_of_crates() if name}


def lines_of_crates() -> list[tuple[str, str, list[str]]]:
    """The lines of `crates.txt`, each with its crate and the libraries that it names; a comment has none."""
    found = []
    for line in LIST.read_text(encoding="utf-8").splitlines():
        name, colon, names = line.partition(":")
        is_one = colon and not line.startswith("#")
        found.append((line, name.split()[0], names.split()) if is_one else (line, "", []))
    return found


def layers() -> dict[str, list[str]]:
    """The layers of `crates.txt`, lowest first, each with the crates below its heading."""
    found: dict[str, list[str]] = {}
    open_one: list[str] = []
    for line, name, _ in lines_of_crates():
        if match := HEADING.match(line):
            open_one = found.setdefault(match[1], [])
        elif name:
            open_one.append(name)
    return found


def folder_of(crate: str) -> Path:
    """The folder of a crate that is listed."""
    if crate not in listed_crates():
        raise Stop(f"crates.txt lists no crate {crate}")
    return CRATES / crate


def sources_of(crate: str) -> list[Path]:
    """The sources of a crate: code, definitions and proofs."""
    places = ((CRATES / crate / folder).rglob(suffix) for folder, suffix in (("src", "*.rt"), ("specs", "*.antt"), ("proofs", "*.antt")))
    return sorted(path for place in places for path in place)


def code_lines(text: str) -> str:
    """A text without its comments."""
    return re.sub(r"(?m)^\s*(?://|--).*$", "", text)
