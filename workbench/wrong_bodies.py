"""The wrong bodies of a crate: edits that the prover must refuse. Those in `must-fail` the gate tries; those in
`wrong-bodies` stand on a shelf, since the gate would take too long with them.

An edit has a line `file: PATH` and then pairs of lines `old: TEXT` and `new: TEXT`, each of which applies to what the earlier
ones made."""

import shutil
from collections.abc import Iterator
from contextlib import contextmanager
from pathlib import Path

from repository import CRATES, Stop

GATE, SHELF = "must-fail", "wrong-bodies"


def edits_in(folder: Path, shelf: str) -> list[Path]:
    """The edits of a crate's folder in the gate or on the shelf."""
    return sorted((folder / shelf).glob("*.edit"))


@contextmanager
def taken_from_the_shelf(folder: Path) -> Iterator[None]:
    """With the edits of the shelf among those of the gate. None stays there, nor one that an earlier call left."""
    copies = [folder / GATE / edit.name for edit in edits_in(folder, SHELF)]
    for copy in copies:
        if copy.exists() and copy.read_bytes() != (folder / SHELF / copy.name).read_bytes():
            raise Stop(f"{copy.name} of {folder.name} stands in the gate and on the shelf")
    had_folder = (folder / GATE).is_dir()
    try:
        (folder / GATE).mkdir(exist_ok=True)
        for edit in edits_in(folder, SHELF):
            shutil.copy(edit, folder / GATE)
        yield
    finally:
        for copy in copies:
            copy.unlink(missing_ok=True)
        if not had_folder:
            (folder / GATE).rmdir()


def fault_of(edit: Path, folder: Path) -> str | None:
    """Why an edit can't be applied to the sources of a crate, if it can't."""
    texts: dict[str, str] = {}
    path, old, pairs = "", "", 0
    for line in edit.read_text(encoding="utf-8").splitlines():
        word, _, text = line.partition(": ")
        if word == "file":
            path = text
            if not (folder / path).is_file():
                return f"there is no file {path}"
            texts.setdefault(path, (folder / path).read_text(encoding="utf-8"))
        elif word == "old":
            old = text
        elif word.removesuffix(":") == "new":
            found = texts[path].count(old) if path else 0
            if found != 1:
                return f"its old text stands {found} times in {path}"
            texts[path] = texts[path].replace(old, text)
            pairs += 1
    return None if pairs else "it has no pair of texts"


def faults() -> list[str]:
    """Which edits of all crates can't be applied, and which stand in the gate and on the shelf at once."""
    found = []
    for folder in sorted(CRATES.iterdir()):
        names = [edit.name for shelf in (GATE, SHELF) for edit in edits_in(folder, shelf)]
        found += [f"{folder.name}: {name} stands twice" for name in sorted({name for name in names if names.count(name) > 1})]
        for shelf in (GATE, SHELF):
            told = ((edit, fault_of(edit, folder)) for edit in edits_in(folder, shelf))
            found += [f"{folder.name}/{shelf}/{edit.name}: {fault}" for edit, fault in told if fault]
    return found
