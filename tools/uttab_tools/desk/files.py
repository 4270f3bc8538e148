"""Files that are made of the present timetable by the other commands: the draft itself, a page, a table, calendars, and a
page of who has to be told of what has changed since it was published."""

import os
import subprocess
import sys
import tempfile
import zipfile
from collections.abc import Sequence
from io import BytesIO
from pathlib import Path

from uttab_tools.desk.session import Unasked

TOOLS = Path(__file__).resolve().parents[2]
HTML, CSV = "text/html; charset=utf-8", "text/csv; charset=utf-8"

DRAFT, PAGE, CHANGES, TABLE, CALENDARS = "draft.json", "timetable.html", "changes.html", "meetings.csv", "calendars.zip"
KINDS = {DRAFT: "application/json", PAGE: HTML, CHANGES: HTML, TABLE: CSV, CALENDARS: "application/zip"}


class Maker:
    """Makes files of a problem's timetables. `common` are the words that each command takes, such as `--names FILE`,
    `term` those of calendars, none of them where the first day of the term isn't known."""

    def __init__(self, problem: str, common: Sequence[str], term: Sequence[str]) -> None:
        self.problem, self.common, self.term = problem, list(common), list(term)

    def offered(self) -> list[str]:
        return [name for name in KINDS if name != CALENDARS or self.term]

    def make(self, name: str, draft: str, published: str | None) -> bytes:
        """The content of a file."""
        if name not in self.offered():
            raise Unasked("The first day of the term isn't known: the desk is begun with --first-day.")
        if name == CHANGES and published is None:
            raise Unasked("Nothing is published yet.")
        with tempfile.TemporaryDirectory(prefix="desk.") as folder:
            given, earlier, written = (Path(folder) / one for one in (DRAFT, "published.json", name))
            given.write_text(draft + "\n", encoding="ascii")
            earlier.write_text((published or "") + "\n", encoding="ascii")
            if name == DRAFT:
                return given.read_bytes()
            if name == CALENDARS:
                return self._calendars(given, Path(folder) / "calendars")
            words = {PAGE: ["page", self.problem, str(given)], TABLE: ["table", self.problem, str(given)],
                     CHANGES: ["compare", self.problem, str(earlier), str(given), "--as", "page"]}[name]
            self._run([*words, *self.common, "-o", str(written)])
            return written.read_bytes()

    def _calendars(self, draft: Path, folder: Path) -> bytes:
        """The calendars of all rooms, courses, students and teachers, in one file."""
        self._run(["calendars", self.problem, str(draft), *self.common, *self.term, "--folder", str(folder)])
        content = BytesIO()
        with zipfile.ZipFile(content, "w", zipfile.ZIP_DEFLATED) as archive:
            for path in sorted(folder.iterdir()):
                archive.write(path, path.name)
        return content.getvalue()

    def _run(self, words: Sequence[str]) -> None:
        done = subprocess.run([sys.executable, "-B", "-P", "-m", "uttab_tools", *words], capture_output=True, text=True,
                              env=os.environ | {"PYTHONPATH": str(TOOLS)}, stdin=subprocess.DEVNULL, check=False)
        if done.returncode:
            raise Unasked(done.stderr.strip() or f"{words[0]} ended with status {done.returncode}")
