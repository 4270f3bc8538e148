"""What a conversion tells at its end: each kind of thing once, with its count and the first place where it stood."""

from uttab_tools.program import DONE, PARTLY, tell

# The groups, in the order in which they are told, each with what stands before its words.
GROUPS = {"note": "", "left out": "left out: ", "refused": "uttab refuses: ", "wrong": "no solution: "}


class Report:
    """Counts what was met while a file was turned into another."""

    def __init__(self, command: str, file: str) -> None:
        self.command, self.file = command, file
        self.kinds: dict[tuple[str, str], tuple[int, str]] = {}

    def add(self, group: str, words: str, place: str = "", count: int = 1) -> None:
        """Counts one thing. `words` may have `%` where the number of things is to stand; else it is told at the end."""
        earlier, first = self.kinds.get((group, words), (0, place))
        self.kinds[group, words] = (earlier + count, first)

    def write(self, summary: str) -> None:
        for group, before in GROUPS.items():
            for (own, words), (count, place) in self.kinds.items():
                if own == group:
                    tell(self.command, f"{self.file}: {before}{_counted(words, count, place)}")
        tell(self.command, f"{self.file}: {summary}")

    @property
    def status(self) -> int:
        """Whether all that counts was kept."""
        return DONE if all(group == "note" for group, _ in self.kinds) else PARTLY


def _counted(words: str, count: int, place: str) -> str:
    """What was counted, with its number and its first place."""
    if "%" in words:
        words = words.replace("%", f"{count:,}")
        times = ""
    else:
        times = f"{count:,} times" if count > 1 else ""
    where = f"first: {place}" if place and count > 1 else place
    told = ", ".join(part for part in (times, where) if part)
    return f"{words} ({told})" if told else words
