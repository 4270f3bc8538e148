"""What is told of a FET file that became a problem: each kind of thing on a line of its own, with its count."""

from collections import Counter
from collections.abc import Iterator

from uttab_tools.fet.building import Constraint, Kept
from uttab_tools.fet.kinds import KINDS


class Report:
    """Counts constraints by their kind and by how much of them was kept, and other things by their words."""

    def __init__(self) -> None:
        self.counts: Counter[tuple[str, Kept]] = Counter()
        self.first_lines: dict[tuple[str, Kept], int] = {}
        self.inactive = 0
        self.notes: dict[str, tuple[int, str]] = {}

    def count(self, constraint: Constraint, kept: Kept) -> None:
        key = constraint.kind.removeprefix("Constraint"), kept
        self.counts[key] += 1
        self.first_lines.setdefault(key, constraint.line)

    def note(self, words: str, first: str) -> None:
        """Counts one thing. `words` has `%` where the number of things is to stand."""
        count, earlier = self.notes.get(words, (0, first))
        self.notes[words] = count + 1, earlier

    def of(self, kept: Kept) -> int:
        return sum(count for (_, how), count in self.counts.items() if how == kept)

    @property
    def is_whole(self) -> bool:
        return not self.notes and not self.of(Kept.IN_PART) and not self.of(Kept.NOT)

    def lines(self) -> Iterator[str]:
        for words, (count, first) in self.notes.items():
            yield f"{words.replace('%', str(count))} (first: {first})"
        for kept, words in ((Kept.IN_PART, "kept in part"), (Kept.NOT, "left out")):
            for (kind, how), count in sorted(self.counts.items()):
                if how == kept:
                    known = KINDS.get(f"Constraint{kind}")
                    reason = f": {known.but}" if known and known.but else ": has no counterpart"
                    yield f"{words}: {count} {kind} (first: line {self.first_lines[kind, how]}){reason}"
        if self.inactive:
            yield f"note: {self.inactive} constraints that aren't active"
        yield (f"{sum(self.counts.values())} active constraints: {self.of(Kept.WHOLLY)} kept, {self.of(Kept.IN_PART)} kept in part, "
               f"{self.of(Kept.NOT)} left out")
