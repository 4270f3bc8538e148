"""A search that runs in slices, so that it can be stopped and the desk is asked in between.

A slice is one command, such as `search 800 3`, each with the next seed. A slice that finds nothing better is taken
back, and isn't kept in the log: its result is the moment at which it began."""

import time
from dataclasses import dataclass, field

FIRST_TURNS, MOST_TURNS = 50, 1_000_000
LEAST_SLICE, MOST_SLICE = 0.5, 8.0
GROWTH = 8

# How many slices without a change end a descent, which can't go on where no small change helps.
MOST_IDLE = 5

# Commands that place classes have no work left where all are placed; the others go on.
PLACING = {"search", "repair", "place"}
LOWERING = {"improve", "deluge"}


@dataclass
class Search:
    """A search that was begun with these words."""

    word: str
    seconds: float
    seed: int
    opening: str  # the totals at its beginning
    began: float = field(default_factory=time.monotonic)
    turns: int = 0
    size: int = FIRST_TURNS
    slice: float = LEAST_SLICE
    idle: int = 0
    kept: int = 0
    stopping: bool = False

    def gone(self) -> float:
        return time.monotonic() - self.began

    def line(self) -> str:
        return f"{self.word} {self.size} {self.seed}"

    def over(self) -> str | None:
        """Why no further slice is made, or none."""
        if self.stopping:
            return "stopped"
        return "time is over" if self.gone() >= self.seconds else None

    def after_slice(self, made: int, took: float, better: bool, all_placed: bool, awaited: bool = False) -> str | None:
        """Takes note of a slice of so many turns. Where someone waited for its end the next ones are short again. The answer is
        why it was the last one, or none."""
        asked = self.size
        self.turns += made
        self.seed += 1
        if better:
            self.kept += 1
            self.idle = 0
        else:
            self.idle += 1
        self.slice = LEAST_SLICE if better or awaited else min(MOST_SLICE, 2 * self.slice)
        left = max(LEAST_SLICE / 2, self.seconds - self.gone())
        self.size = max(1, min(MOST_TURNS, int(asked * min(GROWTH, min(self.slice, left) / max(took, 1e-4)))))
        if made < asked:
            return "every class is placed" if all_placed and self.word in PLACING else "nothing is left that it could do"
        if self.word == "improve" and self.idle >= MOST_IDLE:
            return f"nothing better was found in the last {MOST_IDLE} tries"
        return None
