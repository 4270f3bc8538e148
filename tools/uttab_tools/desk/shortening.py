"""Replies with the lines that the page shows alone, since some have tens of thousands."""

from collections.abc import Sequence
from heapq import nlargest
from operator import add

from uttab_tools.desk.process import Reply


def shortened(reply: Reply, most: object, largest: object = None) -> tuple[Reply, dict[str, int]]:
    """A reply with at most so many lines of each first word, and how many lines of each are left out. The first lines stay,
    or those of the largest numbers: `largest` has, by the first word, what these stand after, such as `conflicts`. Of
    `time room` the sum counts, and lines that are largest by any of several stay."""
    if not isinstance(most, int) or len(reply) <= most:
        return reply, {}
    by = largest if isinstance(largest, dict) else {}
    kept, left = [], {}
    for word, lines in by_first_word(reply).items():
        some = lines if len(lines) <= most else largest_of(lines, by[word], most) if word in by else lines[:most]
        kept += some
        if len(some) < len(lines):
            left[word] = len(lines) - len(some)
    return kept, left


def by_first_word(reply: Reply) -> dict[str, list[str]]:
    """The lines of a reply by their first word. Most lines have that of the line before."""
    groups: dict[str, list[str]] = {}
    front, own = "\n", list[str]()
    for line in reply:
        if not line.startswith(front):
            word, space, _ = line.partition(" ")
            front, own = word + (space or "\n"), groups.setdefault(word, [])
        own.append(line)
    return groups


def largest_of(lines: Sequence[str], keys: Sequence[str], most: int) -> list[str]:
    """The lines of the largest numbers, by each of the keys, in their order. All lines have one form."""
    words = " ".join(lines).split(" ")
    form = lines[0].split(" ")
    if len(words) != len(form) * len(lines):
        raise ValueError("the lines have several forms")
    kept = set[int]()
    for key in keys:
        numbers, *others = [numbers_of(words[form.index(word) + 1::len(form)]) for word in key.split(" ")]
        for more in others:
            numbers = list(map(add, numbers, more))
        kept.update(nlargest(most, range(len(lines)), key=numbers.__getitem__))
    return [lines[place] for place in sorted(kept)]


def numbers_of(words: Sequence[str]) -> list[int]:
    """The numbers that words are. Few of them are different."""
    known = {word: int(word) for word in set(words)}
    return list(map(known.__getitem__, words))
