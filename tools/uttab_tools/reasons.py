"""Why classes aren't in a timetable, in words: what `uttab` says of each of their places."""

from collections import Counter
from collections.abc import Iterable, Sequence

from uttab_tools.uttab_program import run_uttab


def reasons_of(problem: str, published: str, classes: Sequence[int], program: str | None) -> dict[int, str]:
    """For each of some classes that the timetable of a file hasn't got, why: in words."""
    script = "recall\n" + "".join(f"values {one}\n" for one in classes)
    lines = iter(run_uttab(["run", problem, "-", published], script, program)[2:])
    found = {}
    for one in classes:
        own = []
        while not (line := next(lines)).startswith("ok "):
            own.append(line)
        found[one] = in_words(own)
    return found


def in_words(values: Iterable[str]) -> str:
    """What keeps a class from its places, by the lines of `values`."""
    counts, least = Counter[str](), 0
    for line in values:
        kind, *numbers = line.split(" ")[3:]
        if kind == "out" and numbers[0] != "0":
            counts["taken"] += 1
            least = min(least or int(numbers[0]), int(numbers[0]))
        else:
            counts["free" if kind == "out" else kind] += 1
    number = sum(counts.values())
    places = f"its {number:,} places" if number > 1 else "its one place"
    if counts["free"]:
        return f"{counts['free']:,} of {places} {'are' if counts['free'] > 1 else 'is'} free" if number > 1 else f"{places} is free"
    told = {"taken": f"taken, by {least:,} other class{'es' * (least > 1)} at the least", "closed": "in a room that is closed then",
            "rule": "against a required rule", "locked": "held by a locked class"}
    words = [(counts[kind], own) for kind, own in told.items() if counts[kind]]
    if len(words) == 1:
        return f"all of {places} are {words[0][1]}" if number > 1 else f"{places} is {words[0][1]}"
    return f"of {places} " + ", ".join(f"{count:,} {'is' if count == 1 else 'are'} {own}" for count, own in words)
