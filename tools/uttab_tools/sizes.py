"""Holds a problem that a command has made against the limits on lists."""

from collections.abc import Iterator, Mapping

from uttab_tools import limits


def lists_above(problem: Mapping[str, object]) -> Iterator[str]:
    """In words each kind of list that is longer than `uttab` takes it."""
    courses = _list(problem, "courses")
    classes = [one for course in courses for config in _list(course, "configs") for subpart in _list(config, "subparts")
               for one in _list(subpart, "classes")]
    rules, students = _list(problem, "distributions"), _list(problem, "students")
    members = [len(_list(rule, "classes")) for rule in rules]
    for words, count, most in (
        ("rooms", len(_list(problem, "rooms")), limits.ROOMS),
        ("courses", len(courses), limits.COURSES),
        ("classes", len(classes), limits.CLASSES),
        ("rules", len(rules), limits.DISTRIBUTIONS),
        ("students", len(students), limits.STUDENTS),
        ("times of a class", _longest(classes, "times"), limits.TIMES_OF_A_CLASS),
        ("rooms of a class", _longest(classes, "rooms"), limits.ROOMS_OF_A_CLASS),
        ("classes of a rule", max(members, default=0), limits.CLASSES_OF_A_DISTRIBUTION),
        ("classes of all rules", sum(members), limits.MEMBERS),
        ("courses of a student", _longest(students, "courses"), limits.COURSES_OF_A_STUDENT),
        ("closed times of a room", _longest(_list(problem, "rooms"), "unavailable"), limits.UNAVAILABLE),
    ):
        if count > most:
            yield f"{count:,} {words}, of which there may be {most:,}"


def _list(value: Mapping[str, object], key: str) -> list[dict[str, object]]:
    found = value.get(key)
    return found if isinstance(found, list) else []


def _longest(values: list[dict[str, object]], key: str) -> int:
    return max((len(_list(value, key)) for value in values), default=0)
