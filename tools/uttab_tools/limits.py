"""The rules of the files, in one place: limits, ranges and the types of distributions. docs/FORMATS.md says what they mean.

The readers of our files, of the competition's, of spreadsheets and of FET's read them here. A test holds them against
docs/FORMATS.md, against the schemas, and against what `uttab check` refuses."""

import re
from dataclasses import dataclass


@dataclass(frozen=True, slots=True)
class Range:
    """The whole numbers that a key may have."""

    least: int
    most: int

    def __contains__(self, number: int) -> bool:
        return self.least <= number <= self.most


# Ranges of numbers, by what they count.
ID = Range(0, 2**32 - 1)
VERSION = Range(1, 2)
DAYS = Range(1, 7)
SLOTS_PER_DAY = Range(1, 1440)
WEIGHT = Range(0, 100_000)
PENALTY = Range(0, 1_000_000)
SLOT = Range(0, 65_535)
LENGTH = Range(1, 65_535)
SEATS = Range(0, 2**32 - 1)
NUMBER = Range(0, 2**64 - 1)
SEED = NUMBER

LAST_SLOT = SLOT.most


def weeks_of_version(version: int) -> Range:
    """The weeks that a term may have."""
    return Range(1, 64 if version == 1 else 128)


# The most items of a list, by the key of the list.
ROOMS = 2_500
COURSES = 20_000
CLASSES = 20_000
DISTRIBUTIONS = 20_000
STUDENTS = 100_000
TRAVEL = 4_000
UNAVAILABLE = 1_000
ROOMS_OF_A_CLASS = 1_000
TIMES_OF_A_CLASS = 1_000
CLASSES_OF_A_DISTRIBUTION = 2_000
COURSES_OF_A_STUDENT = 40
STUDENTS_OF_A_CLASS = 100_000

# The most of sums over lists, and of a file's bytes.
CELLS = 8_000_000
MEMBERS = 4_000_000
LINKS = 20_000_000
LISTED = 4_000_000
FILE_BYTES = 134_217_728

# What a session takes.
CLOSURES = 10_000
LINE_BYTES = 65_536

WEIGHTS = ("time", "room", "distribution", "student")
TRUTHS = {True: True, False: False, "true": True, "false": False}

# The types of distributions, with the number of their parameters.
TYPES = {
    "SameStart": 0, "SameTime": 0, "DifferentTime": 0, "SameDays": 0, "DifferentDays": 0, "SameWeeks": 0,
    "DifferentWeeks": 0, "Overlap": 0, "NotOverlap": 0, "SameRoom": 0, "DifferentRoom": 0, "SameAttendees": 0,
    "Precedence": 0, "WorkDay": 1, "MinGap": 1, "MaxDays": 1, "MaxWeeks": 1, "MaxDayLoad": 1, "MaxBreaks": 2, "MaxBlock": 2,
}
# Those of version 2 alone, which the competition hasn't got, and those that count links.
TYPES_OF_VERSION_2 = frozenset({"MaxWeeks"})
TYPES_WITH_LINKS = frozenset({"MaxBreaks", "MaxBlock"})
PARAMETER = Range(0, 65_535)

_TYPE = re.compile(r"(?P<name>[A-Za-z]+)(?:\((?P<parameters>[^()]*)\))?")
_PARAMETER = re.compile(r" *(\d{1,5}) *", re.ASCII)


def type_name(text: str, version: int = 1) -> str | None:
    """The name of the type that a text is, or none where it is no type of this version."""
    match = _TYPE.fullmatch(text)
    if match is None or match["name"] not in TYPES or version == 1 and match["name"] in TYPES_OF_VERSION_2:
        return None
    parameters = [] if match["parameters"] is None else match["parameters"].split(",")
    if len(parameters) != TYPES[match["name"]]:
        return None
    for parameter in parameters:
        number = _PARAMETER.fullmatch(parameter)
        if number is None or int(number[1]) not in PARAMETER:
            return None
    return match["name"]


def is_set(text: object, count: int | None = None) -> bool:
    """Whether a value is a set of days or weeks: a text of 0 and 1 with a 1 in it, of so many characters."""
    return (isinstance(text, str) and not text.strip("01") and "1" in text
            and (count is None or len(text) == count))
