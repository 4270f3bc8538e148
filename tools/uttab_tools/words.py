"""Reads days, weeks and times of day as people write them in a spreadsheet. A set is a whole number, as in `times`."""

import re

from uttab_tools import limits
from uttab_tools.names import DAY_NAMES

_WEEK = r"(\d+)(?: *(?:-|–|to) *(\d+))?"
_CLOCK = re.compile(r"(\d{1,3}):(\d\d)(?::00)?", re.ASCII)


class NoWords(ValueError):
    """Words that aren't understood. The text says what was wanted."""


def days_of(text: str, count: int) -> int:
    """A set of days: names or their first three letters or more, such as `Mon Wed` or `Monday to Friday`, or a set as in
    the problem file."""
    if limits.is_set(text, count) and len(text) > 1:
        return int(text[::-1], 2)
    found = 0
    for item in re.split(r" *(?:,|;|\+|\band\b) *| +(?!to\b)(?<!\bto )", text.strip().lower()):
        first, _, last = re.sub(r" *(?:\bto\b|-|–) *", "|", item).partition("|")
        begin = _day(first, count)
        end = _day(last, count) if last else begin
        if end < begin:
            raise NoWords(f"{item!r} ends before it begins")
        found |= (2 << end) - (1 << begin)
    return found


def _day(word: str, count: int) -> int:
    for place, name in enumerate(DAY_NAMES[:count]):
        if len(word) >= 3 and name.lower().startswith(word):
            return place
    raise NoWords(f"{word!r} is no day from {DAY_NAMES[0]} to {DAY_NAMES[count - 1]}")


def weeks_of(text: str, count: int) -> int:
    """A set of weeks: `all weeks`, `odd weeks`, `even weeks 2 to 8`, `weeks 1 to 4, 6 and 8`, `all weeks but 7`, or a set as
    in the problem file. No words are all weeks."""
    if limits.is_set(text, count) and len(text) > 2:
        return int(text[::-1], 2)
    words = re.sub(r"\bweeks?\b", " ", text.lower())
    words = " ".join(words.split())
    every = (1 << count) - 1
    if words in ("", "all"):
        return every
    if words.startswith("all but "):
        return _some(every & ~_listed(words.removeprefix("all but "), count))
    for kind, place in (("odd", 0), ("even", 1)):
        if words == kind or words.startswith(f"{kind} "):
            of_kind = sum(1 << week for week in range(place, count, 2))
            rest = words.removeprefix(kind).strip()
            return _some(of_kind & (_listed(rest, count) if rest else every))
    return _listed(words, count)


def _some(weeks: int) -> int:
    if not weeks:
        raise NoWords("there are no such weeks")
    return weeks


def _listed(words: str, count: int) -> int:
    found = 0
    for item in re.split(r" *(?:,|;|\band\b) *", words):
        match = re.fullmatch(_WEEK, item)
        if not match:
            raise NoWords(f"{item!r} is neither a week nor weeks such as `3 to 7`")
        first = int(match[1])
        last = int(match[2] or first)
        if not 1 <= first <= last <= count:
            raise NoWords(f"{item!r} isn't within weeks 1 to {count}")
        found |= (1 << last) - (1 << (first - 1))
    return found


def slot_of(text: str, slots_per_day: int) -> int:
    """The slot that begins at a time of day, such as `9:00`. A number without a colon is that of the slot."""
    if text.isascii() and text.isdecimal() and len(text) <= 5:
        return int(text)
    match = _CLOCK.fullmatch(text)
    if not match or int(match[2]) > 59:
        raise NoWords(f"{text!r} is no time of day such as 9:00")
    slot, left = divmod((int(match[1]) * 60 + int(match[2])) * slots_per_day, 1440)
    if left:
        raise NoWords(f"no slot begins at {text}: a slot has {1440 / slots_per_day:g} minutes")
    return slot
