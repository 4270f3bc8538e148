"""Times, and sets of days and weeks, with their words. A set is a whole number here: bit i is 1 where place i, counted
from 0, is in the set."""

from dataclasses import dataclass


@dataclass(frozen=True, slots=True)
class Time:
    """A time of a class, or one at which a room is closed."""

    days: int
    weeks: int
    start: int
    length: int

    @property
    def end(self) -> int:
        return self.start + self.length


def overlap(one: Time, other: Time) -> bool:
    """Whether two times share a slot of a day of a week."""
    return bool(one.days & other.days and one.weeks & other.weeks) and one.start < other.end and other.start < one.end


def places(bits: int) -> list[int]:
    """The places in a set, from the first."""
    return [place for place in range(bits.bit_length()) if bits >> place & 1]


def set_text(bits: int, count: int) -> str:
    """A set as the files have it: a text of 0 and 1, the leftmost for the first place."""
    return f"{bits:0{count}b}"[::-1]


def again(bits: int, count: int, most: int) -> int:
    """A set of so many places that comes again and again, up to another number of places."""
    return sum(1 << place for place in range(most) if bits >> place % count & 1)


def minutes(slot: int, slots_per_day: int) -> int:
    """The minute, counted from midnight, at which a slot begins."""
    return slot * 1440 // slots_per_day


def clock(slot: int, slots_per_day: int) -> str:
    """The time of day at which a slot begins, such as `09:05`. One after midnight says so: `01:00 next day`."""
    days, minute = divmod(minutes(slot, slots_per_day), 1440)
    later = "" if days == 0 else " next day" if days == 1 else f" {days} days later"
    return f"{minute // 60:02}:{minute % 60:02}{later}"


def weeks_in_words(bits: int, count: int) -> str:
    """A set of weeks of a term of so many: all weeks, odd weeks, weeks 3 to 7."""
    weeks = [place + 1 for place in places(bits)]
    left = [week for week in range(1, count + 1) if week not in set(weeks)]
    if not weeks:
        return "no weeks"
    if not left:
        return "all weeks" if count > 1 else "week 1"
    if len(weeks) == 1:
        return f"week {weeks[0]}"
    if weeks[-1] - weeks[0] == len(weeks) - 1:
        return f"weeks {weeks[0]} {'to' if len(weeks) > 2 else 'and'} {weeks[-1]}"
    if all(week - earlier == 2 for earlier, week in zip(weeks, weeks[1:])) and (len(weeks) > 2 or count <= 4):
        kind = "odd weeks" if weeks[0] % 2 else "even weeks"
        whole = weeks[0] <= 2 and weeks[-1] >= count - 1
        return kind if whole else f"{kind} {weeks[0]} to {weeks[-1]}"
    if len(left) <= 2 and count >= 6:
        return "all weeks but " + " and ".join(map(str, left))
    items = _runs_in_words(weeks)
    return "weeks " + ", ".join(items[:-1]) + " and " + items[-1]


def _runs_in_words(weeks: list[int]) -> list[str]:
    """Weeks that follow one another as `3 to 7`, others one by one."""
    runs: list[list[int]] = []
    for week in weeks:
        if runs and runs[-1][1] == week - 1:
            runs[-1][1] = week
        else:
            runs.append([week, week])
    items = []
    for first, last in runs:
        items += [f"{first} to {last}"] if last - first > 1 else [str(week) for week in range(first, last + 1)]
    return items
