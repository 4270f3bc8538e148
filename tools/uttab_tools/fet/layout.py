"""Where the days and hours of FET stand in a term of ours, and which of our types say what FET says of days.

An hour of FET is one slot, and its first hour stands at eight o'clock. Its days stand in one of three ways: up to seven of
them are the days of a term of one week; half days are the days of a term of two weeks, mornings in the first and afternoons
in the second; and any others are weeks of one day each."""

from dataclasses import dataclass

from uttab_tools import limits

SLOTS = (24, 48, 72, 96, 144, 288, 1440)


@dataclass(frozen=True, slots=True)
class Layout:
    """`same_day` are the types that ask for one day of FET, `other_days` the one that asks for different ones,
    `most_days` the one that limits their number. `exact` says whether the last two count days as FET does, and `ordered`
    whether the first day of FET comes first."""

    days: int
    weeks: int
    slots: int
    first_slot: int
    half_days: bool
    same_day: tuple[str, ...]
    other_days: str
    most_days: str
    ordered: bool

    def cell(self, day: int) -> tuple[str, str]:
        """The sets of days and weeks of a day of FET."""
        if self.weeks == 1:
            own, week = day, 0
        elif self.half_days:
            own, week = divmod(day, 2)
        else:
            own, week = 0, day
        return _one(own, self.days), _one(week, self.weeks)

    def day_of(self, days: str, weeks: str) -> int:
        """The day of FET at these sets."""
        own, week = days.index("1"), weeks.index("1")
        return own if self.weeks == 1 else 2 * own + week if self.half_days else week

    def time(self, day: int, hour: int, hours: int) -> dict[str, object]:
        days, weeks = self.cell(day)
        return {"days": days, "start": self.first_slot + hour, "length": hours, "weeks": weeks}


def layout_of(days: int, hours: int, half_days: bool) -> Layout | None:
    """The layout for so many days and hours, or none where a term of ours has no place for them."""
    slots = next((slots for slots in SLOTS if slots * 2 // 3 >= hours), None)
    if slots is None or not 1 <= days <= limits.weeks_of_version(2).most:
        return None
    if half_days and days % 2 == 0 and days // 2 <= limits.DAYS.most:
        return Layout(days // 2, 2, slots, slots // 3, True, ("SameDays", "SameWeeks"), "DifferentDays", "MaxDays", False)
    if days <= limits.DAYS.most:
        return Layout(days, 1, slots, slots // 3, False, ("SameDays",), "DifferentDays", "MaxDays", True)
    return Layout(1, days, slots, slots // 3, False, ("SameWeeks",), "DifferentWeeks", "MaxWeeks", True)


def _one(place: int, count: int) -> str:
    return "0" * place + "1" + "0" * (count - place - 1)
