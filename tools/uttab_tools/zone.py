"""The time zone of a calendar, as iCalendar wants it: the changes of the clock around a term."""

from datetime import date, datetime, timedelta, timezone
from zoneinfo import ZoneInfo, ZoneInfoNotFoundError

from icalendar import Timezone, TimezoneDaylight, TimezoneStandard

from uttab_tools.program import Usage


def zone_of(name: str) -> ZoneInfo:
    try:
        return ZoneInfo(name)
    except (ZoneInfoNotFoundError, ValueError, OSError):
        raise Usage(f"--zone {name}: is no time zone, such as Europe/Prague") from None


def zone_component(name: str, first: date, last: date) -> Timezone:
    """The zone between two days: what holds before the first one, and each change until the last."""
    zone = zone_of(name)
    component = Timezone()
    component.add("tzid", name)
    at = datetime(first.year, first.month, first.day, tzinfo=timezone.utc) - timedelta(2)
    _add_change(component, zone, at, at)
    for place in range((last - first).days + 3):
        day = at + timedelta(place)
        if _offset(zone, day) != _offset(zone, day + timedelta(1)):
            before, after = day, day + timedelta(1)
            while after - before > timedelta(minutes=1):
                middle = before + (after - before) / 2
                before, after = (middle, after) if _offset(zone, middle) == _offset(zone, day) else (before, middle)
            _add_change(component, zone, day, after.replace(second=0, microsecond=0))
    return component


def _offset(zone: ZoneInfo, moment: datetime) -> timedelta:
    return moment.astimezone(zone).utcoffset() or timedelta()


def _add_change(component: Timezone, zone: ZoneInfo, before: datetime, moment: datetime) -> None:
    """A change of the clock at a moment: from what held before it to what holds at it."""
    local = moment.astimezone(zone)
    part = TimezoneDaylight() if local.dst() else TimezoneStandard()
    part.add("dtstart", (moment + _offset(zone, before)).replace(tzinfo=None))
    part.add("tzoffsetfrom", _offset(zone, before))
    part.add("tzoffsetto", _offset(zone, moment))
    part.add("tzname", local.tzname() or "")
    component.add_component(part)
