"""When an hour begins, the hours of a month, and sums with their decimal point."""

from __future__ import annotations

from datetime import datetime, timedelta, timezone
from decimal import Decimal
from typing import Iterable, List

from .values import LAST_HOUR, Hour

# The begin of hour 0.
EPOCH = datetime(1970, 1, 1, tzinfo=timezone.utc)
HOURS = range(LAST_HOUR + 1)
POINTS = range(4)
WEEKDAYS = ('Mon', 'Tue', 'Wed', 'Thu', 'Fri', 'Sat', 'Sun')


def time_of(hour: int, origin: datetime = EPOCH) -> datetime:
    """When an hour begins, where hour 0 begins at the origin, in the origin's zone."""
    if not isinstance(origin.tzinfo, timezone):
        raise ValueError('the origin needs a zone of a fixed offset, as timezone.utc')
    try:
        return origin + timedelta(hours=hour)
    except OverflowError:
        raise ValueError('hour %d from %s on has no date' % (hour, origin)) from None


def hour_at(time: datetime, origin: datetime = EPOCH) -> int:
    """The hour in which a time lies, where hour 0 begins at the origin."""
    if time.tzinfo is None:
        raise ValueError('the time needs a zone, as timezone.utc')
    hour = (time - time_of(0, origin)) // timedelta(hours=1)
    if hour not in HOURS:
        raise ValueError('%s lies in hour %d, and hours are 0 to %d' % (time, hour, HOURS[-1]))
    return hour


def told_time(hour: int, origin: datetime) -> str:
    """When an hour begins, as text."""
    return time_of(hour, origin).strftime('%Y-%m-%d %H:%M')


def told_day(hour: int, origin: datetime) -> str:
    """The day in which an hour begins, as text."""
    time = time_of(hour, origin)
    return '%s %s' % (WEEKDAYS[time.weekday()], time.strftime('%Y-%m-%d'))


def month_of(hours: Iterable[Hour], month: str, origin: datetime = EPOCH) -> List[Hour]:
    """Those of the hours that begin in a month, as 2025-03."""
    begin = datetime.strptime(month, '%Y-%m')
    times = ((hour, time_of(hour.hour, origin)) for hour in hours)
    return [hour for hour, time in times if (time.year, time.month) == (begin.year, begin.month)]


def scaled(number: int, point: int) -> Decimal:
    """A whole number with so many digits behind the decimal point, exactly."""
    if point not in POINTS:
        raise ValueError('the decimal point is 0 to 3, not %r' % point)
    return Decimal(number).scaleb(-point)
