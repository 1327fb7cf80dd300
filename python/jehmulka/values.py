"""An hour and a day as values, in which idle and missing cannot be mixed up."""

from __future__ import annotations

import struct
from dataclasses import dataclass
from enum import Enum
from typing import Dict, Iterable, List, Optional

LAST_HOUR = 9_999_999
MOST_AMOUNT = 1_800_000
HOURS_OF_A_DAY = 24
DAYS_OF_A_WEEK = 7


class Kind(str, Enum):
    """What an hour was."""

    MEASURED = 'measured'
    IDLE = 'idle'
    MISSING = 'missing'


class DayKind(str, Enum):
    """What a day was."""

    WORKED = 'worked'
    HOLIDAY = 'holiday'
    UNKNOWN = 'unknown'


@dataclass(frozen=True)
class Hour:
    """One hour. Idle has 0 doses, the sum 0 and no mean; of a missing one nothing is known."""

    hour: int
    kind: Kind
    doses: Optional[int]
    sum: Optional[int]
    mean: Optional[float]

    def __post_init__(self) -> None:
        figures = (self.doses, self.sum, self.mean)
        if not 0 <= self.hour <= LAST_HOUR:
            raise ValueError('the hour %d is not in 0..%d' % (self.hour, LAST_HOUR))
        if self.kind is Kind.MEASURED:
            reason = why_not_measured(*figures)
            if reason:
                raise ValueError(reason)
        elif figures != ((0, 0, None) if self.kind is Kind.IDLE else (None, None, None)):
            raise ValueError('an hour that is %s has no such figures: %r'
                             % (self.kind.value, figures))


def why_not_measured(doses: Optional[int], total: Optional[int], mean: Optional[float]) -> str:
    """Why no measured hour has these figures, or nothing where one has."""
    if doses is None or total is None or mean is None:
        return 'a measured hour has doses, a sum and a mean'
    if doses < 1:
        return 'a measured hour has a dose'
    if not 0 <= total <= doses * MOST_AMOUNT:
        return 'no %d doses have the sum %d' % (doses, total)
    if struct.pack('>d', mean) != struct.pack('>d', total / doses):
        return 'the mean %r is not the sum %d divided by the doses %d' % (mean, total, doses)
    return ''


def measured(hour: int, doses: int, total: int, mean: float) -> Hour:
    """An hour that was seen in full, with a dose or more."""
    return Hour(hour, Kind.MEASURED, doses, total, mean)


def idle(hour: int) -> Hour:
    """An hour that was seen in full, without a dose."""
    return Hour(hour, Kind.IDLE, 0, 0, None)


def missing(hour: int) -> Hour:
    """An hour that was not seen in full: nothing is known of it."""
    return Hour(hour, Kind.MISSING, None, None, None)


@dataclass(frozen=True)
class Day:
    """One day: how many hours were measured, and the sum over them; an unknown day has none."""

    number: int
    kind: DayKind
    covered: int
    sum: Optional[int]

    def __post_init__(self) -> None:
        if self.kind is DayKind.WORKED:
            good = 1 <= self.covered <= HOURS_OF_A_DAY and self.sum is not None and self.sum >= 0
        else:
            good = self.covered == 0 and self.sum == (0 if self.kind is DayKind.HOLIDAY else None)
        if not good:
            raise ValueError('a day that is %s has no such figures: %d hours, %s'
                             % (self.kind.value, self.covered, self.sum))


def day_of(number: int, hours: Iterable[Hour]) -> Day:
    """A day of its hours: worked with any measured, a holiday if all 24 are idle, else unknown.

    An hour of the day that is not among them is missing."""
    seen = list(hours)
    if len(seen) > HOURS_OF_A_DAY:
        raise ValueError('a day has 24 hours, not %d' % len(seen))
    amounts = [hour.sum for hour in seen if hour.kind is Kind.MEASURED and hour.sum is not None]
    if amounts:
        return Day(number, DayKind.WORKED, len(amounts), sum(amounts))
    if [hour.kind for hour in seen] == [Kind.IDLE] * HOURS_OF_A_DAY:
        return Day(number, DayKind.HOLIDAY, 0, 0)
    return Day(number, DayKind.UNKNOWN, 0, None)


def by_number(hours: Iterable[Hour]) -> Dict[int, Hour]:
    """The hours by their number, each once."""
    known: Dict[int, Hour] = {}
    for hour in hours:
        if hour.hour in known:
            raise ValueError('hour %d is there twice' % hour.hour)
        known[hour.hour] = hour
    return known


def days_of(hours: Iterable[Hour], first: int, count: int = DAYS_OF_A_WEEK) -> List[Day]:
    """So many days from a first hour on, as the week sheet has them."""
    known = by_number(hours)
    begins = range(first, first + count * HOURS_OF_A_DAY, HOURS_OF_A_DAY)
    return [day_of(number, (known[hour] for hour in range(begin, begin + HOURS_OF_A_DAY)
                            if hour in known))
            for number, begin in enumerate(begins)]
