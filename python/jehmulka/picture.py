"""The hours as a picture: days by 24 hours, as SVG."""

from __future__ import annotations

from datetime import datetime
from typing import Dict, Iterable, Optional, Sequence

from .svg import HATCHED, PLAIN, SHADED, box, document, element, shade, text
from .times import EPOCH, scaled, time_of, told_day, told_time
from .values import HOURS_OF_A_DAY, DayKind, Hour, Kind, by_number, day_of

WIDE, HIGH = 26, 24             # of an hour
LEFT, TOP = 128, 92             # of the first hour
RIGHT = LEFT + HOURS_OF_A_DAY * WIDE + 12
WIDTH = RIGHT + 260
MOST_DAYS = 366


def picture(hours: Iterable[Hour], origin: datetime = EPOCH, point: int = 0,
            title: Optional[str] = None) -> str:
    """An SVG of days by 24 hours: measured ones by their sum, idle plain, missing hatched."""
    known = by_number(hours)
    if not known:
        raise ValueError('there is no hour to draw')
    first, last = min(known), max(known)
    begin = first - time_of(first, origin).hour
    days = (last - begin) // HOURS_OF_A_DAY + 1
    if days > MOST_DAYS:
        raise ValueError('%d days are too many for a picture, which has %d at most: take a month'
                         % (days, MOST_DAYS))
    greatest = max(hour.sum or 0 for hour in known.values())
    rows = [day_row(number, begin + number * HOURS_OF_A_DAY, known, origin, point, greatest)
            for number in range(days)]
    named = title or 'Hours from %s to %s' % (told_time(first, origin), told_time(last, origin))
    summary = summary_of(known, days * HOURS_OF_A_DAY - len(known), point)
    bottom = TOP + days * HIGH + 16
    return document((WIDTH, bottom + 96), named, summary,
                    element('g', '\n', heads(), '\n', '\n'.join(rows), '\n',
                            role='table', aria_label='Sums by day and hour'),
                    legend(bottom, greatest, point))


def summary_of(known: Dict[int, Hour], outside: int, point: int) -> str:
    """How many hours of each kind are drawn, and the sum of those measured."""
    kinds = [hour.kind for hour in known.values()]
    total = sum(hour.sum or 0 for hour in known.values())
    told = '%d measured, with the sum %s; %d idle; %d missing' % (
        kinds.count(Kind.MEASURED), scaled(total, point), kinds.count(Kind.IDLE),
        kinds.count(Kind.MISSING) + outside)
    return told + ', %d of them outside the hours given' % outside if outside else told


def heads() -> str:
    """The hours of the day, above their columns."""
    over = [text((LEFT - 12, TOP - 8), 'day', role='columnheader', text_anchor='end')]
    over += [text((LEFT + column * WIDE + WIDE // 2, TOP - 8), '%02d' % column,
                  role='columnheader', text_anchor='middle') for column in range(HOURS_OF_A_DAY)]
    over.append(text((RIGHT, TOP - 8), 'sum of the day', role='columnheader'))
    return element('g', *over, role='row')


def day_row(number: int, begin: int, known: Dict[int, Hour], origin: datetime, point: int,
            greatest: int) -> str:
    """One day: its date, its 24 hours, its sum."""
    top = TOP + number * HIGH
    numbers = range(begin, begin + HOURS_OF_A_DAY)
    cells = [box((LEFT + column * WIDE, top), (WIDE, HIGH), fill_of(known.get(hour), greatest),
                 told_time(hour, origin) + ': ' + told_hour(known.get(hour), point), role='cell')
             for column, hour in enumerate(numbers)]
    date = text((LEFT - 12, top + 16), told_day(begin, origin), role='rowheader',
                text_anchor='end')
    day = told_sum([known[hour] for hour in numbers if hour in known], point)
    return element('g', date, '\n', '\n'.join(cells), '\n',
                   text((RIGHT, top + 16), day, role='cell'), role='row')


def fill_of(hour: Optional[Hour], greatest: int) -> str:
    """Shaded by the sum, plain for idle, hatched for missing."""
    if hour is None or hour.sum is None:
        return HATCHED
    return PLAIN if hour.kind is Kind.IDLE else shade(hour.sum, greatest)


def told_hour(hour: Optional[Hour], point: int) -> str:
    """An hour in words."""
    if hour is None:
        return 'missing, not known: outside the hours given'
    if hour.sum is None:
        return 'missing, not known'
    if hour.kind is Kind.IDLE:
        return 'idle, nothing dosed'
    return 'measured, sum %s, doses %s' % (scaled(hour.sum, point), hour.doses)


def told_sum(hours: Sequence[Hour], point: int) -> str:
    """The sum of a day, marked where hours are missing, or that it is a holiday."""
    day = day_of(0, hours)
    gone = HOURS_OF_A_DAY - sum(hour.kind is not Kind.MISSING for hour in hours)
    if day.kind is DayKind.HOLIDAY:
        return 'holiday'
    if day.sum is None:
        return 'not known (%d missing)' % gone
    total = str(scaled(day.sum, point))
    return 'at least %s (%d missing)' % (total, gone) if gone else total


def legend(top: int, greatest: int, point: int) -> str:
    """What plain, hatched and each shade stand for."""
    missing, scale = LEFT + 190, 12 * WIDE
    parts = [box((LEFT, top), (WIDE, 20), PLAIN, aria_hidden='true'),
             text((LEFT + WIDE + 8, top + 14), 'idle: nothing dosed'),
             box((missing, top), (WIDE, 20), HATCHED, aria_hidden='true'),
             text((missing + WIDE + 8, top + 14), 'missing: not known, never 0'),
             box((LEFT, top + 36), (scale, 20), SHADED, aria_hidden='true'),
             text((LEFT + scale + 8, top + 50), 'measured: the sum of the hour'),
             text((LEFT, top + 70), str(scaled(0, point))),
             text((LEFT + scale, top + 70), str(scaled(greatest, point)), text_anchor='end')]
    return element('g', *parts, role='group', aria_label='Legend')
