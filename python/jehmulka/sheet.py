"""A week sheet as a picture: a bar a day, as SVG."""

from __future__ import annotations

from datetime import datetime
from typing import List, Optional, Sequence

from .svg import HATCHED, PLAIN, box, document, element, shade, text
from .times import EPOCH, scaled, time_of, told_day, told_time
from .values import DAYS_OF_A_WEEK, HOURS_OF_A_DAY, Day, DayKind

LEFT, TOP = 172, 76             # of the first bar
BAR, HIGH, STEP = 360, 24, 32   # the longest bar, its height, and from one day to the next
WIDTH, WORKED = 1024, shade(1, 2)


def week_picture(days: Sequence[Day], first: Optional[int] = None, origin: datetime = EPOCH,
                 point: int = 0, title: Optional[str] = None) -> str:
    """An SVG of a week sheet, with dates where the first hour is given: the sheet has none."""
    if [day.number for day in days] != list(range(DAYS_OF_A_WEEK)):
        raise ValueError('a week has the days 0 to 6')
    greatest = max(day.sum or 0 for day in days)
    rows = [row_of(day, name_of(day, first, origin), point, greatest) for day in days]
    kinds = [day.kind for day in days]
    summary = '%d days worked, %d holidays, %d unknown' % (
        kinds.count(DayKind.WORKED), kinds.count(DayKind.HOLIDAY), kinds.count(DayKind.UNKNOWN))
    named = title or ('A week' if first is None else 'The week from ' + told_time(first, origin))
    bottom = TOP + DAYS_OF_A_WEEK * STEP + 24
    return document((WIDTH, bottom + 84), named, summary,
                    element('g', '\n', '\n'.join(rows), '\n', role='table',
                            aria_label='Sums by day'),
                    legend(bottom))


def name_of(day: Day, first: Optional[int], origin: datetime) -> str:
    """The day's date, with the time that it begins at where that is not midnight."""
    if first is None:
        return 'day %d' % day.number
    begin = first + day.number * HOURS_OF_A_DAY
    clock = time_of(begin, origin).strftime(' %H:%M')
    return told_day(begin, origin) + ('' if clock == ' 00:00' else clock)


def row_of(day: Day, name: str, point: int, greatest: int) -> str:
    """One day: its name, its bar in a frame, its words."""
    top = TOP + day.number * STEP
    told = told_of(day, point)
    frame = HATCHED if day.kind is DayKind.UNKNOWN else PLAIN
    bars = box((LEFT, top), (BAR, HIGH), frame, told, aria_hidden='true')
    if day.kind is DayKind.WORKED:
        wide = BAR * (day.sum or 0) // greatest if greatest else 0
        bars += box((LEFT, top), (max(wide, 2), HIGH), WORKED, told, aria_hidden='true')
    return element('g', text((LEFT - 12, top + 16), name, role='rowheader', text_anchor='end'),
                   bars, text((LEFT + BAR + 12, top + 16), told, role='cell'), role='row')


def told_of(day: Day, point: int) -> str:
    """A day in words."""
    if day.kind is DayKind.HOLIDAY:
        return 'holiday: idle in all 24 hours'
    if day.sum is None:
        return 'unknown: hours are missing, none was measured'
    return 'worked: sum %s over %d measured hours' % (scaled(day.sum, point), day.covered)


def legend(top: int) -> str:
    """What the bars stand for."""
    kinds = ((WORKED, 'worked: the sum over the measured hours; '
                      'the sheet does not say which others are idle or missing'),
             (PLAIN, 'holiday: all 24 hours idle, so 0'),
             (HATCHED, 'unknown: an hour is missing and none was measured, so never 0'))
    parts: List[str] = []
    for number, (fill, told) in enumerate(kinds):
        place = top + 24 * number
        parts += [box((LEFT, place), (26, 16), fill, aria_hidden='true'),
                  text((LEFT + 34, place + 13), told)]
    return element('g', *parts, role='group', aria_label='Legend')
