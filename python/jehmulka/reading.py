"""Reads what hours, product and week print."""

from __future__ import annotations

import os
import re
import struct
from typing import IO, Iterable, List, Sequence, Union

from .errors import OF_A_LINE, Malformed, Refused
from .values import (DAYS_OF_A_WEEK, HOURS_OF_A_DAY, LAST_HOUR, Day, DayKind, Hour, Kind, idle,
                     measured, missing)

# A path, or a file or pipe that is open for bytes.
Source = Union[str, 'os.PathLike[str]', IO[bytes]]

OF_HOURS = (2, 10, 11, 12, 13)
OF_WEEK = (10, 11, 12, 13, 21)
DAY_KINDS = {b'W': DayKind.WORKED, b'I': DayKind.HOLIDAY, b'X': DayKind.UNKNOWN}


def bytes_of(source: Source) -> bytes:
    """All bytes of a file or pipe."""
    if isinstance(source, (str, os.PathLike)):
        with open(source, 'rb') as file:
            return file.read()
    data = source.read()
    if not isinstance(data, bytes):
        raise TypeError('open it for bytes: a text file may hide what stands at the end of a line')
    return data


def read_hours(source: Source) -> List[Hour]:
    """The hours that `hours` or `product` printed into a file or a pipe."""
    return parse_hours(bytes_of(source))


def read_week(source: Source) -> List[Day]:
    """The seven days that `week` printed into a file or a pipe."""
    return parse_week(bytes_of(source))


def parse_hours(data: bytes) -> List[Hour]:
    """The hours of what `hours` or `product` printed; none of an empty text."""
    lines = lines_of(data)
    raise_refusal(lines, OF_HOURS)
    hours: List[Hour] = []
    for at, line in enumerate(lines, 1):
        hour = hour_of(at, fields_of(at, line))
        if hours and hour.hour != hours[-1].hour + 1:
            raise Malformed(at, 'hour %d after hour %d, where %d is due'
                            % (hour.hour, hours[-1].hour, hours[-1].hour + 1))
        hours.append(hour)
    return hours


def parse_week(data: bytes) -> List[Day]:
    """The seven days of what `week` printed."""
    lines = lines_of(data)
    raise_refusal(lines, OF_WEEK)
    days = [sheet_day(at, fields_of(at, line)) for at, line in enumerate(lines, 1)]
    if len(days) != DAYS_OF_A_WEEK:
        raise Malformed(len(days) + 1, 'the sheet ends after %d of 7 days' % len(days))
    return days


def lines_of(data: bytes) -> List[bytes]:
    """The lines with their LF; a last one may lack it."""
    lines = [line + b'\n' for line in data.split(b'\n')]
    last = lines.pop()[:-1]
    return lines + [last] if last else lines


def fields_of(at: int, line: bytes) -> List[bytes]:
    """The fields of one line, which ends in LF and has nothing but printed characters and tabs."""
    if not line.endswith(b'\n'):
        raise Malformed(at, 'it has no LF at its end: the text is torn')
    if re.search(rb'[^\t -~]', line[:-1]):
        raise Malformed(at, 'bytes that no program prints')
    return line[:-1].split(b'\t')


def number_of(at: int, field: bytes) -> int:
    """A decimal number without leading zeros."""
    if not re.fullmatch(rb'0|[1-9][0-9]{0,14}', field):
        raise Malformed(at, '%r is no number' % field.decode('ascii'))
    return int(field)


def raise_refusal(lines: Sequence[bytes], known: Sequence[int]) -> None:
    """Raises the refusal that stands in place of an answer: one line, R, number, line."""
    if not lines or not lines[0].startswith(b'R'):
        return
    fields = fields_of(1, lines[0])
    if fields[0] != b'R' or len(fields) != 3:
        raise Malformed(1, 'a refusal is R, a number and a line')
    number, line = number_of(1, fields[1]), number_of(1, fields[2])
    if number not in known or (line > 0) != (number in OF_A_LINE):
        raise Malformed(1, 'R%d with line %d is no refusal of this program' % (number, line))
    if len(lines) > 1:
        raise Malformed(2, 'a refusal is one line alone')
    raise Refused(number, line)


def hour_of(at: int, fields: Sequence[bytes]) -> Hour:
    """One line of hours: hour, M, doses, sum, bits of the mean; or hour, I; or hour, X."""
    wanted = {b'M': 5, b'I': 2, b'X': 2}.get(fields[1] if len(fields) > 1 else b'')
    if wanted is None:
        raise Malformed(at, 'no line of hours: its second field is not M, I or X')
    if len(fields) != wanted:
        raise Malformed(at, '%d fields, not %d' % (len(fields), wanted))
    hour = number_of(at, fields[0])
    if hour > LAST_HOUR:
        raise Malformed(at, 'the hour %d is above %d' % (hour, LAST_HOUR))
    if fields[1] != b'M':
        return idle(hour) if fields[1] == b'I' else missing(hour)
    doses, total, mean = number_of(at, fields[2]), number_of(at, fields[3]), mean_of(at, fields[4])
    try:
        return measured(hour, doses, total, mean)
    except ValueError as reason:
        raise Malformed(at, str(reason)) from None


def mean_of(at: int, field: bytes) -> float:
    """A mean of its bits."""
    if not re.fullmatch(rb'[0-9A-F]{16}', field):
        raise Malformed(at, 'the bits of a mean are 16 hex digits in capitals')
    mean: float = struct.unpack('>d', bytes.fromhex(field.decode('ascii')))[0]
    return mean


def sheet_day(at: int, fields: Sequence[bytes]) -> Day:
    """One line of a sheet: day, W, I or X, covered hours, sum."""
    if at > DAYS_OF_A_WEEK:
        raise Malformed(at, 'a sheet has seven lines')
    if len(fields) != 4 or fields[1] not in DAY_KINDS:
        raise Malformed(at, 'no line of a sheet: day, then W, I or X, then hours and sum')
    number, covered, total = (number_of(at, fields[place]) for place in (0, 2, 3))
    if number != at - 1:
        raise Malformed(at, 'day %d, where %d is due' % (number, at - 1))
    kind = DAY_KINDS[fields[1]]
    if kind is not DayKind.WORKED and (covered, total) != (0, 0):
        raise Malformed(at, 'a day without a measured hour has 0 hours and the sum 0')
    if kind is DayKind.WORKED and not 1 <= covered <= HOURS_OF_A_DAY:
        raise Malformed(at, 'a worked day has 1 to 24 measured hours, not %d' % covered)
    return Day(number, kind, covered, None if kind is DayKind.UNKNOWN else total)


def text_of(hours: Iterable[Hour]) -> bytes:
    """The hours as `hours` prints them."""
    return b''.join(line_of(hour) for hour in hours)


def line_of(hour: Hour) -> bytes:
    """One hour as `hours` prints it."""
    if hour.kind is Kind.MEASURED:
        assert hour.doses is not None and hour.sum is not None and hour.mean is not None
        bits = struct.pack('>d', hour.mean).hex().upper()
        return b'%d\tM\t%d\t%d\t%s\n' % (hour.hour, hour.doses, hour.sum, bits.encode('ascii'))
    return b'%d\t%s\n' % (hour.hour, b'I' if hour.kind is Kind.IDLE else b'X')
