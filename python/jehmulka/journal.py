"""The lines of a journal, as far as its cutting needs them: kind, hour and count."""

from __future__ import annotations

import re
from typing import List, NamedTuple, Optional, Tuple

from .errors import Refused
from .reading import lines_of
from .values import LAST_HOUR, MOST_AMOUNT

VERSION = b'V\t2\n'
COUNTS = 1_000_000
# The greatest values of a line's fields, of the old form and of the new.
OLD = {b'D': (LAST_HOUR, COUNTS - 1, MOST_AMOUNT, 1), b'H': (LAST_HOUR,)}
NEW = {b'D': OLD[b'D'] + (255,), b'H': (LAST_HOUR,)}


class Line(NamedTuple):
    """A line with an hour; the count of its dose where it is a D line."""

    text: bytes
    hour: int
    dose: Optional[int]


class Journal(NamedTuple):
    """A journal's V line, or nothing, and its other lines."""

    head: bytes
    lines: List[Line]


def journal_of(data: bytes) -> Journal:
    """A journal of any length; R10 and R11 as `hours` gives them."""
    texts = lines_of(data)
    head = VERSION if texts[:1] == [VERSION] else b''
    lines: List[Line] = []
    for at, text in enumerate(texts[1 if head else 0:], 2 if head else 1):
        line = line_of(text, at, bool(head))
        if lines and line.hour < lines[-1].hour + (lines[-1].dose is None):
            raise Refused(11, at)
        lines.append(line)
    return Journal(head, lines)


def line_of(text: bytes, at: int, new: bool) -> Line:
    """One line that is well formed, or R10."""
    fields = text[:-1].split(b'\t')
    greatest: Tuple[int, ...] = (NEW if new else OLD).get(fields[0], ())
    good = text.endswith(b'\n') and greatest and len(fields) == len(greatest) + 1 and all(
        re.fullmatch(rb'0|[1-9][0-9]{0,6}', field) and int(field) <= most
        for field, most in zip(fields[1:], greatest))
    if not good:
        raise Refused(10, at)
    return Line(text, int(fields[1]), int(fields[2]) if fields[0] == b'D' else None)


def follows(before: int, count: int) -> bool:
    """Whether a count follows the one before: by one, 0 after 999,999, and a 1 always."""
    return count == (before + 1) % COUNTS or count == 1
