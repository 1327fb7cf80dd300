"""The hours of a journal of any length: cut into parts that the program takes, run, and joined."""

from __future__ import annotations

from typing import Callable, Dict, Iterator, List, Optional, Sequence, Tuple

from .errors import OF_A_LINE, Failed, Refused
from .journal import Journal, Line, follows
from .values import Hour, missing

LONGEST = 65_536        # bytes that the hour program takes
SPAN = 744              # hours that it takes, from the first line's on

# From the first line of a part to the line after its last, counted from 0 and without the V line.
Part = Tuple[int, int]
# What hours a part has.
Ask = Callable[[bytes], List[Hour]]


def parts_of(journal: Journal, longest: int = LONGEST, span: int = SPAN) -> List[Part]:
    """Parts that the program takes, but for an hour that is too long by itself; one at least."""
    parts: List[Part] = []
    start, lines = 0, journal.lines
    while start < len(lines):
        end = fitting(lines, start, longest - len(journal.head), span)
        if end < len(lines):
            end = seam_of(lines, start, end)
        parts.append((start, end))
        start = end
    return parts or [(0, 0)]


def fitting(lines: Sequence[Line], start: int, room: int, span: int) -> int:
    """The end of the longest run of lines that fits, of one line at least."""
    size, end = len(lines[start].text), start + 1
    while end < len(lines):
        size += len(lines[end].text)
        if size > room or lines[end].hour - lines[start].hour >= span:
            break
        end += 1
    return end


def seam_of(lines: Sequence[Line], start: int, end: int) -> int:
    """Where to cut, at `end` or before: behind the last H line, else between two hours."""
    for place in range(end, start, -1):
        if lines[place - 1].dose is None:
            return place
    for place in range(end, start, -1):
        if lines[place - 1].hour < lines[place].hour:
            return place
    while end < len(lines) and lines[end].hour == lines[end - 1].hour:
        end += 1
    return end


def joined(journal: Journal, parts: Sequence[Part], ask: Ask) -> List[Hour]:
    """The hours of all parts, from the first line's to the last line's.

    Those of a hole across a seam and those without any line are missing."""
    known: Dict[int, Hour] = {}
    for part in parts:
        known.update((hour.hour, hour) for hour in asked(journal, part, ask))
    for first, last in seam_holes(journal.lines, parts):
        known.update((number, missing(number)) for number in range(first, last + 1))
    if not journal.lines:
        return []
    return [known.get(number) or missing(number)
            for number in range(journal.lines[0].hour, journal.lines[-1].hour + 1)]


def asked(journal: Journal, part: Part, ask: Ask) -> List[Hour]:
    """The hours of one part, from its first line's to its last line's.

    A refusal names the line of the whole journal."""
    lines = journal.lines[part[0]:part[1]]
    try:
        hours = ask(journal.head + b''.join(line.text for line in lines))
    except Refused as refused:
        if refused.number in OF_A_LINE:
            raise Refused(refused.number, refused.line + part[0]) from None
        raise
    wanted = range(lines[0].hour, lines[-1].hour + 1) if lines else range(0)
    if [hour.hour for hour in hours] != list(wanted):
        raise Failed('the program printed other hours than the journal has')
    return hours


def seam_holes(lines: Sequence[Line], parts: Sequence[Part]) -> Iterator[Tuple[int, int]]:
    """The first and last hour of each hole across a seam.

    The first D line behind a seam is held against the last one before it."""
    before: Optional[Tuple[int, int]] = None
    for start, end in parts:
        doses = [(line.hour, line.dose) for line in lines[start:end] if line.dose is not None]
        if doses and before is not None and not follows(before[1], doses[0][1]):
            yield before[0], doses[0][0]
        before = doses[-1] if doses else before
