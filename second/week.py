"""The week sheet: the first hour alone on a line, then a journal.

python3 -m second.week < FILE
"""

import sys

from second import hours, journal
from second.refusal import Refused

DAYS, HOURS = 7, 24
GREATEST = 9999832          # the last hour of its week is 9,999,999
LONGEST = 8                 # of a first line a longer one is out of range too


def first_hour(line):
    """R21 for a first hour that is malformed or too great, or for no line."""
    hour = None if line is None else journal.number(line)
    if hour is None or hour > GREATEST:
        raise Refused(21, 0)
    return hour


def day(seen):
    """W: worked, any hour measured; I: holiday, all hours idle; else X: unknown.
    Then how many hours are measured, and the sum over them."""
    kinds = [hours.kind(*hour) for hour in seen]
    measured = [hour[0] for hour, kind in zip(seen, kinds) if kind == 'M']
    if measured:
        told = 'W'
    else:
        told = 'I' if kinds == ['I'] * HOURS else 'X'
    return told, len(measured), sum(map(sum, measured))


def days(first, known):
    """Hours outside the journal are missing."""
    for number in range(DAYS):
        begin = first + HOURS * number
        seen = [known.get(hour, ([], False, False)) for hour in range(begin, begin + HOURS)]
        yield (number,) + day(seen)


def text(line, data):
    """The sheet; R21 comes after the journal's own refusals."""
    known = hours.of(journal.read_all(data))
    rows = days(first_hour(line), known)
    return ''.join('%d\t%s\t%d\t%d\n' % row for row in rows).encode()


def split(stream):
    """The first line, as far as it matters, and the journal, as far as R13 needs
    it; no line and no journal where there is no LF."""
    line = part = stream.readline(LONGEST + 1)
    while part and part[-1:] != b'\n':
        part = stream.readline(65536)
    if not part:
        return None, b''
    return line.rstrip(b'\n'), stream.read(journal.LONGEST + 1)


def printed(stream):
    """On a refusal one line only: R, number, line."""
    try:
        return text(*split(stream))
    except Refused as refused:
        return b'R\t%d\t%d\n' % (refused.number, refused.detail[0])


def main():
    sys.stdout.buffer.write(printed(sys.stdin.buffer))


if __name__ == '__main__':
    main()
