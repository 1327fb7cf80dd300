"""The hours of one product: the product alone on a line, then a journal.

python3 -m second.product < FILE
"""

import sys

from second import hours, journal
from second.refusal import Refused
from second.week import split


def asked(line):
    """R2 for a product that is malformed or above 255, or for no line."""
    product = None if line is None else journal.number(line)
    if product is None or product > journal.PRODUCT:
        raise Refused(2, 0)
    return product


def text(line, data):
    """As the hour program; R2 comes after the journal's own refusals."""
    lines = journal.read_all(data)
    return hours.rows(hours.of(lines, asked(line)))


def printed(stream):
    """On a refusal one line only: R, number, line."""
    try:
        return text(*split(stream))
    except Refused as refused:
        return b'R\t%d\t%d\n' % (refused.number, refused.detail[0])


def main():
    sys.stdout.buffer.write(printed(sys.stdin.buffer))


if __name__ == '__main__':
    main()
