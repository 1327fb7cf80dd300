"""The hours of a journal, and the hour program.

python3 -m second.hours < JOURNAL
"""

import struct
import sys

from second import journal
from second.refusal import Refused


def bits(number):
    """An f64's bits in 16 hex digits."""
    return struct.pack('>d', number).hex().upper()


def follows(before, count):
    """By one, 0 after 999,999; a 1 is always allowed."""
    return count == (before + 1) % (journal.COUNT + 1) or count == 1


def holes(lines):
    """The hours of each D line whose count does not follow and of the D line
    before it, the earlier first. The first D line is not tested."""
    doses = [line for line in lines if line[0] == 'D']
    for earlier, later in zip(doses, doses[1:]):
        if not follows(earlier[2], later[2]):
            yield earlier[1], later[1]


def of(lines, product=None):
    """hour -> [amounts, has an H, in a hole], for every hour first to last; the
    amounts of one product where one is asked for."""
    if not lines:
        return {}
    hours = {h: [[], False, False] for h in range(lines[0][1], lines[-1][1] + 1)}
    for line in lines:
        if line[0] == 'H':
            hours[line[1]][1] = True
        elif product in (None, line[5]):
            hours[line[1]][0].append(line[3])
    for first, last in holes(lines):
        for hour in range(first, last + 1):
            hours[hour][2] = True
    return hours


def kind(amounts, has_h, in_hole):
    """X: missing in a hole, H lines or not. M: measured if it has a D, else
    I: idle; without an H it is X, whatever D lines it has."""
    if in_hole or not has_h:
        return 'X'
    return 'M' if amounts else 'I'


def mean(amounts):
    """One division of the sum by the number of doses."""
    return float(sum(amounts)) / float(len(amounts))


def one(data, hour):
    """('M', sum, largest, mean), ('I',) or ('X',) for one hour."""
    seen = of(journal.read_all(data)).get(hour, ([], False, False))
    amounts, answer = seen[0], kind(*seen)
    if answer != 'M':
        return (answer,)
    return 'M', float(sum(amounts)), float(max(amounts)), mean(amounts)


def row(hour, amounts, has_h, in_hole):
    cells = [hour, kind(amounts, has_h, in_hole)]
    if cells[1] == 'M':
        cells += [len(amounts), sum(amounts), bits(mean(amounts))]
    return '\t'.join(map(str, cells)) + '\n'


def text(data):
    """What the hour program prints of a good journal."""
    return rows(of(journal.read_all(data)))


def rows(hours):
    return ''.join(row(h, *hours[h]) for h in sorted(hours)).encode()


def printed(data):
    """On a refusal one line only: R, number, line."""
    try:
        return text(data)
    except Refused as refused:
        return b'R\t%d\t%d\n' % (refused.number, refused.detail[0])


def main():
    data = sys.stdin.buffer.read(journal.LONGEST + 1)
    sys.stdout.buffer.write(printed(data))


if __name__ == '__main__':
    main()
