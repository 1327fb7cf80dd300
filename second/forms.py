"""A journal in the other form."""

import sys

from second import journal
from second.refusal import Refused


def read(data, new):
    """The lines of a journal of one form. R13, then R10 at line 1 for the other
    form (an empty journal is old), then line by line R10, R11, R12."""
    if len(data) > journal.LONGEST:
        raise Refused(13, 0)
    if data.startswith(journal.V) != new:
        raise Refused(10, 1)
    return journal.read_all(data)


def text(lines):
    return ''.join('\t'.join(map(str, line)) + '\n' for line in lines).encode()


def renewed(data):
    """From old to new, with product 0; R13 too where the result is too long."""
    made = journal.V + text(read(data, False))
    if len(made) > journal.LONGEST:
        raise Refused(13, 0)
    return made


def restored(data):
    """From new to old; R18 with its line for a product other than 0, after the
    refusals of every line."""
    lines = read(data, True)
    for at, line in enumerate(lines, 2):
        if line[0] == 'D' and line[5] != 0:
            raise Refused(18, at)
    return text(line[:5] for line in lines)


def printed(turned, data):
    """On a refusal one line only: R, number, line."""
    try:
        return turned(data)
    except Refused as refused:
        return b'R\t%d\t%d\n' % (refused.number, refused.detail[0])


def run(turned):
    data = sys.stdin.buffer.read(journal.LONGEST + 1)
    sys.stdout.buffer.write(printed(turned, data))
