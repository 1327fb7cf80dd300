"""From samples to a journal: the hour of the first tick alone on a line, then
the lines of `replay`.

python3 -m second.record < SAMPLES
"""

import sys

from second import journal
from second.refusal import Refused
from second.replay import Replay, lines

TICKS = 450000              # of an hour, 8 ms each
ROOM = 64                   # more than any line of the journal


def first_hour(line):
    """R10 at line 1 for anything but an hour, alone on its line."""
    hour = None if line is None else journal.number(line)
    if hour is None:
        raise Refused(10, 1)
    return hour


class Record:
    """A fresh controller and what its lines add to the journal."""

    def __init__(self, hour, ticks=TICKS):
        self.replay = Replay()
        self.ticks = ticks          # of an hour
        self.hour = hour            # of the next tick that is counted
        self.gone = 0               # ticks of that hour
        self.whole = True           # nothing of that hour was missed
        self.known = True           # a restart came after the last line that is no call

    def take(self, line):
        """What one line adds."""
        answer = '?' if line is None else self.replay.answer(line)
        if answer == '?':
            # It may have been a restart or new settings: nobody knows the box.
            self.whole = self.known = False
        elif line[:1] == b'N' and answer == 'A':
            self.known = True
            # Before the hour's first tick a restart leaves the hour whole.
            if self.gone > 0:
                self.whole = False
        elif line[:1] == b'T' and answer[0] != 'R':
            return self.tick(answer.split('\t'))
        return b''

    def tick(self, answer):
        """One that is not refused; a tick in a fault is counted too."""
        if self.hour > journal.HOUR:
            raise Refused(10, 0)
        text = b''
        if answer[0] == 'D':
            dose = tuple(map(int, answer[2:]))
            text = journal.write('D', (self.hour,) + dose, ROOM)
        self.gone += 1
        if self.gone == self.ticks:
            text += self.end_hour()
        return text

    def end_hour(self):
        seen = self.whole and self.known
        text = journal.write('H', (self.hour,), ROOM) if seen else b''
        self.hour, self.gone, self.whole = self.hour + 1, 0, True
        return text


def written(stream, ticks=TICKS):
    """What each line adds to the journal, the first one its V line; a refusal is
    its end."""
    record = None
    try:
        for line in lines(stream):
            if record is None:
                record = Record(first_hour(line), ticks)
                yield journal.V
            else:
                yield record.take(line)
    except Refused as refused:
        yield b'R\t%d\t%d\n' % ((refused.number,) + refused.detail)


def main():
    for text in written(sys.stdin.buffer):
        sys.stdout.buffer.write(text)


if __name__ == '__main__':
    main()
