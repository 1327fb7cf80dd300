"""Every call of the box from standard input, one answer to a line.

python3 -m second.replay < CALLS
"""

import re
import sys

from second import fields, frames, hours, journal
from second.box import Box
from second.refusal import Refused
from second.settings import Settings
from second.why import why

LONGEST_LINE = 4096
U32 = 0, 4294967295
I32 = -2147483648, 2147483647
BYTE = 0, 255
BIT = 0, 1
HEX = ()        # bytes in hex
NUMBER = re.compile(rb'0|-?[1-9][0-9]{0,9}')
BYTES = re.compile(rb'([0-9A-F]{2})*')
SET = [U32] * 18


class Malformed(Exception):
    pass


def value(field, form):
    """The value of a field: bytes, or a number in a range."""
    if form is HEX:
        if not BYTES.fullmatch(field):
            raise Malformed
        return bytes.fromhex(field.decode())
    if not NUMBER.fullmatch(field):
        raise Malformed
    number = int(field)
    if not form[0] <= number <= form[1]:
        raise Malformed
    return number


def lent(room, answer=b''):
    """The whole lent buffer after the call, each byte A5 before it."""
    return (answer + b'\xA5' * (room - len(answer))).hex().upper()


class Replay:
    """Starts with a fresh controller."""

    def __init__(self):
        self.box = Box()

    def tick(self, sample, inputs):
        return self.box.tick(sample, inputs)

    def link(self, link):
        self.box.set_link(link)
        return ('A',)

    def new_settings(self, *values):
        self.box.set_settings(Settings(*values))
        return ('A',)

    def reset(self):
        self.box.reset_counters()
        return ('A',)

    def counters(self):
        return ('Q',) + self.box.counters()

    def restart(self, *values):
        """Refused, the old controller stays in use."""
        *values, count, total = values
        self.box = Box(Settings(*values), count, total)
        return ('A',)

    def request(self, data, room):
        place, reply = self.box.request(data, room)
        return 'P', place, len(reply), lent(room, reply)

    def modbus(self, frame, room):
        reply = self.box.modbus(frame, room)
        return 'P', len(reply), lent(room, reply)

    def why(self, output):
        return ('Y',) + why(self.box, output)

    def write_frame(self, body, room):
        frame = frames.write(body, room)
        return 'P', len(frame), lent(room, frame)

    def read_frame(self, data):
        place, body = frames.read(data)
        return 'P', place, len(body), body.hex().upper()

    def write_field(self, weight, stable, over, point):
        return 'P', fields.write(weight, stable, over, point).hex().upper()

    def read_field(self, field):
        if len(field) != 4:
            raise Malformed
        return ('P',) + fields.read(field)

    def write_d(self, hour, count, amount, settled, product, room):
        line = journal.write('D', (hour, count, amount, settled, product), room)
        return 'P', len(line), lent(room, line)

    def write_h(self, hour, room):
        line = journal.write('H', (hour,), room)
        return 'P', len(line), lent(room, line)

    def read_line(self, line):
        return journal.read(line)

    def read_new_line(self, line):
        return journal.read_new(line)

    def one_hour(self, data, hour):
        answer = hours.one(data, hour)
        return answer[:1] + tuple(hours.bits(number) for number in answer[1:])

    def hour_text(self, data, room):
        text = hours.text(data)
        if len(text) > room:
            raise Refused(8)
        return 'P', len(text), lent(room, text)

    # letter: the call, its fields, whether the last is a buffer's room
    CALLS = {
        b'T': (tick, [I32, BYTE], False),
        b'L': (link, [BIT], False),
        b'S': (new_settings, SET, False),
        b'C': (reset, [], False),
        b'Q': (counters, [], False),
        b'N': (restart, SET + [U32, U32], False),
        b'B': (request, [HEX, (0, 64)], True),
        b'M': (modbus, [HEX, (0, 64)], True),
        b'Y': (why, [BYTE], False),
        b'W': (write_frame, [HEX, (0, 600)], True),
        b'X': (read_frame, [HEX], False),
        b'G': (write_field, [I32, BIT, BIT, BYTE], False),
        b'K': (read_field, [HEX], False),
        b'D': (write_d, [U32, U32, U32, U32, U32, (0, 64)], True),
        b'H': (write_h, [U32, (0, 64)], True),
        b'l': (read_line, [HEX], False),
        b'm': (read_new_line, [HEX], False),
        b'u': (one_hour, [HEX, U32], False),
        b'j': (hour_text, [HEX, (0, 2000)], True),
    }

    def answer(self, line):
        """The answer to one line without its LF."""
        letter, *given = line.split(b'\t')
        try:
            if letter not in self.CALLS:
                raise Malformed
            call, forms, buffered = self.CALLS[letter]
            # Lines of before, without the product, which is the 18th setting.
            if letter in (b'S', b'N') and len(given) == len(forms) - 1:
                given.insert(17, b'0')
            if len(given) != len(forms):
                raise Malformed
            values = [value(*pair) for pair in zip(given, forms)]
            cells = call(self, *values)
        except Malformed:
            return '?'
        except Refused as refused:
            cells = ('R', refused.number) + refused.detail
            if buffered:
                cells += (lent(values[-1]),)
        return '\t'.join(map(str, cells))


def lines(stream):
    """Each line without its LF, None for one that is too long. A last line
    without LF is not a call."""
    while True:
        line = stream.readline(LONGEST_LINE)
        long = False
        while len(line) == LONGEST_LINE and line[-1:] != b'\n':
            long = True
            line = stream.readline(LONGEST_LINE)
        if line[-1:] != b'\n':
            return
        yield None if long else line[:-1]


def answered(stream):
    """The answer to each line, with its LF."""
    replay = Replay()
    for line in lines(stream):
        answer = '?' if line is None else replay.answer(line)
        yield answer.encode() + b'\n'


def main():
    for answer in answered(sys.stdin.buffer):
        sys.stdout.buffer.write(answer)


if __name__ == '__main__':
    main()
