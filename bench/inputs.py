"""Makes the inputs of the benchmark, each at its full size and at a tenth of it:
python3 bench/inputs.py FOLDER

The samples come from a hopper that reacts to the gates, which the second
implementation of the box drives. Everything comes from one seed.
"""

import os
import random
import sys

sys.path.insert(0, os.path.dirname(os.path.dirname(os.path.abspath(__file__))))

from second import box, frames, hopper, journal, journals
from second.refusal import Refused
from second.settings import Settings

SEED = 1
TICKS = 1000000
REQUESTS = 100000
LINE = 1 << 19
JOURNAL = 65536
#                al       C    D   Pc  Pf    M p7  p8 p9 p11 o in    address serial point
AL1 = Settings(1, 10000, 500, 100, 20, 50, 8, 64, 1, 0, 1, 1, 1, 1, 1, 1193046, 1, 7)
AL2 = Settings(2, 10000, 500, 100, 20, 3000, 8, 128, 1, 0, 0, 1, 0, 1, 1, 0, 1, 7)


def ticks(s, number):
    """Samples and inputs of a mill at work: most of the time the start is on,
    and now and then the hopper shakes."""
    rng = random.Random(SEED)
    mill, b = hopper.Hopper(3 if s.algorithm < 2 else 4, 5, 1, 12, 3), box.Box(s)
    start = 8
    for n in range(number):
        if n % 1000 == 0:
            mill.shake = rng.choice([0, 0, 1, 20])
            start = rng.choice([8, 8, 8, 0])
        sample = mill.sample(b.outputs, rng)
        inputs = hopper.matching_inputs(b.outputs, s) | start
        b.tick(sample, inputs)
        yield sample, inputs


def as_calls(s, calls):
    """A restart, then the calls."""
    return ('\n'.join(['\t'.join(map(str, ('N', *s, 0, 0))), *calls]) + '\n').encode()


def as_ticks(ticks):
    return ['T\t%d\t%d' % tick for tick in ticks]


def recorded(s, ticks):
    """The same ticks for `record`: the hour of the first one alone on a line, then the lines of `replay`."""
    return b'480000\n' + as_calls(s, as_ticks(ticks))


def frame(rng):
    """Requests, replies and long bodies; FF is as likely as any byte."""
    size = rng.choice([2, 2, 2, 6, 6, rng.randint(2, 254)])
    body = bytes([rng.randint(1, 253)]) + rng.randbytes(size - 1)
    return frames.write(body, 600)


def damaged(rng, made=frame):
    sent = bytearray(made(rng))
    sent[rng.randrange(len(sent))] = rng.randrange(256)
    return bytes(sent)


def over_long(rng):
    return b'\xFF\x01' + bytes(rng.randrange(255) for _ in range(rng.randint(255, 600))) + b'\xFF\xFF'


def frame_lines(size):
    """The bytes of a line, frame by frame: good, damaged, over-long or no frame at all."""
    rng = random.Random(SEED)
    lines, sent = [], 0
    while sent < size:
        data = rng.choice([frame] * 12 + [damaged] * 2 + [over_long, lambda r: r.randbytes(9)])(rng)
        lines.append('X\t' + data.hex().upper())
        sent += len(data)
    return lines


def asked(rng):
    """A request to the box of AL1 by its address or its serial, now and then to another box, by another code or with data."""
    address = rng.choice([b'\1'] * 6 + [b'\0\x56\x34\x12'] * 4 + [b'\2'])
    code = rng.choice([0xC2, 0xC3, 0xC3, 0xC3, 0xC4, 0xC5, 0xC0, 0xC1])
    return frames.write(address + bytes([code]) + rng.choice([b''] * 9 + [b'\7']), 64)


def noisy(rng):
    return rng.randbytes(rng.randint(1, 20)) + asked(rng)


def junk(rng):
    return rng.randbytes(rng.randint(1, 40))


def requests(number):
    """The ticks of a box whose window is full, then requests: good ones of both address forms, damaged, behind noise, and junk."""
    rng = random.Random(SEED)
    lines = as_ticks((rng.randint(-60, 60), 0) for _ in range(128))
    for _ in range(number):
        data = rng.choice([asked] * 7 + [noisy, lambda r: damaged(r, asked), junk])(rng)
        lines.append('B\t%s\t%d' % (data.hex().upper(), rng.choice([8, 17, 32, 64])))
    return lines


def dose(rng, hour, count):
    return journals.d(hour, count % 1000000, rng.randint(0, 1800000), rng.randint(0, 1))


def month(size):
    """744 hours where it is full: as many doses an hour as there is room for."""
    rng = random.Random(SEED)
    hours, first, lines, count = 744 * size // JOURNAL, 123456, [], 990000
    each = size // hours
    for hour in range(first, first + hours):
        room = each - len(journals.h(hour))
        while room >= 27:
            lines.append(dose(rng, hour, count))
            room -= len(lines[-1])
            count += 1
        lines.append(journals.h(hour))
    return b''.join(lines)


def holes(size):
    """The same month, with a hole at every D line but the first."""
    lines, count = [], 0
    for line in month(size).splitlines(keepends=True):
        cells = line.split(b'\t')
        if cells[0] == b'D':
            count += 2
            cells[2] = b'%06d' % (500000 + count)
        lines.append(b'\t'.join(cells))
    return b''.join(lines)


def one_hole(size):
    """A hole over all hours: as many D lines before and behind it as there is room for."""
    rng = random.Random(SEED)
    hours, first = 744 * size // JOURNAL, 123456
    between = b''.join(map(journals.h, range(first, first + hours)))
    each = (size - len(between)) // 2 // 27
    before = [dose(rng, first, n) for n in range(100000, 100000 + each)]
    behind = [dose(rng, first + hours - 1, n) for n in range(200000, 200000 + each)]
    last = journals.h(first + hours - 1)
    return b''.join(before) + between[:-len(last)] + b''.join(behind) + last


def products(size):
    """As much of that month as fits in the new form: the V line, and one of two products at the end of each D line."""
    rng = random.Random(SEED)
    lines = [journal.V]
    for line in month(size).splitlines(keepends=True):
        if line[:1] == b'D':
            line = line[:-1] + b'\t%d\n' % rng.choice([3, 7])
        lines.append(line)
    return journals.cut(lines, size)


def one_hour(size):
    rng = random.Random(SEED)
    lines = [dose(rng, 123456, n) for n in range(size // 20)]
    return journals.cut(lines, size - 9) + journals.h(123456)


HOURS = {'month': month, 'products': products, 'hour': one_hour, 'holes': holes, 'hole': one_hole}


def made(name, tenth):
    size = lambda full: full // 10 if tenth else full
    program, kind = name.split('-')
    if program == 'hours':
        return HOURS[kind](size(JOURNAL))
    if kind == 'frames':
        return as_calls(AL1, frame_lines(size(LINE)))
    if kind == 'requests':
        return as_calls(AL1, requests(size(REQUESTS)))
    s = {'al1': AL1, 'al2': AL2}[kind]
    if program == 'record':
        return recorded(s, ticks(s, size(TICKS)))
    return as_calls(s, as_ticks(ticks(s, size(TICKS))))


NAMES = ['replay-al1', 'replay-al2', 'record-al1', 'replay-requests', 'replay-frames'] + ['hours-' + kind for kind in HOURS]


def main(folder):
    os.makedirs(folder, exist_ok=True)
    for name in NAMES:
        for tenth in (False, True):
            path = os.path.join(folder, name + ('-tenth' if tenth else ''))
            if not os.path.exists(path):
                with open(path + '.new', 'wb') as file:
                    file.write(made(name, tenth))
                os.rename(path + '.new', path)


if __name__ == '__main__':
    main(*sys.argv[1:])
