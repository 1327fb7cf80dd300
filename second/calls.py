"""Random lines of `replay` beside the ticks."""

import struct

from second import frames, journals, modbus
from second.settings import Settings, ranges

CODES = [0xC0, 0xC2, 0xC3, 0xC4, 0xC5]
MARKS = [0xFF, 0xFE, 0x00, 0x01, 0xC3, 0xE3]
EDGES = [0, 1, 5, 99, 100, 999, 9999, 10000, 99999, 100000, 900000, 999999,
         1000000, 2147483647]


def line(*cells):
    return b'\t'.join(cell.hex().upper().encode() if isinstance(cell, bytes)
                      else str(cell).encode() for cell in cells)


# Settings.

def good_settings(rng):
    """A good set, mostly of quick doses."""
    algorithm = rng.choice([0, 1, 1, 1, 2, 2, 2, 3, 3])
    C = rng.choice([4, 100, 1000, 10000, 99999, rng.randint(4, 99999)])
    D = rng.choice([C, max(1, C // 2), rng.randint(1, C)])
    Pc = rng.choice([0, D // 4, D // 2, rng.randint(0, D), D])
    Pf = rng.choice([0, Pc // 4, Pc // 2, Pc, rng.randint(0, Pc)])
    if algorithm < 2:
        M = rng.choice([1, max(1, C // 8), C // 4])
    else:
        M = rng.choice([D, (D + C) // 2, C])
    p7 = rng.choice([4, 4, 5, 8, rng.randint(4, 128)])
    p8 = rng.choice([p7, min(128, p7 * 2), rng.randint(p7, 128)])
    p9 = rng.choice([1] * 50 + [2, 2, 2, 3, 3, 63])
    bits = [rng.randint(0, 1) for _ in range(5)]
    serial = rng.choice([0, 1, 0xFFFFFF, 0x00FF01, 0xFE00FF,
                         rng.randint(0, 0xFFFFFF)])
    return Settings(algorithm, C, D, Pc, Pf, M, p7, p8, p9, *bits,
                    rng.choice([1, 127, rng.randint(1, 127)]), serial,
                    rng.randint(0, 3), product(rng))


def product(rng):
    return rng.choice([0, 0, 0, 1, 2, 7, 255, rng.randint(0, 255)])


def bad_settings(rng):
    """One or two rows just outside, far outside, or perhaps just inside."""
    s = list(good_settings(rng))
    for _ in range(rng.randint(1, 2)):
        row = rng.randrange(18)
        least, greatest = ranges(Settings(*s))[row]
        s[row] = max(0, rng.choice([least, least - 1, greatest, greatest + 1,
                                    256, 65536, 4294967295]))
    return Settings(*s)


def any_settings(rng):
    return rng.choice([good_settings, bad_settings])(rng)


def counters(rng):
    count = rng.choice([0, 999997, 999998, 999999, rng.randint(0, 999999)])
    total = rng.choice([0, 999999999, 999999990, rng.randint(0, 999999999)])
    return count, total


def bad_counters(rng):
    return rng.choice([(1000000, 0), (0, 1000000000), (4294967295, 4294967295),
                       (999999, 1000000000), (1000000, 999999999)])


def written(s):
    """Product 0 stands at the end of a set, or does not stand there."""
    return s[:17] if s.product == 0 and s.serial % 2 else s


def set_line(s):
    return line('S', *written(s))


def restart_line(s, count=0, total=0):
    return line('N', *written(s), count, total)


# Frames.

def body(rng, s):
    """A request's body without its check, mostly ours."""
    address = s.address if rng.random() < 0.9 else rng.randint(1, 253)
    serial = s.serial if rng.random() < 0.9 else rng.randint(0, 0xFFFFFF)
    form = rng.choice([bytes([address]), b'\0' + serial.to_bytes(3, 'little')])
    code = rng.choice(CODES) if rng.random() < 0.9 else rng.randrange(256)
    data = b'' if rng.random() < 0.9 else marked(rng, rng.randint(1, 4))
    return form + bytes([code]) + data


def marked(rng, length):
    """Bytes with many FF, FE and 0."""
    return bytes(rng.choice(MARKS) if rng.random() < 0.6 else rng.randrange(256)
                 for _ in range(length))


def framed(whole):
    return b'\xFF' + frames.stuffed(whole) + b'\xFF\xFF'


def checked(body):
    return body + bytes([frames.check_byte(body)])


def request_bytes(rng, s):
    """One request; now and then damaged, cut, or among others."""
    frame = framed(checked(body(rng, s)))
    kind = rng.randrange(12)
    if kind == 0:
        at = rng.randrange(len(frame))
        frame = frame[:at] + bytes([rng.randrange(256)]) + frame[at + 1:]
    elif kind == 1:
        frame = frame[:rng.randrange(len(frame))]
    elif kind == 2:
        frame = marked(rng, rng.randint(0, 6)) + frame
    elif kind == 3:
        frame = frame + framed(checked(body(rng, s)))
    elif kind == 4:
        frame = frame[:-1] + framed(checked(body(rng, s)))
    elif kind == 5:
        frame = long_bytes(rng)[:1500] + frame
    elif kind == 6:
        frame = frame[:rng.randrange(len(frame))] + frame
    return frame


def long_bytes(rng):
    """A body about the 255 bytes that a reader takes, FF at the border."""
    length = rng.choice([252, 253, 254, 255, 256, 257, rng.randint(200, 300)])
    whole = bytes([rng.choice([1, 0])]) + bytes(
        rng.choice([0xFF, 0xFE, 7]) for _ in range(length - 2))
    whole = checked(whole) if rng.random() < 0.7 else whole + b'\xFF'
    return framed(whole) + rng.choice([b'', b'\xFF', b'\x05', b'\xFE'])


def noise_bytes(rng):
    return marked(rng, rng.randint(0, 24))


def request_line(rng, s):
    data = request_bytes(rng, s)
    room = rng.choice([64, 64, 64, 20, rng.randint(0, 20), rng.randint(6, 12)])
    return line('B', data, room)


def frame_line(rng, s):
    """The writer, with a room that fits, is short by one, or any."""
    length = rng.choice([0, 1, 2, 3, 4, 5, 6, 253, 254, 255,
                         rng.randint(0, 300)])
    given = marked(rng, length)
    if given and rng.random() < 0.8:
        given = bytes([rng.choice([0, 1, 127])]) + given[1:]
    fits = len(framed(checked(given)))
    room = rng.choice([fits, fits - 1, fits + 1, 600, rng.randint(0, 600)])
    return line('W', given, min(600, room))


def reader_line(rng, s):
    make = rng.choice([noise_bytes, long_bytes,
                       lambda rng: request_bytes(rng, s)])
    return line('X', make(rng))


# MODBUS.

def modbus_body(rng, s):
    """A request without its CRC, mostly ours and good."""
    address = rng.choice([s.address] * 12 + [0, 0, rng.randrange(256)])
    pick = rng.randrange(20)
    if pick == 0:
        return bytes([address, rng.randrange(256)]) + marked(rng, rng.choice(
            [0, 1, 4, 4, 6, 251, 252, 253, rng.randint(0, 252)]))
    if pick < 8:
        register = rng.choice([10] * 12 + [0, 9, 11, 266, 2560, 65535])
        value = rng.choice([0, 0, 0, 1, 1, 1, 2, 256, 65535])
        return bytes([address, 6]) + struct.pack('>HH', register, value)
    first, quantity = rng.randint(0, 10), rng.randint(1, 11)
    if rng.randrange(4):
        quantity = min(quantity, 11 - first)
    if rng.randrange(12) == 0:
        first, quantity = (rng.choice([0, 1, 10, 11, 12, 255, 256, 65535]) for _ in 'ab')
    if rng.randrange(12) == 0:
        quantity = rng.choice([0, 1, 124, 125, 126, 127, 65535])
    return bytes([address, 3]) + struct.pack('>HH', first, quantity)


def modbus_bytes(rng, s):
    """One frame; now and then damaged, cut, longer, or with its CRC turned
    about."""
    frame = modbus.closed(modbus_body(rng, s))
    pick = rng.randrange(30)
    if pick == 0:
        at = rng.randrange(len(frame))
        frame = frame[:at] + bytes([frame[at] ^ 1 << rng.randrange(8)]) + frame[at + 1:]
    elif pick == 1:
        frame = frame[:rng.randrange(len(frame))]
    elif pick == 2:
        frame = modbus.closed(frame[:-2] + marked(rng, rng.randint(1, 3)))
    elif pick == 3:
        frame = frame[:-2] + frame[:-3:-1]
    elif pick == 4:
        frame = modbus.closed(frame[:rng.randint(0, 5)])
    return frame


def modbus_line(rng, s):
    data = modbus_bytes(rng, s)
    room = rng.choice([64, 64, 64, 27, rng.randint(0, 30), rng.randint(4, 9)])
    return line('M', data, room)


def why_line(rng, s):
    return line('Y', rng.choice([1, 2, 3, 4] * 8 + [0, 5, 255]))


# Fields.

def field_writer_line(rng, s):
    weight = rng.choice(EDGES + [rng.randint(0, 999999)]) * rng.choice([1, -1])
    point = rng.choice([0, 1, 2, 3, 7, 8, 255])
    return line('G', weight, rng.randint(0, 1), rng.randint(0, 1), point)


def field_reader_line(rng, s):
    digits = bytes(rng.randint(0, 9) << 4 | rng.randint(0, 9) for _ in range(3))
    if rng.random() < 0.2:
        digits = rng.choice([b'\0\0\0', b'\x0A\0\0', b'\0\xA0\0', b'\0\0\x1F',
                             marked(rng, 3)])
    return line('K', digits + bytes([rng.randrange(256)]))


# The journal.

def d_line(rng, s):
    values = [rng.choice([0, 1, top, top + 1, rng.randint(0, top)])
              for top in (9999999, 999999, 1800000, 1, 255)]
    return line('D', *values, rng.choice([64, rng.randint(0, 34)]))


def h_line(rng, s):
    hour = rng.choice([0, 9, 10, 9999999, 10000000, rng.randint(0, 9999999)])
    return line('H', hour, rng.choice([64, rng.randint(0, 12)]))


def one_line(rng, s):
    """Any line of a journal for the reader of either form."""
    text = short_journal(rng)
    one = rng.choice(text.splitlines(True) or [b''])
    return line(rng.choice('lm'), one if rng.random() < 0.9 else text)


def short_journal(rng):
    kind = rng.choice(journals.SHORT + ['small'] * 10)
    return journals.make(rng, kind)[:1500]


def hour_line(rng, s):
    """An hour that the journal names, or one near it."""
    data = short_journal(rng)
    hours = [cells[1] for cells in (text.split(b'\t') for text in
             data.split(b'\n')) if len(cells) > 1 and cells[1].isdigit()]
    hour = int(rng.choice(hours or [b'0'])) % 10000001
    return line('u', data, max(0, hour + rng.choice([0, 0, 0, 1, -1])))


def text_line(rng, s):
    room = rng.choice([2000, 2000, rng.randint(0, 200)])
    return line('j', short_journal(rng), room)


# Lines that are no call.

def malformed_line(rng, s):
    good = rng.choice([
        line('T', rng.randint(-99, 99), rng.randint(0, 15)), line('L', 1),
        set_line(good_settings(rng)), line('Q'), line('C'),
        request_line(rng, s), frame_line(rng, s), line('K', b'\5\0\0\x91'),
        modbus_line(rng, s), why_line(rng, s),
        d_line(rng, s), h_line(rng, s)])
    return rng.choice(SPOILERS)(rng, good)


def in_field(change):
    """A change of one field."""
    def spoil(rng, good):
        cells = good.split(b'\t')
        at = rng.randrange(len(cells))
        cells[at] = change(cells[at])
        return b'\t'.join(cells)
    return spoil


def any_byte(rng, good):
    """One byte changed, put in or left out."""
    at = rng.randrange(len(good))
    byte = rng.choice([b'\t', b'0', b'9', b'F', b'f', b' ', b'-', b'\0', b'\r',
                       b'\xFF'])
    return good[:at] + rng.choice([byte, byte + good[at:at + 1], b'']) + \
        good[at + 1:]


SPOILERS = [
    any_byte,
    any_byte,
    any_byte,
    lambda rng, good: good + b'\t',
    lambda rng, good: good + b'\t0',
    lambda rng, good: good.rpartition(b'\t')[0],
    lambda rng, good: b'\t' + good,
    lambda rng, good: b'',
    lambda rng, good: good + b'\r',
    lambda rng, good: b'Z' + good[1:],
    lambda rng, good: good[:1].swapcase() + good[1:],
    lambda rng, good: good.ljust(4095, b'0'),
    lambda rng, good: b'X\t' + b'0' * rng.choice([4092, 4093, 4094, 4096, 9000]),
    lambda rng, good: b'T\t%d\t0' % rng.choice([2147483648, -2147483649, 2**70]),
    lambda rng, good: b'T\t0\t%d' % rng.choice([256, -1, 2**64]),
    lambda rng, good: b'L\t%d' % rng.choice([2, -1]),
    lambda rng, good: b'B\tFF\t65',
    lambda rng, good: b'M\t01030004000285CA\t65',
    lambda rng, good: b'W\t01C3\t601',
    lambda rng, good: b'j\t\t2001',
    lambda rng, good: b'K\t' + rng.choice([b'050000', b'0500009100', b'']),
    in_field(lambda cell: b'0' + cell),
    in_field(lambda cell: b'+' + cell),
    in_field(lambda cell: b'-' + cell),
    in_field(lambda cell: cell + b' '),
    in_field(lambda cell: b' ' + cell),
    in_field(lambda cell: cell.lower() + b'a'),
    in_field(lambda cell: cell + b'\0'),
    in_field(lambda cell: cell + b'.0'),
    in_field(lambda cell: b''),
    in_field(lambda cell: b'-0'),
    in_field(lambda cell: b'4294967296'),
]

OTHER = [request_line, request_line, request_line, modbus_line, modbus_line,
         modbus_line, modbus_line, why_line, frame_line, reader_line,
         field_writer_line, field_reader_line, d_line, h_line, one_line,
         hour_line, text_line, malformed_line]
