"""Checks of the second implementation, from documents 01 and 02 and docs/REPLAY.md:
python3 tests/second_test.py"""

import io
import os
import random
import struct
import subprocess
import sys

ROOT = os.path.dirname(os.path.dirname(os.path.abspath(__file__)))
CASES = os.path.join(ROOT, 'tests', 'cases')
sys.path.insert(0, ROOT)

from second import (both_forms, boundary, fields, frames, generate, hours,  # noqa: E402
                    journal, journals, modbus, product, record, renew, replay,
                    restore, settings, slave, week, weigher)
from second.box import Box, mean  # noqa: E402
from second.refusal import Refused  # noqa: E402
from second.settings import DEFAULT, Settings  # noqa: E402
from second.why import why  # noqa: E402

checks = failed = 0


def same(name, seen, wanted):
    global checks, failed
    checks += 1
    if seen != wanted:
        failed += 1
        print('%s: %r, not %r' % (name, seen, wanted))


def refusal(call, *values):
    """The number and detail of a refusal."""
    try:
        call(*values)
    except Refused as refused:
        return (refused.number,) + refused.detail
    return None


def case(name):
    with open(os.path.join(CASES, name), 'rb') as file:
        return file.read()


def program(name, data=b'', *words):
    done = subprocess.run([sys.executable, '-m', 'second.' + name, *words],
                          input=data, stdout=subprocess.PIPE, cwd=ROOT)
    return done.stdout


def replayed(text):
    return program('replay', text.encode()).decode()


def settings_checks():
    same('default', settings.first_bad_row(DEFAULT), 0)
    same('C/4', settings.first_bad_row(DEFAULT._replace(C=403, M=101)), 6)
    same('C 3', settings.first_bad_row(DEFAULT._replace(C=3, D=1, M=1)), 6)
    same('AL2 M', settings.first_bad_row(DEFAULT._replace(algorithm=2, M=99)), 6)
    same('first', settings.first_bad_row(DEFAULT._replace(D=0, point=4)), 3)
    same('point', settings.first_bad_row(DEFAULT._replace(point=4)), 17)
    same('p8', settings.first_bad_row(DEFAULT._replace(p7=9, p8=8)), 8)
    same('product', settings.first_bad_row(DEFAULT._replace(product=256)), 18)
    same('product 255', settings.first_bad_row(DEFAULT._replace(product=255)), 0)
    same('the default product', DEFAULT.product, 0)
    same('R15', refusal(Box, DEFAULT, 1000000, 0), (15,))
    same('R2, R15', refusal(Box, DEFAULT._replace(C=0), 1000000, 0), (2, 2))


def frame_checks():
    for body, check in (('01C3', 0xE3), ('01C2', 0x8A), ('01C0', 0x58),
                        ('01', 0x69)):
        same('check ' + body, frames.check_byte(bytes.fromhex(body)), check)
    same('over all', frames.run(bytes.fromhex('01C3E3')), 0)
    same('frame', frames.write(b'\x01\xC3', 6).hex(), 'ff01c3e3ffff')
    same('R8', refusal(frames.write, b'\x01\xC3', 5), (8,))
    for body in (b'', b'\1', b'\xFF\1', b'\xFE\1', b'\0\1\2\3', b'\1' * 255):
        same('R14', refusal(frames.write, body, 0), (14,))
    stuffed = frames.write(b'\x01\xFF', 20)
    same('stuffed', stuffed[:4].hex(), 'ff01fffe')
    same('unstuffed', frames.read(stuffed)[1][:2], b'\x01\xFF')
    for text, place in (('', 0), ('0102', 2), ('FF', 0), ('FFFF', 1), ('01FF02', 1),
                        ('FFFF01FF', 1), ('FF01FF02', 2), ('FFFFFE', 1)):
        same('R9 ' + text, refusal(frames.read, bytes.fromhex(text)), (9, place))
    same('R6', refusal(frames.read, bytes.fromhex('FF0169FFFF')), (6, 4))
    same('closing FF serves the next',
         frames.read(bytes.fromhex('FFFF01C3E3FFFF'))[0], 6)
    long = b'\xFF' + b'\1' * 256 + b'\2\xFF\xFF'
    same('256th', refusal(frames.read, long), (9, 259))


def field_checks():
    same('field', fields.read(bytes.fromhex('05000091')), (-5, 1, 0, 1))
    same('field written', fields.write(-5, 1, 0, 1).hex(), '05000091')
    same('zero', fields.write(0, 0, 0, 0).hex(), '00000000')
    same('-0', fields.read(bytes.fromhex('000000E0')), (0, 0, 0, 0))
    same('R16', refusal(fields.read, bytes.fromhex('0A000000')), (16,))
    same('R16 weight', refusal(fields.write, 1000000, 0, 0, 0), (16,))
    same('R16 point', refusal(fields.write, 0, 0, 0, 8), (16,))


def modbus_checks():
    """Document 02, W2: the frames of its public documents, by hand."""
    for frame, wanted in (('01030004000285CA', '01030400000000FA33'),
                          ('0106000A00022809', '0186030261'),
                          ('0106000A00016808', '0106000A00016808')):
        same('reply ' + frame, Box().modbus(bytes.fromhex(frame), 64).hex().upper(), wanted)
    same('R17', refusal(Box().modbus, bytes.fromhex('010300040002'), 64), (17,))
    same('CRC', modbus.crc(b'123456789'), 0x4B37)
    for number in list(range(-924998, 924999, 7)) + [924998]:
        high, low = modbus.single(number)
        told, = struct.unpack('>f', struct.pack('>HH', high, low))
        if told != number:
            same('f32', told, number)
    same('f32 of 0', modbus.single(0), [0, 0])
    same('f32 of 1', modbus.single(1), [0x3F80, 0])
    same('f32 of -924,998', modbus.single(-924998), [0xC961, 0xD460])
    box = Box(DEFAULT, 123456, 987654321)
    same('registers', box.registers(),
         [0, 0, 0, 0, 0, 0, 1, 57920, 15070, 26801, 0])
    write = modbus.closed(bytes.fromhex('0106000A0001'))
    same('R8', refusal(box.modbus, write, 7), (8,))
    same('R8 sets nothing', box.link, 0)
    same('to all', box.modbus(modbus.closed(b'\0' + write[1:6]), 0), b'')
    same('it acts', box.link, 1)


def why_checks():
    """Document 02, W6, by hand: a cycle of AL1, one of AL2."""
    def told(box):
        return [' '.join(map(str, why(box, output))) for output in (1, 2, 3, 4)]

    same('R19', [refusal(why, Box(), output) for output in (0, 5, 255)], [(19,)] * 3)
    same('fresh', told(Box()), ['phase Ready', 'phase Ready', 'unused', 'noalarm'])
    box = Box(boundary.AL1)
    for samples, start, wanted in (
            ([0], 0, ['nostart', 'nostart', 'nostart', 'noalarm']),
            ([0], 8, ['open', 'phase Fill', 'phase Fill', 'noalarm']),
            ([400] * 4, 0, ['lead 400 400', 'open', 'phase Fill', 'noalarm']),
            ([399] * 4, 0, ['lead 399 400', 'open', 'phase Fill', 'noalarm']),
            ([480] * 3, 0, ['lead 480 480', 'lead 480 480', 'settling 0 256', 'noalarm']),
            ([470] * 3, 0, ['lead 470 480', 'lead 470 480', 'settling 3 256', 'noalarm']),
            ([470] * 65, 0, ['phase Discharge', 'phase Discharge', 'open', 'noalarm']),
            ([0] * 3, 0, ['phase Ready', 'phase Ready', 'phase Ready', 'noalarm']),
            ([0], 0, ['nostart', 'nostart', 'nostart', 'noalarm']),
            ([2000] * 4, 0, ['nostart', 'nostart', 'nostart', 'overload']),
            ([900001], 0, ['fault 21 0'] * 4)):
        for sample in samples:
            box.tick(sample, box.outputs & 7 | start)
        same('AL1 at %d' % samples[0], told(box), wanted)
    box = Box(boundary.AL1._replace(algorithm=2, M=700))
    for samples, start, wanted in (
            ([600], 0, ['nostart', 'nostart', 'phase Ready', 'noalarm']),
            ([600], 8, ['open', 'open', 'phase Dose', 'noalarm']),
            ([200] * 4, 0, ['lead 400 400', 'open', 'phase Dose', 'noalarm']),
            ([120] * 4, 0, ['lead 480 480', 'lead 480 480', 'phase Settle', 'noalarm']),
            ([120] * 63, 0, ['phase Ready', 'phase Ready', 'phase Ready', 'noalarm']),
            ([120], 0, ['phase Load', 'phase Load', 'open', 'noalarm']),
            ([700] * 4, 0, ['phase Calm', 'phase Calm', 'phase Calm', 'noalarm'])):
        for sample in samples:
            box.tick(sample, box.outputs & 7 | start)
        same('AL2 at %d' % samples[0], told(box), wanted)


def slave_checks():
    """Reads of a file, and reads that bring a frame each."""
    ask = modbus.closed(bytes.fromhex('010300040002'))
    reply = modbus.closed(bytes.fromhex('010304000D0001'))
    same('a file', program('slave', b'x\nT\t5\t13\n\n' + ask), reply)
    for name, frames in (('both', 6), ('two-in-one-read', 1), ('one-in-two-reads', 1),
                         ('same-read', 1), ('next-read', 1), ('no-empty-line', 0),
                         ('empty', 0), ('no-script', 1), ('no-frame', 0), ('longest', 2)):
        packets = slave.packets(case(name + '.slave'))
        seen = list(slave.replies(lambda most, left=iter(packets): next(left, b'')[:most]))
        same('replies of ' + name, len(seen), frames)


def tick_checks():
    for samples, wanted in (([1, 2], 2), ([-1, -2], -2), ([0, -1], -1),
                            ([1, 1, 2], 1), ([-1, -2, -2], -2)):
        same('mean', mean(samples, 4), wanted)
    same('the last n', mean([9, 1, 2], 2), 2)
    # Document 02, W7: four or more without one largest and one smallest.
    for samples, wanted in (([1, 2, 900], 301), ([1, 2, 900, 4], 3), ([5, 5, 5, 5], 5),
                            ([1, 1, 9, 9], 5), ([0, -1, -2, 7], -1), ([0, 1, 1, 1, 900], 1),
                            ([1, 2, 3, 4, 5], 3), ([-9, -9, -9, 0, 0, 0], -5)):
        same('mean of %r' % samples, mean(samples, 6), wanted)
    for weight, outputs in ((399, 1), (400, 2), (479, 2), (480, 0)):
        box = Box(boundary.AL1)
        box.tick(0, 8)
        for _ in range(4):
            answer = box.tick(weight, 8)
        same('at %d' % weight, answer, ('O', outputs))
    wanted = ['settle, F constant\t64', 'settle, F changing\t256',
              'mismatches 63\tgoes on', 'mismatches 64\tF14',
              'w C+9\tno alarm', 'w C+10\talarm']
    same('boundary', program('boundary').decode().splitlines(), wanted)
    box = Box(DEFAULT, 999999, 999999999)
    same('wrap', box.complete(1, 1), (0, 1, 1, 0))
    same('total', box.counters(), (0, 0))
    same('R1', refusal(box.tick, 0, 16), (1,))
    same('F21', box.tick(900001, 3), ('F', 21, 0))
    same('the same again', box.tick(0, 0), ('F', 21, 0))
    same('R3', refusal(box.set_settings, Settings(*[0] * 17)), (3,))
    same('outputs', box.request(bytes.fromhex('FF01C5') + bytes(
        [frames.check_byte(b'\x01\xC5')]) + b'\xFF\xFF', 9)[1][3], 8)


def journal_checks():
    example = case('mill.journal')
    text = (b'10\tM\t2\t998\t407F300000000000\n11\tI\n12\tX\n13\tI\n')
    same('example', program('hours', example), text)
    same('empty', program('hours', b''), b'')
    same('no LF', program('hours', b'H\t5'), b'R\t10\t1\n')
    same('empty line', program('hours', b'H\t5\n\n'), b'R\t10\t2\n')
    same('R11', program('hours', b'H\t5\nD\t5\t1\t2\t1\n'), b'R\t11\t2\n')
    same('R12', program('hours', b'H\t5\nH\t749\n'), b'R\t12\t2\n')
    same('743', len(program('hours', b'H\t5\nH\t748\n').splitlines()), 744)
    same('R13', program('hours', b'x' * 65537), b'R\t13\t0\n')
    same('65,536', program('hours', b'x' * 65536), b'R\t10\t1\n')
    same('R10 on writing', refusal(journal.write, 'H', (10000000,), 0), (10, 0))
    same('R8 on writing', refusal(journal.write, 'H', (10,), 4), (8,))
    same('H', journal.write('H', (10,), 5), b'H\t10\n')
    same('D', journal.write('D', (10, 1, 500, 1, 7), 64), b'D\t10\t1\t500\t1\t7\n')
    same('R10 product', refusal(journal.write, 'D', (10, 1, 500, 1, 256), 0), (10, 0))
    same('third', hours.bits(hours.mean([0, 0, 1])), '3FD5555555555555')
    same('outside', hours.one(example, 9), ('X',))
    hole_checks()
    for kind in journals.BAD_LINES:
        for line in journals.BAD_LINES[kind]:
            line = line % 20 if '%' in line else line
            data = b'H\t10\n' + line.encode('latin-1') + b'H\t30\n'
            same(kind, hours.printed(data), b'R\t10\t2\n')


# The kinds of the hours of each stored hole, from first to last.
HOLES = {
    'in-one-hour': 'XMI', 'in-one-hour-without-h': 'XM',
    'at-an-hour-border': 'IXXM', 'at-a-border-without-h': 'XXM',
    'across-idle-hours': 'XXXXIM', 'across-missing-hours': 'IXXXXXI',
    'over-a-missing-hour': 'XXXXXM', 'none-across-idle-hours': 'MIXIM',
    'at-the-wrap': 'XXM', 'over-the-wrap': 'XXM', 'none-at-the-wrap': 'MMM',
    'none-after-a-reset': 'MMIM', 'none-where-1-comes-twice': 'MMM',
    'none-where-1-comes-late': 'MXXMM', 'of-2-after-a-lost-1': 'XXM',
    'of-0': 'XXXXXXM', 'none-at-the-first-dose': 'IMM', 'none-at-a-first-0': 'M',
    'at-the-second-line': 'XM', 'at-the-last-line': 'MXX', 'at-both-ends': 'XXX',
    'twice-in-a-row': 'XXXM', 'and-its-far-end': 'XXMM',
    'and-the-count-before-it': 'XXXM', 'of-an-equal-count': 'MXXM',
    'of-a-count-gone-back': 'MXXM', 'of-a-count-far-back': 'MXXM',
    'after-another': 'XMXXM', 'over-all-hours': 'X' * 744,
}


def hole_checks():
    """Document 02, W1, by hand."""
    for name, wanted in HOLES.items():
        printed = hours.printed(case('hole-%s.journal' % name)).decode()
        same('hole ' + name, ''.join(row.split('\t')[1] for row in printed.splitlines()),
             wanted)
    stored = {name for name in os.listdir(CASES) if name.startswith('hole-')}
    same('holes', stored, {'hole-%s.journal' % name for name in HOLES})
    for before, count in ((0, 1), (5, 6), (999998, 999999), (999999, 0), (7, 1), (1, 1)):
        same('follows', hours.follows(before, count), True)
    for before, count in ((5, 5), (5, 7), (5, 4), (5, 0), (999999, 999999), (999998, 0),
                          (999999, 2), (0, 0), (1, 0)):
        same('does not follow', hours.follows(before, count), False)


# The days of each stored week, by hand: their letters and what they cover.
WEEKS = {
    'real': 'W9 W4 W9 W9 W9 I0 I0', 'real-before-168': 'X0 X0 X0 X0 X0 X0 X0',
    'real-before-167': 'X0 X0 X0 X0 X0 X0 X0', 'real-from-168': 'X0 X0 X0 X0 X0 X0 X0',
    'real-from-24': 'W4 W9 W9 W9 I0 I0 X0',
    'real-from-144': 'I0 X0 X0 X0 X0 X0 X0', 'holidays': 'I0 X0 X0 I0 X0 X0 I0',
    'half-seen-rest': 'X0 X0 X0 W9 X0 W4 W9', 'one-hour-missing': 'X0 I0 X0 X0 X0 X0 X0',
    'one-hour-measured': 'W1 X0 X0 X0 X0 X0 X0', 'a-dose-of-0': 'W1 X0 X0 X0 X0 X0 X0',
    'first-hour-of-a-day': 'W1 W1 X0 X0 X0 X0 X0', 'last-hour-of-a-day': 'W1 W1 X0 X0 X0 X0 X0',
    'last-hour-of-the-week': 'X0 X0 X0 X0 X0 X0 W1', 'a-hole-in-a-day': 'W1 X0 X0 X0 X0 X0 X0',
    'an-hour-before-the-week': 'W1 X0 X0 X0 X0 X0 X0',
    'a-dose-without-an-h': 'X0 X0 X0 X0 X0 X0 X0', 'a-hole-over-days': 'X0 X0 X0 X0 I0 I0 I0',
    'greatest-first': 'W1 X0 X0 X0 X0 X0 W1', 'greatest-first-rest': 'I0 I0 I0 I0 I0 I0 I0',
    'empty-journal': 'X0 X0 X0 X0 X0 X0 X0',
}
NO_WEEKS = {
    'above-the-greatest': 'R 21 0', 'last-hour': 'R 21 0', 'nothing': 'R 21 0',
    'no-lf': 'R 21 0', 'lf-alone': 'R 21 0', 'first-long': 'R 21 0', 'first-cr': 'R 21 0',
    'first-long-no-lf': 'R 21 0', 'first-long-largest': 'R 21 0', 'refused-10': 'R 10 3',
    'first-bad-refused-10': 'R 10 3', 'first-bad-refused-11': 'R 11 3',
    'first-bad-refused-12': 'R 12 3', 'one-byte-over': 'R 13 0',
    'first-bad-one-byte-over': 'R 13 0', 'no-lf-at-the-end': 'R 10 6',
    'first-bad-no-lf-at-the-end': 'R 10 6', 'an-empty-line': 'R 10 1',
}


def week_checks():
    """Document 02, W12, by hand."""
    same('program', program('week', b'10\n' + case('mill.journal')).splitlines()[:2],
         [b'0\tW\t1\t998', b'1\tX\t0\t0'])
    for name, wanted in WEEKS.items():
        printed = week.printed(io.BytesIO(case(name + '.week'))).decode()
        rows = [row.split('\t') for row in printed.splitlines()]
        same('days of ' + name, [int(row[0]) for row in rows], list(range(7)))
        same(name, ' '.join(row[1] + row[2] for row in rows), wanted)
    for name, wanted in NO_WEEKS.items():
        printed = week.printed(io.BytesIO(case(name + '.week'))).decode()
        same(name, printed, wanted.replace(' ', '\t') + '\n')


# The hours of product 7 and of product 9 in each stored journal of the new form.
PRODUCTS = {
    'mill': 'MIXI IIXI', 'two-products': 'MIMI MMII', 'one-product': 'MM II',
    'another-before-and-after': 'IMI MIM', 'a-dose-of-another-without-an-h': 'MXM IXI',
    'a-dose-without-an-h': 'IXI MXM', 'no-dose-after-the-last': 'MII IMI',
    'counts-of-two-follow': 'MIM IMI', 'a-hole-of-another': 'XXM XXI',
    'a-hole-between-products': 'XXM XXI', 'a-hole-in-one-alone': 'MMI MIM',
    'a-hole-over-idle-hours': 'XXXXM XXXXI', 'a-1-of-another': 'MIM IMI',
    'the-wrap': 'MIM IMI', 'v-alone': ' ', 'h-alone': 'I I',
}
BAD_JOURNALS = {
    'five-fields-after-v': 'R 10 2', 'six-fields-without-v': 'R 10 1', 'v-later': 'R 10 2',
    'v-twice': 'R 10 2', 'v-after-lines': 'R 10 3', 'v-1': 'R 10 1', 'v-3': 'R 10 1',
    'v-no-lf': 'R 10 1', 'v-cr': 'R 10 1', 'v-empty-line': 'R 10 1', 'product-256': 'R 10 3',
    'order-after-v': 'R 11 3', 'order-first': 'R 11 3', 'span-after-v': 'R 12 3',
    'span-from-0': None, 'last-line-no-lf': 'R 10 2',
}


def product_checks():
    """Document 02, W4, by hand."""
    same('program', program('product', b'7\nV\t2\nD\t5\t1\t9\t1\t7\nH\t5\n'),
         b'5\tM\t1\t9\t4022000000000000\n')
    for name, wanted in PRODUCTS.items():
        seen = []
        for one in (7, 9):
            printed = product.printed(io.BytesIO(case('%s-%d.product' % (name, one))))
            seen.append(''.join(row.split('\t')[1] for row in printed.decode().splitlines()))
        same('products of ' + name, ' '.join(seen), wanted)
    for name, wanted in BAD_JOURNALS.items():
        data = case('new-%s.journal' % name)
        seen = hours.printed(data)
        if wanted is None:
            same(name, len(seen.splitlines()), 744)
        else:
            same(name, seen.decode(), wanted.replace(' ', '\t') + '\n')
        for other, program_of in (('.product', product), ('.week', week)):
            told = program_of.printed(io.BytesIO(case(name + other)))
            same(name + other, told[:1] == b'R' and told or seen, seen)
    for name in ('256', 'leading-zero', 'cr', 'v-line', 'wraps-8', 'long', 'empty'):
        same('first ' + name, product.printed(io.BytesIO(case('first-%s.product' % name))),
             b'R\t2\t0\n')
    for name, wanted in (('nothing', b'R\t2\t0\n'), ('no-lf', b'R\t2\t0\n'),
                         ('empty-journal', b''), ('one-byte-over', b'R\t13\t0\n'),
                         ('first-bad-order-after-v', b'R\t11\t3\n'),
                         ('first-bad-product-256', b'R\t10\t3\n')):
        same(name, product.printed(io.BytesIO(case(name + '.product'))), wanted)
    same('old, product 0', product.printed(io.BytesIO(case('old-0.product'))),
         hours.printed(case('mill.journal')))
    same('old, product 1', product.printed(io.BytesIO(case('old-1.product'))),
         b'10\tI\n11\tI\n12\tX\n13\tI\n')


# What is refused of the stored journals on their way to the other form; the others
# are not.
NOT_RENEWED = {
    'v-alone': 'R 10 1', 'v-no-lf': 'R 10 1', 'v-3': 'R 10 1', 'v-and-old': 'R 10 1',
    'new': 'R 10 1', 'new-with-0': 'R 10 1', 'new-order': 'R 10 1', 'new-malformed': 'R 10 1',
    'new-without-v': 'R 10 1', 'new-exact': 'R 10 1', 'lf-and-v': 'R 10 1', 'lf-alone': 'R 10 1',
    'leading-zero': 'R 10 1', 'cr': 'R 10 1', 'refused-10-first': 'R 10 1', 'refused-10': 'R 10 7',
    'refused-10-last': 'R 10 7', 'no-lf': 'R 10 6', 'empty-line': 'R 10 7', 'v-again': 'R 10 7',
    'six-fields': 'R 10 7', 'refused-11-second': 'R 11 2', 'refused-11': 'R 11 7',
    'refused-11-last': 'R 11 7', 'refused-12-second': 'R 12 2', 'refused-12': 'R 12 7',
    'refused-12-last': 'R 12 7', 'exact': 'R 13 0', 'over': 'R 13 0', 'new-over': 'R 13 0',
    'result-over': 'R 13 0', 'result-over-refused': 'R 12 2623',
}
NOT_RESTORED = {
    'empty': 'R 10 1', 'old': 'R 10 1', 'old-h-alone': 'R 10 1', 'old-order': 'R 10 1',
    'old-malformed': 'R 10 1', 'exact': 'R 10 1', 'without-v': 'R 10 1', 'v-3': 'R 10 1',
    'v-no-lf': 'R 10 1', 'v-cr': 'R 10 1', 'v-later': 'R 10 1', 'lf-alone': 'R 10 1',
    'lf-and-v': 'R 10 1', 'cr': 'R 10 1', 'v-twice': 'R 10 2', 'old-behind-v': 'R 10 2',
    'h-with-0': 'R 10 2', 'refused-10-first': 'R 10 2', 'refused-10': 'R 10 8',
    'refused-10-last': 'R 10 8', 'no-lf': 'R 10 7', 'empty-line': 'R 10 8', 'v-again': 'R 10 8',
    'five-fields': 'R 10 8', 'product-00': 'R 10 8', 'product-256': 'R 10 8',
    'refused-11-second': 'R 11 3', 'refused-11': 'R 11 8', 'refused-11-last': 'R 11 8',
    'product-in-11': 'R 11 8', 'refused-12-second': 'R 12 3', 'refused-12': 'R 12 8',
    'refused-12-last': 'R 12 8', 'over': 'R 13 0', 'new-over': 'R 13 0', 'zero-over': 'R 13 0',
    'product-and-refused-10': 'R 10 8', 'product-and-refused-10-last': 'R 10 8',
    'product-and-no-lf': 'R 10 7', 'product-and-empty-line': 'R 10 8',
    'product-and-v-again': 'R 10 8', 'product-and-five-fields': 'R 10 8',
    'product-and-refused-11': 'R 11 8', 'product-and-refused-11-last': 'R 11 8',
    'product-and-refused-12': 'R 12 8', 'product-and-refused-12-last': 'R 12 8',
    'product-and-six-fields': 'R 18 3', 'product-and-span': 'R 18 3', 'product-first': 'R 18 2',
    'product': 'R 18 4', 'product-last': 'R 18 5', 'product-alone': 'R 18 2',
    'products': 'R 18 3', 'every-product': 'R 18 2', 'product-1': 'R 18 3',
    'product-10': 'R 18 3', 'product-100': 'R 18 3', 'product-255': 'R 18 2',
    'new-exact': 'R 18 2',
}


def turned_checks():
    """Document 02, W5, by hand."""
    old, new = b'D\t10\t1\t500\t1\nH\t10\n', b'V\t2\nD\t10\t1\t500\t1\t0\nH\t10\n'
    same('renew', program('renew', old), new)
    same('restore', program('restore', new), old)
    same('renew nothing', program('renew', b''), b'V\t2\n')
    same('restore V', program('restore', b'V\t2\n'), b'')
    same('renew R13', program('renew', b'x' * 65537), b'R\t13\t0\n')
    same('restore R18', program('restore', b'V\t2\nD\t10\t1\t500\t1\t7\n'), b'R\t18\t2\n')
    for turn, back, ending, wanted in ((renew, restore, '.renew', NOT_RENEWED),
                                       (restore, renew, '.restore', NOT_RESTORED)):
        stored = {name[:-len(ending)] for name in os.listdir(CASES) if name.endswith(ending)}
        same('stored' + ending, set(wanted) - stored, set())
        for name in stored:
            data = case(name + ending)
            if name in wanted:
                told = wanted[name].replace(' ', '\t').encode() + b'\n'
                same(name + ending, turn.printed(data), told)
            else:
                there_and_back(name + ending, data, turn, back)
    for name, size in (('result-exact', 65536), ('result-over', 65537)):
        data = case(name + '.renew')
        same(name, len(journal.V) + len(data) + 2 * data.count(b'D'), size)
    generated_turned_checks()


def there_and_back(name, data, turn, back):
    """The same bytes come back, and the hours agree on both sides."""
    turned = turn.printed(data)
    same('back from ' + name, back.printed(turned), data)
    same('hours of ' + name, hours.printed(turned), hours.printed(data))


def generated_turned_checks():
    """A journal of the right form is refused as by the hour program, and one that is
    not refused comes back."""
    for name, turn, back in (('renew', renew, restore), ('restore', restore, renew)):
        seen = set()
        for kind in both_forms.KINDS[name]:
            data = both_forms.make(random.Random(1), name, kind)
            told, read = turn.printed(data), hours.printed(data)
            seen.add(told.split(b'\t')[1] if told[:1] == b'R' else b'')
            if told[:1] != b'R':
                there_and_back('%s of %s' % (name, kind), data, turn, back)
            elif read[:1] == b'R' and data.startswith(journal.V) == (turn is restore):
                same('%s of %s' % (name, kind), told, read)
        same('refusals of ' + name, seen, {b'', b'10', b'11', b'12', b'13'} | (
            {b'18'} if name == 'restore' else set()))


# An example of the lines that the requests add, and their answers.
EXAMPLE = (
    ('M 010300040002 8', 'R 17 A5A5A5A5A5A5A5A5'),
    ('M 01030004000285CA 9', 'P 9 01030400000000FA33'),
    ('M 0106000A00022809 6', 'P 5 0186030261A5'),
    ('D 10 2 498 1 7 16', 'P 15 44093130093209343938093109370AA5'),
    ('D 10 2 498 1 256 4', 'R 10 0 A5A5A5A5'),
    ('l 5609320A', 'R 10 1'),
    ('m 5609320A', 'V'),
    ('m 44093130093209343938093109370A', 'D 10 2 498 1 7'),
    ('u 5609320A44093130093109353030093109300A44093130093209343938093109370A480931300A 10',
     'M 408F300000000000 407F400000000000 407F300000000000'),
    ('Y 1', 'Y phase Ready'), ('T 0 0', 'O 0'), ('Y 1', 'Y nostart'), ('Y 5', 'R 19'),
)


def replay_checks():
    lines, answers = ('\n'.join(half).replace(' ', '\t') + '\n' for half in zip(*EXAMPLE))
    same('example', replayed(lines), answers)
    same('not a call', replayed('Q\nZ\nQ\t\n\nT\t01\t0\nT\t-0\t0\nQ'),
         'Q\t0\t0\n?\n?\n?\n?\n?\n')
    same('room 0', replayed('W\t\t0\nW\t01C3\t0\nB\t\t2\n'),
         'R\t14\t\nR\t8\t\nR\t9\t0\tA5A5\n')
    same('writer', replayed('W\t01C3\t8\nH\t10\t6\n'),
         'P\t6\tFF01C3E3FFFFA5A5\nP\t5\t4809313' + '00AA5\n')
    same('hours', replayed('u\t%s\t10\nu\t\t0\n' % case('mill.journal').hex().upper()),
         'M\t408F300000000000\t407F400000000000\t407F300000000000\nX\n')
    for length in (4096, 4097, 9999):       # its LF counted: one more
        same('long', replayed('X\t'.ljust(length, 'F') + '\nQ\n'),
             '?\nQ\t0\t0\n')
    same('4,096 bytes', replayed('X\t'.ljust(4094, 'F') + '\nQ\n'),
         'R\t9\t2045\nQ\t0\t0\n')


# A dose every two ticks once it is calm: AL2 with Wf 0, inputs at level 1. A line
# of before: without the product.
QUICK = Settings(2, 10, 1, 1, 1, 1, 4, 4, 1, 0, 0, 1, 1, 1, 1, 0, 0)
NEW = 'N' + '\t%d' * 19 % (QUICK[:17] + (4, 50)) + '\n'
REFUSED = NEW.replace('N\t2', 'N\t4') + NEW.replace('4\t50\n', '1000000\t50\n')
SET = 'S' + NEW[1:-6] + '\n'
QUIET, START = 'T\t5\t0\n', 'T\t5\t8\n'
CALM = QUIET * 65
HOUR = QUIET * 4
NO_CALLS = ('x\n', '\n', 'T\t5\t256\n', 'T\t5\n', 'N\n', 'x' * 4096 + '\n')


def recorded(text, ticks=4, first=b'7'):
    """The journal's lines behind V from a first line and the lines after it."""
    stream = io.BytesIO(first + b'\n' + text.encode())
    v, *lines = b''.join(record.written(stream, ticks)).decode().splitlines()
    return lines if v == 'V\t2' else [v] + lines


def record_checks():
    same('ticks of an hour', record.TICKS, 450000)
    text = '7\n' + NEW + CALM + START + QUIET
    same('program', program('record', text.encode()), b'V\t2\nD\t7\t5\t0\t1\t0\n')
    for data in (b'', b'7', b'x', b'x' * 5000):
        same('no line', program('record', data), b'')
    for data in (b'7\n', b'7\nT\t0\t0', b'0\n'):
        same('no tick', program('record', data), b'V\t2\n')
    same('refused', program('record', b'x\n7\n'), b'R\t10\t1\n')
    for first in (b'', b'07', b'00', b'-0', b'-1', b'+7', b'10000000', b'7 ', b' 7',
                  b'7\t', b'7\r', b'7\0', b'x', b'7.0', b'T\t0\t0', b'H\t7',
                  b'9' * 4095, b'9' * 4096):
        seen = recorded('7\n' + QUIET * 9, 4, first)
        same('first line %r' % first[:9], seen, ['R\t10\t1'])
    same('first hour 0', recorded(QUIET * 4, 4, b'0'), ['H\t0'])
    hour_checks()
    for no_call in NO_CALLS:
        lost_checks(no_call)
    dose_checks()
    last_hour_checks()


def hour_checks():
    """Which hours have an H, at four ticks to the hour."""
    same('quiet', recorded(QUIET * 11), ['H\t7', 'H\t8'])
    same('R1', recorded('T\t5\t16\n' * 9 + QUIET * 3 + 'T\t900001\t16\n'), [])
    same('fault', recorded('T\t900001\t0\n' + QUIET * 3 + 'T\t0\t255\n'), ['H\t7'])
    same('other calls', recorded(QUIET + 'Q\nL\t1\nC\nW\t01C3\t9\nX\tFF\nH\t1\t9\n' +
                                 QUIET * 3), ['H\t7'])
    same('settings', recorded(QUIET + SET + QUIET * 3), ['H\t7'])
    same('restart before', recorded(NEW + QUIET * 4), ['H\t7'])
    same('restart after R1', recorded('T\t5\t16\n' + NEW + QUIET * 4), ['H\t7'])
    for at in (1, 2, 3):
        same('restart within', recorded(QUIET * at + NEW + QUIET * (8 - at)), ['H\t8'])
        same('refused within', recorded(QUIET * at + REFUSED + QUIET * (4 - at)), ['H\t7'])
    same('restart between', recorded(QUIET * 4 + NEW + QUIET * 4), ['H\t7', 'H\t8'])
    same('a call without LF', recorded(QUIET * 3 + QUIET[:-1]), [])


def lost_checks(no_call):
    """A line that is no call, and when an hour has an H again."""
    for name, text, wanted in (
            ('at the start', no_call + HOUR * 3, []),
            ('within an hour', HOUR + QUIET * 2 + no_call + QUIET * 2 + HOUR * 2, [7]),
            ('between hours', HOUR + no_call + HOUR * 2, [7]),
            ('after the last hour', HOUR + no_call, [7]),
            ('restart before the next hour', no_call + HOUR + NEW + HOUR * 2, [8, 9]),
            ('restart after an hour', no_call + HOUR * 2 + NEW + HOUR * 2, [9, 10]),
            ('restart within the next hour',
             no_call + HOUR + QUIET + NEW + QUIET * 3 + HOUR, [9]),
            ('restart before its last tick',
             no_call + HOUR + QUIET * 3 + NEW + QUIET + HOUR, [9]),
            ('restart at once', no_call + NEW + HOUR * 2, [8]),
            ('between hours, restart at once', HOUR + no_call + NEW + HOUR * 2, [7, 9]),
            ('restart in the same hour', QUIET + no_call + QUIET + NEW + QUIET * 2 + HOUR, [8]),
            ('restart just before', NEW + no_call + HOUR * 2, []),
            ('a second one', no_call + NEW + no_call + HOUR * 2, []),
            ('a second one later', no_call + NEW + HOUR * 2 + no_call + HOUR * 2, [8]),
            ('refused restarts', no_call + HOUR + REFUSED + HOUR + QUIET + REFUSED + HOUR, []),
            ('other calls', no_call + HOUR + SET + 'L\t1\nL\t0\nC\nQ\n' + HOUR, [])):
        same('no call: ' + name, recorded(text), ['H\t%d' % hour for hour in wanted])


def dose_checks():
    """The first dose is on tick 67."""
    doses = NEW + CALM + START * 6
    same('doses', recorded(doses, 1000),
         ['D\t7\t5\t0\t1\t0', 'D\t7\t6\t0\t1\t0', 'D\t7\t7\t0\t1\t0'])
    same('a product', recorded(doses.replace('\t4\t50\n', '\t9\t4\t50\n'), 1000)[0],
         'D\t7\t5\t0\t1\t9')
    same('on the last tick', recorded(doses, 67)[:3],
         ['D\t7\t5\t0\t1\t0', 'H\t7', 'D\t8\t6\t0\t1\t0'])
    same('on the first tick', recorded(doses, 66)[:2], ['H\t7', 'D\t8\t5\t0\t1\t0'])
    same('without an H', recorded('x\n' + doses, 67)[:2],
         ['D\t7\t5\t0\t1\t0', 'D\t8\t6\t0\t1\t0'])


def last_hour_checks():
    last = b'9999999'
    for ticks in (1, 4):
        same('R1 after it', recorded(QUIET * ticks + 'T\t5\t16\n' * 9, ticks, last),
             ['H\t9999999'])
        same('a tick after it', recorded(QUIET * (ticks + 1), ticks, last),
             ['H\t9999999', 'R\t10\t0'])
        same('without an H', recorded('x\n' + QUIET * 9, ticks, last), ['R\t10\t0'])
    same('a dose after it', recorded(NEW + CALM + START * 8, 66, last),
         ['H\t9999999', 'R\t10\t0'])


def weigher_checks():
    """The generated hours have every kind; rest is rest."""
    for make, ticks, number in ((weigher.Mill, 12000, 8), (weigher.Ends, 300, 49)):
        data = b''.join(make(random.Random(1), ticks).hours(number))
        made = b''.join(record.written(io.BytesIO(data), ticks))
        kinds = {row.split(b'\t')[1] for row in hours.printed(made).splitlines()}
        same(make.__name__, kinds, {b'M', b'I', b'X'})
        still = make(random.Random(1))
        still.quiet(weigher.AT_REST)
        before = str(vars(still.box))
        still.replay.answer(still.tick_line(still.tank.weight))
        same('at rest', str(vars(still.box)), before)


def generated_lost_checks():
    """Of the eight hours the third, the fifth and the last have an H."""
    for seed in (1, 2):
        data = b''.join(weigher.Ends(random.Random(seed), 300).lost())
        made = b''.join(record.written(io.BytesIO(data), 300)).splitlines()
        ended = [int(line[2:]) for line in made if line[:1] == b'H']
        same('lost', [hour - int(data.split()[0]) for hour in ended], [2, 4, 7])


def sample_checks():
    """Three minutes of a weigher; they are no hour."""
    with open(os.path.join(ROOT, 'samples', 'minutes.record'), 'rb') as file:
        sample = file.read()
    same('sample', sample == b''.join(generate.minutes(12, 3)), True)
    made = program('record', sample)
    same('its doses', [line[:8] for line in made.splitlines()],
         [b'V\t2'] + [b'D\t491646'] * 6)
    same('its hours', hours.printed(made), b'491646\tX\n')


# The reasons of each algorithm, AL0 first.
REASONS = ('open, fault, unused, nostart, lead, phase Ready, phase Fill, overload, noalarm',
           'open, fault, nostart, settling, lead, phase Ready, phase Fill, phase Discharge, '
           'overload, noalarm',
           'open, fault, nostart, lead, phase Ready, phase Load, phase Calm, phase Dose, '
           'phase Settle, overload, noalarm')
REASONS += REASONS[2:]


def stored_checks():
    """The stored cases show every refusal, fault and kind of answer."""
    seen, calls = set(), 0
    for name in sorted(os.listdir(CASES)):
        if not name.endswith('.replay'):
            continue
        box = replay.Replay()
        for line in replay.lines(io.BytesIO(case(name))):
            calls += 1
            answer = '?' if line is None else box.answer(line)
            cells = answer.split('\t')
            if cells[0] in 'RF':
                cells = cells[:2]
            elif cells[0] == 'Y':
                cells = cells[:3] if cells[1] == 'phase' else cells[:2]
                cells = ['AL%d' % box.box.s.algorithm] + cells[1:]
            elif cells[0] == 'D' and line[:1] == b'T':
                cells = ['dose', box.box.s.algorithm, cells[4]]
            else:
                cells = cells[:1]
            seen.add(' '.join(map(str, cells)))
    for number in list(range(1, 18)) + [19]:
        if number != 13:        # a line of `replay` is too short for R13
            same('R%d seen' % number, 'R %d' % number in seen, True)
    for wanted in ('F 14', 'F 21', 'dose 1 0', 'dose 1 1', 'dose 2 0', 'dose 2 1',
                   'dose 3 0', 'dose 3 1', 'O', 'P', 'A', 'Q', 'M', 'I', 'X',
                   'D', 'H', 'V', '?'):
        same(wanted + ' seen', wanted in seen, True)
    for algorithm, reasons in enumerate(REASONS):
        for reason in reasons.split(','):
            wanted = 'AL%d %s' % (algorithm, reason.strip())
            same(wanted + ' seen', wanted in seen, True)
    same('some thousand calls', calls > 5000, True)


def main():
    settings_checks()
    frame_checks()
    field_checks()
    modbus_checks()
    slave_checks()
    why_checks()
    tick_checks()
    journal_checks()
    week_checks()
    product_checks()
    turned_checks()
    replay_checks()
    record_checks()
    weigher_checks()
    generated_lost_checks()
    sample_checks()
    stored_checks()
    print('%d checks, %d failed' % (checks, failed))
    return 1 if failed else 0


if __name__ == '__main__':
    sys.exit(main())
