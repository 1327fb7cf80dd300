"""Checks of the Python package in python/, with the second implementation as the other opinion:
python3 tests/package_test.py             every check
python3 tests/package_test.py NAME ...    these checks, as reading or join

What needs pandas or pip is left out where they are not installed, and the output says so."""

import ast
import importlib.util
import io
import itertools
import os
import random
import re
import struct
import subprocess
import sys
import tempfile
import xml.etree.ElementTree as ElementTree
from datetime import datetime, timedelta, timezone

ROOT = os.path.dirname(os.path.dirname(os.path.abspath(__file__)))
CASES = os.path.join(ROOT, 'tests', 'cases')
PACKAGE = os.path.join(ROOT, 'python')
sys.path[:0] = [PACKAGE, ROOT]

import backend  # noqa: E402
import jehmulka  # noqa: E402
from jehmulka import journal, joining, programs, reading, svg, values  # noqa: E402
from second import hours as second_hours  # noqa: E402
from second import journal as second_journal  # noqa: E402
from second import journals, product, week  # noqa: E402
from second.refusal import Refused  # noqa: E402

checks = failed = 0
SVG = '{http://www.w3.org/2000/svg}'


def same(name, seen, wanted):
    global checks, failed
    checks += 1
    if seen != wanted:
        failed += 1
        print('%s: %r, not %r' % (name, seen, wanted))


def raised(call, *given, **named):
    """What a call raises, or nothing."""
    try:
        call(*given, **named)
    except Exception as error:
        return error
    return None


def answered(call, *given):
    """The answer of a call, or number and line of its refusal."""
    try:
        return call(*given)
    except jehmulka.Refused as refused:
        return 'R', refused.number, refused.line


def stored(*names):
    with open(os.path.join(ROOT, *names), 'rb') as file:
        return file.read()


def cases(ending):
    for name in sorted(os.listdir(CASES)):
        if name.endswith(ending):
            yield name, stored('tests', 'cases', name)


def second_run(name, data):
    """The programs, by the second implementation."""
    if name == 'hours':
        return second_hours.printed(data[:second_journal.LONGEST + 1])
    return {'product': product, 'week': week}[name].printed(io.BytesIO(data))


def refusal_of(text):
    """('R', number, line) of a printed refusal."""
    cells = text.decode().split()
    return ('R', int(cells[1]), int(cells[2])) if cells and cells[0] == 'R' else None


# What the programs print.

MILL = b'10\tM\t2\t998\t407F300000000000\n11\tI\n12\tX\n13\tI\n'


def reading_checks():
    """Document 01's own example, and every stored output and case."""
    hours = reading.parse_hours(MILL)
    same('mill', [(h.hour, h.kind.value, h.doses, h.sum, h.mean) for h in hours],
         [(10, 'measured', 2, 998, 499.0), (11, 'idle', 0, 0, None),
          (12, 'missing', None, None, None), (13, 'idle', 0, 0, None)])
    same('empty', reading.parse_hours(b''), [])
    for name in ('hours', 'product'):
        text = stored('crates', name, 'stdout')
        same('stored ' + name, reading.text_of(reading.parse_hours(text)), text)
    path = os.path.join(ROOT, 'crates', 'hours', 'stdout')
    with open(path, 'rb') as pipe:
        same('a pipe', jehmulka.read_hours(pipe), jehmulka.read_hours(path))
    with open(path) as pipe:
        same('a text file', type(raised(jehmulka.read_hours, pipe)), TypeError)
    for name, data in cases('.journal'):
        round_trip(name, second_run('hours', data))
    for name, data in cases('.product'):
        round_trip(name, second_run('product', data))


def round_trip(name, text):
    """Read and written again, or refused."""
    wanted = refusal_of(text) or text
    seen = answered(reading.parse_hours, text)
    same(name, seen if isinstance(seen, tuple) else reading.text_of(seen), wanted)


def refusal_checks():
    for text, number, line, words in (
            (b'R\t10\t7\n', 10, 7, 'malformed line or value out of range'),
            (b'R\t11\t3\n', 11, 3, 'hour order broken'),
            (b'R\t12\t9\n', 12, 9, "a line's hour is 744 or more above the first line's"),
            (b'R\t13\t0\n', 13, 0, 'journal over 65,536 bytes'),
            (b'R\t2\t0\n', 2, 0, 'the product on the first line is malformed or above 255')):
        error = raised(reading.parse_hours, text)
        same('refused %r' % text, (error.number, error.line, error.sentence), (number, line, words))
        same('words of %r' % text, words in str(error) and 'R%d' % number in str(error), True)
    error = raised(reading.parse_week, b'R\t21\t0\n')
    same('R21', (error.number, error.line, '9,999,832' in str(error)), (21, 0, True))
    same('a refusal is an error', isinstance(error, (jehmulka.Error, ValueError)), True)


# Text that the programs do not print: the line that is named, and a word of the reason.
BAD_HOURS = [
    (MILL[:-1], 4, 'torn'), (MILL[:5], 1, 'torn'), (b'10', 1, 'torn'),
    (b'R\t11\t3', 1, 'torn'), (b'R\t11\n', 1, 'refusal'), (b'R\t11\t3\t4\n', 1, 'refusal'),
    (b'R\t21\t0\n', 1, 'R21'), (b'R\t9\t1\n', 1, 'R9'), (b'R\t11\t0\n', 1, 'R11'),
    (b'R\t13\t1\n', 1, 'R13'), (b'R\t11\t3\n10\tI\n', 2, 'alone'), (b'RX\t11\t3\n', 1, 'refusal'),
    (b'10\tI\nR\t11\t3\n', 2, 'M, I or X'), (b'\n', 1, 'M, I or X'), (b'10\tI\n\n', 2, 'M, I or X'),
    (b'\x00\xff\x89PNG\r\n', 1, 'bytes'), (b'10\tI\r\n', 1, 'bytes'),
    ('10\tI\n11\t\u0406\n'.encode(), 2, 'bytes'),
    (b'V\t2\n', 1, 'M, I or X'), (b'H\t10\n', 1, 'M, I or X'),
    (b'D\t10\t1\t500\t1\n', 1, 'M, I or X'),
    (b'0\tW\t12\t405016\n', 1, 'M, I or X'), (b'0\tI\t0\t0\n', 1, 'fields'),
    (b'0\tX\t0\t0\n', 1, 'fields'),
    (b'10\tI\n9\tI\n', 2, 'where 11 is due'), (b'10\tI\n10\tI\n', 2, 'where 11 is due'),
    (b'10\tI\n12\tI\n', 2, 'where 11 is due'), (b'10\tI\n11\tX\n13\tX\n', 3, 'where 12 is due'),
    (b'010\tI\n', 1, 'no number'), (b'-1\tI\n', 1, 'no number'), (b'+1\tI\n', 1, 'no number'),
    (b' 1\tI\n', 1, 'no number'), (b'1 \tI\n', 1, 'no number'), (b'\tI\n', 1, 'no number'),
    (b'1_0\tI\n', 1, 'no number'), (b'10000000\tI\n', 1, 'above 9999999'),
    (b'9' * 5000 + b'\tI\n', 1, 'no number'),
    (b'10\ti\n', 1, 'M, I or X'), (b'10\tI\t\n', 1, 'fields'), (b'10 I\n', 1, 'M, I or X'),
    (b'10\tM\t2\t998\n', 1, 'fields'), (b'10\tM\t2\t998\t407F300000000000\t1\n', 1, 'fields'),
    (b'10\tM\t2\t998\t407F30000000000\n', 1, '16 hex'),
    (b'10\tM\t2\t998\t407f300000000000\n', 1, '16 hex'),
    (b'10\tM\t2\t998\t407F300000000001\n', 1, 'divided'),
    (b'10\tM\t2\t998\t7FF8000000000000\n', 1, 'divided'),
    (b'10\tM\t2\t998\t40DF300000000000\n', 1, 'divided'),
    (b'10\tM\t1\t0\t8000000000000000\n', 1, 'divided'),
    (b'10\tM\t0\t0\t0000000000000000\n', 1, 'dose'),
    (b'10\tM\t1\t1800001\t413B774100000000\n', 1, 'no 1 doses'),
    (b'10\tM\t2\t-998\tC07F300000000000\n', 1, 'no number'),
    (b'10\tM\t2\t998.0\t407F300000000000\n', 1, 'no number'),
]
SHEET = (b'0\tW\t12\t405016\n1\tI\t0\t0\n2\tX\t0\t0\n3\tW\t24\t0\n'
         b'4\tX\t0\t0\n5\tX\t0\t0\n6\tI\t0\t0\n')
BAD_SHEETS = [
    (b'', 1, 'after 0 of 7'), (SHEET[:-1], 7, 'torn'), (SHEET[:-8], 7, 'after 6 of 7'),
    (SHEET + b'7\tX\t0\t0\n', 8, 'seven'), (MILL, 1, 'no line of a sheet'), (b'R\t2\t0\n', 1, 'R2'),
    (SHEET.replace(b'1\tI', b'2\tI'), 2, 'where 1 is due'),
    (SHEET.replace(b'\tI\t0', b'\tI\t1'), 2, 'measured'),
    (SHEET.replace(b'2\tX\t0\t0', b'2\tX\t0\t5'), 3, 'measured'),
    (SHEET.replace(b'\t24\t', b'\t25\t'), 4, '1 to 24'),
    (SHEET.replace(b'\t12\t', b'\t0\t'), 1, '1 to 24'),
    (SHEET.replace(b'\t12\t', b'\t012\t'), 1, 'no number'),
    (SHEET.replace(b'2\tX', b'2\tM'), 3, 'no line of a sheet'), (b'\xff\xfe' + SHEET, 1, 'bytes'),
]


def malformed_checks():
    for parse, bad in ((reading.parse_hours, BAD_HOURS), (reading.parse_week, BAD_SHEETS)):
        for text, line, word in bad:
            error = raised(parse, text)
            same('%s %r' % (parse.__name__, text[:40]),
                 (type(error), getattr(error, 'line', 0), word in str(error)),
                 (jehmulka.Malformed, line, True))
    for place in range(1, len(MILL)):
        cut = raised(reading.parse_hours, MILL[:place])
        same('torn at %d' % place, cut is None, MILL[place - 1:place] == b'\n')


def value_checks():
    """No hour and no day can be made that mixes the kinds up."""
    Hour, Kind, Day, DayKind = jehmulka.Hour, jehmulka.Kind, jehmulka.Day, jehmulka.DayKind
    for figures in ((1, Kind.MISSING, 0, 0, None), (1, Kind.IDLE, None, None, None),
                    (1, Kind.IDLE, 0, 0, 0.0),
                    (1, Kind.MISSING, None, 0, None), (1, Kind.MEASURED, 0, 0, 0.0),
                    (-1, Kind.IDLE, 0, 0, None),
                    (1, Kind.MEASURED, None, None, None), (10000000, Kind.IDLE, 0, 0, None)):
        same('hour %r' % (figures,), type(raised(Hour, *figures)), ValueError)
    for figures in ((0, DayKind.UNKNOWN, 0, 0), (0, DayKind.HOLIDAY, 0, None),
                    (0, DayKind.WORKED, 0, 0),
                    (0, DayKind.WORKED, 25, 0), (0, DayKind.HOLIDAY, 1, 5),
                    (0, DayKind.WORKED, 3, None)):
        same('day %r' % (figures,), type(raised(Day, *figures)), ValueError)
    third = values.measured(1, 3, 1, 1 / 3)
    same('the very bits', struct.pack('>d', reading.parse_hours(reading.text_of([third]))[0].mean),
         bytes.fromhex('3FD5555555555555'))


def week_checks():
    """Every stored week, and the days of the hours beside the sheet."""
    same('sheet',
         [(d.number, d.kind.value, d.covered, d.sum) for d in reading.parse_week(SHEET)[:4]],
         [(0, 'worked', 12, 405016), (1, 'holiday', 0, 0), (2, 'unknown', 0, None),
          (3, 'worked', 24, 0)])
    path = os.path.join(ROOT, 'crates', 'week', 'stdout')
    same('stored week', [d.kind.value[0] for d in jehmulka.read_week(path)], list('wwwhwuh'))
    for name, data in cases('.week'):
        text = second_run('week', data)
        seen = answered(reading.parse_week, text)
        if refusal_of(text):
            same(name, seen, refusal_of(text))
            continue
        first, _, rest = data.partition(b'\n')
        hours = jehmulka.hours_of(io.BytesIO(rest), run=second_run)
        same(name, jehmulka.days_of(hours, int(first)), seen)
        same(name + ' by the program',
             jehmulka.week_of(io.BytesIO(rest), int(first), run=second_run), seen)
    same('twice', type(raised(jehmulka.days_of, [values.idle(1), values.idle(1)], 0)), ValueError)


# Long journals.

def uncut(data):
    """The hours by the second implementation, of a good journal of any length."""
    texts = second_journal.split(data)
    new = texts[:1] == [second_journal.V]
    form = second_journal.NEW if new else second_journal.OLD
    lines = [second_journal.read(text, at, form)
             for at, text in enumerate(texts, 1) if not (new and at == 1)]
    return second_hours.rows(second_hours.of([(line + (0,))[:6] if line[0] == 'D' else line
                                              for line in lines]))


def joined_text(data, parts=None, **limits):
    """The joined hours of a journal as text, or its refusal."""
    read = journal.journal_of(data)
    chosen = joining.parts_of(read, **limits) if parts is None else parts
    return reading.text_of(joining.joined(
        read, chosen, lambda part: reading.parse_hours(second_run('hours', part))))


def journal_checks():
    """R10 and R11 are those of the second implementation."""
    rng = random.Random(23)
    made = [(kind, journals.make(rng, kind)) for kind in sorted(journals.KINDS)
            for _ in range(12 if kind in journals.SHORT else 1)]
    for name, data in list(cases('.journal')) + made:
        try:
            second_journal.read_all(data)
            wanted = None
        except Refused as refused:
            wanted = ('R', refused.number, refused.detail[0])
        seen = answered(journal.journal_of, data)
        if wanted is None or wanted[1] in (10, 11):
            same('read ' + name, seen if seen[0] == 'R' else None, wanted)


def join_checks():
    """The joined answer is the uncut one, wherever that exists, for any limits."""
    rng = random.Random(7)
    kinds = sorted(kind for kind in journals.KINDS if kind.replace('new-', '') in journals.GOOD)
    made = [('%s %d' % (kind, number), journals.make(rng, kind)) for kind in kinds
            for number in range(16 if kind in journals.SHORT else 1)]
    several = 0
    for name, data in list(cases('.journal')) + made:
        text = second_run('hours', data)
        if refusal_of(text):
            continue
        same('whole ' + name, joined_text(data), text)
        for _ in range(3):
            limits = {'longest': rng.choice([40, 64, 200, 2000]), 'span': rng.choice([1, 2, 5, 24])}
            several += len(joining.parts_of(journal.journal_of(data), **limits)) > 1
            same('cut %s %r' % (name, limits), joined_text(data, **limits), text)
    same('many were cut', several > 200, True)
    for name, data in cases('.journal'):
        text = second_run('hours', data)
        if (refusal_of(text) or ('', 0))[1] in (10, 11):
            same('refused ' + name, answered(joined_text, data), refusal_of(text))


def every_seam_checks():
    """Small journals cut in every way that cuts no hour in two."""
    rng = random.Random(5)
    small = [data for name, data in cases('.journal') if 'hole' in name and len(data) < 200]
    small += [journals.make(rng, kind) for kind in ('holed', 'new-holed', 'lost', 'small')
              for _ in range(25)]
    for data in small:
        text = second_run('hours', data)
        lines = journal.journal_of(data).lines
        places = [place for place in range(1, len(lines))
                  if lines[place - 1].hour < lines[place].hour][:7]
        for chosen in itertools.chain.from_iterable(
                itertools.combinations(places, count) for count in range(len(places) + 1)):
            ends = list(chosen) + [len(lines)]
            seen = joined_text(data, list(zip([0] + ends, ends)))
            if seen != text:
                same('%r cut at %r' % (data, chosen), seen, text)
    same('journals cut in every way', len(small) > 100, True)


def seam_checks():
    """By hand: where a journal is cut, and what is missing at a seam."""
    long = b''.join(b'D\t%d\t%d\t5\t1\nH\t%d\n' % (hour, hour % 999999 + 1, hour)
                    for hour in range(5000))
    parts = joining.parts_of(journal.journal_of(long))
    same('each as long as may be', [(s // 2, e // 2) for s, e in parts],
         [(s, min(s + 744, 5000)) for s in range(0, 5000, 744)])
    same('the uncut one', answered(joined_text, long), uncut(long))
    same('no hole at its seams', b'X' in uncut(long), False)
    new = b'V\t2\n' + re.sub(rb'(D.*)', rb'\1\t7', long)
    heads = []
    answered(jehmulka.hours_of, io.BytesIO(new), None,
             lambda name, data: heads.append(data[:4]) or second_run(name, data))
    same('each part with its V', heads, [b'V\t2\n'] * len(parts))
    same('the same of the new form', answered(joined_text, new), uncut(long))
    dense = b''.join(b'D\t9\t%d\t1\t1\n' % n for n in range(100, 6100)) + b'H\t9\nH\t10\n'
    same('one hour too long', answered(joined_text, b'H\t3\n' + dense), ('R', 13, 0))
    same('the hour is a part', joining.parts_of(journal.journal_of(b'H\t3\n' + dense)),
         [(0, 1), (1, 6002), (6002, 6003)])
    same('over several parts', joined_text(
        b'D\t1\t5\t9\t1\nH\t1\nH\t2\nH\t3\nD\t4\t7\t9\t1\nH\t4\nH\t5\n', span=1),
         b'1\tX\n2\tX\n3\tX\n4\tX\n5\tI\n')
    same('no line at a seam', joined_text(b'H\t1\nH\t4\n', span=2), b'1\tI\n2\tX\n3\tX\n4\tI\n')
    same('behind the last H', joining.parts_of(journal.journal_of(
        b'H\t1\nD\t2\t1\t1\t1\nD\t3\t2\t1\t1\nD\t4\t3\t1\t1\nH\t4\n'), span=3), [(0, 1), (1, 5)])
    same('else between two hours', joining.parts_of(journal.journal_of(
        b'D\t2\t1\t1\t1\nD\t3\t2\t1\t1\nD\t9\t3\t1\t1\nH\t9\n'), span=3), [(0, 2), (2, 4)])
    wrap = b''.join(b'D\t%d\t%d\t9\t1\nH\t%d\n' % (hour, count, hour)
                    for hour, count in ((1, 999999), (2, 0), (3, 1), (4, 1)))
    same('counts that follow', joined_text(wrap, span=1).count(b'M'), 4)
    order = long + b'H\t4999\nH\t4000\n'
    same('an hour that goes back', answered(joined_text, order), ('R', 11, 10001))
    same('an hour again at a seam', answered(joined_text, b'H\t1\nD\t1\t1\t1\t1\n', ), ('R', 11, 2))


def full_hour(hour, first, size):
    """An hour of exactly so many bytes, in the new form: doses and its H."""
    left, lines = size - len(b'H\t%d\n' % hour), []
    bare = len(b'D\t%d\t%d\t\t1\t7\n' % (hour, first))
    while left:
        digits = 7 if left > 4 * (bare + 7) else left // -(-left // (bare + 7)) - bare
        lines.append(b'D\t%d\t%d\t%d\t1\t7\n' % (hour, first + len(lines), 10 ** (digits - 1)))
        left -= bare + digits
    return lines + [b'H\t%d\n' % hour]


def full_checks():
    """Parts of exactly as many bytes as the program takes."""
    count, hours = 100000, []
    for hour in range(10, 26):
        hours.append(full_hour(hour, count, 4096))
        count += len(hours[-1]) - 1
    body = b''.join(b''.join(lines) for lines in hours)
    same('16 hours', len(body), 65536)
    parts = joining.parts_of(journal.journal_of(b'V\t2\n' + body))
    same('V takes room', parts,
         [(0, sum(map(len, hours[:15]))), (sum(map(len, hours[:15])), sum(map(len, hours)))])
    same('joined', answered(joined_text, b'V\t2\n' + body), uncut(b'V\t2\n' + body))
    less = b'V\t2\n' + b''.join(map(b''.join, hours[:15])) + b''.join(full_hour(25, count, 4092))
    same('as many as it takes', (len(less), len(joining.parts_of(journal.journal_of(less)))),
         (65536, 1))
    old = journals.exact(random.Random(1))
    same('of the old form', (len(old), len(joining.parts_of(journal.journal_of(old)))), (65536, 1))


def moved(cells, shift):
    """A line so many hours later."""
    hour = b'%d' % (int(cells[1]) + shift)
    return b'\t'.join([cells[0], hour if cells[2:] else hour + b'\n'] + cells[2:])


def archive_checks():
    """Archives of months, over all products and of one."""
    for seed in range(4):
        rng = random.Random(seed)
        data, hour = b'V\t2\n', 0
        for _ in range(6):
            month = journals.make(rng,
                                  rng.choice(['new-days', 'new-holed', 'new-large', 'new-month']))
            lines = [line.split(b'\t') for line in month.splitlines(True)[1:]]
            shift = hour - int(lines[0][1]) if lines else 0
            data += b''.join(moved(cells, shift) for cells in lines)
            hour = max(hour, int(lines[-1][1]) + shift if lines else 0) + rng.choice([1, 2, 800])
        parts = joining.parts_of(journal.journal_of(data))
        same('archive %d is cut' % seed, len(parts) > 2, True)
        same('archive %d' % seed,
             reading.text_of(jehmulka.hours_of(io.BytesIO(data), run=second_run)), uncut(data))
        lines = [second_journal.read(text, at, second_journal.NEW)
                 for at, text in enumerate(second_journal.split(data), 1) if at > 1]
        code = rng.choice([line[5] for line in lines if line[0] == 'D'])
        same('archive %d, product %d' % (seed, code),
             reading.text_of(jehmulka.hours_of(io.BytesIO(data), code, run=second_run)),
             second_hours.rows(second_hours.of(lines, code)))


def run_checks():
    """Programs that fail, and programs that print something else."""
    two = b'H\t1\nH\t2\n'

    def told(printed, data=two, **named):
        return raised(jehmulka.hours_of, io.BytesIO(data), run=lambda name, data: printed, **named)

    same('nothing printed', type(told(b'')), jehmulka.Failed)
    same('too few hours', type(told(b'1\tI\n')), jehmulka.Failed)
    same('other hours', type(told(b'2\tI\n3\tI\n')), jehmulka.Failed)
    same('hours of nothing', type(told(b'2\tI\n', b'')), jehmulka.Failed)
    same('no hours of nothing', told(b'', b''), None)
    same('no hours of V', told(b'', b'V\t2\n'), None)
    same('a refusal', (told(b'R\t10\t2\n').number, told(b'R\t10\t2\n').line), (10, 2))
    same('a product above 255', answered(jehmulka.hours_of, io.BytesIO(two), 256, second_run),
         ('R', 2, 0))
    same('of nothing too', answered(jehmulka.hours_of, io.BytesIO(b''), 256, second_run),
         ('R', 2, 0))
    same('a line of a later part', joined_refusal(), ('R', 10, 4))
    same('a long week', answered(jehmulka.week_of, io.BytesIO(b'H\t1\nH\t745\n'), 1, second_run),
         ('R', 12, 2))
    with tempfile.TemporaryDirectory() as folder:
        same('no repository', type(raised(programs.repository(folder), 'hours', b'')),
             jehmulka.Failed)
        os.makedirs(os.path.join(folder, 'crates', 'hours'))
        script = os.path.join(folder, 'run')
        for words, wanted in (('echo "$1"; cat', b'hours\nH\t1\n'), ('echo 1; exit 3', None)):
            with open(script, 'w') as file:
                file.write('#!/bin/sh\n%s\n' % words)
            os.chmod(script, 0o755)
            error = raised(programs.repository(folder), 'hours', b'H\t1\n')
            same('run: ' + words, wanted if error is None else 'status 3' in str(error),
                 wanted or True)
            if wanted:
                same('its output', programs.repository(folder)('hours', b'H\t1\n'), wanted)


def joined_refusal():
    """A part that a program refuses at its second line, which is the journal's fourth."""
    read = journal.journal_of(b'V\t2\nH\t1\nH\t2\nH\t3\n')
    return answered(joining.joined, read, [(0, 1), (1, 2), (2, 3)],
                    lambda part: reading.parse_hours(
        b'R\t10\t2\n' if b'H\t3' in part else second_run('hours', part)))


# Times, table and picture.

def time_checks():
    same('2025', jehmulka.time_of(483294).isoformat(), '2025-02-18T06:00:00+00:00')
    zone = timezone(timedelta(hours=2))
    same('another origin', jehmulka.time_of(30, datetime(2026, 1, 1, tzinfo=zone)).isoformat(),
         '2026-01-02T06:00:00+02:00')
    late = datetime(9999, 12, 31, tzinfo=timezone.utc)
    same('past all dates', type(raised(jehmulka.time_of, 24, late)), ValueError)
    same('no zone', type(raised(jehmulka.time_of, 1, datetime(1970, 1, 1))), ValueError)
    hour, west = timedelta(hours=1), timezone(timedelta(hours=-7))
    for number in (0, 1, 30, 483294):
        for origin in (jehmulka.EPOCH, datetime(1990, 1, 1, tzinfo=zone)):
            begin = jehmulka.time_of(number, origin)
            end = begin + hour - timedelta(microseconds=1)
            same('there and back', jehmulka.hour_at(begin, origin), number)
            same('its last moment', jehmulka.hour_at(end, origin), number)
            same('in another zone', jehmulka.hour_at(begin.astimezone(west), origin), number)
    same('the last hour', jehmulka.hour_at(jehmulka.EPOCH + 9999999 * hour), 9999999)
    early = jehmulka.EPOCH - timedelta(microseconds=1)
    same('before hour 0', type(raised(jehmulka.hour_at, early)), ValueError)
    late = jehmulka.EPOCH + 10000000 * hour
    same('after the last hour', type(raised(jehmulka.hour_at, late)), ValueError)
    same('a time without zone', type(raised(jehmulka.hour_at, datetime(2025, 1, 1))), ValueError)
    same('scaled', [str(jehmulka.scaled(4987, point)) for point in range(4)],
         ['4987', '498.7', '49.87', '4.987'])
    same('scaled exactly', str(jehmulka.scaled(29491200001, 3)), '29491200.001')
    same('no such point', [type(raised(jehmulka.scaled, 1, point)) for point in (-1, 4)],
         [ValueError] * 2)
    year = [values.idle(hour) for hour in range(365 * 24)]
    same('a month', [hour.hour for hour in jehmulka.month_of(year, '1970-02')],
         list(range(31 * 24, 59 * 24)))
    same('a month elsewhere', [len(jehmulka.month_of(year, '1970-01', origin)) for origin in (
        datetime(1970, 1, 1, 5, tzinfo=zone), datetime(1969, 1, 1, tzinfo=zone))], [31 * 24 - 5, 0])
    same('no month', type(raised(jehmulka.month_of, year, '1970-13')), ValueError)


def csv_checks():
    same('CSV', jehmulka.csv_of(reading.parse_hours(MILL), point=1).splitlines(),
         ['time,hour,kind,doses,sum,mean', '1970-01-01T10:00:00+00:00,10,measured,2,99.8,49.9',
          '1970-01-01T11:00:00+00:00,11,idle,0,0.0,', '1970-01-01T12:00:00+00:00,12,missing,,,',
          '1970-01-01T13:00:00+00:00,13,idle,0,0.0,'])
    same('CSV of none', jehmulka.csv_of([]), 'time,hour,kind,doses,sum,mean\n')


def pandas_checks():
    """What needs pandas."""
    try:
        import pandas
    except ImportError:
        same('no pandas', type(raised(jehmulka.table, [])), ImportError)
        print('pandas is not installed: the checks of the table are left out')
        return
    hours = reading.parse_hours(MILL)
    frame = jehmulka.table(hours)
    same('columns', [str(kind) for kind in frame.dtypes],
         ['datetime64[ns, UTC]', 'int64', 'category', 'Int64', 'Int64', 'Float64'])
    same('categories', list(frame['kind'].cat.categories), ['measured', 'idle', 'missing'])
    same('missing is not known', [list(frame[name].isna()) for name in ('doses', 'sum', 'mean')],
         [[False, False, True, False]] * 2 + [[False, True, True, True]])
    same('idle is 0', [str(frame[name][1]) for name in ('doses', 'sum')], ['0', '0'])
    same('the sum of all', (int(frame['sum'].sum()), frame['sum'].sum(skipna=False) is pandas.NA),
         (998, True))
    same('time', frame['time'][0].isoformat(), '1970-01-01T10:00:00+00:00')
    east = jehmulka.table(hours,
                          datetime(2026, 1, 1, tzinfo=timezone(timedelta(hours=5, minutes=30))))
    same('another origin', east['time'][0].isoformat(), '2026-01-01T04:30:00+00:00')
    same('scaled', [frame.pipe(jehmulka.scale, 1)[name][0] for name in ('sum', 'mean')],
         [99.8, 49.9])
    same('scaled missing', list(jehmulka.scale(frame, 1)['sum'].isna()),
         [False, False, True, False])
    same('not scaled twice', int(frame['sum'][0]), 998)
    same('no such point', type(raised(jehmulka.scale, frame, 4)), ValueError)
    same('an empty table',
         [len(jehmulka.table([])), list(jehmulka.table([]).dtypes) == list(frame.dtypes)],
         [0, True])
    same('past 2262', type(raised(jehmulka.table, [values.idle(9999999)])), ValueError)
    same('near 2262', len(jehmulka.table([values.idle(2562000)])), 1)
    most = values.measured(5, 6553, 6553 * 1800000, 1800000.0)
    same('a great sum', int(jehmulka.table([most])['sum'][0]), 11795400000)
    month = reading.parse_hours(stored('crates', 'hours', 'stdout'))
    ago = datetime(1000, 1, 1, tzinfo=timezone.utc)
    bits = [struct.pack('>d', mean) for mean in jehmulka.table(month, ago)['mean'].dropna()]
    same('the very bits', bits,
         [struct.pack('>d', hour.mean) for hour in month if hour.mean is not None])
    again = pandas.read_csv(io.StringIO(jehmulka.csv_of(hours)), dtype=dict(
        doses='Int64', sum='Int64', mean='Float64', kind=frame['kind'].dtype), parse_dates=['time'])
    same('the CSV is the table', again.equals(frame), True)
    print('pandas %s: the checks of the table were made' % pandas.__version__)


def drawn(hours, **named):
    """A picture's rows of cells: what fills each, and its words."""
    tree = ElementTree.fromstring(jehmulka.picture(hours, **named))
    rows = [row for row in tree.iter(SVG + 'g') if row.get('role') == 'row'][1:]
    return tree, [[(cell.get('fill'), cell.findtext(SVG + 'title', ''))
                   for cell in row.iter(SVG + 'rect')]
                  for row in rows], [row.findall(SVG + 'text') for row in rows]


def picture_checks():
    """The stored week, day by day, with a holiday, a half-seen day and a torn night."""
    sheet = stored('crates', 'week', 'stdin').partition(b'\n')[2]
    hours = reading.parse_hours(second_run('hours', sheet))
    tree, rows, texts = drawn(hours)
    same('days by 24 hours', [len(row) for row in rows], [24] * 9)
    known = {hour.hour: hour for hour in hours}
    begin = hours[0].hour - hours[0].hour % 24
    greatest = max(hour.sum or 0 for hour in hours)
    for number, (fill, words) in enumerate(cell for row in rows for cell in row):
        hour = known.get(begin + number)
        kind = 'missing' if hour is None else hour.kind.value
        wanted = {'missing': svg.HATCHED, 'idle': '#ffffff'}.get(kind)
        wanted = wanted or svg.shade(hour.sum, greatest)
        same('fill %d' % number, fill, wanted)
        when = jehmulka.time_of(begin + number).strftime('%Y-%m-%d %H:%M')
        same('words %d' % number, words.startswith('%s: %s' % (when, kind)), True)
        if kind == 'measured':
            same('figures %d' % number, words.endswith('sum %d, doses %d' % (hour.sum, hour.doses)),
                 True)
    same('outside', ['outside' in words for _, words in rows[0]], [True] * 16 + [False] * 8)
    same('days', [row[0].text for row in texts][:2], ['Sun 2026-02-01', 'Mon 2026-02-02'])
    same('sums', [row[1].text for row in texts], [
        'not known (16 missing)', '405016', '385176', 'at least 185302 (12 missing)', 'holiday',
        'at least 319841 (4 missing)', 'not known (2 missing)', 'holiday',
        'at least 10036 (22 missing)'])
    same('title', tree.find(SVG + 'title').text, 'Hours from 2026-02-01 16:00 to 2026-02-09 01:00')
    same('summary', tree.find(SVG + 'desc').text,
         '42 measured, with the sum 1305371; 118 idle; 56 missing, '
         '38 of them outside the hours given')
    roles = [node.get('role') for node in tree.iter() if node.get('role')]
    same('found by a screen reader',
         [roles.count(role) for role in ('table', 'row', 'rowheader', 'cell', 'img')],
         [1, 10, 9, 9 * 25, 0])
    same('a legend',
         [word in ''.join(tree.itertext())
          for word in ('idle: nothing', 'missing: not known', str(greatest))],
         [True] * 3)
    same('made alike', jehmulka.picture(hours), jehmulka.picture(list(reversed(hours))))


def edge_checks():
    """Pictures of few hours and of too many."""
    same('nothing', type(raised(jehmulka.picture, [])), ValueError)
    same('twice', type(raised(jehmulka.picture, [values.idle(1)] * 2)), ValueError)
    year = [values.idle(hour) for hour in range(366 * 24 + 1)]
    same('a year', len(drawn(year[:-1])[1]), 366)
    same('more', 'too many' in str(raised(jehmulka.picture, year)), True)
    none = values.measured(5, 2, 0, 0.0)
    same('measured with 0 is not plain', drawn([none])[1][0][5][0], svg.shade(0, 1))
    same('and not a holiday', [row[1].text for row in drawn([values.idle(h) for h in range(23)] + [
        values.measured(23, 1, 0, 0.0)])[2]], ['0'])
    same('23 idle hours', drawn(year[:23])[2][0][1].text, 'not known (1 missing)')
    same('an hour in between', [fill for fill, _ in drawn([year[0], year[2]])[1][0][:3]],
         ['#ffffff', svg.HATCHED, '#ffffff'])
    last = values.idle(9999999)
    same('the last hour', drawn([last])[0].find(SVG + 'title').text,
         'Hours from 3110-10-18 15:00 to 3110-10-18 15:00')
    west = datetime(2026, 3, 1, 20, tzinfo=timezone(timedelta(hours=-5)))
    same('days by the origin', [row[0].text for row in drawn(year[:5], origin=west)[2]],
         ['Sun 2026-03-01', 'Mon 2026-03-02'])
    point = drawn(reading.parse_hours(MILL), point=2)
    same('scaled', (point[1][0][10][1][18:], point[2][0][1].text),
         ('measured, sum 9.98, doses 2', 'at least 9.98 (21 missing)'))
    title = 'Mill <1> & "2"'
    same('a title',
         '<title>Mill &lt;1&gt; &amp; "2"</title>' in jehmulka.picture(year[:1], title=title), True)
    same('no title', type(raised(jehmulka.picture, year[:1], title='a\0b')), ValueError)


def light(colour):
    """Relative luminance, by WCAG."""
    parts = [int(colour[place:place + 2], 16) / 255 for place in (1, 3, 5)]
    linear = [part / 12.92 if part <= 0.03928 else ((part + 0.055) / 1.055) ** 2.4
              for part in parts]
    return sum(weight * part for weight, part in zip((0.2126, 0.7152, 0.0722), linear))


def contrast_checks():
    """Every shade stands out from plain by 3 to 1, text by 4.5, and a greater sum is darker."""
    lights = [light(svg.shade(amount, 100)) for amount in range(101)]
    same('shades', min(1.05 / (one + 0.05) for one in lights) >= 3, True)
    same('darker', lights == sorted(lights, reverse=True) and lights[0] > 3 * lights[-1], True)
    same('ink', 1.05 / (light(svg.INK) + 0.05) >= 4.5, True)
    same('hatch', svg.INK in svg.HATCH and svg.PLAIN in svg.HATCH, True)
    same('lines', 1.05 / (light(svg.LINE) + 0.05) >= 3, True)


def week_picture_checks():
    days = reading.parse_week(stored('crates', 'week', 'stdout'))
    tree = ElementTree.fromstring(jehmulka.week_picture(days, 491662))
    rows = [row for row in tree.iter(SVG + 'g') if row.get('role') == 'row']
    blue, empty = svg.shade(1, 2), ('#ffffff', '360')
    bars = [[(box.get('fill'), box.get('width')) for box in row.iter(SVG + 'rect')]
            for row in rows]
    same('bars', bars, [[empty, (blue, '360')], [empty, (blue, '342')],
                        [empty, (blue, '164')], [empty], [empty, (blue, '284')],
                        [(svg.HATCHED, '360')], [empty]])
    same('words', [row.findall(SVG + 'text')[1].text for row in rows][2:6], [
        'worked: sum 185302 over 6 measured hours', 'holiday: idle in all 24 hours',
        'worked: sum 319841 over 10 measured hours',
        'unknown: hours are missing, none was measured'])
    same('dates', rows[0].find(SVG + 'text').text, 'Sun 2026-02-01 22:00')
    same('midnight', 'Mon 2026-02-02<' in jehmulka.week_picture(days, 491664), True)
    same('no dates', 'day 6<' in jehmulka.week_picture(days), True)
    same('summary', tree.find(SVG + 'desc').text, '4 days worked, 2 holidays, 1 unknown')
    same('six days', type(raised(jehmulka.week_picture, days[:6])), ValueError)
    still = [jehmulka.Day(number, jehmulka.DayKind.WORKED, 1, 0) for number in range(7)]
    same('sums of 0', jehmulka.week_picture(still).count('width="2"'), 7)


# The command line, and what stands around the package.

def command(data, *words):
    """Status, output and error of `python3 -m jehmulka`."""
    done = subprocess.run([sys.executable, '-m', 'jehmulka', *words], input=data, cwd=ROOT,
                          stdout=subprocess.PIPE,
                          stderr=subprocess.PIPE, env=dict(os.environ, PYTHONPATH=PACKAGE))
    return done.returncode, done.stdout.decode(), done.stderr.decode()


def command_checks():
    """Nothing is printed of bad input, and the status says so."""
    hours = reading.parse_hours(MILL)
    same('table', command(MILL, 'table', '--point', '1'), (0, jehmulka.csv_of(hours, point=1), ''))
    same('picture', command(MILL, 'picture'), (0, jehmulka.picture(hours), ''))
    same('week-picture', command(SHEET, 'week-picture', '--first', '24', '--title', 'W')[:2],
         (0, jehmulka.week_picture(reading.parse_week(SHEET), 24, title='W')))
    same('origin',
         command(MILL, 'table', '--origin', '2026-01-01T00:00:00+01:00')[1].splitlines()[1][:25],
         '2026-01-01T10:00:00+01:00')
    bad = {'empty': (b'', 'nothing was read'),
           'refused': (b'R\t11\t3\n', 'R11, line 3: hour order broken'),
           'torn': (MILL[:-1], 'line 4'), 'binary': (bytes(range(256)), 'line 1'),
           'back': (b'2\tI\n1\tI\n', 'line 2'),
           'a journal': (b'H\t10\n', 'line 1')}
    for name, (data, word) in bad.items():
        for wanted in ('table', 'picture'):
            status, out, said = command(data, wanted)
            same('%s of %s' % (wanted, name),
                 (status, out, word in said and said.startswith('jehmulka: ')), (1, '', True))
        status, out, said = command(data, 'week-picture')
        same('a week of ' + name, (status, out, said[:10]), (1, '', 'jehmulka: '))
    same('no file', command(b'', 'table', 'no-such-file')[:2], (1, ''))
    same('a month', command(MILL, 'picture', '--month', '1970-01')[:2],
         (0, jehmulka.picture(hours)))
    same('of no hour', command(MILL, 'picture', '--month', '1970-02')[:2], (1, ''))
    same('a zone is due', command(MILL, 'table', '--origin', '2026-01-01')[:2], (1, ''))
    same('point 4', command(MILL, 'table', '--point', '4')[:2], (1, ''))
    same('no command', command(b'')[0], 2)
    same('a bad journal', command(b'H\t1\nH\t1\n', 'hours'),
         (1, '', 'jehmulka: refused: R11, line 2: hour order broken\n'))


def readme_checks():
    """The picture of the README is the one that its command makes of its hours."""
    text = stored('README.md').decode()
    lines = re.findall(r'^48\d{4}\t[MIX].*\n', text, re.MULTILINE)
    hours = reading.parse_hours(''.join(lines[:8]).encode())
    same('eight hours', (hours[0].hour, len(hours)), (483294, 8))
    same('docs/shift.svg', stored('docs', 'shift.svg').decode() == jehmulka.picture(hours, point=1),
         True)
    same('it is shown', '(docs/shift.svg)' in text and 'picture --point 1' in text, True)


def source_checks():
    """Python 3.9, the standard library alone, and nothing shared with second/."""
    known = set(sys.stdlib_module_names) if hasattr(sys, 'stdlib_module_names') else None
    files = [os.path.join(PACKAGE, 'backend.py')] + [
        os.path.join(PACKAGE, 'jehmulka', name)
        for name in sorted(os.listdir(os.path.join(PACKAGE, 'jehmulka')))
        if name.endswith('.py')]
    for path in files:
        with open(path) as file:
            tree = ast.parse(file.read(), path, feature_version=(3, 9))
        names = {alias.name for node in ast.walk(tree) if isinstance(node, ast.Import)
                 for alias in node.names}
        names |= {node.module for node in ast.walk(tree) if isinstance(node, ast.ImportFrom)
                  and not node.level}
        used = {name.partition('.')[0] for name in names} - {'pandas'}
        same(path, known is None or used <= known, True)
        lacking = [node.name for node in ast.walk(tree)
                   if isinstance(node, (ast.FunctionDef, ast.ClassDef))
                   and node.name[:2] != '__' and not ast.get_docstring(node)
                   and node.name not in ('ask', 'run', 'command')]
        same(path + ': docstrings', lacking, [])
    second = os.path.join(ROOT, 'second')
    same('second/ is apart',
         [name for name in os.listdir(second) if name.endswith('.py')
          and b'jehmulka' in stored('second', name)], [])


def wheel_checks():
    """The wheel runs by itself, and pip installs it without a network."""
    with tempfile.TemporaryDirectory() as folder:
        name = backend.build_wheel(folder)
        told = subprocess.run([sys.executable, '-m', 'jehmulka', 'table'], input=MILL,
                              stdout=subprocess.PIPE, cwd=folder,
                              env=dict(os.environ, PYTHONPATH=os.path.join(folder, name)))
        same('the wheel', told.stdout.decode(), jehmulka.csv_of(reading.parse_hours(MILL)))
        same('version', name, 'jehmulka-%s-py3-none-any.whl' % jehmulka.__version__)
        same('the sources', os.path.exists(os.path.join(folder, backend.build_sdist(folder))), True)
        if not importlib.util.find_spec('pip'):
            print('pip is not installed: the check of pip install is left out')
            return
        target = os.path.join(folder, 'there')
        done = subprocess.run([sys.executable, '-m', 'pip', 'install', '--no-index', '--target',
                               target, PACKAGE],
                              stdout=subprocess.PIPE, stderr=subprocess.STDOUT)
        same('pip install', (done.returncode, done.stdout.decode() if done.returncode else ''),
             (0, ''))
        same('py.typed', os.path.exists(os.path.join(target, 'jehmulka', 'py.typed')), True)


CHECKS = [reading_checks, refusal_checks, malformed_checks, value_checks, week_checks,
          journal_checks, join_checks,
          every_seam_checks, seam_checks, full_checks, archive_checks, run_checks, time_checks,
          csv_checks, pandas_checks,
          picture_checks, edge_checks, contrast_checks, week_picture_checks, command_checks,
          readme_checks,
          source_checks, wheel_checks]


def main(names):
    for check in CHECKS:
        if not names or check.__name__[:-len('_checks')] in names:
            check()
    print('%d checks, %d failed' % (checks, failed))
    return 1 if failed or not checks else 0


if __name__ == '__main__':
    sys.exit(main(sys.argv[1:]))
