"""Writes the stored inputs of `record`: python3 tests/make_record_cases.py

An hour of 450,000 ticks is too much to store, so the cases about an hour's
end are made for hours of 100 ticks; `record` itself sees only their doses.
"""

import os

from make_cases import (AL0, AL1, AL2, AL3, CODES, START, ROOT, Case, tank,
                        write)
from second import journals
from second.record import Record, written
from second.settings import Settings

TICKS = 100

# A dose every two ticks once it is calm: AL2 with Wf 0, inputs at level 1.
QUICK = Settings(2, 10, 1, 1, 1, 1, 4, 4, 1, 0, 0, 1, 1, 1, 1, 0, 0)
NO_CALLS = (b'', b'#', b'T\t5', b'T\t5\t256', b'T\t05\t0', b'N', b'T' * 4096)


class Samples(Case):
    """Lines after a first hour, with the journal run beside them."""

    def __init__(self, hour):
        Case.__init__(self)
        self.lines.append(b'%d' % hour)
        self.record = Record(hour, TICKS)
        self.replay = self.record.replay

    def raw(self, text):
        """What the line adds to the journal."""
        self.lines.append(text)
        return self.record.take(None if len(text) > 4095 else text).decode()

    def until(self, gone, start=0):
        """Ticks until so many of the hour are gone."""
        while self.record.gone != gone:
            self.tick(5, start)

    def end(self, start=0):
        """Ticks to the end of the hour, at least one."""
        self.tick(5, start)
        self.until(0, start)

    def quick(self, count=0):
        self.new(QUICK, count, 0)

    def refused(self):
        """Restarts with R2 and with R15."""
        self.new(QUICK._replace(D=0))
        self.new(QUICK, 1000000)

    def lose(self):
        """A line that is no call."""
        self.raw(b'#')

    def save(self, name, last=b''):
        """A last line without LF is not a call."""
        write(name, b''.join(text + b'\n' for text in self.lines) + last)

    def others(self):
        """Every call that is neither a tick nor a restart."""
        self.say('L', 1)
        self.say('L', 0)
        self.say('C')
        self.say('Q')
        self.settings(self.box.s)
        self.ask(*CODES)
        self.registers()
        self.why()
        self.modbus('0106000A0001')
        self.modbus('0006000A0000')
        for text in (b'W\t01C3\t9', b'X\tFF01C3E3FFFF', b'G\t-5\t1\t0\t1',
                     b'K\t05000091', b'D\t10\t1\t500\t1\t7\t20', b'H\t10\t9'):
            self.raw(text)
        line = journals.d(10, 1, 500)
        self.say('l', line)
        self.say('l', journals.h(10))
        self.say('m', b'V\t2\n')
        self.say('m', b'D\t10\t1\t500\t1\t7\n')
        self.say('u', line + journals.h(10), 10)
        self.say('j', line + journals.h(10), 90)


def doses_case():
    """Doses of every algorithm that counts, and what prints nothing."""
    case = Samples(4711)
    for p11 in (0, 1):
        s = AL1._replace(p11=p11, o=p11, p8=10, product=7 * p11)
        case.new(s, 999998, 999999000)
        hopper = tank(s, 12)
        case.run(hopper)
        case.run(hopper)
        case.say('Q')
    case.new(AL1)
    case.run(tank(AL1, 0, 40))
    case.others()
    for s in (AL2._replace(product=255), AL3._replace(product=12)):
        case.new(s, 41, 1)
        case.say('L', 1)
        case.run(tank(s, 900))
        case.say('C')
        case.run(tank(s, 600))
    case.new(AL0)
    for sample in (0, 399, 480, 0):
        case.ticks(3, sample, START)
    case.new(AL2._replace(C=99999))
    case.ticks(5, 900000)
    case.tick(900000, START)
    case.ticks(70, -900000)
    case.new(AL2._replace(Pc=500, Pf=500), 6, 0)
    case.tick(600, START)
    case.ticks(69, 700)
    for text in NO_CALLS:
        case.raw(text)
    case.new(AL1._replace(C=0), 5, 5)
    case.new(AL1, 1000000, 5)
    case.quick(3)
    case.ticks(66, 5)
    case.say('T', 5, 16)
    case.ticks(3, 5, START)
    case.tick(900001)
    case.ticks(3, 5, START)
    case.quick(77)
    case.ticks(66, 5)
    case.ticks(9, 5, START)
    folder = os.path.join(ROOT, 'crates', 'record')
    case.save(os.path.join(folder, 'stdin'), b'T\t5\t8')
    with open(os.path.join(folder, 'stdin'), 'rb') as data:
        write(os.path.join(folder, 'stdout'), b''.join(written(data)))


def hours_case():
    """One hour for each thing that may stand at its start, end or middle."""
    case = Samples(10)
    case.end()
    case.quick()                        # a restart before the first tick
    case.until(80)
    case.until(99, START)
    case.tick(5, START)
    case.tick(5, START)                 # a dose on the first tick
    case.until(97)
    case.end(START)                     # and on the last
    for at in (1, 50, 99):
        case.until(at)
        case.quick()                    # a restart within
        case.end(START)
    for at in (0, 1, 50, 99):
        case.until(at)
        case.refused()                  # refused ones
    case.end()
    for text in NO_CALLS:
        for at in (0, 1, 99):
            case.quick()                # a box that is known
            case.until(at)
            case.raw(text)              # no call
            case.end(START if at == 1 else 0)
    case.quick()
    case.end()
    for at in (0, 1, 50, 99):
        case.until(at)
        case.say('T', 5, 16)            # R1
    case.end()
    for at in (0, 1, 50, 99):
        case.until(at)
        case.others()
    case.end()
    faults(case)
    case.until(99, START)
    case.save('hours.record', b'T\t5\t8')


# Hours with a line that is no call, a restart, refused restarts, other calls:
# each hour's events and the ticks gone before them.
LOSE, NEW, REFUSED, OTHERS = Samples.lose, Samples.quick, Samples.refused, Samples.others
LOST = {
    'no-restart': [[(50, LOSE)], [], [], []],
    'restart-before-the-next-hour': [[(50, LOSE)], [(0, NEW)], []],
    'restart-hours-later': [[(99, LOSE)], [], [(0, NEW)], []],
    'restart-after-a-first-tick': [[(50, LOSE)], [(1, NEW)], []],
    'restart-before-a-last-tick': [[(50, LOSE)], [(99, NEW)], []],
    'restart-in-the-same-hour': [[(1, LOSE), (99, NEW)], [], [(50, LOSE), (50, NEW)], []],
    'restart-before-it': [[(50, NEW), (50, LOSE)], [], [(0, NEW)], [(0, NEW), (0, LOSE)], []],
    'between-hours': [[(0, LOSE)], [], [(0, NEW)], []],
    'between-hours-restart-at-once': [[(0, LOSE), (0, NEW)], [], []],
    'between-hours-restart-within': [[(0, LOSE), (50, NEW)], []],
    'restart-between-two': [[(50, LOSE), (50, NEW), (50, LOSE)], []],
    'again': [[(50, LOSE)], [(0, NEW)], [(50, LOSE)], [], [(0, NEW)]],
    'refused-restart': [[(50, LOSE)], [(0, REFUSED)], [(50, REFUSED)], []],
    'other-calls': [[(50, LOSE)], [(0, OTHERS)], [(50, OTHERS)], []],
}


def lost_cases():
    """Until a restart nobody knows the box; its doses go on."""
    for name, hours in LOST.items():
        case = Samples(10)
        case.quick()
        case.end()
        for events in hours:
            for at, event in events:
                case.until(at, START)
                event(case)
            case.end(START)
        case.save('lost-%s.record' % name)


def faults(case):
    case.until(30)
    case.tick(900001)                   # F21, and the next hour in it
    case.end()
    case.until(30)
    case.say('T', 5, 16)
    case.end()
    case.new(AL1)                       # out of it before the first tick
    case.until(20)
    case.tick(0, START)
    case.ticks(70, 0, START, 2)         # F14 in a fill
    case.end()
    case.until(20)
    case.quick(8)                       # out of it within the hour
    case.end()


def last_hour_cases():
    """No tick after it, one that writes no line, many."""
    for name, ticks in (('none', 0), ('one', 1), ('many', 250)):
        case = Samples(9999998)
        case.quick()
        case.end()
        case.end(START)
        case.say('T', 5, 16)
        case.others()
        case.raw(b'#')
        case.lines += [b'T\t5\t8'] * ticks
        case.say('T', 5, 16)
        case.save('last-hour-%s.record' % name)


def first_line_cases():
    """Each a first line that is no hour; the lines after it are good."""
    firsts = {
        'empty': b'', 'leading-zero': b'07', 'two-zeros': b'00', 'minus': b'-7',
        'minus-zero': b'-0', 'plus': b'+7', 'eight-digits': b'10000000',
        'wraps': b'4294967303', 'space-before': b' 7', 'space-after': b'7 ',
        'tab-before': b'\t7', 'tab-after': b'7\t', 'cr': b'7\r', 'nul': b'7\0',
        'letter': b'x', 'hex': b'A', 'decimal': b'7.0', 'tick': b'T\t5\t0',
        'h-line': b'H\t7', 'other-digit': '\u0667'.encode(),
        'long': b'7'.rjust(4096, b'0')}
    for name, first in firsts.items():
        write('first-%s.record' % name, first + b'\n7\n' + b'T\t5\t0\n' * 3)
    write('first-no-lf.record', b'7')
    write('first-bad-no-lf.record', b'x')
    write('first-long-no-lf.record', b'x' * 4097)
    write('first-least.record', b'0\n' + b'T\t5\t0\n' * 101)
    write('first-greatest.record', b'9999999\n' + b'T\t5\t0\n' * 99)
    write('empty.record', b'')


def main():
    doses_case()
    hours_case()
    lost_cases()
    last_hour_cases()
    first_line_cases()


if __name__ == '__main__':
    main()
