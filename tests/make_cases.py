"""Writes the stored cases: python3 tests/make_cases.py

A line that begins with # is a heading; `replay` answers it with ?.
"""

import io
import os
import random
import struct
import sys

ROOT = os.path.dirname(os.path.dirname(os.path.abspath(__file__)))
CASES = os.path.join(ROOT, 'tests', 'cases')
sys.path.insert(0, ROOT)

from second import (both_forms, frames, generate, hopper, journal, journals,  # noqa: E402
                    modbus, replay)
from second.calls import checked, framed, line  # noqa: E402
from second.replay import Replay  # noqa: E402
from second.settings import DEFAULT, Settings  # noqa: E402

# The boundary table's set, inputs at level 1.
AL1 = Settings(1, 1000, 500, 100, 20, 50, 4, 4, 1, 0, 0, 1, 1, 1, 1, 0, 0)
AL0 = AL1._replace(algorithm=0)
AL2 = AL1._replace(algorithm=2, M=700)
AL3 = AL2._replace(algorithm=3)
CODES = (0xC0, 0xC2, 0xC3, 0xC4, 0xC5)
START = 8
V = journal.V


class Case:
    """Lines, with the box run beside them so that ticks can follow it."""

    def __init__(self, seed=1):
        self.rng = random.Random(seed)
        self.replay = Replay()
        self.lines = []

    @property
    def box(self):
        return self.replay.box

    def raw(self, text):
        self.lines.append(text)
        if len(text) < 4096:
            return self.replay.answer(text)
        return '?'

    def say(self, *cells):
        return self.raw(line(*cells))

    def head(self, text):
        self.raw(b'# ' + text.encode())

    def new(self, s, count=0, total=0):
        return self.say('N', *s, count, total)

    def settings(self, s):
        return self.say('S', *s)

    def tick(self, sample, start=0, lie=0):
        """One tick with inputs that match, but for the channels of `lie`."""
        inputs = hopper.matching_inputs(self.box.outputs, self.box.s) ^ lie
        return self.say('T', sample, inputs | start)

    def ticks(self, number, sample, start=0, lie=0):
        for _ in range(number):
            self.tick(sample, start, lie)

    def ask(self, *codes, room=12):
        for code in codes:
            frame = framed(checked(bytes([self.box.s.address, code])))
            self.say('B', frame, room)

    def modbus(self, text, room=27):
        """A frame of these bytes and their CRC."""
        return self.say('M', modbus.closed(bytes.fromhex(text)), room)

    def registers(self):
        """All that there are."""
        self.modbus('%02X030000000B' % self.box.s.address)

    def why(self):
        """Of each output."""
        for output in (1, 2, 3, 4):
            self.say('Y', output)

    def run(self, tank, start=START, most=1500):
        """Ticks of a hopper until a dose completes."""
        for _ in range(most):
            answer = self.tick(tank.sample(self.box.outputs, self.rng), start)
            if answer.startswith('D'):
                return

    def save(self, name):
        write(name, b''.join(text + b'\n' for text in self.lines))


def write(name, data):
    with open(os.path.join(CASES, name), 'wb') as file:
        file.write(data)


def tank(s, weight=0, shake=0, delay=1):
    """Doses of 500 in some twenty ticks."""
    fills = 3 if s.algorithm < 2 else 4
    made = hopper.Hopper(fills, 40, 7, 90, delay, weight)
    made.shake = shake
    return made


# Settings, restart, counters.

def settings_case():
    case = Case()
    case.head('fresh: counters, inputs, outputs, weight')
    case.say('Q')
    case.ask(*CODES)
    case.head('each setting at and beside its least and greatest value')
    for base in (AL0, AL1, AL2, AL3):
        for row in range(18):
            for number in (0, 1, 2, 3, 4, 5, 19, 20, 21, 49, 63, 64, 99, 100,
                           101, 127, 128, 129, 250, 251, 255, 256, 499, 500, 501, 699,
                           1000, 1001, 99999, 100000, 16777215, 16777216,
                           4294967295):
                if base is AL1 or row in (0, 1, 2, 5, 17):
                    values = list(base)
                    values[row] = number
                    case.settings(Settings(*values))
    case.head('no M is good with C under 4 in AL0 and AL1')
    for algorithm in (0, 1, 2):
        for C in (3, 4):
            for M in (0, 1, 2):
                case.settings(DEFAULT._replace(algorithm=algorithm, C=C, D=1,
                                               M=M))
    case.head('two bad ones: the first is named')
    case.settings(AL1._replace(D=0, p9=0))
    case.settings(AL1._replace(p7=3, p8=2))
    case.settings(AL1._replace(in2=2, point=4))
    case.settings(AL1._replace(point=4, product=256))
    case.settings(Settings(*[4294967295] * 18))
    case.settings(Settings(*[0] * 18))
    case.head('17 settings: product 0')
    case.say('S', *AL1._replace(point=4)[:17])
    case.say('S', *AL1[:17])
    case.say('N', *AL1._replace(point=4)[:17], 1000000, 0)
    case.say('N', *AL1._replace(product=256), 1000000, 0)
    case.say('N', *AL1[:17], 1000000, 0)
    case.say('N', *AL1[:17], 5, 6)
    case.say('Q')

    case.head('a set keeps link start, counters, inputs, output 4; not Z')
    case.new(AL1, 7, 700)
    case.ticks(5, 30)
    case.ask(0xC0, 0xC3)
    case.ticks(5, 1040)
    case.say('T', 1040, 5)
    case.say('L', 1)
    case.settings(AL1._replace(point=2))
    case.say('Q')
    case.ask(*CODES)
    case.tick(30)
    case.ask(0xC3, 0xC4, 0xC5)
    case.head('a set puts Z to 0')
    case.new(AL1)
    case.ticks(5, 30)
    case.ask(0xC0, 0xC3)
    case.settings(AL1)
    case.tick(33)
    case.ask(0xC3)
    case.head('R3 before R2, and for the counter reset')
    case.say('L', 1)
    case.tick(0)
    case.ticks(4, 300)
    case.settings(AL1)
    case.settings(AL1._replace(D=0))
    case.say('C')
    case.say('Q')
    case.head('a restart from any phase; it clears link start')
    case.new(AL1._replace(D=0), 1, 1)
    case.say('Q')
    case.tick(481)
    case.new(AL1, 12, 34)
    case.say('Q')
    case.ask(*CODES)
    case.ticks(3, 0)
    case.say('C')
    case.say('Q')
    case.head('R2 before R15; R15 at its bounds')
    case.new(AL1._replace(C=0), 1000000, 0)
    case.new(AL1, 1000000, 0)
    case.new(AL1, 0, 1000000000)
    case.new(AL1, 4294967295, 4294967295)
    case.say('Q')
    case.new(AL1, 999999, 999999999)
    case.say('Q')
    case.head('a refused restart leaves the old controller')
    case.tick(0, START)
    case.tick(300, START)
    case.new(AL1, 1000000, 1)
    case.tick(300, START)
    case.ask(*CODES)
    case.save('settings.replay')


# The algorithms.

def al0_case():
    case = Case(10)
    case.head('boundary table: coarse at 399, fine at 400 and 479, shut at 480')
    case.new(AL0)
    for sample in (0, 399, 400, 479, 480):
        case.ticks(5, sample, START)
    case.head('hold until start goes off')
    case.ticks(3, 200, START)
    case.settings(AL0)
    case.tick(200)
    case.head('start off in the coarse stage, the fine stage, and with Wf reached')
    for sample in (100, 420, 2000):
        case.ticks(5, 0)
        case.tick(0, START)
        case.ticks(3, min(sample, 420), START)
        case.tick(sample, START)
        case.tick(sample)
        case.say('C')
        case.tick(-sample, START)
        case.tick(0)
    case.head('start again on the next tick after Ready')
    case.tick(490, START)
    case.tick(490, START)
    case.tick(490)
    case.tick(490, START)
    case.head('AL0 does not look at inputs 1 to 3')
    for inputs in range(16):
        case.ticks(5, 0)
        for _ in range(5):
            case.say('T', 0, inputs)
    case.head('both gates at once; zeroing on start; link start')
    case.new(AL0._replace(o=1, p7=5, p8=9))
    case.ticks(10, -49)
    case.say('L', 1)
    for sample in range(-49, 500, 9):
        case.tick(sample)
    case.say('L', 0)
    case.ticks(2, 500)
    case.head('w drops under Wc in the fine stage: coarse stays shut')
    case.new(AL0)
    for sample in (0, 450, 300, 500):
        case.ticks(5, sample, START)
    case.say('Q')
    case.head('the alarm: C+9 and C+10, after zeroing')
    case.new(AL0)
    for sample in (1009, 1010, 1009):
        case.ticks(5, sample)
    case.ticks(5, -10)
    case.ask(0xC0)
    case.ticks(5, 999)
    case.ticks(5, 1000)
    case.ask(0xC3, 0xC2, 0xC5)
    case.save('al0.replay')


def to_settle(case, s, last=480, start=START):
    """Settle is entered by shutting gate 2 with F at `last`, on the second
    sample of it."""
    case.new(s)
    case.tick(0, start)
    case.ticks(8, last - 1, start)
    case.ticks(2, last, start)


def al1_case():
    case = Case(20)
    case.head('boundary table: coarse at 399, fine at 400 and 479, shut at 480')
    case.new(AL1)
    for sample in (0, 399, 400, 479):
        case.ticks(5, sample, START)
    case.tick(480, START)
    case.head('F constant: output 3 opens on tick 64; not under M at 50')
    case.ticks(66, 480)
    case.ticks(6, 50)
    case.ticks(3, 49)
    case.say('Q')
    case.head('F changing every tick: on tick 256')
    to_settle(case, AL1, 600)
    for tick in range(1, 258):
        case.tick(601 + tick)
    case.ticks(6, 0)
    case.head('stable on the last tick itself: settled 1')
    to_settle(case, AL1)
    for tick in range(1, 190):
        case.tick(481 + tick)
    case.ticks(70, 672)
    case.ticks(6, 0)
    case.head('stable one tick too late: settled 0')
    to_settle(case, AL1)
    for tick in range(1, 191):
        case.tick(481 + tick)
    case.ticks(70, 673)
    case.ticks(6, 0)
    case.head('p9 2: 128 ticks of calm')
    to_settle(case, AL1._replace(p9=2))
    case.ticks(130, 480)
    case.ticks(6, 0)

    case.head('doses of a hopper, p11 0 and 1, start held on')
    for p11 in (0, 1):
        s = AL1._replace(p11=p11, o=p11, p7=4, p8=10, point=p11)
        case.new(s, 999998, 999999000)
        hold = tank(s, 12)
        for _ in range(2):
            case.run(hold)
            case.ask(0xC2, 0xC3, 0xC5)
            case.say('Q')
    case.head('p7 while output 1 is open, p8 else')
    s = AL1._replace(p7=4, p8=128)
    case.new(s)
    hold = tank(s)
    for _ in range(60):
        case.tick(hold.sample(case.box.outputs, case.rng), START)
        if case.rng.random() < 0.2:
            case.ask(0xC2, 0xC3)
    case.head('shaking: an unsettled dose')
    case.new(AL1)
    hold = tank(AL1, 0, 40)
    case.run(hold)
    case.head('the link start; cleared in the fill it changes nothing')
    case.new(AL1)
    case.say('L', 1)
    hold = tank(AL1)
    for _ in range(5):
        case.tick(hold.sample(case.box.outputs, case.rng))
    case.say('L', 0)
    case.run(hold, 0)
    case.ticks(3, 0)

    case.head('w drops under Wc in the fine stage: coarse stays shut')
    case.new(AL1)
    for sample in (0, 450, 300, 100, 500):
        case.ticks(5, sample, START)
    case.head('F at M, -M: no zeroing; M-1, 1-M: zeroing')
    for sample in (50, -50, 49, -49):
        case.new(AL1)
        case.ticks(3, sample)
        case.tick(sample, START)
        case.ask(0xC3)
        case.ticks(5, 480 + sample)
        case.ticks(5, 479 + sample)
    case.head('the zeroing test is on F, not on w')
    case.new(AL1)
    case.ticks(5, 40)
    case.ask(0xC0)
    case.ticks(5, 70)
    case.tick(70, START)
    case.ask(0xC3)
    case.ticks(70, 560)
    case.ticks(6, 60)
    case.head('Settle without a gate: it may end on its tick 1')
    case.new(AL1._replace(M=250))
    case.ticks(80, 600)
    case.tick(600, START)
    case.ticks(2, 600)
    case.ticks(6, 249)
    case.head('the same, not yet stable')
    case.new(AL1._replace(M=250))
    case.ticks(60, 600)
    case.tick(600, START)
    case.ticks(6, 600)
    case.head('Wf 0: a start ends at once in Settle')
    case.new(AL1._replace(Pc=500, Pf=500))
    case.tick(0, START)
    case.ticks(66, 0)
    case.head('amounts below 0: p11 1 with w0 above wS, p11 0 with wE above wS')
    case.new(AL1._replace(p11=1, M=250, Pc=500, Pf=500), 3, 100)
    case.ticks(5, 300)
    case.tick(300, START)
    case.ticks(70, 200)
    case.say('Q')
    case.new(AL1._replace(M=250, Pc=500, Pf=500), 3, 100)
    case.tick(0, START)
    for tick in range(1, 260):
        case.tick(tick - 100)
    case.say('Q')
    case.head('w0 and wE differ')
    for p11 in (0, 1):
        case.new(AL1._replace(p11=p11))
        case.tick(-49, START)
        case.ticks(75, 440)
        case.ticks(6, -30)
    case.head('count and total wrap')
    for total in (999999999, 999999500, 999999519, 999999520, 999999521):
        case.new(AL1, 999999, total)
        case.tick(0, START)
        case.ticks(70, 480)
        case.ticks(6, 0)
        case.say('Q')
    case.head('means about a half, either sign; R1 between changes nothing')
    case.new(AL1)
    for sample in (1, 2, -1, -2, 0, -1, -2, -2, -3, 5, 8, 5, 8, 7, 7, 900000,
                   -900000, 900000, 900000, 900000, 900000, -900000):
        case.say('T', sample, 16)
        case.tick(sample)
        case.ask(0xC3)
    case.say('T', 900001, 255)
    case.save('al1.replay')


def al2_case():
    case = Case(30)
    case.head('under D it loads without start; at M shut; calm; Ready')
    case.new(AL2)
    case.tick(499)
    case.ticks(5, 699)
    case.ticks(5, 700)
    case.ticks(64, 700)
    case.head('at D a start doses on the same tick: 1 and 2 open')
    case.ticks(3, 700)
    case.tick(700, START)
    case.head('coarse to 399, fine from 400 to 479, shut at 480')
    case.ticks(5, 301)
    case.ticks(5, 300)
    case.ticks(5, 221)
    case.ticks(5, 220)
    case.ticks(66, 220)
    case.say('Q')
    case.head('start on while it loads is not kept')
    case.tick(220, START)
    case.ticks(6, 700, START)
    case.ticks(70, 700)
    case.ask(0xC0, 0xC3, 0xC5)
    case.settings(AL2)
    case.head('w = D doses, D-1 loads')
    for sample in (500, 499):
        case.new(AL2)
        case.tick(sample, START)
        case.tick(sample)
    case.head('start off in the dose changes nothing; coarse stays shut')
    case.new(AL2._replace(o=1))
    case.tick(900, START)
    for sample in (450, 600, 800, 400):
        case.ticks(5, sample)
    case.head('weight rising: amount below 0 counts as 0')
    case.new(AL2._replace(Pc=500, Pf=500), 999999, 999999999)
    case.tick(600, START)
    case.ticks(69, 700)
    case.say('Q')
    case.head('Wf 0 and long calm: ends on tick 1')
    case.new(AL2._replace(Pc=500, Pf=500))
    case.ticks(70, 600)
    case.tick(600, START)
    case.tick(600)
    case.tick(600)
    case.head('doses of a hopper, calm and shaking; wrap')
    case.new(AL2, 999998, 999999200)
    hold = tank(AL2)
    for shake in (0, 0, 30):
        hold.shake = shake
        case.run(hold)
        case.say('Q')
        case.ask(0xC2, 0xC3, 0xC4, 0xC5)
    case.head('calm of the load ends on its last tick, 256')
    case.new(AL2)
    case.tick(0)
    for tick in range(262):
        case.tick(700 + tick)
    case.ticks(2, 962)
    case.tick(962, START)
    case.save('al2.replay')


def al3_case():
    case = Case(40)
    case.head('nothing without start; input 4 does nothing')
    case.new(AL3)
    case.ticks(5, 100)
    case.ticks(5, 100, START)
    case.ticks(5, 800, START)
    case.head('the link start loads, then doses')
    case.say('L', 1)
    hold = tank(AL3)
    case.ticks(4, 0)
    case.run(hold, 0)
    case.say('Q')
    case.head('cleared after the load: Ready waits')
    case.new(AL3)
    case.say('L', 1)
    case.tick(0)
    case.say('L', 0)
    case.ticks(6, 700)
    case.ticks(70, 700)
    case.ticks(3, 700, START)
    case.say('L', 1)
    case.tick(700)
    case.ask(0xC0, 0xC5)
    case.ticks(80, 210)
    case.say('L', 0)
    case.ticks(3, 210)
    case.ask(0xC0)
    case.head('shaking: an unsettled dose')
    case.new(AL3)
    case.say('L', 1)
    hold = tank(AL3, 800, 30)
    case.run(hold, 0)
    case.say('Q')
    case.save('al3.replay')


# Faults.

def in_fault(case):
    """What a fault answers and refuses."""
    case.say('T', 0, 9)
    case.say('T', 0, 16)
    case.say('T', 2147483647, 0)
    case.ask(*CODES)
    case.settings(AL1)
    case.settings(AL1._replace(D=0))
    case.say('C')
    case.say('Q')
    case.say('L', 0)


def faults_case():
    case = Case(50)
    case.head('63 mismatches go on, 64 are F14; each channel, either level')
    for level in (1, 0):
        for channel in (1, 2, 4):
            case.new(AL1._replace(in1=level, in2=level, in3=level))
            case.ticks(63, 0, 0, channel)
            case.tick(0)
            case.ticks(64, 0, 0, channel)
            in_fault(case)
    case.head('two channels at once: the lowest is named')
    case.new(AL2)
    case.ticks(64, 600, 0, 6)
    in_fault(case)
    case.head('a higher channel that began earlier')
    case.new(AL3)
    case.ticks(5, 600, 0, 4)
    case.ticks(59, 600, 0, 7)
    case.tick(600)
    case.head('AL0 looks at no input')
    case.new(AL0)
    case.ticks(66, 0, 0, 7)
    case.head('a run goes on over line requests, reset and link start')
    case.new(AL1)
    case.ticks(60, 0, 0, 2)
    case.ask(*CODES)
    case.say('C')
    case.say('L', 0)
    case.say('T', 0, 99)
    case.settings(AL1._replace(D=0))
    case.ticks(4, 0, 0, 2)
    case.head('new settings clear the runs')
    case.new(AL1)
    case.ticks(60, 0, 0, 2)
    case.settings(AL1)
    case.ticks(63, 0, 0, 2)
    case.tick(0)
    case.head('F14 with gates open; S stays and stable is told')
    case.new(AL1)
    case.tick(0, START)
    case.ticks(40, 300, START)
    case.ticks(66, 300, START, 1)
    case.ask(0xC3, 0xC5)
    case.head('F14 on the tick that would complete a dose')
    case.new(AL1, 5, 55)
    case.tick(0, START)
    case.ticks(5, 480)
    case.ticks(3, 480)
    case.ticks(62, 480, 0, 2)
    case.ticks(2, -900000, 0, 2)
    case.say('Q')
    case.ask(0xC3, 0xC5)
    case.head('F21: the sample is not kept, the inputs are')
    for sample in (900000, 900001, -900000, -900001, 2147483647, -2147483648):
        case.new(AL1._replace(M=250))
        case.ticks(3, 20)
        case.say('T', sample, 5)
        in_fault(case)
    case.head('F21 on the first tick: no sample held')
    case.new(AL2._replace(point=3))
    case.say('T', 900001, 7)
    in_fault(case)
    case.head('F21 with gates open and calm; the link start outlives the fault')
    case.new(AL1)
    case.say('L', 1)
    case.tick(0)
    case.ticks(70, 300)
    case.say('T', -900001, 1)
    case.ask(*CODES)
    case.say('L', 1)
    case.head('a restart clears the fault and the link start')
    case.new(AL1, 1, 2)
    case.ticks(3, 0)
    case.ask(*CODES)
    case.say('Q')
    case.save('faults.replay')


# The line.

def line_case():
    case = Case(60)
    s = AL1._replace(address=5, serial=0xFFFE01, point=3, M=250)
    serial = s.serial.to_bytes(3, 'little')
    case.new(s)
    case.ticks(5, -17)

    def body(data, room=20):
        case.say('B', framed(checked(data)), room)

    case.head('both address forms')
    for code in CODES:
        body(bytes([5, code]))
        body(b'\0' + serial + bytes([code]))
    case.head('R5: not ours')
    body(b'\x04\xC3')
    body(b'\x7F\xC3')
    body(b'\0\x01\xFE\xFE\xC3')
    body(b'\0\xFF\xFE\x01\xC3')
    body(b'\0\x05\0\0\xC3')
    case.head('R7: another code, or data')
    for code in (0x00, 0xBF, 0xC1, 0xC6, 0xCA, 0xFF, 0xFE):
        body(bytes([5, code]))
    body(b'\x05\xC3\x00')
    body(b'\x05\xC0\xFF')
    body(b'\0' + serial + b'\xC3\x01')
    body(b'\x05' + b'\xFF' * 253)
    case.head('R6: too short, or check not 0')
    for whole in (b'\x05', b'\x05\xC3', checked(b'\x05'), b'\x05\xC3\x00',
                  b'\0' + serial + b'\xC3', checked(b'\0' + serial),
                  b'\x00', b'\0\0\0', b'\0\0\0\0\0', b'\0\0\0\0\0\0', b'\x01\0\0'):
        case.say('B', framed(whole), 64)
    case.head('order: R6, R5, R7, R3, R4, R8')
    case.say('B', framed(b'\x04\xC1\x00'), 0)
    body(b'\x04\xC1', 0)
    body(b'\x05\xC1', 0)
    body(b'\x05\xC3', 0)
    case.head('room that fits and one byte less')
    for code in CODES:
        for room in (0, 1, 5, 6, 7, 8, 9, 10, 11, 12, 13, 14, 15):
            body(bytes([5, code]), room)
            body(b'\0' + serial + bytes([code]), room)

    case.head('C0: Z becomes F by p8; refused with R8 it does not zero')
    s = s._replace(p7=4, p8=16)
    case.new(s)
    for sample in (100, 0, 0, 0, 20, 20, 20, 21):
        case.tick(sample)
    case.ask(0xC2, 0xC3)
    case.ask(0xC0, room=5)
    case.ask(0xC2, 0xC3)
    case.ask(0xC0, room=6)
    case.ask(0xC2, 0xC3)
    case.tick(21)
    case.ask(0xC2, 0xC3)
    case.head('C0: R4 at M and -M, not within')
    for sample in (250, -250, 249, -249, 899999):
        case.new(s)
        case.ask(0xC0)
        case.tick(sample)
        case.ask(0xC0, 0xC3)
        case.ask(0xC0, room=0)
    case.head('C0 twice: the test is on F')
    case.new(s)
    case.tick(200)
    case.ask(0xC0)
    case.ticks(40, -100)
    case.ask(0xC3, 0xC0, 0xC3)
    case.head('C0: R3 outside Ready in every algorithm, R4 in AL2 and AL3')
    for base in (AL0, AL1, AL2, AL3):
        case.new(base)
        case.tick(600)
        case.ask(0xC0)
        case.new(base)
        case.tick(0)
        case.ask(0xC0)
        case.say('L', 1)
        case.tick(0)
        case.ask(0xC0)
        case.ask(0xC0, room=0)
        case.ask(0xC5)
    case.head('CON: stable, over, sign; p7 and p8 differ')
    case.new(AL1._replace(p7=4, p8=128, point=1))
    case.ticks(64, 1009)
    case.ask(0xC2, 0xC3)
    case.ticks(2, 1009)
    case.ask(0xC2, 0xC3)
    case.ticks(4, 1010)
    case.ask(0xC2, 0xC3)
    case.ticks(10, -5)
    case.ask(0xC2, 0xC3)
    case.ticks(140, -5)
    case.ask(0xC2, 0xC3)
    case.ticks(4, 0)
    case.ask(0xC2, 0xC3)
    case.head('a weight beyond a sample: Z is taken from it')
    case.new(AL1._replace(C=99999, M=24999))
    case.ticks(4, -24998)
    case.ask(0xC0)
    case.ticks(4, 900000)
    case.ask(0xC2, 0xC3)
    case.head('the first finished body is judged; what follows is not')
    good = framed(checked(b'\x01\xC3'))
    zero = framed(checked(b'\x01\xC4'))
    for data in (good + zero, zero + good, good[:-1] + zero, good[:-2] + zero,
                 framed(b'\x01\x02\x03') + good, framed(b'\x01') + good,
                 b'\xFF' * 5 + good, b'\x01\xC3' + good, good[1:], good[:-1],
                 b'\xFF\xFE\xFE' + good[1:], b'\xFE' + good, b'', b'\xFF'):
        case.say('B', data, 64)
    case.save('line.replay')


def frames_case():
    case = Case(70)
    case.head('the writer: check bytes of the table')
    for given in (b'\x01\xC3', b'\x01\xC2', b'\x01\xC0', b'\x01'):
        case.say('W', given, 20)
    case.head('R14 before R8')
    for given in (b'', b'\x01', b'\xFF', b'\xFF\xC3', b'\xFE\xC3', b'\0',
                  b'\0\x01\x02\x03', b'\0\x01\x02\x03\x04', b'\xFD\xC3'):
        case.say('W', given, 12)
        case.say('W', given, 0)
    case.head('stuffing, also of the check byte; room that fits and one less')
    ff = [bytes([1, code]) for code in range(256)
          if frames.check_byte(bytes([1, code])) == 0xFF]
    for given in ff + [b'\x01\xFF', b'\x01\xFE', b'\x01\xFF\xFE', b'\x01\xFF\xFF',
                       b'\0\xFF\xFF\xFF\xC3', b'\0\xFE\xFF\xFE\xFF\xFF']:
        fits = len(framed(checked(given)))
        for room in (fits - 1, fits, fits + 2, 600):
            case.say('W', given, room)
        case.say('X', framed(checked(given)))
    case.head('253 to 255 bytes, plain and all FF')
    for length in (253, 254, 255):
        for fill in (b'\x07', b'\xFF'):
            given = b'\x02' + fill * (length - 1)
            fits = len(framed(checked(given)))
            for room in (min(600, fits), fits - 1):
                case.say('W', given, room)
            case.say('X', framed(checked(given)))
    case.head('a body that is zero throughout has check 0')
    for length in (2, 4, 5, 6):
        case.say('W', b'\0' * length, 20)
        case.say('X', framed(b'\0' * (length + 1)))

    case.head('the reader: places of R9')
    for text in ('', '01', 'FF', 'FFFF', '01FF', '01FF02', 'FF01', 'FF01FF',
                 'FFFFFF', 'FFFE', 'FFFFFE', 'FEFF', 'FFFEFF', 'FFFE01',
                 'FF01FE', 'FF01FFFE', 'FF01FF02', 'FF01FF02FF', 'FF01FF02FF03',
                 'FFFFFE0102', '0102FFFE', '0102', 'FE', 'FF00', 'FF01FFFEFF'):
        case.say('X', bytes.fromhex(text))
    case.head('finished: R6 and good, with bytes after')
    for text in ('FF01C3E3FFFF', 'FF01C3E4FFFF', 'FF01FFFF', 'FF0169FFFF',
                 'FF01C3E3FFFFFF', 'FFFF01C3E3FFFF01C2', '05FFFE01C3E3FFFF',
                 'FF01FF01C3E3FFFF', 'FF07FF08FF01C3E3FFFF', 'FF000000FFFF',
                 'FF0000000000FFFF', 'FF000000000000FFFF', 'FF01C3E3FFFEFFFF',
                 'FF01C3FFE3FFFF', 'FF01FEFFFF', 'FF01FFFEFEFFFF'):
        case.say('X', bytes.fromhex(text))
    case.head('over-long bodies')
    good = framed(checked(b'\x01\xC3'))
    for length in (254, 255, 256, 257):
        for fill in (b'\x07', b'\xFE'):
            whole = checked(b'\x03' + fill * (length - 2))
            case.say('X', framed(whole))
            case.say('X', framed(whole) + good)
            case.say('X', framed(whole)[:-2] + good)
            case.say('X', framed(whole)[:-1])
            case.say('X', framed(whole)[:-2])
    case.head('FF about the 256th byte')
    for inner in (253, 254, 255):
        for tail in ('', 'FF', 'FFFE', 'FFFEFF', 'FFFF', 'FF02', 'FF02C3',
                     'FFFE01C3', 'FFFEFF01C3E3FFFF', 'FF01C3E3FFFF',
                     'FFFE01C3E3FFFF', 'FFFEFFFE01C3E3FFFF', 'FFFEFFFF'):
            case.say('X', b'\xFF\x03' + b'\x07' * (inner - 1) +
                     bytes.fromhex(tail))
    case.save('frames.replay')


# One largest and one smallest left out.

def wild_case():
    case = Case(87)
    case.head('windows of one to seven samples: up to three are taken whole')
    for samples in ((1, 2, 30), (-1, -2, -30), (7, 7, 7, 7, 7), (0, 9, 0, 9, 0, 9),
                    (9, 9, 9, 0, 0, 0), (5, 100, 100, 100, 1, 1, 1), (3, 1, 2, 5, 4, 7, 6),
                    (-3, -1, -2, -5, -4, -7, -6), (1, 3, 2, 1000, 2, 2, 2),
                    (1, 3, 2, -1000, 2, 2, 2), (900000, -900000, 900000, -900000, 1, 2),
                    (900000,) * 5, (-900000,) * 5, (10, 11, 12, 14, 17, 21, 26),
                    (-10, -11, -12, -14, -17, -21, -26), (0, 1, 1, 2, 3, 5, 8)):
        for p7, p8 in ((4, 4), (4, 5), (5, 6), (6, 128)):
            case.new(AL1._replace(p7=p7, p8=p8))
            for sample in samples:
                case.tick(sample)
                case.ask(0xC2, 0xC3)
    case.head('one wild sample moves nothing: calm, alarm, thresholds')
    for s, calm in ((AL1, 30), (AL2, 600), (AL3, 600), (AL0, 30)):
        for wild in (900000, -900000):
            case.new(s)
            case.ticks(65, calm)
            case.ask(0xC3)
            case.tick(wild)
            case.ask(0xC3, 0xC2, 0xC5)
            case.ticks(5, calm)
            case.ask(0xC3)
    case.head('two of one sign do; one of either sign does not')
    for first, second in ((5000, 5000), (5000, -5000), (-5000, -5000), (-5000, 5000)):
        case.new(AL1)
        case.ticks(66, 30)
        for sample in (first, second, 30, 30, 30, 30, 30):
            case.tick(sample)
            case.ask(0xC3, 0xC5)
    case.head('a wild sample in every stage of a dose')
    for s in (AL0, AL1, AL2, AL3):
        case.new(s)
        case.say('L', 1)
        for sample in ((30, 300, 440, 600) if s.algorithm < 2 else (800, 600, 380, 200)):
            case.ticks(6, sample)
            case.tick(-8000)
            case.ticks(5, sample)
            case.tick(8000)
            case.ticks(5, sample)
        case.ticks(70, 600 if s.algorithm < 2 else 200)
        case.tick(-9000)
        case.ticks(9, 0)
        case.say('Q')
    case.head('one at the end of Settle, after 63 ticks of calm')
    to_settle(case, AL1)
    case.ticks(63, 480)
    case.tick(9000)
    case.ticks(6, 0)
    case.head('left out now, taken later: the samples stay held')
    case.new(AL1._replace(p7=4, p8=9))
    for sample in (100, 0, 0, 0, 50, 60, 70, 80, 90, 10, 20, 30):
        case.tick(sample)
        case.ask(0xC2, 0xC3)
    case.head('p7 samples while output 1 is open, p8 else')
    case.new(AL1._replace(p7=4, p8=12))
    case.ticks(12, 0)
    case.say('L', 1)
    for sample in (0, 100, 900, 120, 130, -500, 140, 300, 450, 900, 470, 490, 490):
        case.tick(sample)
        case.ask(0xC2, 0xC3)
    case.head('C0 by the new mean, its test too')
    for sample in (49, 50, -50, -49):
        case.new(AL1)
        case.ticks(3, sample)
        case.tick(9000)
        case.ask(0xC0, 0xC3)
        case.tick(-9000)
        case.ask(0xC0, 0xC3)
    case.new(AL1._replace(M=250, p7=4, p8=6))
    for sample in (10, 20, 40, 80, 160, 240):
        case.tick(sample)
        case.ask(0xC3, 0xC2, 0xC0, 0xC3, 0xC2)
        case.modbus('010300000004')
    case.head('the zero on start by the new mean')
    for sample in (49, 50):
        case.new(AL1)
        case.ticks(3, sample)
        case.tick(-9000, START)
        case.ask(0xC3)
        case.ticks(5, 530)
    case.save('wild.replay')


# Why an output is as it is.

def why_case():
    case = Case(85)
    case.head('a fresh box; before the first tick of each algorithm; R19')
    for output in (0, 1, 2, 3, 4, 5, 6, 127, 128, 255):
        case.say('Y', output)
    for s in (AL0, AL1, AL2, AL3):
        case.new(s)
        case.why()
        case.settings(s)
        case.why()
        case.say('Y', 0)
        case.say('Y', 5)
    for s in (AL0._replace(o=0), AL0._replace(o=1), AL1, AL1._replace(o=1, p9=3)):
        why_fills(case, s)
    for s in (AL2, AL3._replace(p9=2)):
        why_doses(case, s)
    why_no_start(case)
    why_faults(case)
    why_alarms(case)
    case.save('why.replay')


def why_fills(case, s):
    case.head('AL%d, o %d: a cycle' % (s.algorithm, s.o))
    case.new(s)
    case.ticks(3, 20)
    case.why()
    for samples in ((20, 100, 418), (420, 450, 300, 499), (505, 300, -300)):
        for sample in samples:
            case.ticks(4, sample, START)
            case.why()
    if s.algorithm == 0:
        case.tick(0)
        case.why()
        case.tick(0)
        case.why()
        case.head('start off in the fill')
        case.ticks(4, 20, START)
        case.tick(20)
        case.why()
        return
    case.head('Settle, tick by tick at its start and its end')
    to_settle(case, s)
    case.why()
    for tick in range(1, 256 * s.p9 + 1):
        case.tick(481 + tick)
        if tick < 4 or tick > 256 * s.p9 - 4 or tick % 64 == 0:
            case.why()
    for sample in (300, 300, 50, 0, 0, 0):
        case.tick(sample)
        case.why()
    case.ticks(2, 0)
    case.why()


def why_doses(case, s):
    case.head('AL%d: load, calm, dose' % s.algorithm)
    case.new(s)
    case.why()
    case.tick(100)
    case.why()
    case.say('L', 1)
    case.why()
    for sample in (100, 600, 705, 705):
        case.tick(sample)
        case.why()
    case.ticks(4, 705)
    case.say('L', 0)
    case.why()
    case.ticks(130 if s.p9 == 2 else 62, 705)
    case.why()
    for _ in range(4):
        case.tick(705)
        case.why()
    case.tick(705, START)
    case.why()
    case.say('L', 1)
    case.tick(705)
    case.say('L', 0)
    case.why()
    for sample in (500, 306, 300, 280, 400, 500, 260, 224):
        case.ticks(4, sample)
        case.why()
    case.tick(0)
    case.why()
    for sample in (400, 900):
        case.ticks(5, sample)
        case.why()
    case.ticks(130, 900)
    case.why()
    case.ticks(3, 900)
    case.why()


def why_no_start(case):
    case.head('no start: what follows a tick without being one does not alter it')
    for s, sample in ((AL0, 5), (AL1, 5), (AL2, 600), (AL2, 5), (AL3, 600), (AL3, 5)):
        case.new(s)
        case.tick(sample)
        case.why()
        for call in (('T', 0, 16), ('T', 0, 255), ('L', 1), ('L', 0), ('C',), ('Q',)):
            case.say(*call)
            case.why()
        case.ask(*CODES)
        case.modbus('0106000A0001')
        case.why()
        case.registers()
        case.settings(s._replace(D=0))
        case.new(s._replace(C=0))
        case.new(s, 1000000)
        case.why()
        case.modbus('0106000A0000')
        case.settings(s)
        case.why()
        case.tick(sample)
        case.why()
        case.new(s)
        case.why()
    case.head('AL3: input 4 is no start')
    case.new(AL3)
    case.tick(600, START)
    case.why()
    case.head('a start after rest, R1 in the fill')
    case.new(AL1)
    case.tick(5)
    case.why()
    case.tick(5, START)
    case.why()
    case.say('T', 5, 16)
    case.why()


def why_faults(case):
    case.head('faults: F14 by its channel, F21; until the restart')
    for s in (AL1, AL2, AL3):
        for channel in (1, 2, 4):
            case.new(s)
            case.ticks(63, 600, 0, channel)
            case.why()
            case.tick(600, 0, channel)
            case.why()
            case.tick(600)
            case.say('L', 1)
            case.settings(s)
            case.why()
        case.new(s)
        case.why()
    for s in (AL0, AL1, AL2, AL3):
        case.new(s)
        case.say('T', 900001, 0)
        case.why()
        case.say('T', 0, 16)
        case.why()
    case.head('F21 in the middle of a cycle')
    case.new(AL1)
    case.ticks(5, 0, START)
    case.why()
    case.tick(-900001)
    case.why()


def why_alarms(case):
    case.head('output 4: C+9 and C+10; a set keeps it; the weight of now')
    for s in (AL0, AL1, AL2, AL3):
        case.new(s)
        for sample in (1000, 1009, 1010):
            case.ticks(4, sample)
            case.say('Y', 4)
        case.settings(s._replace(C=2000))
        case.why()
        case.tick(1009)
        case.say('Y', 4)
    case.head('C0 moves the weight, not the output')
    case.new(AL1._replace(M=250))
    case.ticks(5, -200)
    case.ask(0xC0)
    case.ticks(4, 809)
    case.say('Y', 4)
    case.ticks(4, 810)
    case.say('Y', 4)
    case.tick(-3000)
    case.ticks(5, 100)
    case.say('Y', 4)


# MODBUS.

# Beside their places in an f32: whole numbers of 1 to 20 bits.
WEIGHTS = sorted({sign * min(900000, (1 << bits) + by) for bits in range(20)
                  for by in (-1, 0, 1, 1 << bits >> 1) for sign in (1, -1)}
                 | {0, 899999, -899999, 123456, -654321, 777777})


def modbus_case():
    case = Case(75)
    case.head('a fresh box; document 02 as its panel reads it')
    case.registers()
    case.say('M', bytes.fromhex('010300040002'), 8)
    case.say('M', bytes.fromhex('01030004000285CA'), 9)
    case.say('M', bytes.fromhex('0106000A00022809'), 6)
    case.head('03: every register and quantity, 03 before 02')
    case.new(AL1._replace(address=17, p8=9), 123456, 987654321)
    case.ticks(3, 40)
    case.ticks(2, 700)
    case.say('T', 701, 13)
    case.registers()
    for first in range(13):
        for quantity in range(14):
            case.modbus('1103%04X%04X' % (first, quantity))
    for first in (0, 10, 11, 255, 256, 65535):
        for quantity in (0, 1, 2, 11, 12, 124, 125, 126, 127, 255, 256, 257, 65535):
            case.modbus('1103%04X%04X' % (first, quantity), 30)
    case.head('06: every register but 10 is 02, also with a wrong value')
    for register in list(range(13)) + [255, 256, 266, 2560, 65525, 65535]:
        for value in (0, 1, 2, 255, 256, 257, 65535):
            case.modbus('1106%04X%04X' % (register, value))
            case.modbus('1103000A0001')
    case.head('another function: 01 with the top bit set')
    for function in range(256):
        case.modbus('11%02X' % function)
        case.modbus('11%02X000A0001' % function)
    case.head('lengths: 8 for 03 and 06, else 4..256')
    for function in (3, 6, 5):
        for length in range(12):
            case.modbus(('11%02X000A00010000000000' % function)[:2 * length])
        for length in (253, 254, 255, 256):
            case.modbus('11%02X' % function + '00' * (length - 2))
    for length in range(4):
        case.say('M', b'\x11' * length, 4)
    case.say('M', b'\xFF\xFF', 4)
    case.head('CRC: each bit, high byte first, none, zero')
    for text in ('11030004000A', '1106000A0001'):
        frame = modbus.closed(bytes.fromhex(text))
        for at in range(len(frame)):
            for bit in range(8):
                spoiled = bytearray(frame)
                spoiled[at] ^= 1 << bit
                case.say('M', bytes(spoiled), 9)
        case.say('M', frame[:-2] + frame[:-3:-1], 9)
        case.say('M', frame[:-2] + b'\0\0', 9)
        case.say('M', frame[:-2] + b'\xFF\xFF', 9)
        case.say('M', frame + frame, 9)
    case.registers()
    modbus_addresses(case)
    modbus_rooms(case)
    modbus_weights(case)
    modbus_starts(case)
    case.save('modbus.replay')


def modbus_addresses(case):
    case.head('addresses: ours, others, 0')
    for address in range(256):
        case.modbus('%02X03000A0001' % address, 7)
        case.modbus('%02X06000A0001' % address, 8)
        case.modbus('1106000A0000', 8)
    case.head('to address 0 a good write acts, with any room; anything else is silent')
    for value in (1, 0):
        for room in (0, 7, 64):
            case.modbus('0006000A%04X' % value, room)
            case.registers()
            case.modbus('1106000A%04X' % (1 - value))
    for text in ('00060009' + '0001', '0006000B0001', '0006000A0002', '0006000AFFFF',
                 '00060000FFFF', '0003000A0001', '000300000000', '00030000000C',
                 '0005000A0001', '0086000A0001', '0000', '0006', '0006000A',
                 '0006000A000100'):
        case.modbus(text)
        case.modbus(text, 0)
    case.say('M', bytes.fromhex('0006000A00010000'), 8)
    case.registers()
    case.head('the address is the setting')
    case.new(AL1._replace(address=17))
    case.settings(AL1._replace(address=127))
    case.modbus('1103000A0001')
    case.modbus('7F03000A0001')
    case.settings(AL1._replace(address=128))
    case.modbus('8003000A0001')
    case.settings(AL1)


def modbus_rooms(case):
    case.head('room that fits and one less; a write refused with R8 sets nothing')
    for quantity in range(1, 12):
        for room in (2 * quantity + 4, 2 * quantity + 5, 2 * quantity + 6):
            case.modbus('01030000%04X' % quantity, room)
    for text in ('010300000000', '0103000B0001', '010600000000', '0106000A0002', '0141'):
        for room in (0, 4, 5, 6):
            case.modbus(text, room)
    for value in (1, 0):
        for room in (0, 7, 8, 9):
            case.modbus('0106000A%04X' % value, room)
            case.modbus('0103000A0001', 7)


def modbus_weights(case):
    case.head('weights as f32, exactly; no sample')
    case.new(AL1._replace(C=99999, M=24999))
    case.registers()
    for weight in WEIGHTS:
        case.ticks(4, weight)
        case.modbus('010300000004', 13)
    for zero, weight in ((-24998, 900000), (24998, -900000), (5, 5), (-7, -7)):
        case.new(AL1._replace(C=99999, M=24999))
        case.ticks(4, zero)
        case.ask(0xC0)
        case.ticks(4, weight)
        case.modbus('010300000004', 13)
        case.ask(0xC2, 0xC3)
    case.head('by p8, then by p7')
    case.new(AL1._replace(p7=4, p8=128))
    case.ticks(9, 300)
    case.ticks(5, -900)
    case.registers()
    case.modbus('010300010002')
    case.ask(0xC2, 0xC3)


def modbus_starts(case):
    case.head('inputs, outputs, counters; a write starts and ends as the link start does')
    for s, samples in ((AL0, (0, 300, 450, 490)), (AL1, (0, 300, 450, 490)),
                       (AL2, (700, 600, 250, 200)), (AL3, (700, 600, 250, 200))):
        case.new(s, 999999, 999999999)
        case.tick(samples[0])
        case.modbus('0106000A0001', 8)
        for sample in samples:
            case.ticks(5, sample)
            case.registers()
        case.modbus('0006000A0000', 0)
        case.ticks(70, samples[-1])
        case.ticks(6, 0)
        case.registers()
    case.head('in a fault, over a set, not over a restart')
    case.modbus('0106000A0001')
    case.tick(900001)
    case.registers()
    for value in (0, 1):
        case.modbus('0106000A%04X' % value)
        case.registers()
    case.new(AL3)
    case.registers()
    case.modbus('0106000A0001')
    case.settings(AL3)
    case.registers()
    case.say('L', 0)
    case.registers()
    case.say('L', 1)
    case.registers()


def product_case():
    """The product of each dose is that of the settings."""
    case = Case(88)
    for s in (AL1, AL2, AL3):
        case.head('AL%d: doses of products 7, 255, 0 and 1' % s.algorithm)
        case.new(s._replace(product=7), 41, 100)
        for product in (None, 255, 0, 1):
            if product is not None:
                case.settings(s._replace(product=product))
            case.say('L', 1)
            case.run(tank(s, 600 * (s.algorithm > 1)), 0)
            case.say('L', 0)
            case.say('Q')
        case.head('17 settings put it to 0, a refused set does not')
        case.new(s._replace(product=7))
        case.settings(s._replace(product=256))
        case.new(s._replace(product=9, D=0))
        case.say('L', 1)
        case.run(tank(s, 600 * (s.algorithm > 1)), 0)
        case.say('S', *s[:17])
        case.run(tank(s, 600 * (s.algorithm > 1)), 0)
        case.new(s._replace(product=3))
        case.say('N', *s[:17], 7, 8)
        case.say('L', 1)
        case.run(tank(s, 600 * (s.algorithm > 1)), 0)
        case.say('Q')
    case.head('in the middle of a dose no set is taken')
    case.new(AL1._replace(product=5))
    case.tick(0, START)
    case.ticks(4, 300)
    case.settings(AL1._replace(product=6))
    case.ticks(70, 480)
    case.ticks(6, 0)
    case.save('product.replay')


def slave_cases():
    """What each read of `slave` brings, a line of hex each."""
    ask = modbus.closed(bytes.fromhex('01030000000B'))
    on, off = (modbus.closed(struct.pack('>BBHH', 1, 6, 10, value)) for value in (1, 0))
    wrong = modbus.closed(b'\x01\x2B')
    script = b'T\t5\t3\nL\t1\n'
    five = line('S', *AL1._replace(address=5))
    for name, packets in {
            'empty': [], 'no-empty-line': [script, ask], 'no-lf': [script[:-1], ask],
            'no-script': [b'\n', ask], 'no-script-same-read': [b'\n' + ask],
            'no-frame': [script + b'\n'],
            'same-read': [script + b'\n' + ask],
            'next-read': [script + b'\n', ask],
            'both': [script + b'\n' + off, ask, on, ask, wrong, ask],
            'two-in-one-read': [script + b'\n' + ask + ask, off + ask, ask],
            'one-in-two-reads': [script + b'\n' + ask[:5], ask[5:], ask[:4], ask[4:], off],
            'two-empty-lines': [script + b'\n\n' + ask, ask],
            'empty-line-in-two-reads': [script, b'\n', ask, off, ask],
            'script-in-two-reads': [script[:4], script[4:] + b'\n', ask],
            'lf-of-a-line-in-its-own-read': [script[:-1], b'\n', b'\n' + ask, ask],
            'a-line-that-is-no-call': [b'T\t5\nL\t2\nx\n' + script + b'\n', ask],
            'cr': [script + b'\r\n', ask, b'\n', ask],
            'space': [script + b' \n\t\n' + b'L\t0\n\n', ask],
            'a-long-line': [b'x' * 4095 + b'\n' + b'y' * 4096 + b'\n' + script,
                            b'z' * 4096, b'\n', b'\n' + ask],
            'a-long-line-alone': [b'x' * 5000, b'\n' + ask, b'\n', ask],
            'the-script-asks-too': [line('M', on, 8) + b'\nQ\n\n', ask],
            'a-line-after-the-frames': [b'\n', ask, b'L\t1\n', ask, b'\n', ask],
            'longest': [b'\n', modbus.closed(b'\x01\x05' + b'\0' * 252),
                        modbus.closed(b'\x01\x05' + b'\0' * 253), ask],
            'another-address': [five + b'\n\n', ask, modbus.closed(b'\x05' + ask[1:6])],
            'to-all': [b'\n', b'\0' + on[1:], modbus.closed(b'\0' + on[1:6]), ask],
            'restart': [line('N', *AL1._replace(address=9), 7, 8) + b'\nT\t5\t8\n\n',
                        ask, modbus.closed(b'\x09' + ask[1:6])],
    }.items():
        write('%s.slave' % name, b''.join(packet.hex().upper().encode() + b'\n'
                                          for packet in packets))


def fields_case():
    case = Case(80)
    case.head('the writer')
    for weight in (0, 5, -5, 12, 345, -6789, 123456, 999999, -999999, 1000000,
                   -1000000, 2147483647, -2147483648):
        for flags in ((0, 0), (1, 0), (0, 1), (1, 1)):
            for point in (0, 1, 3, 7, 8, 255):
                if flags == (1, 0) or point == 1:
                    case.say('G', weight, *flags, point)
    case.head('the reader')
    for text in ('05000091', '00000080', '00000000', '000000FF', '56341291',
                 '99999919', '0A000000', 'A0000000', '000A0000', '00A00000',
                 '00000A00', '0000A000', 'FFFFFFFF', '01000060', '01000068',
                 '010000E7', '9A000000', '09000000', '90000008'):
        case.say('K', bytes.fromhex(text))
    case.save('fields.replay')


# The journal.

def journal_case():
    case = Case(90)
    case.head('writers: values at their bounds, R10 before R8')
    for values in ((0, 0, 0, 0, 0), (9999999, 999999, 1800000, 1, 255),
                   (10000000, 0, 0, 0, 0), (0, 1000000, 0, 0, 0), (0, 0, 1800001, 0, 0),
                   (0, 0, 0, 2, 0), (0, 0, 0, 0, 256), (4294967295,) * 5,
                   (10, 1, 500, 1, 7)):
        length = 4 + sum(len(str(value)) + 1 for value in values) - 2
        for room in (length, length - 1, 0, 64):
            case.say('D', *values, min(room, 64))
    for hour in (0, 9, 10, 9999999, 10000000, 4294967295):
        length = 3 + len(str(hour))
        for room in (length, length - 1, 0, 64):
            case.say('H', hour, room)
    case.head('reader of one line')
    for text in ('H\t0\n', 'H\t9999999\n', 'D\t0\t0\t0\t0\n',
                 'D\t9999999\t999999\t1800000\t1\n', '', '\n', 'H\t5',
                 'H\t5\n\n', 'H\t5\nH\t6\n', '\nH\t5\n', 'H\t5\n ', 'D\n\t1\t2\t3\t1\n',
                 'V\t2\n', 'V\t2', 'V\t2\n\n', 'V\t2\nH\t5\n', 'D\t0\t0\t0\t0\t0\n',
                 'D\t9999999\t999999\t1800000\t1\t255\n', 'D\t1\t2\t3\t1\t256\n',
                 'D\t1\t2\t3\t1\t7', 'D\t1\t2\t3\t1\t7\t7\n', 'D\t1\t2\t3\t1\t7\n'):
        case.say('l', text.encode())
        case.say('m', text.encode())
    for lines in (journals.BAD_LINES, journals.BAD_NEW_LINES, {'': journals.NO_V_LINES}):
        for kind in sorted(lines):
            for text in lines[kind]:
                text = text % 200 if '%' in text else text
                case.say('l', text.encode('latin-1'))
                case.say('m', text.encode('latin-1'))
    case.head('every malformed line in a journal: at its start, middle, end')
    for kind in sorted(journals.BAD_LINES):
        for text in journals.BAD_LINES[kind]:
            bad = (text % 20 if '%' in text else text).encode('latin-1')
            case.say('j', bad, 4)
            case.say('j', journals.h(10) + bad + journals.h(30), 4)
            case.say('j', journals.h(10) + journals.h(11) + bad, 0)
    case.head('journals of the new form, and of neither')
    for data in new_journals().values():
        case.say('j', data, 200)
        for hour in (9, 10, 11, 12):
            case.say('u', data, hour)
    for kind in sorted(journals.BAD_NEW_LINES):
        for text in journals.BAD_NEW_LINES[kind]:
            bad = (text % 20 if '%' in text else text).encode()
            case.say('j', V + bad, 4)
            case.say('j', V + journals.h(10) + bad + journals.h(30), 4)
            case.say('j', journals.h(10) + bad, 4)
    for text in journals.NO_V_LINES:
        bad = (text % 20 if '%' in text else text).encode()
        case.say('j', bad, 4)
        case.say('j', bad + journals.h(10), 4)
        case.say('j', V + bad, 4)
        case.say('j', V + journals.h(10) + bad, 4)
    case.head('a last line without LF')
    for text in (b'V\t2', b'V\t2\nH\t5', b'H\t5', b'H\t5\nH\t6', b'H', b'\t',
                 b'H\t5\nD\t6\t1\t2\t1'):
        case.say('j', text, 2)

    example = read('mill.journal')
    case.head('the example: its text, room that fits and one less; its hours')
    for room in (0, 47, 48, 49, 50, 60, 2000):
        case.say('j', example, room)
    for hour in (0, 9, 10, 11, 12, 13, 14, 4294967295):
        case.say('u', example, hour)
    case.head('an empty journal')
    case.say('j', b'', 0)
    case.say('j', b'', 3)
    case.say('u', b'', 0)
    case.head('order: R11')
    h, d = journals.h, journals.d
    for text in (h(5) + h(5), h(5) + h(4), h(5) + d(5, 1, 2), h(5) + d(4, 1, 2),
                 d(5, 1, 2) + d(5, 2, 2) + h(5) + h(6), d(5, 1, 2) + d(4, 2, 2),
                 d(5, 1, 2) + h(4), d(5, 1, 2) + h(5) + d(6, 2, 2),
                 d(5, 1, 2) + h(7) + h(7), h(0) + d(0, 0, 0),
                 h(9999999) + h(9999999)):
        case.say('j', text, 200)
        case.say('u', text, 5)
    case.head('span: R12 from 744 on')
    for far in (743, 744, 745, 1000, 9999989):
        case.say('u', h(10) + h(10 + far), 10 + far)
        case.say('u', d(10, 1, 2) + d(10 + far, 2, 7), 10)
        case.say('j', h(9) + h(10) + d(10 + far - 1, 2, 7), 7)
    case.head('the earlier line wins; on one line R10, R11, R12')
    for text in (h(10) + h(9) + b'x\n', h(10) + b'x\n' + h(9),
                 h(10) + h(800) + b'x\n', h(10) + b'x\n' + h(800),
                 h(10) + h(800) + h(9), h(10) + h(9) + h(800),
                 h(10) + d(9, 1, 1800001), h(10) + b'H\t0900\n',
                 h(10) + h(753) + h(754), h(10) + h(753) + h(752)):
        case.say('j', text, 1)
    case.head('means: halves, thirds, sevenths, large and small; largest, sum')
    rng = case.rng
    for number in (1, 2, 3, 7, 9, 11, 60):
        for top in (1, 1000, 1800000):
            amounts = [rng.randint(0, top) for _ in range(number)]
            text = b''.join(d(7, n, amount) for n, amount in enumerate(amounts))
            case.say('u', text + h(7), 7)
            case.say('j', text + h(7) + h(9), 90)
    case.head('counts that follow and counts that do not: W1')
    for text in holes().values():
        spoken = [int(cells.split(b'\t')[1]) for cells in text.splitlines()]
        for hour in sorted({spoken[0] - 1, spoken[-1] + 1, *spoken[:9]} - {-1}):
            case.say('u', text, hour)
        if spoken[-1] - spoken[0] < 99:
            case.say('j', text, 400)
    case.save('journal.replay')


def long_settle_case():
    case = Case(110)
    case.head('p9 63: stable after 4,032 ticks of calm')
    to_settle(case, AL1._replace(p9=63))
    case.ticks(4031, 480)
    case.ask(0xC3)
    case.tick(480)
    case.ask(0xC3)
    case.ticks(5, 0)
    case.save('long-settle.replay')


# Lines that are no call.

def malformed_case():
    case = Case(100)
    case.head('letters and numbers of fields')
    for text in ('', '\t', 'T', 't\t0\t0', 'Z', 'T\t0', 'T\t0\t0\t0', 'T\t\t0\t0',
                 '\tT\t0\t0', 'T\t0\t0\t', 'TT\t0\t0', 'C\t', 'C\t0', 'CC', 'c',
                 'Q\t', 'Q\t0', 'q', 'QC', 'L', 'L\t', 'L\t0\t0', 'l', 'u\t',
                 'u\t\t0\t0', 'j\t', 'X', 'X\t\t', 'K', 'K\t', 'B\t', 'W\t',
                 'G\t0\t0\t0', 'D\t0\t0\t0\t0', 'H\t0', 'h\t0\t9', 'U\t\t0',
                 'J\t\t9', 'x\t', 'M', 'M\t', 'M\t\t0\t0', 'm\t\t0', 'Y', 'Y\t',
                 'Y\t1\t1', 'y\t1', 'A', 'O\t0', '?', 'T 0 0', 'T\t0 0'):
        case.raw(text.encode())
    case.head('numbers')
    for text in ('-0', '+1', '01', '-01', '00', '', '-', '--1', '1-', ' 1', '1 ',
                 '1.0', '1e3', '0x1', 'A', '1,000', '1_0', '2147483648',
                 '-2147483649', '99999999999999999999', '-2147483648',
                 '2147483647', '-1', '1\r', '1\0'):
        case.raw(b'T\t' + text.encode() + b'\t0')
        case.raw(b'G\t' + text.encode() + b'\t0\t0\t0')
    for text in ('256', '-1', '00', '015', '+8', '', '1 ', '255', '4294967296'):
        case.raw(b'T\t0\t' + text.encode())
        case.raw(b'Y\t' + text.encode())
    case.raw('T\t\u0661\t0'.encode())
    for text in ('2', '-1', '01', '', '1\r'):
        case.raw(b'L\t' + text.encode())
        case.raw(b'G\t5\t%s\t0\t1' % text.encode())
        case.raw(b'G\t5\t0\t%s\t1' % text.encode())
    case.raw(b'G\t5\t0\t0\t256')
    case.head('settings and restarts')
    for cells in (16, 17, 18, 19, 20):
        case.say('S', *[1] * cells)
    for cells in (17, 18, 19, 20, 21, 22):
        case.say('N', *[1] * cells)
    for row in range(20):
        cells = list(AL1) + [0, 0]
        cells[row] = 4294967296
        case.say('N', *cells)
        case.say('N', *cells[:17], *cells[18:])
        cells[row] = -1
        case.say('N', *cells)
        case.say('S', *cells[:18])
        case.say('S', *cells[:17])
    case.head('hex')
    for text in ('0', 'F', 'ff', 'fF', '0g', 'GG', '0 ', ' 00', '0x00', '000',
                 '00\r', '-1', '00 00'):
        for form in ('B\t%s\t9', 'M\t%s\t9', 'W\t%s\t9', 'X\t%s', 'l\t%s', 'm\t%s', 'u\t%s\t0',
                     'j\t%s\t9'):
            case.raw((form % text).encode())
    for text in ('', '05', '0500', '050000', '0500009', '0500009100', '0500009g',
                 '0500009a'):
        case.raw(b'K\t' + text.encode())
    case.head('rooms at their bounds')
    for form, most in (('B\t%s\t%d', 64), ('M\t%s\t%d', 64), ('W\t%s\t%d', 600)):
        for room in (0, most, most + 1, -1):
            case.raw((form % ('FF01C3E3FFFF', room)).encode())
            case.raw((form % ('', room)).encode())
            case.raw((form % ('01C3', room)).encode())
    for room in (0, 2000, 2001, -1):
        case.raw(b'j\t\t%d' % room)
    for room in (0, 64, 65, -1):
        case.raw(b'D\t1\t2\t3\t1\t7\t%d' % room)
        case.raw(b'H\t1\t%d' % room)
    for number in (4294967295, 4294967296, -1):
        case.raw(b'H\t%d\t9' % number)
        case.raw(b'u\t\t%d' % number)
        for at in range(5):
            cells = [1, 1, 1, 1, 1]
            cells[at] = number
            case.say('D', *cells, 20)
    case.raw(b'D\t1\t2\t3\t1\t20')
    case.raw(b'D\t1\t2\t3\t1\t7\t7\t20')
    case.head('a digit is 0..9 or A..F, the high one and the low')
    for byte in b'/:@Gf':
        case.raw(b'X\t%c0' % byte)
        case.raw(b'X\t0%c' % byte)
    case.raw(b'X\t0123456789ABCDEF')
    case.head('every byte as the letter of bytes and a number')
    for byte in range(256):
        if byte != 10:
            case.raw(bytes([byte]) + b'\tFF\t8')
    case.head('each kind of line, with nothing and with something behind it')
    for text in ('T\t-5\t8', 'L\t1', 'C', 'Q', 'Y\t1', 'B\tFF01\t0', 'M\t0103\t0', 'W\t01C3\t600',
                 'X\tFF0A', 'G\t-5\t1\t0\t7', 'K\t01020304', 'D\t1\t2\t3\t4\t5\t64',
                 'H\t13\t64', 'l\t480A', 'm\t480A', 'u\t480A\t4294967295', 'j\t480A\t2000',
                 'S\t' + '\t'.join(map(str, AL1)),
                 'N\t' + '\t'.join(map(str, list(AL1) + [7, 9]))):
        for behind in ('\t', '\t0', '0', ' ', '\r', '\0', ''):
            case.raw((text + behind).encode())
    case.head('4,096 bytes with the LF are a line, more are not')
    for length in (4094, 4095, 4096, 8193):
        case.raw(b'X\t'.ljust(length, b'0'))
        case.raw(b''.ljust(length, b'C'))
        case.raw(b'Q')
    case.raw(b'X\t' + b'F' * 4092)
    case.head('a foreign byte anywhere; nothing was called')
    for byte in (0, 13, 32, 127, 128, 255):
        case.raw(b'T\t0\t0' + bytes([byte]))
        case.raw(bytes([byte]) + b'T\t0\t0')
        case.raw(b'Q' + bytes([byte]))
    case.raw(b'Q')
    case.ask(*CODES)
    case.save('malformed.replay')
    # A last line without LF is not a call.
    with open(os.path.join(CASES, 'malformed.replay'), 'ab') as file:
        file.write(b'Q')


def mixed_case():
    """From the generator; the doses of every algorithm among other calls."""
    text = b''.join(made + b'\n' for made in generate.Maker(4).make(6000)
                    if len(made) < 400)
    write('mixed.replay', text)


def read(name):
    with open(os.path.join(CASES, name), 'rb') as file:
        return file.read()


def journals_cases():
    d, h = journals.d, journals.h
    write('mill.journal', d(10, 1, 500) + d(10, 2, 498) + h(10) + h(11) +
          d(12, 3, 250, 0) + h(13))
    rng = random.Random(7)
    write('month.journal', b''.join(journals.of_hours(rng, 4000, 40, 6)) +
          d(4743, 1, 1800000) + d(4743, 2, 0, 0) + h(4743))
    write('refused-10.journal', d(10, 1, 500) + h(10) + b'H\t011\n' + h(3))
    write('refused-11.journal', d(10, 1, 500) + h(10) + d(10, 2, 500) + b'x\n')
    write('refused-12.journal', d(10, 1, 500) + h(753) + d(754, 2, 5) + h(3))
    write('no-lf.journal', d(10, 1, 500) + b'H\t10')
    write('empty.journal', b'')
    for name, text in holes().items():
        write('hole-%s.journal' % name, text)


def of_products(text):
    """A journal of the new form by its hours: `10 1/7 2/0 H` is hour 10 with
    dose 1 of product 7, dose 2 of product 0 and an H."""
    made = V
    for hour in text.split(','):
        hour, *cells = hour.split()
        for n, cell in enumerate(cells):
            if cell == 'H':
                made += journals.h(int(hour))
            else:
                count, product = map(int, cell.split('/'))
                made += journals.d(int(hour), count, 100 + n)[:-1] + b'\t%d\n' % product
    return made


def new_journals():
    """Journals of the new form, by what they show."""
    made = {name: of_products(text) for name, text in {
        'mill': '10 1/7 2/0 H, 11 H, 12 3/7, 13 H',
        'two-products': '10 1/7 2/9 3/7 H, 11 4/9 H, 12 5/7 H, 13 H',
        'one-product': '10 1/7 2/7 H, 11 3/7 H',
        'another-before-and-after': '10 1/9 H, 11 2/7 H, 12 3/9 H',
        'a-dose-of-another-without-an-h': '10 1/7 H, 11 2/9, 12 3/7 H',
        'a-dose-without-an-h': '10 1/9 H, 11 2/7, 12 3/9 H',
        'no-dose-after-the-last': '10 1/7 H, 11 2/9 H, 12 H',
        'counts-of-two-follow': '10 1/7 H, 11 2/9 H, 12 3/7 H',
        'a-hole-of-another': '10 1/9 H, 11 3/9 H, 12 4/7 H',
        'a-hole-between-products': '10 1/7 H, 11 3/9 H, 12 4/7 H',
        'a-hole-in-one-alone': '10 1/7 2/9 3/9 H, 11 4/7 H, 12 5/9 H',
        'a-hole-over-idle-hours': '9 1/9 H, 10 H, 11 H, 12 4/9 H, 13 5/7 H',
        'a-1-of-another': '10 5/7 H, 11 1/9 H, 12 2/7 H',
        'the-wrap': '10 999999/7 H, 11 0/9 H, 12 1/7 H',
        'products-at-their-ends': '10 1/0 2/255 H, 11 3/255 H, 12 4/0 H',
    }.items()}
    made['v-alone'] = V
    made['h-alone'] = V + journals.h(10)
    return made


# Refused journals of the new form, and of neither.
BAD_JOURNALS = {
    'five-fields-after-v': b'V\t2\nD\t10\t1\t500\t1\nH\t10\n',
    'six-fields-without-v': b'D\t10\t1\t500\t1\t0\nH\t10\n',
    'v-later': b'H\t10\nV\t2\n', 'v-twice': b'V\t2\nV\t2\nH\t10\n',
    'v-after-lines': b'V\t2\nH\t10\nV\t2\nH\t9\n', 'v-1': b'V\t1\nH\t10\n',
    'v-3': b'V\t3\n', 'v-no-lf': b'V\t2', 'v-cr': b'V\t2\r\n', 'v-empty-line': b'\nV\t2\n',
    'product-256': b'V\t2\nD\t10\t1\t500\t1\t255\nD\t10\t2\t5\t1\t256\n',
    'order-after-v': b'V\t2\nH\t10\nH\t10\n', 'order-first': b'V\t2\nH\t0\nD\t0\t1\t2\t1\t7\n',
    'span-after-v': b'V\t2\nH\t10\nH\t754\n', 'span-from-0': b'V\t2\nH\t1000\nH\t1743\n',
    'last-line-no-lf': b'V\t2\nH\t10',
}


def product_cases():
    """A product alone on a line, then a journal."""
    for name, data in new_journals().items():
        write('new-%s.journal' % name, data)
        for product in (7, 9) if name != 'products-at-their-ends' else (0, 255, 1):
            write('%s-%d.product' % (name, product), b'%d\n' % product + data)
    for name, data in BAD_JOURNALS.items():
        write('new-%s.journal' % name, data)
        write('%s.product' % name, b'7\n' + data)
        write('%s.week' % name, b'7\n' + data)
    write('new-two-products.week', b'0\n' + new_journals()['two-products'])
    mill, new = read('mill.journal'), new_journals()['mill']
    write('old-0.product', b'0\n' + mill)
    write('old-1.product', b'1\n' + mill)
    write('old-hole-0.product', b'0\n' + read('hole-across-idle-hours.journal'))
    write('old-hole-7.product', b'7\n' + read('hole-across-idle-hours.journal'))
    write('empty-journal.product', b'7\n')
    write('nothing.product', b'')
    write('no-lf.product', b'7')
    write('lf-alone.product', b'\n')
    for name, first in (('256', b'256'), ('999', b'999'), ('leading-zero', b'07'),
                        ('two-zeros', b'00'), ('minus', b'-7'), ('plus', b'+7'),
                        ('space-before', b' 7'), ('space-after', b'7 '), ('tab', b'7\t'),
                        ('cr', b'7\r'), ('nul', b'7\0'), ('letter', b'x'), ('empty', b''),
                        ('v-line', b'V\t2'), ('wraps-8', b'263'), ('wraps-32', b'4294967303'),
                        ('long', b'7' * 70000)):
        write('first-%s.product' % name, first + b'\n' + new)
    write('first-bad-order-after-v.product', b'256\n' + BAD_JOURNALS['order-after-v'])
    write('first-bad-product-256.product', b'x\n' + BAD_JOURNALS['product-256'])
    exact = journals.new_exact(random.Random(1))
    write('largest.product', b'255\n' + exact)
    write('one-byte-over.product', b'07\n' + exact + b'\n')


def refused(head, begun):
    """Refused at the first, a middle and the last line, or just not; `begun` is a
    journal of the hours 10 to 13, `head` what it begins with."""
    h = journals.h
    return {
        'refused-10-first': head + b'H\t010\n' + h(10), 'refused-10': begun + b'x\n' + h(9),
        'refused-10-last': begun + b'H\n', 'no-lf': begun[:-1], 'empty-line': begun + b'\n',
        'refused-11-second': head + h(10) + h(10) + h(754), 'refused-11': begun + h(13) + h(800),
        'refused-11-last': begun + h(12), 'refused-12-second': head + h(10) + h(754) + h(3),
        'refused-12': begun + h(754) + b'x\n', 'refused-12-last': begun + h(754),
        'span': begun + h(753), 'cr': begun.replace(b'\n', b'\r\n'),
        'v-again': begun + V, 'five-fields': begun + journals.d(14, 4, 5),
        'six-fields': begun + b'D\t14\t4\t5\t1\t0\n',
    }


def to_renew():
    """Journals for the way to the new form, by what they show."""
    d, h, mill = journals.d, journals.h, of_counts('10 1 2 H, 11 H, 12 3, 13 H')
    return dict(refused(b'', mill), **{
        'mill': mill, 'empty': b'', 'h-alone': h(10), 'd-alone': d(10, 1, 500),
        'month': read('month.journal'), 'h-lines': b''.join(map(h, range(744))),
        'least': d(0, 0, 0, 0) + h(0), 'greatest': d(9999999, 999999, 1800000) + h(9999999),
        'a-hole': read('hole-across-idle-hours.journal'), 'lf-alone': b'\n',
        'leading-zero': b'D\t10\t01\t500\t1\n', 'v-alone': V, 'v-no-lf': V[:-1],
        'new': new_journals()['mill'], 'new-with-0': of_products('10 1/0 H'),
        'new-order': BAD_JOURNALS['order-after-v'], 'new-malformed': V + b'x\n',
        'v-and-old': V + mill, 'v-3': b'V\t3\n' + mill, 'lf-and-v': b'\n' + V,
        'new-without-v': of_products('10 1/0 H')[len(V):],
    })


def to_restore():
    """Journals for the way to the old form, by what they show."""
    h, mill = journals.h, of_products('10 1/0 2/0 H, 11 H, 12 3/0, 13 H')
    made = dict(refused(V, mill), **{
        'mill': mill, 'v-alone': V, 'h-alone': V + h(10),
        'h-lines': V + b''.join(map(h, range(9999256, 10000000))), 'empty': b'',
        'old': read('mill.journal'), 'old-h-alone': h(10),
        'old-order': read('refused-11.journal'), 'old-malformed': read('refused-10.journal'),
        'v-3': b'V\t3\n' + h(10), 'v-no-lf': V[:-1], 'v-cr': b'V\t2\r\n', 'v-later': h(10) + V,
        'v-twice': V + V, 'lf-alone': b'\n', 'lf-and-v': b'\n' + V, 'without-v': mill[len(V):],
        'old-behind-v': V + read('mill.journal'), 'h-with-0': V + b'H\t10\t0\n',
        'product-00': mill + b'D\t14\t4\t5\t1\t00\n', 'product-256': mill +
        b'D\t14\t4\t5\t1\t256\n', 'product-in-11': mill + b'D\t13\t4\t5\t1\t7\n',
    })
    other = refused(V, of_products('10 1/0 2/7 H, 11 H, 12 3/7, 13 H'))
    made.update({'product-and-' + name: data for name, data in other.items()
                 if b'\t7\n' in data})
    made.update({name: of_products(text) for name, text in {
        'd-alone': '10 1/0', 'least': '0 0/0 H', 'greatest': '9999999 999999/0 H',
        'a-hole': '10 1/0 H, 11 H, 12 5/0 H, 13 6/0 H',
        'product-first': '10 1/7 2/0 H, 11 3/0 H', 'product': '10 1/0 H, 11 2/7 3/0 H',
        'product-last': '10 1/0 H, 11 2/0 3/255', 'product-alone': '10 1/1',
        'products': '10 1/0 2/9 3/7 H, 11 4/9 H', 'every-product': '10 1/7 2/7 H, 11 3/7 H',
        'product-1': '10 1/0 2/1 H', 'product-10': '10 1/0 2/10 H',
        'product-100': '10 1/0 2/100 H', 'product-255': '10 1/255 H',
    }.items()})
    return made


def turned_cases():
    """Journals of one form, to be turned into the other; the longest by what is
    too long."""
    for name, data in to_renew().items():
        write('%s.renew' % name, data)
    for name, data in to_restore().items():
        write('%s.restore' % name, data)
    for kind, name in (('renew', 'result-exact'), ('renew', 'result-over'),
                       ('renew', 'result-over-refused'), ('renew', 'exact'), ('renew', 'over'),
                       ('renew', 'new-exact'), ('renew', 'new-over'), ('restore', 'zero-exact'),
                       ('restore', 'zero-over'), ('restore', 'exact'), ('restore', 'over'),
                       ('restore', 'new-exact'), ('restore', 'new-over')):
        write('%s.%s' % (name, kind), both_forms.make(random.Random(1), kind, name))


def of_counts(text):
    """A journal by its hours: `10 1 2 H` is hour 10 with doses 1 and 2 and an
    H."""
    made = b''
    for hour in text.split(','):
        hour, *cells = hour.split()
        for n, cell in enumerate(cells):
            made += journals.h(int(hour)) if cell == 'H' else \
                journals.d(int(hour), int(cell), 100 + n)
    return made


def holes():
    """Counts that do not follow, and counts that do, by what they show."""
    return {name: of_counts(text) for name, text in {
        'in-one-hour': '10 1 2 6 7 H, 11 8 H, 12 H',
        'in-one-hour-without-h': '10 1 5, 11 6 H',
        'at-an-hour-border': '9 H, 10 1 2 H, 11 4 5 H, 12 6 H',
        'at-a-border-without-h': '10 1 2, 11 4 5 H, 12 6 H',
        'across-idle-hours': '10 1 H, 11 H, 12 H, 13 3 H, 14 H, 15 4 H',
        'across-missing-hours': '9 H, 10 1 H, 14 3 H, 15 H',
        'over-a-missing-hour': '10 1 H, 11 H, 13 H, 14 3 H, 15 4 H',
        'none-across-idle-hours': '10 1 H, 11 H, 13 H, 14 2 H',
        'at-the-wrap': '10 999998 H, 11 0 H, 12 1 H',
        'over-the-wrap': '10 999999 H, 11 2 H, 12 3 H',
        'none-at-the-wrap': '10 999998 999999 H, 11 0 1 H, 12 2 H',
        'none-after-a-reset': '10 7 8 1 2 H, 11 1 H, 12 H, 13 2 H',
        'none-where-1-comes-twice': '10 1 1 H, 11 1 H, 12 2 H',
        'none-where-1-comes-late': '10 999999 1 H, 11 2 H, 12 500 H, 13 1 H, 14 2 H',
        'of-2-after-a-lost-1': '10 7 H, 11 2 H, 12 3 H',
        'of-0': '10 0 H, 11 5 H, 12 0 H, 13 1 H, 14 0 H, 15 0 H, 16 1 H',
        'none-at-the-first-dose': '9 H, 10 500 H, 11 501 H',
        'none-at-a-first-0': '10 0 1 H',
        'at-the-second-line': '10 500 502 H, 11 503 H',
        'at-the-last-line': '10 1 H, 11 2 H, 12 4',
        'at-both-ends': '10 1 3 H, 11 4 H, 12 6',
        'twice-in-a-row': '10 1 H, 11 3 H, 12 5 H, 13 6 H',
        'and-its-far-end': '10 1 H, 11 5 H, 12 6 H, 13 7 H',
        'and-the-count-before-it': '10 1 H, 11 5 H, 12 2 H, 13 3 H',
        'of-an-equal-count': '9 4 H, 10 5 H, 11 5 H, 12 6 H',
        'of-a-count-gone-back': '9 4 H, 10 5 H, 11 4 H, 12 5 H',
        'of-a-count-far-back': '9 699 H, 10 700 H, 11 3 H, 12 4 H',
        'after-another': '10 1 3 H, 11 4 H, 12 5 H, 13 7 H, 14 8 H',
        'over-all-hours': '0 1 H, 1 H, 743 3 H',
    }.items()}


def of_days(first, *kinds):
    """A journal of whole days. W works from 6 to 20; I rests; X is dark; a letter
    behind it: h half seen, t torn at night, n no dose of its hours is kept."""
    made, count = b'', 1
    for number, kind in enumerate(kinds):
        for hour in range(24):
            at = first + 24 * number + hour
            if kind[0] == 'X' or kind[1:] == 'h' and hour >= 12:
                continue
            if kind[0] == 'W' and 6 <= hour < 20:
                for n in range(hour % 3):
                    made += journals.d(at, count, 1000 * number + 10 * hour + n)
                    count += 1
            if not (kind[1:] == 't' and hour in (2, 3)) and kind[1:] != 'n':
                made += journals.h(at)
    return made


def weeks():
    """First hours and journals, by what they show."""
    d, h, first = journals.d, journals.h, 483288
    real = of_days(first, 'W', 'Wh', 'W', 'Wt', 'W', 'I', 'I')
    mill = read('mill.journal')
    made = {'real': (first, real)}
    for by in (-168, -167, -144, -25, -1, 1, 23, 24, 100, 143, 144, 167, 168, 1000):
        made['real-%s-%d' % ('from' if by > 0 else 'before', abs(by))] = first + by, real
    made.update({
        'holidays': (first, of_days(first, 'I', 'It', 'Ih', 'I', 'X', 'In', 'I')),
        'half-seen-rest': (first, of_days(first, 'Ih', 'It', 'X', 'W', 'Wn', 'Wh', 'Wt')),
        'one-hour-missing': (48, b''.join(map(h, list(range(48, 71)) + list(range(72, 96))))),
        'one-hour-measured': (48, d(50, 1, 7) + h(50) + h(71)),
        'first-hour-of-a-day': (48, d(48, 1, 7) + h(48) + d(72, 2, 9) + h(72)),
        'last-hour-of-a-day': (48, d(71, 1, 7) + h(71) + d(95, 2, 9) + h(95)),
        'last-hour-of-the-week': (48, d(215, 1, 7) + h(215) + d(216, 2, 9) + h(216)),
        'an-hour-before-the-week': (49, d(48, 1, 7) + h(48) + d(49, 2, 9) + h(49)),
        'a-dose-of-0': (48, d(50, 1, 0) + h(50)),
        'a-dose-without-an-h': (48, d(50, 1, 7) + h(51) + d(75, 2, 7)),
        'measured-and-without-an-h': (48, d(50, 1, 7) + h(50) + d(51, 2, 100) + h(52)),
        'a-hole-in-a-day': (48, d(50, 1, 7) + h(50) + d(51, 5, 8) + h(51) + d(60, 6, 9) + h(60)),
        'a-hole-over-days': (48, d(50, 1, 7) + b''.join(map(h, range(50, 130))) +
                             d(130, 5, 8) + b''.join(map(h, range(130, 216)))),
        'greatest-amounts': (0, b''.join(d(hour, hour * 20 + n, 1800000) for hour in range(48)
                                         for n in range(20)) + h(48)),
        'largest-sum': (0, b''.join(b''.join(d(hour, 1, 1800000) for _ in range(110)) + h(hour)
                                    for hour in range(24))),
        'greatest-first': (9999832, d(9999832, 1, 3) + h(9999832) + d(9999999, 2, 4) +
                           h(9999999)),
        'greatest-first-rest': (9999832, b''.join(map(h, range(9999832, 10000000)))),
        'above-the-greatest': (9999833, h(9999833)),
        'last-hour': (9999999, h(9999999)),
        'least-first': (0, d(0, 0, 5) + h(0) + h(1)),
        'empty-journal': (7, b''), 'empty-journal-0': (0, b''),
        'a-month': (4300, read('month.journal')),
        'mill': (10, mill), 'mill-from-11': (11, mill), 'mill-long-ago': (9000000, mill),
        'refused-10': (10, read('refused-10.journal')),
        'refused-11': (10, read('refused-11.journal')),
        'refused-12': (10, read('refused-12.journal')),
        'no-lf-at-the-end': (10, mill[:-1]), 'an-empty-line': (10, b'\n' + mill),
        'a-line-of-a-first-hour': (10, b'10\n' + mill),
    })
    return {name: b'%d\n' % hour + data for name, (hour, data) in made.items()}


def week_cases():
    mill = read('mill.journal')
    for name, data in weeks().items():
        write('%s.week' % name, data)
    write('nothing.week', b'')
    write('no-lf.week', b'10')
    write('bad-no-lf.week', b'x' * 9)
    write('lf-alone.week', b'\n')
    names = ('empty', 'leading-zero', 'two-zeros', 'minus', 'minus-zero', 'plus',
             'space-before', 'space-after', 'tab-before', 'tab-after', 'cr', 'nul', 'letter',
             'decimal', 'hex', 'h-line', 'above', 'last-hour', 'eight-digits', 'wraps-32',
             'wraps-64', 'zeros', 'long')
    for name, first in zip(names, journals.BAD_FIRST):
        write('first-%s.week' % name, first + b'\n' + mill)
    for number in ('10', '11', '12'):
        write('first-bad-refused-%s.week' % number,
              b'007\n' + read('refused-%s.journal' % number))
    write('first-above-refused-11.week', b'9999833\n' + read('refused-11.journal'))
    write('first-bad-no-lf-at-the-end.week', b'x\n' + mill[:-1])
    write('first-long-no-lf.week', b'7' * 70000)
    exact = journals.exact(random.Random(1), 65536)
    hour = exact.split(b'\t')[1]
    write('largest.week', hour + b'\n' + exact)
    write('first-long-largest.week', b'7' * 70000 + b'\n' + exact)
    write('one-byte-over.week', hour + b'\n' + exact + b'x')
    write('first-bad-one-byte-over.week', b'07\n' + exact + b'\n')


def largest_journal():
    """What `hours` gets in the gate: 65,536 bytes, 744 hours, every kind of
    hour, some of them in a hole. The last hour's doses take what is left, one
    of them a shorter line."""
    d, h, rng = journals.d, journals.h, random.Random(11)
    text, count = b'', 990000
    for hour in range(9999256, 9999999):
        for _ in range(0 if hour % 7 == 3 else rng.randint(1, 5)):
            count += 2 if hour % 50 == 1 else 1
            text += d(hour, count, rng.randint(1000000, 1800000), count % 2)
        if hour % 11 != 5:
            text += h(hour)
    left = 65536 - len(text) - len(h(9999999))
    whole, rest = divmod(left, len(d(9999999, count, 1800000)))
    text += d(9999999, count + 1, 10 ** (rest - 21))
    for n in range(whole):
        text += d(9999999, count + 2 + n, 1800000)
    with open(os.path.join(ROOT, 'crates', 'hours', 'stdin'), 'wb') as file:
        file.write(text + h(9999999))


# What `replay` gets in the gate; the last one has a last line without LF.
IN_THE_GATE = ('settings', 'fields', 'frames', 'journal', 'line', 'modbus', 'al0', 'al1',
               'al2', 'al3', 'wild', 'faults', 'why', 'product', 'malformed')


def every_call():
    text = b''.join(read(name + '.replay') for name in IN_THE_GATE)
    folder = os.path.join(ROOT, 'crates', 'replay')
    write(os.path.join(folder, 'stdin'), text)
    write(os.path.join(folder, 'stdout'), b''.join(replay.answered(io.BytesIO(text))))


def main():
    os.makedirs(CASES, exist_ok=True)
    journals_cases()
    largest_journal()
    slave_cases()
    week_cases()
    product_cases()
    turned_cases()
    for case in (settings_case, al0_case, al1_case, al2_case, al3_case,
                 faults_case, line_case, frames_case, modbus_case, wild_case,
                 why_case, product_case, fields_case,
                 journal_case, malformed_case, long_settle_case, mixed_case):
        case()
    every_call()


if __name__ == '__main__':
    main()
