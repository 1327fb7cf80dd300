"""Changes one rule of the second implementation at a time and demands that
the stored cases notice it:

python3 tests/mutants.py            every rule
python3 tests/mutants.py FILE ...   the rules of these files"""

import io
import os
import random
import re           # the package uses re and struct: loaded once for all
import shutil
import signal
import struct
import sys
import tempfile

ROOT = os.path.dirname(os.path.dirname(os.path.abspath(__file__)))
CASES = os.path.join(ROOT, 'tests', 'cases')

# The mean without leaving any out, put before the class.
PLAIN = """class Box:@def plain(samples, n):
    taken = samples[-n:]
    nearest = (2 * abs(sum(taken)) + len(taken)) // (2 * len(taken))
    return nearest if sum(taken) >= 0 else -nearest


class Box:"""

# The changed rule, the file, its text, the text put in its place.
MUTANTS = [
    # Settings, restart, counters.
    ('M up to C/4 rounded up', 'settings.py',
     's.C // 4', '-(-s.C // 4)'),
    ('M from 0 in AL0 and AL1', 'settings.py',
     'return (1, s.C', 'return (0, s.C'),
    ('M of AL2 not under D', 'settings.py',
     'else (s.D, s.C)', 'else (1, s.C)'),
    ('a product of 256', 'settings.py', '(0, 255), ', '(0, 256), '),
    ('a product of 255 refused', 'settings.py', '(0, 255), ', '(0, 254), '),
    ('the product named as the point', 'settings.py', 'return row\n', 'return min(row, 17)\n'),
    ('17 settings refused', 'replay.py', "in (b'S', b'N') and", 'in () and'),
    ('17 settings keep the product', 'replay.py',
     "given.insert(17, b'0')", "given.insert(17, b'%d' % self.box.s.product)"),
    ('17 settings of a restart read one on', 'replay.py',
     "given.insert(17, b'0')", "given.append(b'0')"),
    ('the last bad setting named', 'settings.py',
     'enumerate(zip(s, ranges(s)), 1)',
     'reversed(list(enumerate(zip(s, ranges(s)), 1)))'),
    ('settings R2 before R3', 'box.py',
     'self.need_ready()\n        settings.check(s)',
     'settings.check(s)\n        self.need_ready()'),
    ('a set keeps Z', 'box.py',
     '        self.Z = 0\n', "        self.Z = getattr(self, 'Z', 0)\n"),
    ('a set keeps the samples', 'box.py',
     '        self.samples = []\n',
     "        self.samples = getattr(self, 'samples', [])\n"),
    ('a set clears the link start', 'box.py',
     '        self.s = s\n', '        self.s = s\n        self.link = 0\n'),
    ('a set clears the inputs', 'box.py',
     '        self.s = s\n', '        self.s = s\n        self.inputs = 0\n'),
    ('a set clears output 4', 'box.py',
     '        self.s = s\n', '        self.s = s\n        self.outputs = 0\n'),
    ('a set keeps the runs', 'box.py',
     '        self.runs = [0, 0, 0]\n',
     "        self.runs = getattr(self, 'runs', [0, 0, 0])\n"),
    ('R15 before R2', 'box.py',
     '        settings.check(s)\n        # R15',
     '        if count > 999999: raise Refused(15)\n'
     '        settings.check(s)\n        # R15'),
    ('a stored count of 1,000,000 taken', 'box.py',
     'count > 999999 or', 'count > 1000000 or'),
    ('a counter reset in any phase', 'box.py',
     'self.need_ready()\n        self.count = self.total',
     'self.count = self.total'),
    ('the count goes to 1,000,000', 'box.py',
     '(self.count + 1) % 1000000\n', '(self.count + 1) % 1000001\n'),
    ('the total goes to 1,000,000,000', 'box.py',
     '(self.total + amount) % 1000000000', '(self.total + amount) % 1000000001'),
    ('an amount below 0 kept', 'box.py',
     'amount = max(amount, 0)', 'amount = amount'),

    ('product 0 in every dose', 'box.py', 'settled, self.s.product', 'settled, 0'),
    ('the product before settled', 'box.py',
     'amount, settled, self.s.product', 'amount, self.s.product, settled'),
    ('the product of the restart', 'box.py',
     'settled, self.s.product', 'settled, self.first@        self.take(s)\n@'
     '        self.first = s.product\n        self.take(s)\n'),

    # The tick.
    ('negative means rounded toward zero', 'box.py',
     'nearest if total >= 0 else -nearest',
     'nearest if total >= 0 else -(abs(total) // number)'),
    ('a half rounded up', 'box.py',
     'nearest if total >= 0 else -nearest',
     '(2 * total + number) // (2 * number)'),
    ('nothing left out', 'box.py', 'if number >= 4:', 'if False:'),
    ('one of three left out', 'box.py', 'if number >= 4:', 'if number >= 3:'),
    ('none of four left out', 'box.py', 'if number >= 4:', 'if number >= 5:'),
    ('none left out until the window is full', 'box.py',
     'if number >= 4:', 'if number == n:'),
    ('none left out of a full window of 128', 'box.py',
     'if number >= 4:', 'if 4 <= number < 100:'),
    ('the largest alone left out', 'box.py',
     'total - max(taken) - min(taken), number - 2', 'total - max(taken), number - 1'),
    ('the smallest alone left out', 'box.py',
     'total - max(taken) - min(taken), number - 2', 'total - min(taken), number - 1'),
    ('both largest left out', 'box.py',
     'total - max(taken) - min(taken)', 'total - sum(sorted(taken)[-2:])'),
    ('both smallest left out', 'box.py',
     'total - max(taken) - min(taken)', 'total - sum(sorted(taken)[:2])'),
    ('two of each left out', 'box.py',
     'if number >= 4:', 'if number >= 8:\n        inner = sorted(taken)[2:-2]\n'
     '        total, number = sum(inner), len(inner)\n    elif number >= 4:'),
    ('every largest and every smallest left out', 'box.py',
     '        total, number = total - max(taken) - min(taken), number - 2\n',
     '        inner = [one for one in taken if min(taken) < one < max(taken)] or taken[:1]\n'
     '        total, number = sum(inner), len(inner)\n'),
    ('none of equal ones left out', 'box.py',
     'if number >= 4:',
     'if number >= 4 and taken.count(max(taken)) == taken.count(min(taken)) == 1:'),
    ('the largest in size left out twice', 'box.py',
     'total - max(taken) - min(taken)', 'total - sum(sorted(taken, key=abs)[-2:])'),
    ('the oldest and the newest left out', 'box.py',
     'total - max(taken) - min(taken)', 'total - taken[0] - taken[-1]'),
    ('divided by the number held', 'box.py',
     'min(taken), number - 2', 'min(taken), number'),
    ('divided by one less', 'box.py', 'min(taken), number - 2', 'min(taken), number - 1'),
    ('left out of all that are held', 'box.py',
     'total - max(taken) - min(taken)',
     'total - max(max(taken), max(samples)) - min(min(taken), min(samples))'),
    ('n left after leaving out', 'box.py', 'taken = samples[-n:]', 'taken = samples[-n - 2:]'),
    ('one left out is held no more', 'box.py',
     '    taken = samples[-n:]\n',
     '    if len(samples) > n: samples.remove(max(samples[-n:]))\n    taken = samples[-n:]\n'),
    ('the median', 'box.py',
     '        total, number = total - max(taken) - min(taken), number - 2\n',
     '        inner = sorted(taken)[(number - 1) // 2:number // 2 + 1]\n'
     '        total, number = sum(inner), len(inner)\n'),
    ("the tick's weight as before", 'box.py',
     'F = mean(self.samples, n)', 'F = plain(self.samples, n)@' + PLAIN),
    ('the weights of replies as before', 'box.py',
     'return mean(self.samples, n) - self.Z', 'return plain(self.samples, n) - self.Z@' + PLAIN),
    ("C0's zero as before", 'box.py',
     'self.Z = mean(self.samples, self.s.p8)', 'self.Z = plain(self.samples, self.s.p8)@' + PLAIN),
    ("C0's test as before", 'box.py',
     '< mean(self.samples, self.s.p8) <', '< plain(self.samples, self.s.p8) <@' + PLAIN),
    ('p8 used while output 1 is open', 'box.py',
     'n = self.s.p7 if self.is_open(1) else self.s.p8', 'n = self.s.p8'),
    ('R1 after the fault', 'box.py',
     'if inputs > 15:', 'if inputs > 15 and self.phase != FAULT:'),
    ('the inputs of F21 not kept', 'box.py',
     '        self.inputs = inputs\n        if not -900000 <= sample <= 900000:\n'
     '            return self.fail(21, 0)\n',
     '        if not -900000 <= sample <= 900000:\n'
     '            return self.fail(21, 0)\n        self.inputs = inputs\n'),
    ('F21 at 900,000', 'box.py',
     '-900000 <= sample <= 900000', '-900000 < sample < 900000'),
    ('F14 at 63', 'box.py',
     'self.runs.index(64) + 1 if 64 in self.runs',
     'self.runs.index(63) + 1 if 63 in self.runs'),
    ('F14 names the highest channel', 'box.py',
     'self.runs.index(64) + 1', '3 - self.runs[::-1].index(64)'),
    ('F14 in AL0', 'box.py',
     'if self.s.algorithm == 0:\n            return 0',
     'if False:\n            return 0'),
    ('levels turned about', 'box.py',
     'output if levels[i] == 1', 'output if levels[i] == 0'),
    ('F14 after the phase rule', 'box.py',
     '        dose = self.phase_rule()\n',
     '        dose = self.phase_rule()\n'
     '        if channel:\n            return self.fail(14, channel)\n'
     '@        channel = self.mismatch()\n        if channel:\n'
     '            return self.fail(14, channel)\n'
     '@        channel = self.mismatch()\n'),
    ('S kept when a gate moved', 'box.py',
     '        if (before ^ self.outputs) & 7:\n            self.S = 0\n', ''),
    ('S put to 0 by a fault', 'box.py',
     '        self.phase = FAULT\n', '        self.phase = FAULT\n        self.S = 0\n'),
    ('stable over 64*p9', 'box.py',
     'self.S >= 64', 'self.S > 64'),
    ('S capped at 4,031', 'box.py', '4032)', '4031)'),
    ('the alarm at C+9', 'box.py',
     'self.put(4, self.w > self.s.C + 9)', 'self.put(4, self.w >= self.s.C + 9)'),
    ('a fault leaves output 4 off', 'box.py',
     'self.outputs = 8', 'self.outputs = 0'),
    ('AL3 started by input 4', 'box.py',
     'if self.s.algorithm == 3:\n            return self.link\n',
     'if self.s.algorithm == 4:\n            return self.link\n'),
    ('zeroing tests w', 'box.py',
     'if -self.s.M < self.F < self.s.M:', 'if -self.s.M < self.w < self.s.M:'),
    ('zeroing at M', 'box.py',
     'if -self.s.M < self.F < self.s.M:', 'if -self.s.M <= self.F <= self.s.M:'),
    ('reopening coarse under Wc', 'box.py',
     'elif self.phase == FINE or reached', 'elif reached'),
    ('coarse open at Wc', 'box.py',
     'reached >= s.D - s.Pc', 'reached > s.D - s.Pc'),
    ('fine open at Wf', 'box.py',
     'reached >= s.D - s.Pf', 'reached > s.D - s.Pf'),
    ('start looked at after the weight in AL0', 'box.py',
     'if s.algorithm == 0 and not self.start:',
     'if s.algorithm == 0 and not self.start and self.w < s.D - s.Pf:'),
    ('o ignored', 'box.py',
     's.o if s.algorithm in (0, 1) else 1', '0 if s.algorithm in (0, 1) else 1'),
    ('o looked at in AL2', 'box.py',
     's.o if s.algorithm in (0, 1) else 1', 's.o'),
    ('the last tick of Settle is 255*p9', 'box.py',
     'self.number == 256', 'self.number == 255'),
    ('Settle may end on tick 0', 'box.py',
     'self.enter(HOLD if s.algorithm == 0 else SETTLE)',
     'self.enter(HOLD if s.algorithm == 0 else SETTLE)\n'
     '            if s.algorithm == 1 and self.stable: self.settle_1()'),
    ('settled 0 on the last tick', 'box.py',
     'self.settled = int(self.stable)',
     'self.settled = int(self.number < 256 * self.s.p9)'),
    ('settled looked at when the dose completes', 'box.py',
     'wE),\n                                 self.settled)',
     'wE),\n                                 int(self.stable))'),
    ('the dose counted when discharge opens', 'box.py',
     '            self.phase = DISCHARGE\n',
     '            self.phase = DISCHARGE\n            self.count += 1\n'),
    ('discharge shut at w <= M', 'box.py',
     'if self.w < self.s.M:', 'if self.w <= self.s.M:'),
    ('w0 for wE', 'box.py',
     'self.w0 if self.s.p11 else wE', 'self.w0 if self.s.p11 else self.w0'),
    ('p11 turned about', 'box.py',
     'self.w0 if self.s.p11 else wE', 'wE if self.s.p11 else self.w0'),
    ('AL2 loads on start only', 'box.py',
     'if self.s.algorithm == 3 and not', 'if self.s.algorithm >= 2 and not'),
    ('AL3 loads without start', 'box.py',
     'if self.s.algorithm == 3 and not', 'if self.s.algorithm == 4 and not'),
    ('load at w = D', 'box.py',
     'if self.w < self.s.D:', 'if self.w <= self.s.D:'),
    ('load shut over M', 'box.py',
     'if self.w >= self.s.M:', 'if self.w > self.s.M:'),
    ('load goes to Ready without calm', 'box.py',
     'self.enter(CALM)', 'self.phase = READY'),

    # On the line.
    ('a check without the closing zero byte', 'frames.py',
     "return run(body + b'\\0')", 'return run(body)'),
    ('a check over inserted FE', 'frames.py',
     "return run(body + b'\\0')", "return run(stuffed(body) + b'\\0')"),
    ('bits enter lowest first', 'frames.py',
     'range(7, -1, -1)', 'range(8)'),
    ('R8 before R14', 'frames.py',
     '    least = address_length(body) + 1\n',
     '    least = address_length(body) + 1\n'
     '    if len(body) + 4 > room: raise Refused(8)\n'),
    ('a body of 255 bytes framed', 'frames.py',
     '<= len(body) <= 254', '<= len(body) <= 255'),
    ('an extended body of 4 bytes framed', 'frames.py',
     'least = address_length(body) + 1', 'least = 2'),
    ('a body that begins with FE framed', 'frames.py',
     "in (b'\\xFF', b'\\xFE')", "in (b'\\xFF',)"),
    ('the body dropped at the 257th byte', 'frames.py',
     'if len(self.body) == 256:', 'if len(self.body) == 257:'),
    ('after the 256th byte an FF counts as seen', 'frames.py',
     '            self.state = self.skip\n            self.offer = None\n',
     '            self.state = self.seek\n'),
    ('a body may begin with FE', 'frames.py',
     'if byte not in (FF, FE):', 'if byte != FF:'),
    ('the byte after a dropped body lost', 'frames.py',
     '        else:\n            self.begin(byte)\n',
     '        else:\n            self.state = self.skip\n'
     '            self.offer = None\n'),
    ('R9 answers the first FF', 'frames.py',
     '            self.offer = self.last_ff\n        self.place',
     '            self.offer = self.last_ff if self.offer is None '
     'else self.offer\n        self.place'),
    ('R9 answers the last FF seen', 'frames.py',
     'if self.state == self.seek:', 'if self.state != self.skip:'),
    ('R6 under 2 bytes, 5 if extended', 'frames.py',
     'len(body) < address_length(body) + 2',
     'len(body) < address_length(body) + 1'),
    ('serial high first', 'box.py', "to_bytes(3, 'little')", "to_bytes(3, 'big')"),
    ('data taken', 'box.py', '0xC5) or data:', '0xC5):'),
    ('R7 before R5', 'box.py',
     '        self.need_address(address)\n',
     '        if code < 0xC0: raise Refused(7)\n'
     '        if data: raise Refused(7)\n'
     '        if code == 0xC1: raise Refused(7)\n'
     '        self.need_address(address)\n'),
    ('R4 before R3', 'box.py',
     '        self.need_ready()\n        if self.s.algorithm in (2, 3) or '
     'not self.samples:\n            raise Refused(4)\n',
     '        if self.s.algorithm in (2, 3) or '
     'not self.samples:\n            raise Refused(4)\n'
     '        self.need_ready()\n'),
    ('C0 taken at M', 'box.py',
     'if not -self.s.M < mean(self.samples, self.s.p8) < self.s.M:',
     'if not -self.s.M <= mean(self.samples, self.s.p8) <= self.s.M:'),
    ('C0 refused with R8 still zeroes', 'box.py',
     '            self.need_zeroing()\n',
     '            self.need_zeroing()\n'
     '            self.Z = mean(self.samples, self.s.p8)\n'),
    ('C0 by p7', 'box.py',
     '            self.Z = mean(self.samples, self.s.p8)\n',
     '            self.Z = mean(self.samples, self.s.p7)\n'),
    ('C0 adds up', 'box.py',
     '            self.Z = mean(self.samples, self.s.p8)\n',
     '            self.Z = mean(self.samples, self.s.p8) - self.Z\n'),
    ('C3 by p7', 'box.py',
     'return self.weight_field(self.s.p8)', 'return self.weight_field(self.s.p7)'),
    ('C2 by p8', 'box.py',
     'return self.weight_field(self.s.p7)', 'return self.weight_field(self.s.p8)'),
    ('the weight without Z', 'box.py',
     'return mean(self.samples, n) - self.Z if', 'return mean(self.samples, n) if'),
    ('over by output 4', 'box.py',
     'over = weight > self.s.C + 9', 'over = self.is_open(4)'),
    ('no point without a sample', 'box.py',
     'return fields.write(0, 0, 0, self.s.point)',
     'return fields.write(0, 0, 0, 0)'),
    ('the weight high byte first', 'fields.py',
     'digits[4:6] + digits[2:4] + digits[0:2]', 'digits'),
    ('zero read with a sign kept negative one', 'fields.py',
     '-weight if con >> 7 else weight', '-weight or -1 if con >> 7 else weight'),
    ('bits 6 and 5 read as the point', 'fields.py', 'con & 7\n', 'con & 0x67\n'),
    ('zero written with a sign', 'fields.py',
     '(weight < 0) << 7', '(weight <= 0) << 7'),
    ('a point of 8 written', 'fields.py', 'point > 7', 'point > 8'),
    ('a weight of seven digits written', 'fields.py',
     'if not -999999 <= weight <= 999999 or', 'if weight > 999999 or'),

    # Why an output is as it is.
    ('R19 for 4', 'why.py', 'not 1 <= output <= 4', 'not 1 <= output <= 3'),
    ('no R19 for 0', 'why.py',
     '    if not 1 <= output <= 4:\n', '    output = output or 4\n    if output > 4:\n'),
    ('no R19 for 5', 'why.py', 'not 1 <= output <= 4:', 'not 1 <= output <= 5:'),
    ('overload in a fault', 'why.py', 'fault(box, 4) or alarm(box)', 'alarm(box)'),
    ('overload by the weight', 'why.py',
     'box.is_open(4) else', 'box.samples and box.w > box.s.C + 9 else'),
    ('overload at any weight', 'why.py',
     'box.is_open(4) else', 'box.samples and box.w > box.s.C else'),
    ('an open output without its reason', 'why.py', '(is_open, fault,', '(fault,'),
    ('unused before open', 'why.py',
     '(is_open, fault, unused,', '(unused, is_open, fault,'),
    ('unused before a fault', 'why.py', 'fault, unused,', 'unused, fault,'),
    ('no start before a fault', 'why.py',
     '(is_open, fault, unused, no_start,', '(is_open, no_start, fault, unused,'),
    ('no start before unused', 'why.py', 'unused, no_start,', 'no_start, unused,'),
    ('a fault without its number', 'why.py', "('fault',) + box.fault[1:]",
     "('fault', 14, box.fault[2])"),
    ('a fault without its channel', 'why.py', "('fault',) + box.fault[1:]",
     "('fault', box.fault[1], 0)"),
    ('unused in every algorithm', 'why.py',
     "output == 3 and box.s.algorithm == 0 else", 'output == 3 else'),
    ('no start for 3 in AL2', 'why.py',
     'not (output == 3 and box.s.algorithm == 2)', 'True'),
    ('no start never for 3', 'why.py',
     'not (output == 3 and box.s.algorithm == 2)', 'output != 3'),
    ('no start never in AL2', 'why.py',
     'not (output == 3 and box.s.algorithm == 2)', 'box.s.algorithm != 2'),
    ('no start not for 3 in AL3', 'why.py',
     'box.s.algorithm == 2)', 'box.s.algorithm >= 2)'),
    ('no start wherever the tick ended in Ready', 'box.py',
     'began == self.phase == READY and not self.start', 'self.phase == READY'),
    ('no start in Ready whatever came before', 'why.py',
     'if box.rested and', 'if box.phase == READY and box.F is not None and'),
    ('no start by the start of now', 'why.py',
     'if box.rested and', 'if box.rested and not box.start and'),
    ('no start before the first tick', 'box.py',
     'self.rested = False', 'self.rested = True'),
    ('no start over a set', 'box.py',
     '        self.rested = False\n', "        self.rested = getattr(self, 'rested', False)\n"),
    ('a counter reset forgets it', 'box.py',
     '        self.count = self.total = 0\n',
     '        self.count = self.total = 0\n        self.rested = False\n'),
    ('C0 forgets it', 'box.py',
     '            self.Z = mean(self.samples, self.s.p8)\n',
     '            self.Z = mean(self.samples, self.s.p8)\n            self.rested = False\n'),
    ('the link start forgets it', 'box.py',
     '        self.link = link\n', '        self.link = link\n        self.rested = False\n'),
    ('R1 forgets it', 'box.py',
     '        if inputs > 15:\n', '        if inputs > 15:\n            self.rested = False\n'),
    ('a refused set forgets it', 'box.py',
     '        self.need_ready()\n        settings.check(s)\n',
     '        self.need_ready()\n        self.rested = False\n        settings.check(s)\n'),
    ('settling in every Settle', 'why.py',
     'output == 3 and box.s.algorithm == 1 and box.phase', 'output == 3 and box.phase'),
    ('settling in Calm', 'why.py',
     'box.s.algorithm == 1 and box.phase == SETTLE:', 'box.phase in (SETTLE, CALM):'),
    ('settling for 1 and 2', 'why.py',
     'if output == 3 and box.s.algorithm == 1', 'if box.s.algorithm == 1'),
    ('settling from tick 1', 'why.py', 'box.number, 256', 'box.number + 1, 256'),
    ('settling: the ticks left', 'why.py',
     'box.number, 256', '256 * box.s.p9 - box.number, 256'),
    ('settling: 256 allowed', 'why.py', '256 * box.s.p9', '256'),
    ('settling: 64*p9 allowed', 'why.py', '256 * box.s.p9', '64 * box.s.p9'),
    ('no lead for 1 in the fine stage', 'why.py',
     'if output == 1 and box.phase == FINE:', 'if False:'),
    ('Wf for 1 in the fine stage', 'why.py', 'box.s.D - box.s.Pc', 'box.s.D - box.s.Pf'),
    ('Wc for 1 in Settle', 'why.py',
     "'lead', box.reached, box.s.D - box.s.Pf",
     "'lead', box.reached, box.s.D - (box.s.Pc if output == 1 else box.s.Pf)"),
    ('the dose for the limit', 'why.py', 'box.s.D - box.s.Pf', 'box.s.D'),
    ('no lead in the hold', 'why.py',
     'box.phase in (SETTLE, HOLD)', 'box.phase == SETTLE@CALM: \'Calm\'@'
     "CALM: 'Calm', HOLD: 'Fill'"),
    ('lead in the hold alone', 'why.py',
     'box.phase in (SETTLE, HOLD)', 'box.phase == HOLD'),
    ('lead for 1 alone', 'why.py', 'output in (1, 2) and', 'output == 1 and@'
     "CALM: 'Calm'@CALM: 'Calm', HOLD: 'Fill'"),
    ('lead for 3 in Settle', 'why.py', 'output in (1, 2) and', 'output in (1, 2, 3) and'),
    ('lead in Discharge', 'why.py',
     'box.phase in (SETTLE, HOLD)', 'box.phase in (SETTLE, HOLD, DISCHARGE)'),
    ('lead with F', 'why.py',
     "'lead', box.reached, box.s.D - box.s.Pf", "'lead', box.F, box.s.D - box.s.Pf"),
    ('lead with w in AL2 and AL3', 'why.py',
     "'lead', box.reached, box.s.D - box.s.Pf", "'lead', box.w, box.s.D - box.s.Pf"),
    ('lead in the fine stage with w in AL2 and AL3', 'why.py',
     "'lead', box.reached, box.s.D - box.s.Pc", "'lead', box.w, box.s.D - box.s.Pc"),
    ('lead only while it is reached', 'why.py',
     '    if output in (1, 2) and',
     '    if box.phase == SETTLE and box.reached < box.s.D - box.s.Pf:\n        return None\n'
     '    if output in (1, 2) and'),
    ('lead in the fine stage only while it is reached', 'why.py',
     'box.phase == FINE:', 'box.phase == FINE and box.reached >= box.s.D - box.s.Pc:'),
    ('lead not below 0', 'why.py',
     "'lead', box.reached, box.s.D - box.s.Pf",
     "'lead', max(0, box.reached), box.s.D - box.s.Pf"),
    ('Fill for every filling', 'why.py',
     "'Fill' if box.s.algorithm in (0, 1) else 'Dose'", "'Fill'"),
    ('Dose for every dose', 'why.py',
     "'Fill' if box.s.algorithm in (0, 1) else 'Dose'",
     "'Fill' if box.s.algorithm == 0 else 'Dose'"),
    ('Calm told as Settle', 'why.py', "CALM: 'Calm'", "CALM: 'Settle'"),

    # MODBUS.
    ('a CRC from 0', 'modbus.py', 'value = 0xFFFF', 'value = 0'),
    ('a CRC highest bit first', 'modbus.py',
     'value ^= byte\n', "value ^= int('{:08b}'.format(byte)[::-1], 2)\n"),
    ('the CRC high byte first', 'modbus.py', "(2, 'little')", "(2, 'big')"),
    ('the CRC not looked at', 'modbus.py',
     'if closed(body) != frame:', 'if False:'),
    ('the low byte of the CRC alone looked at', 'modbus.py',
     'if closed(body) != frame:', 'if closed(body)[:-1] != frame[:-1]:'),
    ('a frame of 4 bytes silent', 'modbus.py',
     'not 4 <= len(frame)', 'not 5 <= len(frame)'),
    ('a frame of 257 bytes taken', 'modbus.py', '<= 256:', '<= 257:'),
    ('a frame of 256 bytes silent', 'modbus.py', '<= 256:', '<= 255:'),
    ('03 and 06 of any length', 'modbus.py',
     'if frame[1] in (READ, WRITE) and len(frame) != 8:',
     'if frame[1] in (READ, WRITE) and len(frame) < 8:'),
    ('06 of any length', 'modbus.py',
     'if frame[1] in (READ, WRITE) and len(frame) != 8:',
     'if len(frame) < 8 if frame[1] == WRITE else frame[1] == READ and len(frame) != 8:'),
    ('every function of 8 bytes', 'modbus.py',
     'if frame[1] in (READ, WRITE) and len(frame) != 8:', 'if len(frame) != 8:'),
    ('any address answered', 'modbus.py',
     'if body[0] != address:', 'if False:'),
    ('address 247 answered', 'modbus.py',
     'if body[0] != address:', 'if body[0] not in (address, 247):'),
    ('to address 0 a reply', 'modbus.py',
     "        return b'', broadcast(body)\n",
     '        return closed(body), broadcast(body)\n'),
    ('to address 0 a read is no refusal', 'modbus.py',
     '        if body[1] == WRITE:\n            return written(body)\n',
     '        if body[1] == WRITE:\n            return written(body)\n'
     '        if body[1] == READ:\n            return None\n'),
    ('to address 0 a wrong write is no refusal', 'modbus.py',
     '    except Wrong:\n        pass\n', '    except Wrong:\n        return None\n'),
    ('to address 0 nothing is written', 'modbus.py',
     '            return written(body)\n    except',
     '            return written(body) and None\n    except'),
    ('address 0 silent', 'modbus.py', 'if body[0] == 0:', 'if body[0] == 256:'),
    ('02 before 03 in a read', 'modbus.py',
     '    if not 1 <= quantity <= 125:\n        raise Wrong(3)\n',
     '    if first + quantity > len(registers): raise Wrong(2)\n'
     '    if not 1 <= quantity <= 125:\n        raise Wrong(3)\n'),
    ('a quantity of 126', 'modbus.py', 'quantity <= 125:', 'quantity <= 126:'),
    ('a quantity of 125 wrong', 'modbus.py', 'quantity <= 125:', 'quantity <= 124:'),
    ('a quantity of 12 wrong', 'modbus.py', 'quantity <= 125:', 'quantity <= 11:'),
    ('a quantity of 0', 'modbus.py', 'not 1 <= quantity', 'not 0 <= quantity'),
    ('a pair read as a whole only', 'modbus.py',
     'if first + quantity > len(registers):',
     'if first + quantity > len(registers) or first in (1, 3, 7, 9):'),
    ('register 10 written only', 'modbus.py',
     'if first + quantity > len(registers):', 'if first + quantity > 10:'),
    ('a read begins at 10 at most', 'modbus.py',
     'if first + quantity > len(registers):',
     'if first >= len(registers):@*told)\n@*(told + [0] * quantity)[:quantity])\n'),
    ('registers from 1', 'modbus.py',
     'first, quantity = numbers(body)',
     'first, quantity = numbers(body)\n    first = max(first - 1, 0)'),
    ('the number of registers for bytes', 'modbus.py', '2 * quantity, *told', 'quantity, *told'),
    ('any register written', 'modbus.py', 'if register != LINK:', 'if register > LINK:'),
    ('register 266 written', 'modbus.py',
     'if register != LINK:', 'if register & 255 != LINK:'),
    ('03 before 02 in a write', 'modbus.py',
     '    if register != LINK:\n        raise Wrong(2)\n'
     '    if value not in (0, 1):\n        raise Wrong(3)\n',
     '    if value not in (0, 1):\n        raise Wrong(3)\n'
     '    if register != LINK:\n        raise Wrong(2)\n'),
    ('any value but 0 is a start', 'modbus.py',
     '    if value not in (0, 1):\n        raise Wrong(3)\n    return value',
     '    return min(value, 1)'),
    ('FF00 for 1', 'modbus.py', 'value not in (0, 1)', 'value not in (0, 0xFF00)'),
    ('80 added to the function', 'modbus.py',
     'body[1] | 0x80', 'body[1] + 0x80 & 0xFF'),
    ('functions from 80 silent', 'modbus.py',
     '            raise Wrong(1)', '            if body[1] > 127: raise Refused(17)\n'
     '            raise Wrong(1)'),
    ('function 0 silent', 'modbus.py',
     '            raise Wrong(1)', '            if body[1] == 0: raise Refused(17)\n'
     '            raise Wrong(1)'),
    ('a wrong write writes', 'modbus.py', 'register != LINK:', 'register != LINK and value > 1:'),
    ('an exception without its CRC', 'modbus.py',
     'return closed(reply), link', 'return closed(reply)[:5 if len(reply) == 3 else 99], link@'
     'return body + crc(body)@return body + b"\\0\\0" if len(body) == 3 else body + crc(body)'),
    ('R8 before R17', 'box.py',
     '        reply, link = modbus.served(',
     '        if room < 5: raise Refused(8)\n        reply, link = modbus.served('),
    ('exceptions without R8', 'box.py',
     'if len(reply) > room:\n            raise Refused(8)\n        if link',
     'if len(reply) > max(room, 5):\n            raise Refused(8)\n        if link'),
    ('a write refused with R8 still writes', 'box.py',
     'if len(reply) > room:\n            raise Refused(8)\n        if link',
     'if link is not None: self.set_link(link)\n'
     '        if len(reply) > room:\n            raise Refused(8)\n        if link'),
    ('no write in a fault', 'box.py',
     'if link is not None:', 'if link is not None and self.phase != FAULT:'),
    ('a write in Ready only', 'box.py',
     'if link is not None:', 'if link is not None and self.phase == READY:'),
    ('the low word first', 'modbus.py',
     "return [int.from_bytes(data[:2], 'big'), int.from_bytes(data[2:], 'big')]",
     "return [int.from_bytes(data[2:], 'big'), int.from_bytes(data[:2], 'big')]"),
    ('the count low word first', 'box.py',
     'modbus.double_word(self.count) +', 'modbus.double_word(self.count)[::-1] +'),
    ('the total low word first', 'box.py',
     'modbus.double_word(self.total) +', 'modbus.double_word(self.total)[::-1] +'),
    ('a whole number for the f32', 'modbus.py', "'>f', weight", "'>i', weight"),
    ('an f32 of 16 bits of fraction', 'modbus.py',
     "return pair(struct.pack('>f', weight))",
     "return pair((lambda n: (n & ~127).to_bytes(4, 'big'))("
     "int.from_bytes(struct.pack('>f', weight), 'big')))"),
    ('-0 for 0', 'modbus.py', "'>f', weight", "'>f', weight or -0.0"),
    ('the C2 weight first', 'box.py',
     'modbus.single(self.weight(self.s.p8)) +\n                '
     'modbus.single(self.weight(self.s.p7))',
     'modbus.single(self.weight(self.s.p7)) +\n                '
     'modbus.single(self.weight(self.s.p8))'),
    ('both weights the C3 weight', 'box.py',
     'modbus.single(self.weight(self.s.p7))', 'modbus.single(self.weight(self.s.p8))'),
    ('outputs before inputs', 'box.py',
     '[self.inputs, self.outputs]', '[self.outputs, self.inputs]'),
    ('the start for the link start', 'box.py',
     '                [self.link])', '                [int(self.start)])'),

    # The program of the slave.
    ('frames before the empty line', 'slave.py',
     "return None, b''", 'return replay.box, held'),
    ('what came with the empty line forgotten', 'slave.py',
     'return replay.box, held', "return replay.box, b''"),
    ('what came with the empty line joined to the next', 'slave.py',
     '    if first:\n        yield first\n    while True:\n        frame = read(FRAME)\n',
     '    while True:\n        frame = read(FRAME)\n'
     '        frame, first = first + frame, b""\n'),
    ('an empty line after a frame ends it', 'slave.py',
     '        if not frame:\n', "        if not frame or frame == b'\\n':\n"),
    ('a line after the frames called', 'slave.py',
     'yield box.modbus(frame, ROOM)',
     "box.set_link(frame == b'L\\t1\\n' or box.link)\n            "
     'yield box.modbus(frame, ROOM)'),
    ('reads joined', 'slave.py',
     '        yield frame\n', '        if len(frame) == 4: frame += read(FRAME)\n'
     '        yield frame\n'),
    ('frames cut at 8 bytes', 'slave.py', '        yield frame\n',
     '        for at in range(0, len(frame), 8): yield frame[at:at + 8]\n'),
    ('a line of a CR ends the script', 'slave.py',
     'if not line and not long:', 'if not line.strip(b"\\r") and not long:'),
    ('a line of blanks ends the script', 'slave.py',
     'if not line and not long:', 'if not line.strip() and not long:'),
    ('a long line ends as an empty one', 'slave.py',
     'if not line and not long:', 'if not line:'),
    ('the answers of the script printed', 'slave.py',
     'replay.answer(line)', "replay.answer(line)@    box, first = set_up(read)\n@"
     "    box, first = set_up(read)\n    yield b'A\\n'\n"),
    ('a restart of the script forgotten', 'slave.py',
     'replay, held, long = Replay()', "replay, held, long = Replay()@"
     "while True:\n        more@box = replay.box\n    while True:\n        more@"
     'return replay.box, held@return box, held'),
    ('the first refusal ends it', 'slave.py',
     '            pass\n', '            return\n'),

    # The journal and the hours.
    ('R12 at 745', 'journal.py', '>= 744', '>= 745'),
    ('R13 at 65,536 bytes', 'journal.py',
     'len(data) > LONGEST', 'len(data) >= LONGEST'),
    ("H's hour allowed again", 'journal.py',
     "lines[-1][1] + (lines[-1][0] == 'H')", 'lines[-1][1]'),
    ('R12 before R11 and R10 of later lines', 'journal.py',
     '            if line[1] < least:\n                raise Refused(11, at)\n',
     '            if line[1] < least and line[1] > 10:\n'
     '                raise Refused(11, at)\n'),
    ('leading zeros accepted', 'journal.py',
     " or (field[:1] == b'0' and len(field) > 1)", ''),
    ('amounts over 1,800,000 accepted', 'journal.py', '1800000', '1800001'),
    ('a last line without LF accepted', 'journal.py',
     'return lines + [last] if last else lines',
     "return lines + [last + b'\\n'] if last else lines"),
    ('R8 before R10 on writing', 'journal.py',
     '    if not good(NEW[kind], values):\n',
     '    if room < 4: raise Refused(8)\n    if not good(NEW[kind], values):\n'),

    # Products.
    ('a product of 256 in a line', 'journal.py', '1800000, 1, 255', '1800000, 1, 256'),
    ('a product of 255 in a line refused', 'journal.py', '1800000, 1, 255', '1800000, 1, 254'),
    ('any product in a line read', 'journal.py',
     '            or not good(form[kind], values):',
     '            or not good(form[kind], values[:4] + [0] * len(values[4:])):'),
    ('a D line written in the old form', 'journal.py',
     "for value in values]) + '\\n'", "for value in values[:4]]) + '\\n'"),
    ('V 1 taken', 'journal.py', "texts[:1] == [V]", "texts[:1] in ([V], [b'V\\t1\\n'])"),
    ('V with a CR taken', 'journal.py', "texts[:1] == [V]",
     "texts[:1] in ([V], [b'V\\t2\\r\\n'])"),
    ('V without LF taken', 'journal.py', "texts[:1] == [V]", "texts[:1] in ([V], [V[:-1]])"),
    ('V anywhere', 'journal.py', 'if form is NEW and at == 1:', 'if form is NEW and text == V:'),
    ('V later turns the form', 'journal.py', 'if form is NEW and at == 1:',
     'if text == V:\n            form = NEW'),
    ('V twice', 'journal.py', 'if form is NEW and at == 1:',
     'if form is NEW and at < 3 and text == V:'),
    ('an empty line before V', 'journal.py', 'split(data), []', "split(data.lstrip(b'\\n')), []"),
    ('V not counted as a line', 'journal.py',
     '        line = read(text, at, form)\n',
     '        at -= form is NEW\n        line = read(text, at, form)\n'),
    ('a V line alone refused', 'journal.py',
     '    form = NEW if', '    if data == V: raise Refused(10, 1)\n    form = NEW if'),
    ('five fields after V', 'journal.py',
     '        line = read(text, at, form)\n',
     '        line = read(text, at, OLD if text.count(b"\\t") == 4 else form)\n'
     "        if len(line) == 5: line += (0,)\n"),
    ('six fields without V', 'journal.py',
     '        line = read(text, at, form)\n',
     '        line = read(text, at, NEW if text.count(b"\\t") == 5 else form)\n'
     "        line = line[:6] if form is NEW else line[:5]\n"),
    ('V at hour 0', 'journal.py',
     'line[1] - lines[0][1] >= 744', 'line[1] - (0 if form is NEW else lines[0][1]) >= 744'),
    ('a reader of old lines that takes V', 'replay.py',
     'return journal.read(line)', "return ('V',) if line == journal.V else journal.read(line)"),
    ('a reader of old lines that takes a product', 'replay.py',
     'return journal.read(line)',
     "return journal.read(line, 1, journal.NEW if line.count(b'\\t') == 5 else journal.OLD)"),
    ('a reader of new lines that takes old ones', 'replay.py',
     'return journal.read_new(line)',
     "return journal.read(line) if line.count(b'\\t') == 4 else journal.read_new(line)"),
    ('a reader of new lines without V', 'journal.py',
     "return ('V',) if line == V else read", 'return read'),
    ('every product for one', 'hours.py', 'product in (None, line[5])', 'True'),
    ('product 0 for all', 'hours.py', 'product in (None, line[5])', 'line[5] == (product or 0)'),
    ('product 0 is every product', 'hours.py',
     'product in (None, line[5])', 'not product or product == line[5]'),
    ('another product hides the hour', 'hours.py',
     '        elif product in (None, line[5]):\n',
     '        elif product not in (None, line[5]):\n            hours[line[1]][2] = True\n'
     '        else:\n'),
    ('the test of counts for each product', 'hours.py',
     "doses = [line for line in lines if line[0] == 'D']",
     "doses = [line for line in lines if line[0] == 'D']\n"
     '    doses.sort(key=lambda line: line[5])'),
    ('the test of counts in one product alone', 'hours.py',
     'for first, last in holes(lines):',
     'for first, last in holes([line for line in lines if len(line) < 6 or '
     'product in (None, line[5])]):'),
    ('a hole for the products at its ends', 'hours.py',
     'for first, last in holes(lines):',
     'for first, last in holes(lines) if product is None or product in '
     '[line[5] for line in lines if len(line) > 5] else ():'),
    ('the hours of one product from its first', 'hours.py',
     '    if not lines:\n        return {}\n',
     '    if not lines:\n        return {}\n'
     '    while product is not None and lines and lines[0][5:6] not in ((), (product,)):\n'
     '        lines = lines[1:]\n'),
    ('a product above 255 asked for', 'product.py',
     'product > journal.PRODUCT', 'product > journal.PRODUCT + 1'),
    ('255 not asked for', 'product.py',
     'product > journal.PRODUCT', 'product >= journal.PRODUCT'),
    ('a product of a byte', 'product.py',
     '    return product\n', '    return product\n@'
     '    if product is None or product > journal.PRODUCT:\n@'
     '    product = product and product & 255\n    if product is None:\n'),
    ("R2 before the journal's own", 'product.py',
     '    lines = journal.read_all(data)\n',
     '    asked(line)\n    lines = journal.read_all(data)\n'),
    ('R2 with line 1', 'product.py', 'Refused(2, 0)', 'Refused(2, 1)'),
    ('R21 for R2', 'product.py', 'Refused(2, 0)', 'Refused(21, 0)'),
    ('R2 only where the journal has lines', 'product.py',
     '    lines = journal.read_all(data)\n',
     "    lines = journal.read_all(data)\n    if not lines: return b''\n"),
    ('leading zeros of a product taken', 'product.py',
     'journal.number(line)', "journal.number(line.lstrip(b'0') or line)"),
    ('blanks around a product taken', 'product.py',
     'journal.number(line)', 'journal.number(line.strip())'),
    ('no line is product 0', 'product.py',
     'None if line is None else journal.number(line)', "journal.number(line or b'0')"),
    ('the first line counted by product', 'product.py',
     '(refused.number, refused.detail[0])',
     '(refused.number, refused.detail[0] + (refused.number in (10, 11, 12)))'),
    ('missing printed idle', 'hours.py', "return 'X'", "return 'I'"),
    ('an hour with a D measured without its H', 'hours.py',
     'if in_hole or not has_h:', 'if in_hole or not has_h and not amounts:'),
    ('the mean cut to a whole number', 'hours.py',
     'float(sum(amounts)) / float(len(amounts))',
     'float(sum(amounts) // len(amounts))'),
    ('the mean as a product with 1/n', 'hours.py',
     'float(sum(amounts)) / float(len(amounts))',
     'float(sum(amounts)) * (1.0 / float(len(amounts)))'),
    ('the smallest amount for the largest', 'hours.py',
     'float(max(amounts))', 'float(min(amounts))'),

    # From one form to the other.
    ('no look at the form', 'forms.py', 'if data.startswith(journal.V) != new:', 'if False:'),
    ('a new journal renewed', 'forms.py',
     'if data.startswith(journal.V) != new:', 'if new and not data.startswith(journal.V):'),
    ('an old journal restored', 'forms.py',
     'if data.startswith(journal.V) != new:', 'if data.startswith(journal.V) and not new:'),
    ('the empty journal is new', 'forms.py',
     'data.startswith(journal.V) != new', '(not data or data.startswith(journal.V)) != new'),
    ('the empty journal is of either form', 'forms.py',
     'if data.startswith(journal.V) != new:', 'if data and data.startswith(journal.V) != new:'),
    ('V alone is old', 'forms.py',
     'data.startswith(journal.V) != new',
     '(data.startswith(journal.V) and data != journal.V) != new'),
    ('any V line is the new form', 'forms.py',
     'data.startswith(journal.V) != new', "data.startswith(b'V') != new@"
     'return journal.read_all(data)@'
     "return journal.read_all(journal.V + data[data.find(b'\\n') + 1:] if new else data)"),
    ('the form told by a D line', 'forms.py',
     'data.startswith(journal.V) != new',
     "(b'\\nD' in data and data.startswith(journal.V)) != new"),
    ('the other form refused without a line', 'forms.py', 'Refused(10, 1)', 'Refused(10, 0)'),
    ('the other form refused at line 2', 'forms.py', 'Refused(10, 1)', 'Refused(10, 2)'),
    ('the other form is R18', 'forms.py', 'Refused(10, 1)', 'Refused(18, 1)'),
    ('R10 to R12 of the lines before the form', 'forms.py',
     '    if data.startswith(journal.V) != new:\n',
     '    journal.read_all(data)\n    if data.startswith(journal.V) != new:\n'),
    ('the form before R13', 'forms.py',
     '    if len(data) > journal.LONGEST:\n        raise Refused(13, 0)\n    if data',
     '    if data'),
    ('R13 at 65,536 bytes to turn', 'forms.py',
     'len(data) > journal.LONGEST', 'len(data) >= journal.LONGEST'),
    ('no R13 of the result', 'forms.py', 'if len(made) > journal.LONGEST:', 'if False:'),
    ('R13 of a result of 65,536 bytes', 'forms.py',
     'len(made) > journal.LONGEST', 'len(made) >= journal.LONGEST'),
    ('a result of 65,537 bytes', 'forms.py',
     'len(made) > journal.LONGEST', 'len(made) > journal.LONGEST + 1'),
    ('R13 of the result without V', 'forms.py',
     'len(made) > journal.LONGEST', 'len(made) - 4 > journal.LONGEST'),
    ('R13 of the result before the lines', 'forms.py',
     '    made = ', "    if 4 + len(data) + 2 * data.count(b'D') > journal.LONGEST:\n"
     '        raise Refused(13, 0)\n    made = '),
    ('R13 of the result with its line', 'forms.py',
     '        raise Refused(13, 0)\n    return made',
     "        raise Refused(13, data.count(b'\\n'))\n    return made"),
    ('the result cut at 65,536 bytes', 'forms.py',
     '    if len(made) > journal.LONGEST:\n        raise Refused(13, 0)\n    return made',
     '    return made[:journal.LONGEST]'),
    ('R8 for a long result', 'forms.py',
     '        raise Refused(13, 0)\n    return made',
     '        raise Refused(8, 0)\n    return made'),
    ('no V in front', 'forms.py', 'made = journal.V + text', 'made = text'),
    ('no V in front of nothing', 'forms.py',
     'made = journal.V + text', "made = data and journal.V + text"),
    ('no V in front of H lines', 'forms.py',
     'made = journal.V + text', "made = (journal.V if b'D' in data or not data else b'') + text"),
    ('product 1 put in', 'forms.py',
     'text(read(data, False))', 'text([line[:5] + (1,) * (len(line) - 5) if len(line) > 5 else line'
     ' for line in read(data, False)])'),
    ('no product put in', 'forms.py',
     'text(read(data, False))', 'text([line[:5] for line in read(data, False)])'),
    ('a product in H lines too', 'forms.py',
     'text(read(data, False))', 'text([(line + (0,))[:6] for line in read(data, False)])'),
    ('the product before settled', 'forms.py',
     'text(read(data, False))', 'text([line[:4] + line[5:] + line[4:5] for line in '
     'read(data, False)])'),
    ('V kept', 'forms.py',
     'return text(line[:5] for', 'return journal.V + text(line[:5] for'),
    ('the product kept', 'forms.py', 'text(line[:5] for', 'text(line for'),
    ('settled lost', 'forms.py', 'text(line[:5] for', 'text(line[:4] for'),
    ('the last line lost', 'forms.py',
     'text(line[:5] for line in lines)', 'text(line[:5] for line in lines[:-1])'),
    ('V alone not restored', 'forms.py',
     '    lines = read(data, True)\n',
     '    lines = read(data, True)\n    if not lines: raise Refused(10, 1)\n'),
    ('any product goes back', 'forms.py', "if line[0] == 'D' and line[5] != 0:", 'if False:'),
    ('lines of other products left out', 'forms.py',
     '            raise Refused(18, at)\n    return text(line[:5] for line in lines)',
     '            pass\n    return text(line[:5] for line in lines if line[5:] in ((), (0,)))'),
    ('product 1 goes back', 'forms.py', 'line[5] != 0', 'line[5] > 1'),
    ('product 255 goes back', 'forms.py', 'line[5] != 0', '0 < line[5] < 255'),
    ('a product that ends in 0 goes back', 'forms.py', 'line[5] != 0', 'line[5] % 10 != 0'),
    ('one product goes back', 'forms.py',
     'line[5] != 0:', 'line[5] != 0 and len({line[5:] for line in lines} - {()}) > 1:'),
    ('R18 of the first D line alone', 'forms.py',
     'raise Refused(18, at)', 'raise Refused(18, at)@line[5] != 0:@line[5] != 0 and at == 2:'),
    ('R18 of the last line forgotten', 'forms.py',
     'enumerate(lines, 2)', 'enumerate(lines[:-1], 2)'),
    ('R18 with the last such line', 'forms.py',
     'enumerate(lines, 2)', 'reversed(list(enumerate(lines, 2)))'),
    ('V not counted by R18', 'forms.py', 'enumerate(lines, 2)', 'enumerate(lines, 1)'),
    ('D lines counted by R18', 'forms.py',
     'enumerate(lines, 2)', "enumerate([line for line in lines if line[0] == 'D'], 2)"),
    ('R18 without its line', 'forms.py', 'Refused(18, at)', 'Refused(18, 0)'),
    ('R10 for R18', 'forms.py', 'Refused(18, at)', 'Refused(10, at)'),
    ('R18 before a later R10, R11 or R12', 'forms.py',
     '    lines = read(data, True)\n',
     '    begun = data\n    while True:\n        try:\n'
     '            lines = read(begun, True)\n            break\n'
     '        except Refused as refused:\n            if refused.detail[0] < 2: raise\n'
     "            begun = b''.join(begun.splitlines(True)[:refused.detail[0] - 1])\n"
     "    if not any(line[5:] not in ((), (0,)) for line in lines): read(data, True)\n"),
    ('R18 in a line that is out of order', 'forms.py',
     '    lines = read(data, True)\n',
     '    try:\n        lines = read(data, True)\n    except Refused as refused:\n'
     '        cells = data.splitlines()[max(refused.detail[0], 1) - 1:][:1]\n'
     "        if refused.number == 11 and cells and cells[0].count(b'\\t') == 5 and "
     "cells[0][-2:] != b'\\t0':\n            raise Refused(18, refused.detail[0])\n"
     '        raise\n'),

    # Holes in the dose numbers.
    ('no hole', 'hours.py', 'if in_hole or not has_h:', 'if not has_h:'),
    ('only the later hour missing', 'hours.py',
     'range(first, last + 1):', 'range(last, last + 1):'),
    ('only the earlier hour missing', 'hours.py',
     'range(first, last + 1):', 'range(first, first + 1):'),
    ('only the two hours missing', 'hours.py',
     'range(first, last + 1):', '(first, last):'),
    ('hours strictly between missing', 'hours.py',
     'range(first, last + 1):', 'range(first + 1, last):'),
    ('the later hour not missing', 'hours.py',
     'range(first, last + 1):', 'range(first, last):'),
    ('the earlier hour not missing', 'hours.py',
     'range(first, last + 1):', 'range(first + 1, last + 1):'),
    ('the hour after a hole missing', 'hours.py',
     'range(first, last + 1):', 'range(first, min(last + 2, lines[-1][1] + 1)):'),
    ('no hole within an hour', 'hours.py',
     'if not follows(earlier[2], later[2]):',
     'if not follows(earlier[2], later[2]) and earlier[1] < later[1]:'),
    ('a 1 does not follow', 'hours.py', ' or count == 1\n', '\n'),
    ('a 1 follows only where it is no second 1', 'hours.py',
     'or count == 1', 'or count == 1 != before'),
    ('a 1 does not follow 999,999', 'hours.py',
     'or count == 1', 'or count == 1 and before != 999999'),
    ('0 does not follow 999,999', 'hours.py',
     '(before + 1) % (journal.COUNT + 1)', 'before + 1'),
    ('0 follows 999,998', 'hours.py',
     '(before + 1) % (journal.COUNT + 1)', '(before + 1) % journal.COUNT'),
    ('0 follows anything', 'hours.py', 'or count == 1', 'or count in (0, 1)'),
    ('a 2 follows anything', 'hours.py', 'or count == 1', 'or count in (1, 2)'),
    ('an equal count follows', 'hours.py',
     'or count == 1', 'or count in (1, before)'),
    ('a count that goes back follows', 'hours.py',
     'or count == 1', 'or count == 1 or count < before'),
    ('a greater count follows', 'hours.py',
     'or count == 1', 'or count == 1 or count > before'),
    ('a single lost line forgiven', 'hours.py',
     'or count == 1', 'or count in (1, before + 2)'),
    ('the first D line tested', 'hours.py',
     'zip(doses, doses[1:])', "zip([('D', doses[0][1], 0)] + doses if doses else [], doses)"),
    ('the second D line not tested', 'hours.py',
     'zip(doses, doses[1:])', 'zip(doses[1:], doses[2:])'),
    ('the last D line not tested', 'hours.py',
     'zip(doses, doses[1:])', 'zip(doses, doses[1:-1])'),
    ('a last line not tested', 'hours.py',
     'zip(doses, doses[1:])', 'zip(doses, [later for later in doses[1:] '
     'if later is not lines[-1]])'),
    ('an H between mends a hole', 'hours.py',
     "doses = [line for line in lines if line[0] == 'D']\n"
     '    for earlier, later in zip(doses, doses[1:]):\n',
     "for earlier, later in zip(lines, lines[1:]):\n"
     "        if 'H' in (earlier[0], later[0]): continue\n"),
    ('an H of its own mends an idle hour in a hole', 'hours.py',
     'if in_hole or not has_h:', 'if in_hole and amounts or not has_h:'),
    ('held against the last count that followed', 'hours.py',
     '    for earlier, later in zip(doses, doses[1:]):\n'
     '        if not follows(earlier[2], later[2]):\n'
     '            yield earlier[1], later[1]\n',
     '    good = doses[0][2] if doses else 0\n'
     '    for earlier, later in zip(doses, doses[1:]):\n'
     '        if follows(good, later[2]):\n'
     '            good = later[2]\n'
     '        else:\n'
     '            yield earlier[1], later[1]\n'),
    ('only the first hole', 'hours.py',
     '            yield earlier[1], later[1]\n',
     '            yield earlier[1], later[1]\n            return\n'),
    ('a hole to the end', 'hours.py',
     'yield earlier[1], later[1]', 'yield earlier[1], lines[-1][1]'),
    ('a hole refused', 'hours.py',
     'yield earlier[1], later[1]', 'raise Refused(10, 0)\n            yield'),

    # The week sheet.
    ('a first hour of 9,999,833', 'week.py', 'GREATEST = 9999832', 'GREATEST = 9999833'),
    ('a first hour of 9,999,832 refused', 'week.py',
     'GREATEST = 9999832', 'GREATEST = 9999831'),
    ('any hour a first hour', 'week.py', 'GREATEST = 9999832', 'GREATEST = 9999999'),
    ("R21 before the journal's own", 'week.py',
     '    known = hours.of(', '    first_hour(line)\n    known = hours.of('),
    ('R21 with line 1', 'week.py', 'Refused(21, 0)', 'Refused(21, 1)'),
    ('R10 for a bad first line', 'week.py', 'Refused(21, 0)', 'Refused(10, 1)'),
    ('the first line counted', 'week.py',
     '(refused.number, refused.detail[0])',
     '(refused.number, refused.detail[0] + (refused.number < 13))'),
    ('the first line counted in R13', 'week.py',
     'stream.read(journal.LONGEST + 1)',
     "stream.read(journal.LONGEST + 1) + b'x' * (len(line) > 8 and 70000)"),
    ('the journal cut at 65,536 bytes', 'week.py',
     'stream.read(journal.LONGEST + 1)', 'stream.read(journal.LONGEST)'),
    ('leading zeros of the first hour taken', 'week.py',
     'journal.number(line)', "journal.number(line.lstrip(b'0') or line)"),
    ('a CR after the first hour taken', 'week.py',
     'journal.number(line)', "journal.number(line.rstrip(b'\\r'))"),
    ('a tab after the first hour taken', 'week.py',
     'journal.number(line)', "journal.number(line.rstrip(b'\\t'))"),
    ('blanks around the first hour taken', 'week.py',
     'journal.number(line)', 'journal.number(line.strip())'),
    ('an empty first line is hour 0', 'week.py',
     'journal.number(line)', "journal.number(line or b'0')"),
    ('a first line without LF taken', 'week.py',
     "    if not part:\n        return None, b''\n",
     "    if not line:\n        return None, b''\n"),
    ('a long first line cut', 'week.py',
     'LONGEST = 8 ', 'LONGEST = 4 '),
    ('a long first line is no line', 'week.py',
     "    while part and part[-1:] != b'\\n':\n", '    while False:\n'),
    ('days of 23 hours', 'week.py', 'DAYS, HOURS = 7, 24', 'DAYS, HOURS = 7, 23'),
    ('days of 25 hours', 'week.py', 'DAYS, HOURS = 7, 24', 'DAYS, HOURS = 7, 25'),
    ('six days', 'week.py', 'DAYS, HOURS = 7, 24', 'DAYS, HOURS = 6, 24'),
    ('days from 1', 'week.py', 'yield (number,)', 'yield (number + 1,)'),
    ('days of the calendar', 'week.py',
     'begin = first + HOURS * number', 'begin = first - first % 24 + HOURS * number'),
    ('hours from the one after the first', 'week.py',
     'begin = first + HOURS', 'begin = first + 1 + HOURS'),
    ('hours outside the journal idle', 'week.py',
     '([], False, False))', '([], True, False))'),
    ('a holiday with a missing hour', 'week.py',
     "kinds == ['I'] * HOURS", "'I' in kinds"),
    ('a holiday with an hour idle at its start', 'week.py',
     "kinds == ['I'] * HOURS", "kinds[0] == 'I'"),
    ('a dark day is a holiday', 'week.py', "kinds == ['I'] * HOURS", 'True'),
    ('a holiday with one hour missing', 'week.py',
     "kinds == ['I'] * HOURS", "kinds.count('I') >= 23"),
    ('no holiday', 'week.py', "kinds == ['I'] * HOURS", 'False'),
    ('unknown with a missing hour', 'week.py',
     '    if measured:\n', "    if measured and 'X' not in kinds:\n"),
    ('worked only with a sum', 'week.py',
     '    if measured:\n', '    if sum(map(sum, measured)):\n'),
    ('worked wherever a dose is', 'week.py',
     '    if measured:\n', '    if any(hour[0] for hour in seen):\n'),
    ('idle hours covered', 'week.py', 'told, len(measured),',
     "told, sum(kind != 'X' for kind in kinds),"),
    ('every hour covered', 'week.py', 'told, len(measured),', 'told, HOURS,'),
    ('doses for hours', 'week.py', 'told, len(measured),', 'told, sum(map(len, measured)),'),
    ('a sum over missing hours too', 'week.py',
     'sum(map(sum, measured))', 'sum(sum(hour[0]) for hour in seen)'),
    ('a sum of 32 bits', 'week.py',
     'sum(map(sum, measured))', 'sum(map(sum, measured)) % 2**32'),
    ('the largest hour for the sum', 'week.py',
     'sum(map(sum, measured))', 'max(map(sum, measured), default=0)'),
    ('holes forgotten', 'week.py',
     'hours.kind(*hour)', 'hours.kind(hour[0], hour[1], False)'),
    ('an empty journal prints nothing', 'week.py',
     '    rows = days(', "    if not known: return b''\n    rows = days("),

    # The program.
    ('a line of 4,097 bytes taken', 'replay.py',
     'LONGEST_LINE = 4096', 'LONGEST_LINE = 4097'),
    ('-0 taken', 'replay.py', "rb'0|-?[1-9]", "rb'-?0|-?[1-9]"),
    ('lower-case hex taken', 'replay.py', '[0-9A-F]{2}', '[0-9A-Fa-f]{2}'),
    ('a last line without LF taken', 'replay.py',
     "        if line[-1:] != b'\\n':\n            return\n"
     "        yield None if long else line[:-1]",
     "        if not line:\n            return\n"
     "        yield None if long else line.rstrip(b'\\n')"),

    # From samples to a journal.
    ('no V line', 'record.py', '                yield journal.V\n', ''),
    ('V with the first line that it adds', 'record.py',
     '                yield journal.V\n', '@                yield record.take(line)\n@'
     '                text = record.take(line)\n'
     "                if text and not hasattr(record, 'v'):\n"
     '                    record.v, text = 1, journal.V + text\n'
     '                yield text\n'),
    ('V before a refused first line', 'record.py',
     '    record = None\n    try:\n', '    record = None\n    try:\n        yield journal.V\n@'
     '                yield journal.V\n@'),
    ('V again after a restart', 'record.py',
     '            self.known = True\n',
     '            self.known = True\n            return journal.V\n'),
    ('record without the product', 'record.py',
     'dose = tuple(map(int, answer[2:]))', 'dose = tuple(map(int, answer[2:5])) + (0,)'),
    ("the dose's hour from the tick after", 'record.py',
     'return self.tick(answer',
     "text = self.tick(answer.split('\\t'))\n"
     "            return text.replace(b'D\\t%d' % (self.hour - 1), "
     "b'D\\t%d' % self.hour)\n            return self.tick(answer"),
    ('H before D', 'record.py',
     'text += self.end_hour()', 'text = self.end_hour() + text'),
    ('no dose on the last tick of an hour', 'record.py',
     'text += self.end_hour()', 'text = self.end_hour()'),
    ('R1 counted', 'record.py', " and answer[0] != 'R'", ''),
    ('a tick in a fault not counted', 'record.py',
     "answer[0] != 'R'", "answer[0] not in 'RF'"),
    ('a restart never breaks an hour', 'record.py',
     'if self.gone > 0:', 'if False:'),
    ("a restart at the hour's start breaks it", 'record.py',
     'if self.gone > 0:', 'if True:'),
    ('a restart after the first tick forgiven', 'record.py',
     'if self.gone > 0:', 'if self.gone > 1:'),
    ('a restart before the last tick forgiven', 'record.py',
     'if self.gone > 0:', 'if 0 < self.gone < self.ticks - 1:'),
    ('a refused restart breaks the hour', 'record.py',
     "== b'N' and answer == 'A'", "== b'N'"),
    ('a restart mends a broken hour', 'record.py',
     '                self.whole = False\n',
     '                self.whole = False\n            else:\n'
     '                self.whole = True\n'),
    ('any accepted call breaks the hour', 'record.py',
     "line[:1] == b'N' and answer == 'A'", "answer == 'A'"),
    ('new settings break the hour', 'record.py',
     "line[:1] == b'N'", "line[:1] in b'NS'"),
    ('a line that is no call forgiven', 'record.py',
     'self.whole = self.known = False', 'pass'),
    ("no call forgiven before the hour's first tick", 'record.py',
     'self.whole = self.known = False',
     'self.whole, self.known = self.whole and self.gone == 0, False'),
    ('no call breaks its own hour alone', 'record.py',
     'self.whole = self.known = False', 'self.whole = False'),
    ('no call breaks only what comes before a restart', 'record.py',
     'self.whole = self.known = False', 'self.known = False'),
    ("no call before the hour's first tick leaves the box known", 'record.py',
     'self.whole = self.known = False',
     'self.whole, self.known = False, self.known and self.gone == 0'),
    ('a second line that is no call leaves the box known', 'record.py',
     'self.whole = self.known = False',
     "self.whole, self.known = False, hasattr(self, 'again')@"
     '            self.known = True\n@            self.known = self.again = True\n'),
    ('a restart just before it leaves the box known', 'record.py',
     'self.whole = self.known = False',
     "self.whole, self.known = False, getattr(self, 'last', b'') == b'N'@"
     '        return b\'\'\n@        self.last = line[:1] if line else b\'\'\n'
     '        return b\'\'\n'),
    ('no restart makes the box known', 'record.py',
     '            self.known = True\n', ''),
    ("a restart before the hour's first tick leaves it unknown", 'record.py',
     '            self.known = True\n',
     '            self.known = self.known or self.gone > 0\n'),
    ('a restart between ticks leaves it unknown', 'record.py',
     '            self.known = True\n',
     '            self.known = self.known or self.gone == 0\n'),
    ('a restart before the last tick leaves it unknown', 'record.py',
     '            self.known = True\n',
     '            self.known = self.known or self.gone < self.ticks - 1\n'),
    ('a restart in the hour of the line leaves it unknown', 'record.py',
     '            self.known = True\n',
     '            self.known = self.known or self.whole\n'),
    ('a restart that makes the box known leaves its hour whole', 'record.py',
     'if self.gone > 0:', 'if self.gone > 0 and was:@'
     '            self.known = True\n@            was, self.known = self.known, True\n'),
    ('a refused restart makes the box known', 'record.py',
     "            self.whole = self.known = False\n",
     "            self.whole = self.known = False\n"
     "        elif line[:1] == b'N' and answer != 'A':\n"
     "            self.known = True\n"),
    ('new settings make the box known', 'record.py',
     "            self.whole = self.known = False\n",
     "            self.whole = self.known = False\n"
     "        elif line[:1] == b'S' and answer == 'A':\n"
     "            self.known = True\n"),
    ('any other accepted call makes the box known', 'record.py',
     "            self.whole = self.known = False\n",
     "            self.whole = self.known = False\n"
     "        elif line[:1] in b'LC' and answer == 'A':\n"
     "            self.known = True\n"),
    ('an hour with all its lines makes the box known', 'record.py',
     '        seen = self.whole and self.known\n',
     '        seen = self.whole and self.known\n'
     '        self.known = self.known or self.whole\n'),
    ('an H for a known box', 'record.py', 'self.whole and self.known', 'self.known'),
    ('an H for a whole hour', 'record.py', 'self.whole and self.known', 'self.whole'),
    ('an H for either', 'record.py', 'self.whole and self.known',
     'self.whole or self.known'),
    ('no dose of a box that is not known', 'record.py',
     "if answer[0] == 'D':", "if answer[0] == 'D' and self.known:"),
    ('a long line forgiven', 'record.py',
     "if answer == '?':", "if line is None:\n            pass\n"
     "        elif answer == '?':"),
    ('an empty line forgiven', 'record.py',
     "if answer == '?':", "if line == b'':\n            pass\n"
     "        elif answer == '?':"),
    ('a broken hour breaks the next', 'record.py',
     'self.hour + 1, 0, True', 'self.hour + 1, 0, self.whole'),
    ('an H for every hour', 'record.py', ' if seen else', ' if True else'),
    ('no call counted as a tick', 'record.py',
     '            self.whole = self.known = False\n',
     '            self.whole = self.known = False\n            self.gone += 1\n'),
    ('a line read back written as a dose', 'record.py',
     "elif line[:1] == b'T' and answer[0] != 'R':",
     "elif line[:1] == b'm' and answer[0] == 'D':\n"
     "            return journal.write('D', journal.read_new(\n"
     "                bytes.fromhex(line[2:].decode()))[1:], ROOM)\n"
     "        elif line[:1] == b'T' and answer[0] != 'R':"),
    ('count and amount changed about', 'record.py',
     "dose = tuple(map(int, answer[2:]))",
     "dose = tuple(int(answer[at]) for at in (3, 2, 4, 5))"),
    ('the total for the amount', 'record.py',
     "dose = tuple(map(int, answer[2:]))",
     "dose = (int(answer[2]), self.replay.box.total % 1000, int(answer[4]), int(answer[5]))"),
    ('settled always', 'record.py',
     "dose = tuple(map(int, answer[2:]))",
     "dose = (int(answer[2]), int(answer[3]), 1, int(answer[5]))"),
    ('R10 on writing given with the last H', 'record.py',
     'self.hour, self.gone, self.whole = self.hour + 1, 0, True',
     "if self.hour == 9999999: text += b'R\\t10\\t0\\n'\n"
     '        self.hour, self.gone, self.whole = self.hour + 1, 0, True'),
    ('R10 on writing at the first R1', 'record.py',
     "        if answer == '?':",
     "        if self.hour > 9999999: raise Refused(10, 0)\n"
     "        if answer == '?':"),
    ('R10 on writing only for a line', 'record.py',
     '        if self.hour > journal.HOUR:\n'
     '            raise Refused(10, 0)\n', ''),
    ('R10 on writing with line 1', 'record.py',
     'raise Refused(10, 0)', 'raise Refused(10, 1)'),
    ('the first line a number by Python', 'record.py',
     'hour = None if line is None else journal.number(line)',
     'hour = int(line) if line and line.strip().isdigit() else None'),
    ('an empty first line is hour 0', 'record.py',
     'journal.number(line)', "journal.number(line or b'0')"),
    ('a CR after the first hour taken', 'record.py',
     'journal.number(line)', "journal.number(line.rstrip(b'\\r'))"),
    ('a tab after the first hour taken', 'record.py',
     'journal.number(line)', "journal.number(line.split(b'\\t')[0])"),
    ('leading zeros of the first hour taken', 'record.py',
     'journal.number(line)', "journal.number(line.lstrip(b'0') or line)"),
    ('a sign before the first hour taken', 'record.py',
     'journal.number(line)', "journal.number(line.lstrip(b'+-'))"),
    ('a bad first line is no hour and no end', 'record.py',
     '        raise Refused(10, 1)\n', '        return 0\n'),
    ('a bad first line told as line 0', 'record.py',
     'raise Refused(10, 1)', 'raise Refused(10, 0)'),
    ('lines go on after a refusal', 'record.py',
     "        yield b'R\\t%d\\t%d\\n' % ((refused.number,) + refused.detail)",
     "        yield b'R\\t%d\\t%d\\n' % ((refused.number,) + refused.detail)\n"
     "        yield from written(stream, ticks)"),
    ('an input without a line refused', 'record.py',
     '    except Refused as refused:',
     '        if record is None: raise Refused(10, 1)\n'
     '    except Refused as refused:'),
]


# How the names of the cases begin or end that show a file's rules.
FIRST = {
    'settings.py': ('settings.',), 'box.py': ('al', 'line.', 'faults.', 'wild.'),
    'frames.py': ('frames.',), 'fields.py': ('fields.',),
    'modbus.py': ('modbus.',), 'why.py': ('why.',), 'slave.py': ('.slave',),
    'journal.py': ('.journal', 'journal.'), 'hours.py': ('.journal', '.product'),
    'replay.py': ('malformed.',), 'record.py': ('.record',),
    'week.py': ('.week',), 'product.py': ('.product',),
    'forms.py': ('.renew', '.restore'),
}


def changed(text, old, new):
    """`new` may hold further pairs, parted by @: more text and its
    replacement."""
    new, *more = new.split('@')
    for before, after in [(old, new)] + list(zip(more[::2], more[1::2])):
        if text.count(before) < 1:
            raise SystemExit('no such text: %r' % before)
        text = text.replace(before, after, 1)
    return text


def run(folder, name=''):
    """Tries the cases of a file's rules first.
    0: the outputs are the stored ones; 3: they differ; 1: it fails."""
    child = os.fork()
    if child == 0:
        code = 1
        try:
            signal.alarm(60)
            code = compare(folder, FIRST.get(name, ()))
        finally:
            os._exit(code)
    return os.waitstatus_to_exitcode(os.waitpid(child, 0)[1])


def cases(first):
    """Name and bytes of each stored case, those that begin or end so first, then
    the small ones; the input of the program `record` is one."""
    paths = {name: os.path.join(CASES, name) for name in os.listdir(CASES)}
    paths['stdin.record'] = os.path.join(ROOT, 'crates', 'record', 'stdin')
    for name in sorted(paths, key=lambda name: (
            not (name.startswith(first) or name.endswith(first)),
            os.path.getsize(paths[name]), name)):
        with open(paths[name], 'rb') as file:
            yield name, file.read()


def outputs(first=()):
    """Name and output of each case. An hour of the lines of `record` has 100
    ticks too, since no case has 450,000."""
    from second import (hours, journals, product, record, renew, replay, restore, slave,
                        week)
    for name, data in cases(first):
        if name.endswith('.journal'):
            yield name, hours.printed(data)
        elif name.endswith('.week'):
            yield name, week.printed(io.BytesIO(data))
        elif name.endswith('.product'):
            yield name, product.printed(io.BytesIO(data))
        elif name.endswith('.renew'):
            yield name, renew.printed(data)
        elif name.endswith('.restore'):
            yield name, restore.printed(data)
        elif name.endswith('.slave'):
            yield name, slave.in_packets(data)
        elif name.endswith('.record'):
            for ticks in (record.TICKS, 100):
                yield '%s-%d' % (name, ticks), b''.join(
                    record.written(io.BytesIO(data), ticks))
        else:
            yield name, b''.join(replay.answered(io.BytesIO(data)))
    for size in (65536, 65537):
        text = journals.exact(random.Random(1), size)
        yield 'exact-%d' % size, hours.printed(text)


def compare(folder, first):
    """Runs the cases through a folder's package. The first run stores its
    outputs, a later one ends at the first case that differs."""
    sys.path.insert(0, folder)
    for name, output in outputs(first):
        path = os.path.join(folder, name + '.out')
        if not os.path.exists(path):
            with open(path, 'wb') as file:
                file.write(output)
        with open(path, 'rb') as file:
            if file.read() != output:
                return 3
    return 0


def mutated(folder, name, old, new):
    path = os.path.join(folder, 'second', name)
    with open(path) as file:
        text = file.read()
    with open(path, 'w') as file:
        file.write(changed(text, old, new))
    try:
        return run(folder, name)
    finally:
        with open(path, 'w') as file:
            file.write(text)


def main(files):
    folder = tempfile.mkdtemp()
    chosen = [mutant for mutant in MUTANTS if not files or mutant[1] in files]
    missed = 0
    try:
        shutil.copytree(os.path.join(ROOT, 'second'),
                        os.path.join(folder, 'second'))
        if run(folder) != 0 or run(folder) != 0:
            raise SystemExit('the unchanged one does not run')
        for rule, name, old, new in chosen:
            code = mutated(folder, name, old, new)
            missed += code != 3
            print('%s\t%s' % ({3: 'noticed', 0: 'MISSED'}.get(code, 'BROKEN'),
                              rule), flush=True)
    finally:
        shutil.rmtree(folder)
    print('%d rules changed, %d not noticed' % (len(chosen), missed))
    return 1 if missed else 0


if __name__ == '__main__':
    sys.dont_write_bytecode = True
    sys.exit(main(sys.argv[1:]))
