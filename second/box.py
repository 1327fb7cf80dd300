"""The controller: settings, counters, ticks and line requests."""

from second import fields, frames, modbus, settings
from second.refusal import Refused

READY, FILL, FINE, HOLD, SETTLE, DISCHARGE, LOAD, CALM, FAULT = range(9)


def mean(samples, n):
    """The mean of the last n samples (of those held, if fewer), rounded to
    the nearest whole number, a half away from zero. Of four or more one largest
    and one smallest are left out of it."""
    taken = samples[-n:]
    total, number = sum(taken), len(taken)
    if number >= 4:
        total, number = total - max(taken) - min(taken), number - 2
    nearest = (2 * abs(total) + number) // (2 * number)
    return nearest if total >= 0 else -nearest


class Box:
    """Making one is a restart; a refused restart makes none."""

    def __init__(self, s=settings.DEFAULT, count=0, total=0):
        settings.check(s)
        # R15: stored count above 999,999 or total above 999,999,999.
        if count > 999999 or total > 999999999:
            raise Refused(15)
        self.count, self.total = count, total
        self.link = 0
        self.inputs = 0
        self.outputs = 0
        self.take(s)

    def take(self, s):
        """Empties the filter, puts Z to 0, clears the runs."""
        self.s = s
        self.samples = []
        self.Z = 0
        self.F = None
        self.S = 0
        self.runs = [0, 0, 0]
        self.phase = READY
        self.rested = False

    # Calls beside the tick.

    def set_settings(self, s):
        """R3 before R2."""
        self.need_ready()
        settings.check(s)
        self.take(s)

    def set_link(self, link):
        """At any time, also in a fault."""
        self.link = link

    def reset_counters(self):
        self.need_ready()
        self.count = self.total = 0

    def counters(self):
        return self.count, self.total

    def need_ready(self):
        """R3: not in Ready. A fault counts as not Ready."""
        if self.phase != READY:
            raise Refused(3)

    # The tick.

    def tick(self, sample, inputs):
        """('O', outputs), ('D', outputs, count, amount, settled, product) or
        ('F', number, channel)."""
        if inputs > 15:
            raise Refused(1)
        if self.phase == FAULT:
            return self.fault
        self.inputs = inputs
        if not -900000 <= sample <= 900000:
            return self.fail(21, 0)
        self.filter(sample)
        channel = self.mismatch()
        if channel:
            return self.fail(14, channel)
        before, began = self.outputs, self.phase
        dose = self.phase_rule()
        # Of a tick this alone is remembered: began and ended in Ready, start off.
        self.rested = began == self.phase == READY and not self.start
        self.put(4, self.w > self.s.C + 9)
        # If an output 1 to 3 changed, S becomes 0.
        if (before ^ self.outputs) & 7:
            self.S = 0
        if dose is None:
            return 'O', self.outputs
        return ('D', self.outputs) + dose

    def filter(self, sample):
        """The sample is kept; F and the calm run S."""
        self.samples.append(sample)
        del self.samples[:-128]
        # n is p7 if output 1 was open before the tick, else p8.
        n = self.s.p7 if self.is_open(1) else self.s.p8
        F = mean(self.samples, n)
        self.S = min(self.S + 1, 4032) if F == self.F else 0
        self.F = F

    @property
    def w(self):
        return self.F - self.Z

    @property
    def stable(self):
        return self.S >= 64 * self.s.p9

    @property
    def start(self):
        """Input 4 or the link start; in AL3 the link start alone."""
        if self.s.algorithm == 3:
            return self.link
        return self.link or self.inputs >> 3 & 1

    def mismatch(self):
        """The lowest channel whose run of mismatches reached 64, else 0."""
        if self.s.algorithm == 0:
            return 0
        levels = self.s.in1, self.s.in2, self.s.in3
        for i in range(3):
            # The expected input equals the output at level 1 and its
            # opposite at level 0.
            output = self.outputs >> i & 1
            expected = output if levels[i] == 1 else 1 - output
            met = (self.inputs >> i & 1) == expected
            self.runs[i] = 0 if met else self.runs[i] + 1
        return self.runs.index(64) + 1 if 64 in self.runs else 0

    def fail(self, number, channel):
        """A fault ends the tick, closes outputs 1 to 3, turns output 4 on."""
        self.phase = FAULT
        self.fault = 'F', number, channel
        self.outputs = 8
        return self.fault

    def is_open(self, output):
        return self.outputs >> output - 1 & 1

    def put(self, output, on):
        bit = 1 << output - 1
        self.outputs = self.outputs | bit if on else self.outputs & ~bit

    # The phase rules. Each answers a dose (count, amount, settled, product) or
    # None.

    def phase_rule(self):
        return self.RULES[self.s.algorithm // 2][self.phase](self)

    def ready_01(self):
        if not self.start:
            return
        if -self.s.M < self.F < self.s.M:
            self.Z = self.F
        self.w0 = self.w
        self.phase = FILL
        self.fill()

    def ready_23(self):
        # AL3 is AL2, but in Ready nothing happens without start.
        if self.s.algorithm == 3 and not self.start:
            return
        if self.w < self.s.D:
            self.put(3, 1)
            self.phase = LOAD
        elif self.start:
            self.wH = self.w
            self.phase = FILL
            self.fill()

    def fill(self):
        """Fill of AL0 and AL1, Dose of AL2 and AL3: FILL is the coarse
        stage, FINE the fine one."""
        s = self.s
        # Start off during Fill closes both, Ready; looked at before the
        # weight.
        if s.algorithm == 0 and not self.start:
            self.gates(0, 0)
            self.phase = READY
            return
        reached = self.reached
        if reached >= s.D - s.Pf:
            self.gates(0, 0)
            self.enter(HOLD if s.algorithm == 0 else SETTLE)
        elif self.phase == FINE or reached >= s.D - s.Pc:
            self.gates(0, 1)
            self.phase = FINE
        else:
            # Dose has 1 and 2 both open in the coarse stage.
            self.gates(1, s.o if s.algorithm in (0, 1) else 1)

    @property
    def reached(self):
        """Dose uses wH-w where AL1 uses w."""
        return self.w if self.s.algorithm in (0, 1) else self.wH - self.w

    def gates(self, coarse, fine):
        self.put(1, coarse)
        self.put(2, fine)

    def enter(self, phase):
        """The tick that enters is number 0."""
        self.phase = phase
        self.number = 0

    def settle_ends(self):
        """On the first later tick that is stable or is number 256*p9."""
        self.number += 1
        return self.stable or self.number == 256 * self.s.p9

    def hold(self):
        """Until start goes off, then Ready."""
        if not self.start:
            self.phase = READY

    def settle_1(self):
        if self.settle_ends():
            self.wS = self.w
            self.settled = int(self.stable)
            self.put(3, 1)
            self.phase = DISCHARGE

    def discharge(self):
        if self.w < self.s.M:
            self.put(3, 0)
            wE = self.w
            self.phase = READY
            return self.complete(self.wS - (self.w0 if self.s.p11 else wE),
                                 self.settled)

    def load(self):
        if self.w >= self.s.M:
            self.put(3, 0)
            self.enter(CALM)

    def calm(self):
        if self.settle_ends():
            self.phase = READY

    def settle_23(self):
        if self.settle_ends():
            self.phase = READY
            return self.complete(self.wH - self.w, int(self.stable))

    def complete(self, amount, settled):
        """0 follows 999,999; the total wraps after 999,999,999."""
        amount = max(amount, 0)
        self.count = (self.count + 1) % 1000000
        self.total = (self.total + amount) % 1000000000
        return self.count, amount, settled, self.s.product

    # AL0 and AL1, then AL2 and AL3.
    RULES = (
        {READY: ready_01, FILL: fill, FINE: fill, HOLD: hold,
         SETTLE: settle_1, DISCHARGE: discharge},
        {READY: ready_23, FILL: fill, FINE: fill, SETTLE: settle_23,
         LOAD: load, CALM: calm},
    )

    # On the line.

    def request(self, data, room):
        """The place of the second closing FF and the reply's frame. Order:
        R9, R6, R5, R7, R3, R4, R8."""
        place, body = frames.read(data)
        try:
            return place, self.answer(body, room)
        except Refused as refused:
            raise Refused(refused.number, place)

    def answer(self, body, room):
        length = frames.address_length(body)
        address, code, data = body[:length], body[length], body[length + 1:-1]
        self.need_address(address)
        # R7: other operation code, or data present.
        if code not in (0xC0, 0xC2, 0xC3, 0xC4, 0xC5) or data:
            raise Refused(7)
        if code == 0xC0:
            self.need_zeroing()
        frame = frames.write(address + bytes([code]) + self.told(code), room)
        if code == 0xC0:
            self.Z = mean(self.samples, self.s.p8)
        return frame

    def need_address(self, address):
        """R5: address not ours. Serial bytes come low first."""
        if len(address) == 4:
            ours = self.s.serial.to_bytes(3, 'little') == address[1:]
        else:
            ours = self.s.address == address[0]
        if not ours:
            raise Refused(5)

    def need_zeroing(self):
        """R3, then R4: in AL2 or AL3, with no sample, or without
        -M < F < M."""
        self.need_ready()
        if self.s.algorithm in (2, 3) or not self.samples:
            raise Refused(4)
        if not -self.s.M < mean(self.samples, self.s.p8) < self.s.M:
            raise Refused(4)

    def told(self, code):
        """The data of the reply."""
        if code == 0xC2:
            return self.weight_field(self.s.p7)
        if code == 0xC3:
            return self.weight_field(self.s.p8)
        if code == 0xC4:
            return bytes([self.inputs])
        if code == 0xC5:
            return bytes([self.outputs])
        return b''

    def weight_field(self, n):
        """While no sample is held weight and both flags are 0."""
        if not self.samples:
            return fields.write(0, 0, 0, self.s.point)
        weight = self.weight(n)
        over = weight > self.s.C + 9
        return fields.write(weight, self.stable, over, self.s.point)

    def weight(self, n):
        """The weight by n samples, 0 while none is held."""
        return mean(self.samples, n) - self.Z if self.samples else 0

    # MODBUS.

    def modbus(self, frame, room):
        """The reply, nothing to a good write to address 0; R17, then R8."""
        reply, link = modbus.served(frame, self.s.address, self.registers())
        if len(reply) > room:
            raise Refused(8)
        if link is not None:
            self.set_link(link)
        return reply

    def registers(self):
        """0-1 the C3 weight, 2-3 the C2 weight, 4 inputs, 5 outputs, 6-7 count,
        8-9 total, 10 link start."""
        return (modbus.single(self.weight(self.s.p8)) +
                modbus.single(self.weight(self.s.p7)) +
                [self.inputs, self.outputs] +
                modbus.double_word(self.count) + modbus.double_word(self.total) +
                [self.link])
