"""Makes input for `replay`, `record`, `slave`, `hours`, `week`, `product`, `renew`
and `restore` from a seed.

python3 -m second.generate replay SEED [LINES]
python3 -m second.generate record SEED [HOURS]      a weigher at work
python3 -m second.generate minutes SEED [MINUTES]   the same, for less than an hour
python3 -m second.generate ends SEED [HOURS]        hours with something at their ends
python3 -m second.generate lost SEED                hours around lines that are no call
python3 -m second.generate slave SEED [FRAMES]       reads of `slave`, a line of hex each
python3 -m second.generate journal SEED [KIND]
python3 -m second.generate week SEED KIND           a first hour and such a journal
python3 -m second.generate product SEED KIND        a product and such a journal
python3 -m second.generate renew SEED KIND          a journal, most of the old form
python3 -m second.generate restore SEED KIND        a journal, most of the new form
python3 -m second.generate kinds [renew|restore]
"""

import random
import sys

from second import both_forms, box, calls, hopper, journals, weigher
from second.replay import Replay

MINUTE = 7500       # ticks


class Maker:
    """Runs the box beside the lines it makes, so that the weight follows
    the gates."""

    def __init__(self, seed):
        self.rng = random.Random(seed)
        self.replay = Replay()
        self.out = []

    def say(self, line):
        self.out.append(line)
        if len(line) < 4096:
            return self.replay.answer(line)

    @property
    def box(self):
        return self.replay.box

    def chance(self, one_in):
        return self.rng.randrange(one_in) == 0

    def renew(self):
        """New settings where they are taken, else a restart."""
        rng = self.rng
        s = calls.good_settings(rng)
        if self.box.phase == box.READY and self.chance(2):
            self.say(calls.set_line(s))
        else:
            self.say(calls.restart_line(s, *calls.counters(rng)))

    def other(self):
        """Any call but the tick."""
        rng, pick = self.rng, self.rng.randrange(20)
        if pick == 0:
            self.say(calls.set_line(calls.bad_settings(rng)))
        elif pick == 1:
            self.say(calls.restart_line(calls.bad_settings(rng),
                                        *calls.counters(rng)))
        elif pick == 2:
            self.say(calls.restart_line(calls.any_settings(rng),
                                        *calls.bad_counters(rng)))
        elif pick == 3:
            self.say(b'C')
        elif pick == 4:
            self.say(b'Q')
        elif pick == 5:
            self.say(calls.line('L', rng.randint(0, 1)))
        else:
            self.say(rng.choice(calls.OTHER)(rng, self.box.s))

    def zeroing(self):
        """C0 and the weight before and after it."""
        s = self.box.s
        for code in (0xC3, 0xC0, 0xC3, 0xC2):
            frame = calls.framed(calls.checked(bytes([s.address, code])))
            self.say(calls.line('B', frame, self.rng.choice([64, 64, 64, 13, 5])))

    def scene(self):
        """One set of settings and some hundred ticks under it."""
        rng = self.rng
        self.renew()
        self.hopper = hopper.for_settings(self.box.s, rng)
        self.stuck = 0              # a mask of inputs that lie
        self.starting = rng.choice([0, 8])
        self.say(calls.line('L', rng.choice([0, 1, 1])))
        left = rng.choice([50, 400, 1500]) if self.box.s.p9 < 63 else 6000
        while left > 0:
            self.mood()
            self.tick()
            if self.chance(25):
                self.other()
            if self.chance(10):
                self.say(calls.why_line(rng, self.box.s))
            if self.chance(50):
                self.say(calls.modbus_line(rng, self.box.s))
            if self.chance(150):
                self.zeroing()
            left -= 50 if self.box.phase == box.FAULT else 1

    def mood(self):
        """Quiet or shaking, start on or off, an input stuck."""
        rng, s = self.rng, self.box.s
        if self.chance(60):
            self.hopper.shake = rng.choice([0] * 8 + [1, 2 * s.p8, 20 * s.p8])
        if self.chance(120):
            self.starting ^= 8
        if self.chance(30 if self.stuck else 600):
            self.stuck = rng.choice([0, 1, 2, 4, 6, 7])
        if self.chance(300):
            self.hopper.weight = rng.choice([0, s.D, s.C + 9, s.C + 10, -s.M,
                                             s.M - 1, -20])

    def tick(self):
        rng, outputs = self.rng, self.box.outputs
        sample = self.hopper.sample(outputs, rng)
        inputs = hopper.matching_inputs(outputs, self.box.s) ^ self.stuck
        inputs |= self.starting
        if self.chance(400):
            inputs = rng.choice([16, 255, rng.randrange(256)])
        if self.chance(4000):
            sample = rng.choice([900000, 900001, -900000, -900001, 2147483647])
        self.say(calls.line('T', sample, inputs))

    def make(self, lines):
        while len(self.out) < lines:
            self.scene()
            yield from self.out[:lines]
            lines -= len(self.out)
            self.out = []


def replay(seed, lines=10000):
    for line in Maker(seed).make(lines):
        yield line + b'\n'


def record(seed, hours=1):
    return weigher.Mill(random.Random(seed)).hours(hours)


def ends(seed, hours=1):
    """One thing an hour for an odd seed; 49 hours have them all."""
    return weigher.Ends(random.Random(seed)).hours(hours, 0 if seed % 2 else 2)


def lost(seed):
    return weigher.Ends(random.Random(seed)).lost()


def minutes(seed, number=3):
    """The first hour, a restart and the ticks."""
    mill = weigher.Mill(random.Random(seed), number * MINUTE)
    lines = b''.join(mill.hours(1)).splitlines(True)
    return lines[:2 + number * MINUTE]


def slave(seed, frames=200):
    """A script in packets of any length, an empty line, frames; for an odd seed
    the first frame stands right behind the empty line."""
    maker = Maker(seed)
    rng = maker.rng
    script = b''.join(line + b'\n' for line in maker.make(rng.choice([1, 300])) if line)
    made = [calls.modbus_bytes(rng, maker.box.s) for _ in range(frames)]
    script += b'\n' + (made.pop() if seed % 2 else b'')
    while script:
        length = rng.choice([1, 50, rng.randint(1, 2000)])
        made.insert(0, script[-length:])
        script = script[:-length]
    return [packet.hex().upper().encode() + b'\n' for packet in made if packet]


MADE = {'replay': replay, 'record': record, 'minutes': minutes, 'ends': ends,
        'lost': lost, 'slave': slave}


def main(words):
    write = sys.stdout.buffer.write
    if words[:1] == ['kinds']:
        kinds = both_forms.KINDS[words[1]] if words[1:] else journals.KINDS
        write(''.join(kind + '\n' for kind in kinds).encode())
    elif words and words[0] in MADE:
        for text in MADE[words[0]](*map(int, words[1:])):
            write(text)
    elif words[:1] == ['journal']:
        rng = random.Random(int(words[1]))
        write(journals.make(rng, *words[2:3]))
    elif words[:1] == ['week']:
        write(journals.week(random.Random(int(words[1])), words[2]))
    elif words[:1] == ['product']:
        write(journals.one_product(random.Random(int(words[1])), words[2]))
    elif words and words[0] in both_forms.KINDS:
        write(both_forms.make(random.Random(int(words[1])), words[0], words[2]))
    else:
        sys.exit(__doc__)


if __name__ == '__main__':
    main(sys.argv[1:])
