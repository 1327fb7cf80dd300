"""Hours of ticks for `record`: a weigher at work, and quiet hours with
something at their ends."""

from second import calls, hopper, record
from second.box import FAULT, READY
from second.replay import Replay
from second.settings import Settings

# Some ticks alike in Ready without start: one more changes nothing.
AT_REST = 4200


def no_call(rng, line):
    """A line that is no call in a tick's place."""
    return rng.choice([line[:-2], line + b'\r', line.replace(b'\t', b' '),
                       b'\0' * 9, b'', line * 1000])


class Weigher:
    """A box and its hopper, and the lines that they make."""

    def __init__(self, rng, s, tank, ticks=record.TICKS):
        self.rng, self.s, self.tank = rng, s, tank
        self.ticks = ticks          # of an hour
        self.done = 0               # ticks since the start
        self.replay = Replay()
        self.known = True           # no line that is no call since the last restart
        self.out = []
        self.restart()

    @property
    def box(self):
        return self.replay.box

    def say(self, line):
        self.out.append(line + b'\n')
        if len(line) < 4096:
            return self.replay.answer(line)

    def restart(self):
        """The counters carried over."""
        self.say(calls.restart_line(self.s, *self.box.counters()))
        self.known = True

    def lose(self, line):
        """A line that is no call in its place."""
        self.out.append(no_call(self.rng, line) + b'\n')
        self.known = False

    def tick_line(self, sample, start=0, lie=0):
        inputs = hopper.matching_inputs(self.box.outputs, self.s) ^ lie
        return b'T\t%d\t%d' % (sample, inputs | start)

    def tick(self, start=0, lie=0):
        """One tick of the hopper; lie is a mask of inputs that are wrong."""
        sample = self.tank.sample(self.box.outputs, self.rng)
        self.say(self.tick_line(sample, start, lie))
        self.done += 1

    def quiet(self, number):
        """Ticks without start; at rest they are all alike."""
        while number > 0 and self.box.phase not in (READY, FAULT):
            self.tick()
            number -= 1
        line = self.tick_line(self.tank.weight)
        for _ in range(min(number, AT_REST)):
            self.replay.answer(line)
        self.out.append((line + b'\n') * number)
        self.done += max(number, 0)

    def until(self, place):
        self.quiet(place - self.done)

    def end(self):
        """The place of this hour's end."""
        return (self.done // self.ticks + 1) * self.ticks

    def made(self):
        text, self.out = b''.join(self.out), []
        return text


class Mill(Weigher):
    """A weigher of 1,000.0 kg that doses 500.0 kg. Each shift of eight hours
    works, rests, and has one mishap."""

    SET = Settings(1, 10000, 5000, 600, 60, 20, 8, 32, 1, 0, 0, 1, 1, 1, 1, 0, 1)

    def __init__(self, rng, ticks=record.TICKS):
        Weigher.__init__(self, rng, self.SET, hopper.Hopper(3, 4, 1, 12, 30), ticks)

    def dose(self):
        """One cycle, to its end or a fault; the material varies."""
        self.tank.flight = [0] * self.rng.randint(20, 60)
        self.tank.flow[1] = self.rng.randint(3, 5)
        self.tank.shake = self.rng.choice([1] * 15 + [20])
        for _ in range(30):
            self.tick(8)
        while self.box.phase not in (READY, FAULT):
            self.tick()
        if self.rng.randrange(50) == 0:
            self.say(self.tick_line(self.tank.weight, 16))      # R1

    def work(self, end):
        """Doses and pauses; now and then a dose runs over the end."""
        last = end - self.rng.choice([0, 4000, 4000, 4000])
        while self.done < last:
            self.dose()
            self.quiet(min(self.rng.randint(300, 3000), end - self.done))
        self.until(end)

    def batch(self, end):
        """A few doses somewhere in the hour."""
        self.quiet(self.rng.randint(0, (end - self.done) // 2))
        for _ in range(self.rng.randint(1, 12)):
            if self.done < end - 4000:
                self.dose()
                self.quiet(300)
        self.until(end)

    def power_cut(self, end):
        """A restart in the middle of a dose."""
        self.half(end)
        for _ in range(self.rng.randint(1, 1500)):
            self.tick(8)
        self.renew()
        self.work(end)

    def torn(self, end):
        """A line that is no call; nobody knows the box until its restart."""
        self.half(end)
        self.lose(self.tick_line(self.tank.weight))
        restarted = self.rng.choice(['at once', 'in this hour', 'after it', 'never'])
        if restarted == 'in this hour':
            self.half(end)
        elif restarted == 'after it':
            self.work(end)
        if restarted != 'never':
            self.renew()
        self.work(end)

    def jammed(self, end):
        """F14 until somebody restarts the box."""
        self.half(end)
        for _ in range(70):
            self.tick(8, 1)
        self.quiet(self.rng.randint(0, (end - self.done) // 2))
        self.renew()
        self.work(end)

    def half(self, end):
        self.work(self.done + (end - self.done) // 2)

    def renew(self):
        self.restart()
        self.tank.weight = 0

    def hours(self, number):
        """The first hour is the seventh of a day."""
        yield b'%d\n' % (24 * self.rng.randint(20000, 20999) + 6)
        for _ in range(0, number, 8):
            mishap = self.rng.choice([self.power_cut, self.torn, self.jammed])
            rest = [self.work, self.work, self.batch, self.batch, mishap,
                    self.until, self.until]
            self.rng.shuffle(rest)
            for kind in ([self.work] + rest)[:number]:
                kind(self.end())
                yield self.made()
            number -= 8


class Ends(Weigher):
    """Hours of rest; most that happens is at their ends. A dose takes two
    ticks once it is calm: AL2 with Wf 0."""

    SET = Settings(2, 10, 1, 1, 1, 1, 4, 4, 1, 0, 0, 1, 1, 1, 1, 0, 0)

    def __init__(self, rng, ticks=record.TICKS):
        Weigher.__init__(self, rng, self.SET, hopper.Hopper(4, 0, 0, 0, 0, 5), ticks)

    def doses(self):
        for _ in range(self.rng.randint(1, 6)):
            self.tick(8)

    def refused_restart(self):
        rng = self.rng
        self.say(rng.choice([
            calls.restart_line(self.s._replace(D=0), *calls.counters(rng)),
            calls.restart_line(self.s, *calls.bad_counters(rng))]))

    def refused_tick(self):
        self.say(self.tick_line(5, self.rng.choice([16, 64, 128])))

    def fault(self):
        self.say(self.tick_line(900001))
        self.done += 1

    def lose_tick(self):
        self.lose(self.tick_line(5))

    def damaged(self):
        self.lose_tick()
        if self.rng.randrange(3) == 0:
            self.restart()

    def other(self):
        """Calls that are neither a tick nor a restart."""
        for make in (calls.request_line, calls.modbus_line, calls.why_line,
                     calls.frame_line, calls.reader_line, calls.field_writer_line,
                     calls.field_reader_line, calls.d_line, calls.h_line,
                     calls.one_line, calls.hour_line, calls.text_line):
            self.say(make(self.rng, self.s))
        # A frame may have set the link start.
        for line in (b'L\t0', b'C', b'Q', calls.set_line(self.s)):
            self.say(line)

    def pairs(self):
        """Every event at every place, in any order."""
        made = [(event, place)
                for event in (self.doses, self.restart, self.refused_restart,
                              self.refused_tick, self.fault, self.damaged, self.other)
                for place in (0, 1, 2, self.ticks // 2, self.ticks - 3,
                              self.ticks - 2, self.ticks - 1)]
        self.rng.shuffle(made)
        return made

    def mend(self):
        """Out of a fault, and a box that is known again; or not."""
        if (self.box.phase == FAULT or not self.known) and self.rng.randrange(2):
            self.restart()

    def hour(self, *events):
        """So many events, each at its place."""
        end = self.end()
        for event, place in sorted(events, key=lambda pair: pair[1]):
            self.until(end - self.ticks + place)
            event()
        self.until(end)

    def hours(self, number, others=0):
        """Each pair in turn, with up to so many others beside it. In some the
        last hour there is ends with them, or before."""
        last = 9999999
        first = self.rng.choice([0, last - number + 1, last - number + 1, last,
                                 self.rng.randint(0, last)])
        yield b'%d\n' % first
        left = []
        for _ in range(number):
            left = left or self.pairs()
            more = self.rng.sample(self.pairs(), self.rng.randint(0, others))
            self.mend()
            self.hour(left.pop(), *more)
            yield self.made()
        self.refused_tick()
        self.quiet(self.rng.randint(0, 1))
        yield self.made()

    def lost(self):
        """Eight hours around lines that are no call; the third, the fifth and
        the last are seen in full."""
        within = self.rng.randrange(1, self.ticks)
        yield b'%d\n' % self.rng.randint(0, 9999992)
        for events in ([(self.lose_tick, self.rng.choice([0, within]))],
                       [(self.refused_restart, 0), (self.other, within)],
                       [(self.restart, 0), (self.refused_restart, within)],
                       [(self.lose_tick, 0), (self.restart, self.rng.choice([0, within]))],
                       [(self.doses, within)],
                       [(self.lose_tick, within)],
                       [(self.restart, within)],
                       []):
            self.hour(*events)
            yield self.made()
