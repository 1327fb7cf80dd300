"""The cases of the boundary table that are not marked P, each run on a box:
a name, a tab and what was seen.

python3 -m second.boundary
"""

from second.box import Box
from second.settings import Settings

# AL1, C 1,000, D 500, Pc 100, Pf 20, M 50, p9 1; inputs at level 1.
AL1 = Settings(1, 1000, 500, 100, 20, 50, 4, 4, 1, 0, 0, 1, 1, 1, 1, 0, 0)
START = 8


def true_inputs(box):
    """Inputs that match the outputs."""
    return box.outputs & 7


def at_settle(last):
    """A box on tick 0 of Settle: a second sample of 480 or more after 479s
    brings F to 480 or more, which shuts output 2."""
    box = Box(AL1)
    for sample in [0] + [479] * 8 + [last]:
        box.tick(sample, true_inputs(box) | START)
    assert box.outputs == 2 and box.F == 479
    box.tick(last, true_inputs(box))
    assert box.outputs == 0 and box.F >= 480
    return box


def opens_on(last, sample_of):
    """The tick of Settle on which output 3 opens."""
    box, tick = at_settle(last), 0
    while not box.outputs & 4:
        tick += 1
        box.tick(sample_of(tick), true_inputs(box))
    return tick


def mismatched(number):
    """What the last of so many mismatches in a row answers."""
    box = Box(AL1)
    for _ in range(number):
        answer = box.tick(0, 1)
    return 'F%d' % answer[1] if answer[0] == 'F' else 'goes on'


def alarm(over):
    """Output 4 with w at C and so much over."""
    box = Box(AL1)
    box.tick(AL1.C + over, 0)
    return 'alarm' if box.outputs & 8 else 'no alarm'


def cases():
    yield 'settle, F constant', opens_on(480, lambda tick: 480)
    yield 'settle, F changing', opens_on(600, lambda tick: 601 + tick)
    yield 'mismatches 63', mismatched(63)
    yield 'mismatches 64', mismatched(64)
    yield 'w C+9', alarm(9)
    yield 'w C+10', alarm(10)


def main():
    for name, seen in cases():
        print('%s\t%s' % (name, seen))


if __name__ == '__main__':
    main()
