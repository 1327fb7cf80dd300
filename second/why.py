"""Why an output is as it is after the last tick."""

from second.box import (CALM, DISCHARGE, FAULT, FILL, FINE, HOLD, LOAD, READY,
                        SETTLE)
from second.refusal import Refused

NAMES = {READY: 'Ready', SETTLE: 'Settle', DISCHARGE: 'Discharge', LOAD: 'Load',
         CALM: 'Calm'}


def why(box, output):
    """The first that holds; R19: an output number outside 1..4."""
    if not 1 <= output <= 4:
        raise Refused(19)
    if output == 4:
        return fault(box, 4) or alarm(box)
    for reason in (is_open, fault, unused, no_start, settling, lead):
        told = reason(box, output)
        if told:
            return told
    return phase(box)


def alarm(box):
    """Overload exactly while output 4 is on without a fault."""
    return ('overload',) if box.is_open(4) else ('noalarm',)


def is_open(box, output):
    return ('open',) if box.is_open(output) else None


def fault(box, output):
    """Number and channel, 0 for F21."""
    return ('fault',) + box.fault[1:] if box.phase == FAULT else None


def unused(box, output):
    """3 in AL0."""
    return ('unused',) if output == 3 and box.s.algorithm == 0 else None


def no_start(box, output):
    """The last tick, no set or restart since, began and ended in Ready with
    start off; not for output 3 in AL2."""
    if box.rested and not (output == 3 and box.s.algorithm == 2):
        return ('nostart',)


def settling(box, output):
    """3 in AL1's Settle: ticks gone and allowed."""
    if output == 3 and box.s.algorithm == 1 and box.phase == SETTLE:
        return 'settling', box.number, 256 * box.s.p9


def lead(box, output):
    """w, in AL2 and AL3 wH-w, and the limit: Wc for 1 in the fine stage, Wf for
    1 or 2 in Settle or AL0's hold."""
    if output == 1 and box.phase == FINE:
        return 'lead', box.reached, box.s.D - box.s.Pc
    if output in (1, 2) and box.phase in (SETTLE, HOLD):
        return 'lead', box.reached, box.s.D - box.s.Pf


def phase(box):
    """Fill for AL0 and AL1, Dose for AL2 and AL3, in either stage."""
    if box.phase in (FILL, FINE):
        return 'phase', 'Fill' if box.s.algorithm in (0, 1) else 'Dose'
    return 'phase', NAMES[box.phase]
