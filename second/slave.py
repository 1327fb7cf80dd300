"""MODBUS frames to a box that a script has set up: the lines of `replay` up to
an empty line, then a frame a read; prints the replies.

python3 -m second.slave
"""

import os
import sys

from second.refusal import Refused
from second.replay import LONGEST_LINE, Replay

BLOCK = 65536       # what a read of the script may bring, with what is held
FRAME = 257         # what a read after the empty line may bring
ROOM = 256          # more than any reply


def set_up(read):
    """The box after the lines of the script, and what came behind the empty
    line in the same read; None and nothing where no empty line comes."""
    replay, held, long = Replay(), b'', False
    while True:
        more = read(BLOCK - len(held))
        if not more:
            return None, b''
        held += more
        while b'\n' in held:
            line, _, held = held.partition(b'\n')
            if not line and not long:
                return replay.box, held
            if not long and len(line) < LONGEST_LINE:
                replay.answer(line)
            long = False
        if len(held) >= LONGEST_LINE:
            long, held = True, b''


def frames(read, first):
    """What came behind the empty line, then each read."""
    if first:
        yield first
    while True:
        frame = read(FRAME)
        if not frame:
            return
        yield frame


def replies(read):
    """The reply to each frame that gets one."""
    box, first = set_up(read)
    if box is None:
        return
    for frame in frames(read, first):
        try:
            yield box.modbus(frame, ROOM)
        except Refused:
            pass


def packets(text):
    """What each read brings: a line of hex each."""
    return [bytes.fromhex(line.decode()) for line in text.split()]


def in_packets(text):
    """The replies where each read brings one packet, of a longer one its
    start."""
    left = iter(packets(text))
    return b''.join(replies(lambda most: next(left, b'')[:most]))


def main():
    for reply in replies(lambda most: os.read(0, most)):
        sys.stdout.buffer.write(reply)
        sys.stdout.buffer.flush()


if __name__ == '__main__':
    main()
