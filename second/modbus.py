"""MODBUS RTU by the public documents: a slave for functions 03 and 06."""

import struct

from second.refusal import Refused

READ, WRITE = 3, 6
LINK = 10               # the register of the link start, the only one written


class Wrong(Exception):
    """An exception of the public documents: 1 function, 2 register, 3 value."""

    def __init__(self, code):
        Exception.__init__(self, code)
        self.code = code


def crc(data):
    """Begins with all ones; each byte is xored in and shifted out, the lowest
    bit first; a 1 shifted out xors A001h."""
    value = 0xFFFF
    for byte in data:
        value ^= byte
        for _ in range(8):
            value = value >> 1 ^ (0xA001 if value & 1 else 0)
    return value


def closed(body):
    """The body and its CRC, low byte first."""
    return body + crc(body).to_bytes(2, 'little')


def opened(frame):
    """The body. R17: bad length (8 for 03 and 06, else 4..256) or bad CRC."""
    if not 4 <= len(frame) <= 256:
        raise Refused(17)
    if frame[1] in (READ, WRITE) and len(frame) != 8:
        raise Refused(17)
    body = frame[:-2]
    if closed(body) != frame:
        raise Refused(17)
    return body


# Registers: 16 bits each, the high word of a pair first.

def pair(data):
    return [int.from_bytes(data[:2], 'big'), int.from_bytes(data[2:], 'big')]


def single(weight):
    """A weight is exactly the whole number as an f32."""
    return pair(struct.pack('>f', weight))


def double_word(number):
    return pair(struct.pack('>I', number))


def numbers(body):
    """The two numbers of a request of 03 or 06."""
    return struct.unpack('>HH', body[2:6])


def read(body, registers):
    """03: a wrong quantity (03) goes before a wrong register (02)."""
    first, quantity = numbers(body)
    if not 1 <= quantity <= 125:
        raise Wrong(3)
    if first + quantity > len(registers):
        raise Wrong(2)
    told = registers[first:first + quantity]
    return body[:2] + struct.pack('>B%dH' % quantity, 2 * quantity, *told)


def written(body):
    """06: the link start. A wrong register (02) goes before a wrong value
    (03)."""
    register, value = numbers(body)
    if register != LINK:
        raise Wrong(2)
    if value not in (0, 1):
        raise Wrong(3)
    return value


def served(frame, address, registers):
    """The reply and the link start to set, None where nothing is written."""
    body = opened(frame)
    if body[0] == 0:
        return b'', broadcast(body)
    if body[0] != address:
        raise Refused(17)
    link = None
    try:
        if body[1] == READ:
            reply = read(body, registers)
        elif body[1] == WRITE:
            link, reply = written(body), body
        else:
            raise Wrong(1)
    except Wrong as wrong:
        # The function with its top bit set.
        reply = bytes([body[0], body[1] | 0x80, wrong.code])
    return closed(reply), link


def broadcast(body):
    """A good write to address 0 acts without a reply; anything else sent there
    is R17."""
    try:
        if body[1] == WRITE:
            return written(body)
    except Wrong:
        pass
    raise Refused(17)
