"""The weight field: six BCD digits, low byte first, and CON."""

from second.refusal import Refused


def write(weight, stable, over, point):
    # R16: a weight beyond six digits or a point above 7.
    if not -999999 <= weight <= 999999 or point > 7:
        raise Refused(16)
    digits = '%06d' % abs(weight)
    # Zero is written without sign.
    con = (weight < 0) << 7 | stable << 4 | over << 3 | point
    return bytes.fromhex(digits[4:6] + digits[2:4] + digits[0:2]) + bytes([con])


def read(field):
    """weight, stable, over, point; bits 6 and 5 of CON are ignored."""
    digits = bytes(field[2::-1]).hex()
    if not digits.isdecimal():
        raise Refused(16)
    con = field[3]
    weight = int(digits)
    return -weight if con >> 7 else weight, con >> 4 & 1, con >> 3 & 1, con & 7
