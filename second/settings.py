"""The settings and their ranges."""

from collections import namedtuple

from second.refusal import Refused

# In the table's order; row 1 is the algorithm, row 17 the decimal point, row 18
# the product code. Settings of before have 17 rows: product 0.
Settings = namedtuple('Settings', 'algorithm C D Pc Pf M p7 p8 p9 p11 o '
                                  'in1 in2 in3 address serial point product',
                      defaults=[0])

# "AL0, C 10,000, D 100, Pc 0, Pf 0, M 100, p7 4, p8 4, p9 1, address 1,
# the rest 0."
DEFAULT = Settings(0, 10000, 100, 0, 0, 100, 4, 4, 1, 0, 0, 0, 0, 0, 1, 0, 0)


def level_range(s):
    """AL0, AL1: 1..C/4 rounded down; AL2, AL3: D..C."""
    return (1, s.C // 4) if s.algorithm in (0, 1) else (s.D, s.C)


def ranges(s):
    """The least and greatest value of each setting, row by row."""
    return [
        (0, 3),             # algorithm
        (1, 99999),         # capacity C
        (1, s.C),           # dose D
        (0, s.D),           # coarse lead Pc
        (0, s.Pc),          # fine lead Pf
        level_range(s),     # level M
        (4, 128),           # filter coarse p7
        (s.p7, 128),        # filter fine p8
        (1, 63),            # settle time p9
        (0, 1),             # sum p11
        (0, 1),             # both gates at once o
        (0, 1),             # level in1
        (0, 1),             # level in2
        (0, 1),             # level in3
        (1, 127),           # address
        (0, 16777215),      # serial
        (0, 3),             # decimal point
        (0, 255),           # product code
    ]


def first_bad_row(s):
    """The first row out of range, 0 if all are good."""
    for row, (value, (least, greatest)) in enumerate(zip(s, ranges(s)), 1):
        if not least <= value <= greatest:
            return row
    return 0


def check(s):
    """R2: a setting out of range; names it."""
    row = first_bad_row(s)
    if row:
        raise Refused(2, row)
