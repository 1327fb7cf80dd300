"""The journal: V, D and H lines, and whole journals of either form."""

from second.refusal import Refused

LONGEST = 65536
HOUR, COUNT, AMOUNT, SETTLED, PRODUCT = 9999999, 999999, 1800000, 1, 255
# The greatest values of a line's fields, of the old form and of the new.
OLD = {'D': (HOUR, COUNT, AMOUNT, SETTLED), 'H': (HOUR,)}
NEW = {'D': (HOUR, COUNT, AMOUNT, SETTLED, PRODUCT), 'H': (HOUR,)}
V = b'V\t2\n'             # a journal of the new form begins with it


def good(greatest, values):
    return len(values) == len(greatest) and all(
        0 <= value <= top for value, top in zip(values, greatest))


def write(kind, values, room):
    """A line of the new form; R10 with line 0 for a value out of range, then
    R8."""
    if not good(NEW[kind], values):
        raise Refused(10, 0)
    line = '\t'.join([kind] + [str(value) for value in values]) + '\n'
    if len(line) > room:
        raise Refused(8)
    return line.encode()


def number(field):
    """Decimal without leading zeros; None if malformed. Eight digits or
    more are out of every range."""
    digits = field and all(48 <= byte <= 57 for byte in field)
    if not digits or len(field) > 7 or (field[:1] == b'0' and len(field) > 1):
        return None
    return int(field)


def read(line, at=1, form=OLD):
    """(kind, hour, ...) of one line with its LF; R10 with the line `at`."""
    fields = line[:-1].split(b'\t')
    kind = fields[0].decode('latin-1')
    values = [number(field) for field in fields[1:]]
    if line[-1:] != b'\n' or kind not in form or None in values \
            or not good(form[kind], values):
        raise Refused(10, at)
    return (kind,) + tuple(values)


def read_new(line):
    """One line of the new form."""
    return ('V',) if line == V else read(line, 1, NEW)


def read_all(data):
    """Every line but V, with product 0 in D lines of the old form; R13, then line
    by line R10, R11, R12."""
    if len(data) > LONGEST:
        raise Refused(13, 0)
    texts, lines = split(data), []
    form = NEW if texts[:1] == [V] else OLD
    for at, text in enumerate(texts, 1):
        if form is NEW and at == 1:
            continue
        line = read(text, at, form)
        if form is OLD and line[0] == 'D':
            line += (0,)
        if lines:
            # Hours never go back, and after an H the next is greater.
            least = lines[-1][1] + (lines[-1][0] == 'H')
            if line[1] < least:
                raise Refused(11, at)
            if line[1] - lines[0][1] >= 744:
                raise Refused(12, at)
        lines.append(line)
    return lines


def split(data):
    """The lines with their LF; a last one may lack it."""
    lines = [line + b'\n' for line in data.split(b'\n')]
    last = lines.pop()[:-1]
    return lines + [last] if last else lines
