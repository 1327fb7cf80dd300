"""Journals good and malformed, made from a random generator."""

from second import journal


def d(hour, count, amount, settled=1):
    return b'D\t%d\t%d\t%d\t%d\n' % (hour, count, amount, settled)


def h(hour):
    return b'H\t%d\n' % hour


def of_hours(rng, first, hours, doses):
    """So many hours, each with some of the doses, most with an H."""
    lines, count = [], rng.choice([0, 1, 999990])
    for hour in range(first, first + hours):
        for _ in range(rng.choice([0, rng.randint(0, doses)])):
            amount = rng.choice([rng.randint(0, 999), rng.randint(0, 1800000)])
            lines.append(d(hour, count, amount, rng.randint(0, 1)))
            count = (count + 1) % 1000000
        if rng.random() < 0.7:
            lines.append(h(hour))
    return lines


def cut(lines, most=journal.LONGEST):
    """As many whole lines as fit."""
    text = b''
    for line in lines:
        if len(text) + len(line) > most:
            break
        text += line
    return text


def small(rng):
    first = rng.choice([0, 10, 9999980, rng.randint(0, 9999000)])
    return b''.join(of_hours(rng, first, rng.randint(1, 12), 4))


def empty(rng):
    return b''


def one(rng):
    return rng.choice([h(0), h(9999999), d(0, 0, 0, 0),
                       d(9999999, 999999, 1800000)])


def large(rng):
    return cut(of_hours(rng, rng.randint(0, 9999000), 744, rng.choice([9, 18])))


def month(rng):
    """744 hours, the first and the last with a line."""
    first = rng.randint(0, 9999256)
    inner = cut(of_hours(rng, first + 1, 742, 3), 60000)
    return h(first) + inner + h(first + 743)


def dense(rng):
    """Thousands of doses in one hour."""
    hour = rng.randint(0, 99)
    lines = [d(hour, n, rng.randint(0, 1800000)) for n in range(4000)]
    return cut(lines, 65000) + h(hour)


def exact(rng, size=journal.LONGEST):
    """A good journal of exactly so many bytes, in one hour."""
    hour, count = rng.randint(100, 999), rng.randint(100000, 990000)
    text, longest, left = b'', 23, size - len(h(hour))
    while left > 4 * longest:
        text += d(hour, count, rng.randint(0, 1800000))
        left, count = size - len(h(hour)) - len(text), count + 1
    for n in range(4, 0, -1):
        digits = left // n - len(d(hour, count, 0)) + 1
        text += d(hour, count, 10 ** (digits - 1))
        left, count = size - len(h(hour)) - len(text), count + 1
    return text + h(hour)


# Counts that follow and counts that do not.

def next_count(rng, count):
    """Most follow, by one or with a 1; some are skipped, stand still, go back,
    or are 0 or 999,999."""
    follow = (count + 1) % 1000000
    return rng.choice([follow] * 12 + [
        1, 1, 0, 999999, count, (count + 2) % 1000000, (count + 4) % 1000000,
        (count - 1) % 1000000, rng.randint(0, 999999)])


def holed(rng):
    """Few hours, some of them without a line, and counts of every kind."""
    lines, hour = [], rng.choice([0, 10, rng.randint(0, 9999900)])
    count = rng.choice([0, 1, 5, 999997, 999999])
    for _ in range(rng.randint(1, 10)):
        for _ in range(rng.choice([0, 0, 1, 2, 4])):
            lines.append(d(hour, count, rng.randint(0, 999), rng.randint(0, 1)))
            count = next_count(rng, count)
        if rng.random() < 0.8:
            lines.append(h(hour))
        hour += rng.choice([1, 1, 1, 2, 3])
    return b''.join(lines)


def lost(rng):
    """A good journal that lost a run of lines: the mill's cable."""
    lines = of_hours(rng, rng.randint(0, 99), rng.randint(2, 12), 5)
    at = rng.randint(0, len(lines))
    return b''.join(lines[:at] + lines[at + rng.randint(1, 4):])


def holes_everywhere(rng):
    """No count follows: hundreds of hours, the doses parted by most of them."""
    lines, hour, count = [], rng.randint(0, 9999000), 500000
    for _ in range(rng.randint(700, 744)):
        for _ in range(rng.choice([0, 1, rng.randint(0, 9)])):
            lines.append(d(hour, count, rng.randint(0, 1800000)))
            count = (count + rng.randint(2, 9)) % 1000000
        lines.append(h(hour))
        hour += 1
    return cut(lines)


def one_hole(rng):
    """744 hours, the first and the last dose not in a row, an H each."""
    first = rng.randint(0, 9999256)
    inner = b''.join(map(h, range(first, first + 743)))
    return d(first, 7, 5) + inner + d(first + 743, 9, 5) + h(first + 743)


def days(rng):
    """Days of work, rest and darkness; some hours of them are torn."""
    lines, hour, count = [], rng.choice([0, 9999832 - 24, rng.randint(0, 9999700)]), 1
    for _ in range(rng.randint(1, 10)):
        kind = rng.choice(['work', 'work', 'work', 'rest', 'rest', 'dark'])
        torn = rng.choice([0, 0, 0, 0.05, 0.5])
        for _ in range(24):
            for _ in range(rng.randint(0, 3) if kind == 'work' and hour % 24 > 5 else 0):
                lines.append(d(hour, count, rng.randint(0, 9999), rng.randint(0, 1)))
                count += 2 if rng.randrange(200) == 0 else 1
            if kind != 'dark' and rng.random() >= torn:
                lines.append(h(hour))
            hour += 1
    return b''.join(line for line in lines if int(line.split()[1]) <= 9999999)


def over(rng):
    """R13."""
    return exact(rng, journal.LONGEST + 1)


GOOD = {'small': small, 'empty': empty, 'one': one, 'large': large,
        'month': month, 'dense': dense, 'exact': exact, 'holed': holed,
        'lost': lost, 'holes-everywhere': holes_everywhere, 'one-hole': one_hole,
        'days': days}

# What is wrong with a line; %d is an hour that fits its place.
BAD_LINES = {
    'empty-line': ['\n'],
    'two-tabs': ['D\t\t%d\t1\t2\t1\n', 'D\t%d\t1\t2\t\t1\n', 'H\t\t%d\n'],
    'tab-at-end': ['D\t%d\t1\t2\t1\t\n', 'H\t%d\t\n'],
    'tab-at-start': ['\tH\t%d\n', '\tD\t%d\t1\t2\t1\n'],
    'cr': ['H\t%d\r\n', 'D\t%d\t1\t2\t1\r\n', '\rH\t%d\n'],
    'space': ['H %d\n', 'H\t%d \n', 'D\t%d\t 1\t2\t1\n', ' H\t%d\n', ' \n'],
    'nul': ['H\t%d\0\n', '\0H\t%d\n', 'D\t%d\t1\0\t2\t1\n', '\0\n'],
    'sign': ['H\t+%d\n', 'H\t-%d\n', 'D\t%d\t+1\t2\t1\n', 'D\t%d\t1\t-2\t1\n',
             'D\t%d\t1\t-0\t1\n', 'D\t%d\t1\t2\t+1\n'],
    'leading-zero': ['H\t0%d\n', 'H\t00\n', 'D\t%d\t01\t2\t1\n',
                     'D\t%d\t1\t02\t1\n', 'D\t%d\t1\t2\t01\n',
                     'D\t%d\t00\t2\t1\n'],
    'long-number': ['H\t' + '9' * 40 + '\n', 'H\t' + '0' * 40 + '\n',
                    'D\t%d\t18446744073709551617\t2\t1\n',
                    'D\t%d\t1\t4294967297\t1\n', 'D\t%d\t1\t2\t4294967297\n'],
    'out-of-range': ['H\t10000000\n', 'D\t10000000\t1\t2\t1\n',
                     'D\t%d\t1000000\t2\t1\n', 'D\t%d\t1\t1800001\t1\n',
                     'D\t%d\t1\t2\t2\n'],
    'no-number': ['H\t\n', 'D\t%d\t\t2\t1\n', 'D\t%d\t1\t\t1\n',
                  'D\t%d\t1\t2\t\n', 'H\t%dx\n', 'H\tA\n', 'D\t%d\t1\t2.0\t1\n',
                  'D\t%d\t0x1\t2\t1\n'],
    'too-few': ['H\n', 'D\n', 'D\t%d\n', 'D\t%d\t1\n', 'D\t%d\t1\t2\n'],
    'too-many': ['H\t%d\t1\n', 'D\t%d\t1\t2\t1\t0\n', 'H\t%d\t1\t2\t1\n'],
    'other-letter': ['d\t%d\t1\t2\t1\n', 'h\t%d\n', 'X\t%d\n', 'HH\t%d\n',
                     'DH\t%d\t1\t2\t1\n', '%d\n', '\t%d\n', '\xFF\t%d\n'],
}


def with_bad_line(kind):
    def make(rng):
        lines = of_hours(rng, rng.randint(0, 99), 5, 3)
        at = rng.randint(0, len(lines))
        bad = rng.choice(BAD_LINES[kind])
        if '%' in bad:
            bad = bad % rng.choice([200, 999])
        rest = lines[at:] if rng.random() < 0.5 else []
        return b''.join(lines[:at]) + bad.encode('latin-1') + b''.join(rest)
    return make


def no_lf(rng):
    """A last line without LF."""
    return rng.choice([small(rng), b'']) + rng.choice(
        [b'H\t9999999', b'D\t9999999\t1\t2\t1', b'H', b'\t', b'x'])


def order(rng):
    """R11: an hour goes back."""
    first = rng.randint(1, 99)
    back = first - rng.choice([1, first])
    return b''.join(of_hours(rng, first, 3, 2)) + d(first + 3, 1, 2) + rng.choice(
        [h(back), d(back, 1, 2), h(first + 2), d(first + 2, 1, 2)])


def after_h(rng):
    """R11: the hour of an H comes again."""
    first = rng.randint(0, 99)
    return b''.join(of_hours(rng, first, 3, 2)) + h(first + 3) + rng.choice(
        [h(first + 3), d(first + 3, 1, 2), h(first)])


def span(rng):
    """R12, or just not."""
    first = rng.randint(0, 9999999 - 746)
    return h(first) + h(first + 1) + rng.choice([h, lambda n: d(n, 1, 2)])(
        first + rng.choice([743, 744, 745, 746]))


def two(rng):
    """Two refusals: the earlier line's is given, on one line R10, R11, R12."""
    faults = [b'H\t00\n', h(5), h(10 + 744), d(10 + 745, 1, 2), b'\n',
              d(4, 1000000, 2), d(800, 1, 1800001), h(9), h(10)]
    return h(10) + h(11) + b''.join(rng.sample(faults, rng.randint(2, 5)))


def one_byte(rng):
    """A good journal with one byte changed, put in or left out."""
    text = small(rng) or h(7)
    at = rng.randrange(len(text))
    byte = bytes([rng.choice([0, 9, 10, 13, 32, 48, 49, 57, 68, 72,
                              rng.randrange(256)])])
    return text[:at] + rng.choice([byte, byte + text[at:at + 1], b'']) + \
        text[at + 1:]


BAD = {'over': over, 'one-byte': one_byte, 'no-lf': no_lf, 'order': order, 'after-h': after_h,
       'span': span, 'two': two}
for _kind in BAD_LINES:
    BAD[_kind] = with_bad_line(_kind)

KINDS = dict(GOOD, **BAD)
# Those that fit a line of `replay`.
SHORT = [kind for kind in KINDS
         if kind not in ('large', 'month', 'dense', 'exact', 'over',
                         'holes-everywhere', 'one-hole', 'days')]


# The new form: a V line, and a product at the end of each D line.

def renewed(rng, text):
    """Of a journal of the old form, as many whole lines as fit; a line that is
    malformed stays so."""
    products = rng.sample(range(256), 2) + [0]
    lines = [journal.V]
    for line in text.splitlines(True):
        if line[:2] == b'D\t' and line.count(b'\t') == 4 and line[-1:] == b'\n':
            line = line[:-1] + b'\t%d\n' % rng.choice(products)
        lines.append(line)
    return cut(lines)


def in_new_form(make_old):
    return lambda rng: renewed(rng, make_old(rng))


def new_exact(rng, size=journal.LONGEST, least=100, most=255):
    """Of exactly so many bytes, in one hour, with products of one length; the last
    five doses take what is left."""
    hour, count, text = rng.randint(100, 999), rng.randint(100000, 900000), journal.V
    line = b'D\t%d\t%d\t%d\t1\t%d\n'
    longest = len(line % (hour, count, 1800000, most))
    left = size - len(text) - len(h(hour))
    while left > 5 * longest:
        text += line % (hour, count, rng.randint(1000000, 1800000), rng.randint(least, most))
        left, count = left - longest, count + 1
    for n in range(5, 0, -1):
        digits = 7 - (longest - left // n)
        text += line % (hour, count, 10 ** (digits - 1), most)
        left, count = left - longest + 7 - digits, count + 1
    return text + h(hour)


# What is wrong with a line after V.
BAD_NEW_LINES = {
    'no-product': ['D\t%d\t1\t2\t1\n', 'D\t%d\t1\t2\t1\t\n'],
    'bad-product': ['D\t%d\t1\t2\t1\t256\n', 'D\t%d\t1\t2\t1\t00\n',
                    'D\t%d\t1\t2\t1\t07\n', 'D\t%d\t1\t2\t1\t-1\n',
                    'D\t%d\t1\t2\t1\t+7\n', 'D\t%d\t1\t2\t1\t7 \n',
                    'D\t%d\t1\t2\t1\t7\r\n', 'D\t%d\t1\t2\t1\tx\n',
                    'D\t%d\t1\t2\t1\t999\n', 'D\t%d\t1\t2\t1\t4294967296\n'],
    'too-many-new': ['D\t%d\t1\t2\t1\t7\t7\n', 'D\t%d\t1\t2\t1\t7\t\n',
                     'H\t%d\t7\n', 'D\t%d\t1\t2\t1\t\t7\n'],
    'bad-value-new': ['D\t10000000\t1\t2\t1\t7\n', 'D\t%d\t1000000\t2\t1\t7\n',
                      'D\t%d\t1\t1800001\t1\t7\n', 'D\t%d\t1\t2\t2\t7\n',
                      'H\t10000000\n', 'H\t0%d\n'],
    'v-again': ['V\t2\n'],
}
# What is no V line, as a first line and later.
NO_V_LINES = ['V\n', 'V\t\n', 'V\t1\n', 'V\t3\n', 'V\t0\n', 'V\t02\n', 'V\t20\n', 'V\t2 \n',
              'V\t2\r\n', 'V\t2\t\n', 'V\t2\t2\n', 'V\t\t2\n', 'V 2\n', 'V2\n', 'v\t2\n',
              ' V\t2\n', 'W\t2\n', 'VV\t2\n', 'V\t-2\n', 'V\t+2\n', 'V\t2\0\n', 'V\t%d\n',
              'V\t%d\t1\t2\t1\n', '\nV\t2\n']


def with_bad_new_line(kind):
    """Somewhere behind V."""
    def make(rng):
        lines = renewed(rng, b''.join(of_hours(rng, rng.randint(0, 99), 5, 3))).splitlines(True)
        bad = rng.choice(BAD_NEW_LINES[kind])
        bad = bad % rng.choice([200, 999]) if '%' in bad else bad
        at = rng.randint(1, len(lines))
        return b''.join(lines[:at] + [bad.encode()] + lines[at:])
    return make


def no_v(rng):
    """A bad V line in front of lines of either form, or behind V."""
    bad = rng.choice(NO_V_LINES)
    bad = (bad % rng.choice([3, 200]) if '%' in bad else bad).encode()
    return rng.choice([b'', journal.V, h(2)]) + bad + rng.choice([small(rng), b''])


def mixed_forms(rng):
    """Lines of the new form without V, or of the old form behind it."""
    old = small(rng) or d(7, 1, 2)
    new = renewed(rng, old)
    return rng.choice([new[len(journal.V):], journal.V + old, old + new,
                       new + old, new[:-1], journal.V[:-1]])


def products(rng):
    """Few hours and three products, some counts that do not follow."""
    return renewed(rng, holed(rng))


NEW = {'new-' + kind: in_new_form(make_old) for kind, make_old in KINDS.items()
       if kind not in ('exact', 'over')}
NEW.update({'new-exact': new_exact, 'no-v': no_v, 'mixed-forms': mixed_forms,
            'products': products,
            'new-over': lambda rng: new_exact(rng, journal.LONGEST + 1)})
for _kind in BAD_NEW_LINES:
    NEW[_kind] = with_bad_new_line(_kind)
SHORT += [kind for kind in NEW if kind not in ('new-exact', 'new-over') and (
    kind[4:] in SHORT or kind[:4] != 'new-')]
KINDS.update(NEW)


# The first line of a week sheet before a journal, and of the hours of a product.

BAD_FIRST = [b'', b'07', b'00', b'-7', b'-0', b'+7', b' 7', b'7 ', b'\t7', b'7\t', b'7\r',
             b'7\0', b'x', b'7.0', b'A', b'H\t7', b'9999833', b'9999999', b'10000000',
             b'4294967303', b'18446744073709551623', b'0' * 4097, b'9' * 70000]


def week(rng, kind):
    """Most begin in the journal, or a week before or after some of it."""
    data = make(rng, kind)
    spoken = [int(cells[1]) for cells in (line.split(b'\t') for line in data.split(b'\n'))
              if len(cells) > 1 and cells[1].isdigit() and len(cells[1]) < 8]
    hour = rng.choice(spoken or [5]) + rng.choice([0, 0, -1, -24, -100, -167, -168, 1, 30, 168])
    first = b'%d' % min(max(hour, 0), 9999832)
    pick = rng.randrange(10)
    if pick == 0:
        first = rng.choice(BAD_FIRST)
    elif pick == 1:
        first = rng.choice([b'0', b'9999832', b'%d' % rng.randint(0, 9999832)])
    return first + b'\n' + data


def one_product(rng, kind):
    """A product of the journal, or any."""
    data = make(rng, kind)
    spoken = [cells[5] for cells in (line.split(b'\t') for line in data.split(b'\n'))
              if len(cells) == 6]
    first = rng.choice(spoken or [b'0'])
    pick = rng.randrange(10)
    if pick == 0:
        first = rng.choice(BAD_FIRST + [b'256', b'999'])
    elif pick < 3:
        first = rng.choice([b'0', b'255', b'%d' % rng.randint(0, 255)])
    return first + b'\n' + data


def make(rng, kind=None):
    return KINDS[kind or rng.choice(sorted(KINDS))](rng)
