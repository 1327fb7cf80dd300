"""Journals for `renew` and `restore`: every kind of journals.py, and for `renew` more
of the old form, for `restore` more of the new form with product 0."""

from second import journal, journals

WHERE = ('first', 'second', 'middle', 'last')


def with_products(text, pick):
    """Another product in each sound D line of the new form; `pick` is told how many
    stand before it."""
    lines, at = text.splitlines(True), 0
    for n, line in enumerate(lines):
        *cells, last = line.split(b'\t')
        product = journal.number(last[:-1]) if last[-1:] == b'\n' else None
        if cells[:1] == [b'D'] and len(cells) == 5 and product in range(256):
            lines[n] = b'\t'.join(cells) + b'\t%d\n' % pick(at)
            at += 1
    return b''.join(lines)


def zero(text):
    return with_products(text, lambda at: 0)


def old_lines(rng):
    """Of the old form: some hours, each with a dose and an H."""
    first, made = rng.randint(1, 9990000), []
    for hour in range(first, first + rng.randint(3, 9)):
        made += [journals.d(hour, 1, rng.randint(0, 1800000), rng.randint(0, 1)),
                 journals.h(hour)]
    return made


def bad_line(rng, number, first):
    """Refused with this number in a journal of old_lines from that hour on."""
    if number == 10:
        return rng.choice([b'\n', b'H\t00\n', b'D\t%d\n' % first, b'x\n'])
    if number == 11:
        return rng.choice([b'H\t%d\n', b'D\t%d\t1\t5\t1\n']) % (first - 1)
    return journals.h(first + 744)


def refused(number, where):
    """With a bad line as its first, second, a middle or its last line."""
    def make(rng):
        lines = old_lines(rng)
        at = dict(zip(WHERE, (0, 1, rng.randint(2, len(lines) - 1), len(lines))))[where]
        bad = bad_line(rng, number, int(lines[0].split()[1]))
        return b''.join(lines[:at] + [bad] + lines[at:])
    return make


REFUSED = {'refused-%d-%s' % (number, where): refused(number, where)
           for number in (10, 11, 12) for where in WHERE if number == 10 or where != 'first'}


def zero_refused(kind):
    return lambda rng: zero(journals.renewed(rng, REFUSED[kind](rng)))


def product_refused(kind):
    """With a product that is not 0 in its first D line or in all, too."""
    def make(rng):
        text, number = journals.renewed(rng, REFUSED[kind](rng)), rng.choice([1, 99])
        return with_products(text, lambda at: 7 if at < number else 0)
    return make


def product(where):
    """One product that is not 0, in the first, a middle or the last line."""
    def make(rng):
        text = journals.renewed(rng, b''.join(old_lines(rng)[:-1]))
        last = text.count(b'D') - 1
        other = {'first': 0, 'middle': rng.randint(1, last - 1), 'last': last}[where]
        code = rng.choice([1, 10, 100, 255])
        return with_products(text, lambda at: code if at == other else 0)
    return make


def new_exact(rng, size=journal.LONGEST):
    """Of the new form, of exactly so many bytes."""
    return journals.new_exact(rng, size, 0, 0)


def old_exact(rng, size=journal.LONGEST):
    """Of the old form; the result has exactly so many bytes."""
    return new_exact(rng, size)[len(journal.V):].replace(b'\t0\n', b'\n')


def over(make):
    return lambda rng: make(rng, journal.LONGEST + 1)


def over_refused(rng):
    """R12 in its last line goes before R13 of the result."""
    return over(old_exact)(rng)[:-1] + b'0\n'


TO_RENEW = dict(journals.KINDS, **REFUSED)
TO_RENEW.update({'result-exact': old_exact, 'result-over': over(old_exact),
                 'result-over-refused': over_refused})
TO_RESTORE = dict(journals.KINDS, **{'zero-exact': new_exact, 'zero-over': over(new_exact)})
for _kind, _make in journals.NEW.items():
    TO_RESTORE['zero-' + _kind] = lambda rng, make=_make: zero(make(rng))
for _kind in REFUSED:
    TO_RESTORE['zero-' + _kind] = zero_refused(_kind)
    TO_RESTORE['product-' + _kind] = product_refused(_kind)
for _where in ('first', 'middle', 'last'):
    TO_RESTORE['product-' + _where] = product(_where)

KINDS = {'renew': TO_RENEW, 'restore': TO_RESTORE}


def make(rng, name, kind):
    return KINDS[name][kind](rng)
