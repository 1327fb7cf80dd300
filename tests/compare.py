"""Runs the programs and the second implementation on the same input and
compares what they print, byte by byte:

python3 tests/compare.py                            some of each
python3 tests/compare.py replay [SEEDS [LINES]]     scripts of so many lines
python3 tests/compare.py journals [SEEDS]           76 journals a seed
python3 tests/compare.py record [SEEDS [HOURS]]     hours of ticks, and their hours
python3 tests/compare.py slave [SEEDS [FRAMES]]     MODBUS frames, each a read
python3 tests/compare.py week [SEEDS]               first hours before such journals
python3 tests/compare.py product [SEEDS]            products before such journals
python3 tests/compare.py renew [SEEDS]              old journals to new, and back
python3 tests/compare.py restore [SEEDS]            new journals to old, and back

Several may be named in one command; they share the two processes. Each runs the
stored cases first, then input from the seeds 1 to SEEDS. The
journals are of every kind that the generator knows: small and empty ones, the
largest (65,536 bytes), a month (744 hours), thousands of doses in one hour,
holes in the counts, one byte too many, and every kind of malformed line, of
the old form and of the new. For `record` a seed gives a
weigher at work, hours with something at their ends, eight hours around lines
that are no call, a script of every call after a first hour, and first lines
that are no hour. What `record` prints goes through `hours` too. `slave` is given
what each read brings as a packet of its own. `week` is given every kind of
journal behind first hours in and beside it, and behind lines that are none;
`product` likewise. `renew` and `restore` are given all of these and more: each
refusal in the first, a middle and the last line, products in them, results of
65,536 bytes and of one more. What one prints goes through the other, which must
print the journal again unless it was refused.

At the first difference it prints the output line of both and the input line
that it answers, and ends with status 1. It does so too where a task fails, and
where fewer or more inputs were compared than there are.
"""

import collections
import concurrent.futures
import glob
import io
import itertools
import os
import random
import socket
import subprocess
import sys
import tempfile
import traceback

ROOT = os.path.dirname(os.path.dirname(os.path.abspath(__file__)))
sys.path.insert(0, ROOT)

from second import (both_forms, calls, generate, hours, journals, product,  # noqa: E402
                    record, renew, replay, restore, slave, week)

AT_A_TIME = 2
SOME = {'replay': (4, 20000), 'journals': (10,), 'record': (1, 2), 'slave': (20, 200),
        'week': (10,), 'product': (10,), 'renew': (10,), 'restore': (10,)}
NEEDED = {'replay': ['replay'], 'journals': ['hours'], 'record': ['record', 'hours'],
          'slave': ['slave'], 'week': ['week'], 'product': ['product'],
          'renew': ['renew', 'restore'], 'restore': ['restore', 'renew']}
SUMMARY = {'replay': '%d scripts, %d answers', 'hours': '%d journals, %d lines of hours',
           'record': '%d scripts, %d lines of journal',
           'slave': '%d scripts, %d rows of replies', 'week': '%d sheets, %d lines',
           'product': '%d journals, %d lines of hours',
           'renew': '%d journals, %d lines', 'restore': '%d journals, %d lines'}
# What a program prints goes through another one.
THEN = {'record': 'hours', 'renew': 'restore', 'restore': 'renew'}


# The programs.

def command(name):
    """What runs a program. `rt ci` leaves each that it proved; one that is not there,
    or is older than a source, is proved and built first."""
    program = os.path.join(ROOT, 'crates', name, 'out', name)
    made = os.path.getmtime(program) if os.access(program, os.X_OK) else 0
    sources = glob.glob(os.path.join(ROOT, 'crates', '*', 'src', '**', '*.rt'), recursive=True)
    if any(made < os.path.getmtime(source) for source in sources):
        built = subprocess.run(['rt', 'run'], cwd=os.path.join(ROOT, 'crates', name), text=True,
                               stdin=subprocess.DEVNULL, capture_output=True)
        if built.returncode != 0:
            sys.exit(built.stdout + built.stderr)
    return [program]


def printed(words, data):
    """What a program prints, and its status where that is not 0."""
    done = subprocess.run(words, input=data, capture_output=True)
    return done.stdout + status_line(done.returncode)


def status_line(code):
    return b'status %d\n' % code if code else b''


def rows(replies):
    """Bytes in hex, sixteen to a line."""
    return b''.join(replies[at:at + 16].hex().upper().encode() + b'\n'
                    for at in range(0, len(replies), 16))


def replied(words, data):
    """What a program replies where each read brings a packet."""
    ours, theirs = socket.socketpair(socket.AF_UNIX, socket.SOCK_SEQPACKET)
    with tempfile.TemporaryFile() as out:
        with theirs:
            running = subprocess.Popen(words, stdin=theirs, stdout=out)
        try:
            with ours:
                for packet in slave.packets(data):
                    ours.sendall(packet)
        except (BrokenPipeError, ConnectionResetError):
            pass
        code = running.wait()
        out.seek(0)
        return rows(out.read()) + status_line(code)


PRINTED = {'slave': replied}


SECOND = {
    'replay': lambda data: b''.join(replay.answered(io.BytesIO(data))),
    'record': lambda data: b''.join(record.written(io.BytesIO(data))),
    'hours': hours.printed,
    'slave': lambda data: rows(slave.in_packets(data)),
    'week': lambda data: week.printed(io.BytesIO(data)),
    'product': lambda data: product.printed(io.BytesIO(data)),
    'renew': renew.printed,
    'restore': restore.printed,
}


# What the output's line n answers.

def answered_line(name, data, n):
    """The number of the input line, 0 where it is not known."""
    if name == 'replay':
        return n
    if name == 'record':
        written = 0
        for at, text in enumerate(record.written(io.BytesIO(data)), 1):
            written += text.count(b'\n')
            if written >= n:
                return at
    return 0


def line(text, n):
    """Line n as it is written, its LF included."""
    lines = io.BytesIO(text).readlines()
    return repr(lines[n - 1]) if n <= len(lines) else 'no such line'


def first_differing(ours, theirs):
    """The number of the first line that differs; a line is its LF too."""
    pairs = itertools.zip_longest(io.BytesIO(ours), io.BytesIO(theirs))
    for n, (our, their) in enumerate(pairs, 1):
        if our != their:
            return n


def difference(name, case, data, ours, theirs):
    """None if they print the same."""
    if ours == theirs:
        return None
    n = first_differing(ours, theirs)
    told = ['%s, %s: line %d of the output differs' % (name, case, n)]
    at = answered_line(name, data, n)
    if at:
        told.append('input line %d: %s' % (at, line(data, at)))
    told.append('the program:   ' + line(ours, n))
    told.append('the second:    ' + line(theirs, n))
    return '\n'.join(told)


# The input: each maker answers (program, what makes the case, its bytes).

STORED = {'replay': ['tests/cases/*.replay', 'crates/replay/stdin'],
          'journals': ['tests/cases/*.journal'],
          'record': ['tests/cases/*.record', 'crates/record/stdin', 'samples/*.record'],
          'slave': ['tests/cases/*.slave'], 'week': ['tests/cases/*.week'],
          'product': ['tests/cases/*.product'], 'renew': ['tests/cases/*.renew'],
          'restore': ['tests/cases/*.restore']}
BAD_FIRST_LINES = 10        # a seed


def paths(kind):
    """The stored cases of one kind; each place has some."""
    for pattern in STORED[kind]:
        found = sorted(glob.glob(os.path.join(ROOT, pattern)))
        if not found:
            sys.exit('no file is ' + pattern)
        yield from found


def stored(name, kind):
    for path in paths(kind):
        with open(path, 'rb') as file:
            yield name, os.path.relpath(path, ROOT), file.read()


def made(name, *words):
    data = b''.join(generate.MADE[words[0]](*words[1:]))
    return name, ' '.join(map(str, ('second.generate', *words))), data


def seeded(*words):
    yield made(*words)


def seeded_journals(seed):
    for kind in journals.KINDS:
        case = 'second.generate journal %d %s' % (seed, kind)
        yield 'hours', case, journals.make(random.Random(seed), kind)


def seeded_after(name, seed):
    """Journals behind a first line: for `week` and `product`."""
    make = {'week': journals.week, 'product': journals.one_product}[name]
    for kind in journals.KINDS:
        case = 'second.generate %s %d %s' % (name, seed, kind)
        yield name, case, make(random.Random(seed), kind)


def seeded_turned(name, seed):
    """Journals for `renew` or `restore`."""
    for kind in both_forms.KINDS[name]:
        case = 'second.generate %s %d %s' % (name, seed, kind)
        yield name, case, both_forms.make(random.Random(seed), name, kind)


def seeded_calls(seed):
    """A script of every call after a first hour, and bad first lines."""
    rng = random.Random(seed)
    _, case, script = made('record', 'replay', seed, 20000)
    hour = b'%d\n' % rng.choice([0, 9999999, rng.randint(0, 9999999)])
    yield 'record', '%r before %s' % (hour, case), hour + script
    for _ in range(BAD_FIRST_LINES):
        hour = rng.choice([b'0', b'7', b'4711', b'9999999'])
        first = rng.choice(calls.SPOILERS)(rng, hour) + b'\n'
        yield 'record', '%r before %s' % (first, case), first + script[:20000]


# One task after the other, two at a time.

# The program, what makes its input, and how many inputs that are.
Task = collections.namedtuple('Task', 'name make words inputs')


def step(programs, name, case, data, theirs, counts):
    """Whether one program prints the same as theirs."""
    ours = PRINTED.get(name, printed)(programs[name], data)
    inputs, lines = counts.get(name, (0, 0))
    counts[name] = inputs + 1, lines + theirs.count(b'\n')
    return difference(name, case, data, ours, theirs)


def one(programs, name, case, data, counts):
    """The first difference of one input. What `record` prints goes through `hours`,
    what `renew` and `restore` print back to what it was."""
    theirs = SECOND[name](data)
    told = step(programs, name, case, data, theirs, counts)
    if told or name not in THEN:
        return told
    back = name != 'record' and theirs[:1] != b'R'
    return step(programs, THEN[name], 'the journal of ' + case, theirs,
                data if back else SECOND[THEN[name]](theirs), counts)


def compared(programs, task):
    """How many inputs and output lines were compared for each program, and
    the first difference; whatever else ends the task is told like one."""
    counts = {}
    try:
        for name, case, data in task.make(*task.words):
            told = one(programs, name, case, data, counts)
            if told:
                return counts, told
    except BaseException:
        return counts, '%s %r failed:\n%s' % (task.make.__name__, task.words,
                                              traceback.format_exc())
    return counts, None


def tasks(kind, seeds, *size):
    """Of one kind of input."""
    name = 'hours' if kind == 'journals' else kind
    yield Task(name, stored, (name, kind), len(list(paths(kind))))
    for seed in range(1, seeds + 1):
        if kind in ('replay', 'slave'):
            yield Task(name, seeded, (name, kind, seed, *size), 1)
        elif kind == 'journals':
            yield Task(name, seeded_journals, (seed,), len(journals.KINDS))
        elif kind in ('week', 'product'):
            yield Task(name, seeded_after, (name, seed), len(journals.KINDS))
        elif kind in both_forms.KINDS:
            yield Task(name, seeded_turned, (name, seed), len(both_forms.KINDS[kind]))
        else:
            yield Task(name, seeded_calls, (seed,), 1 + BAD_FIRST_LINES)
            yield Task(name, seeded, (name, 'record', seed, *size), 1)
            yield Task(name, seeded, (name, 'ends', seed, *size), 1)
            yield Task(name, seeded, (name, 'lost', seed), 1)


def expected(every):
    """How many inputs each program is to be given."""
    number = collections.Counter()
    for task in every:
        number[task.name] += task.inputs
        if task.name in THEN:
            number[THEN[task.name]] += task.inputs
    return number


def status(every, programs):
    """0 where every input was compared and none differs."""
    inputs, lines = collections.Counter(), collections.Counter()
    with concurrent.futures.ProcessPoolExecutor(AT_A_TIME) as pool:
        for counts, told in pool.map(compared, itertools.repeat(programs), every):
            if told:
                print(told)
                return 1
            for name, (more_inputs, more_lines) in counts.items():
                inputs[name] += more_inputs
                lines[name] += more_lines
    if inputs != expected(every):
        print('%r inputs were compared, not %r' % (dict(inputs), dict(expected(every))))
        return 1
    for name in programs:
        print(name + ': ' + SUMMARY[name] % (inputs[name], lines[name]) +
              ' compared, 0 differ')
    return 0


def chosen(words):
    """What is compared and how much of it: each kind, its numbers behind it."""
    kinds, kind = {}, None
    for word in words:
        if word in SOME and word not in kinds:
            kind = word
            kinds[kind] = ()
        elif kind and word.isdigit() and len(kinds[kind]) < len(SOME[kind]):
            kinds[kind] += (int(word),)
        else:
            sys.exit(__doc__)
    return {kind: given + SOME[kind][len(given):] for kind, given in kinds.items()} or SOME


def main(words):
    kinds = chosen(words)
    needed = dict.fromkeys(name for kind in kinds for name in NEEDED[kind])
    programs = {name: command(name) for name in needed}
    every = [task for kind, size in kinds.items() for task in tasks(kind, *size)]
    return status(every, programs)


if __name__ == '__main__':
    sys.exit(main(sys.argv[1:]))
