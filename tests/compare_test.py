"""Gives tests/compare.py small programs and tasks that go wrong and demands
that its status says so: python3 tests/compare_test.py

python3 tests/compare_test.py program CHANGE HOUR           is such a program
python3 tests/compare_test.py compare CHANGE HOUR TASKS     compares it
"""

import os
import signal
import subprocess
import sys

# What a program does to its right output.
CHANGES = {
    'none': lambda text: text,
    'a byte': lambda text: text.replace(b'I', b'X'),
    'a byte before': lambda text: b'\n' + text,
    'a line more': lambda text: text + b'9\tI\n',
    'a line less': lambda text: text[text.index(b'\n') + 1:],
    'the last line less': lambda text: text[:text.rindex(b'\n', 0, -1) + 1],
    'no last LF': lambda text: text[:-1],
    'a CR more': lambda text: text[:-1] + b'\r\n',
    'nothing printed': lambda text: b'',
    'a status': lambda text: text,
    'a signal': lambda text: text,
    'no such program': lambda text: text,
}


def program(change, hour):
    """Prints the hours of a journal of two H lines; one journal's go wrong."""
    first, second = (line.split()[1] for line in sys.stdin.buffer)
    text = b'%s\tI\n%s\tI\n' % (first, second)
    wrong = first == hour.encode()
    sys.stdout.buffer.write(CHANGES[change](text) if wrong else text)
    sys.stdout.buffer.flush()
    if wrong and change == 'a status':
        return 3
    if wrong and change == 'a signal':
        os.kill(os.getpid(), signal.SIGKILL)
    return 0


# Tasks: what makes journals of two hours each, and goes wrong after them.

def made(*hours):
    for hour in hours:
        yield 'hours', 'hour %d' % hour, b'H\t%d\nH\t%d\n' % (hour, hour + 1)


def raising(*hours):
    yield from made(*hours)
    raise ValueError('a maker that fails')


def stopping(*hours):
    raise StopIteration


def leaving(*hours):
    yield from made(*hours)
    sys.exit(0)


def killed(*hours):
    yield from made(*hours)
    os.kill(os.getpid(), signal.SIGKILL)


# Name: the maker of the second task, and how many inputs it is to make.
TASKS = {'good': (made, 2), 'raising': (raising, 2), 'stopping': (stopping, 0),
         'leaving': (leaving, 2), 'killed': (killed, 2), 'too few': (made, 3),
         'too many': (made, 1)}


def comparison(change, hour, tasks):
    """The status of two tasks, of the hours 10, 20, 30 and 40, 50."""
    import compare
    words = [sys.executable, '-IS', os.path.abspath(__file__), 'program', change, hour]
    if change == 'no such program':
        words = [os.devnull]
    make, inputs = TASKS[tasks]
    return compare.status([compare.Task('hours', made, (10, 20, 30), 3),
                           compare.Task('hours', make, (40, 50), inputs)],
                          {'hours': words})


def seen(*words):
    """The status of a comparison, and whether it says that nothing differs."""
    done = subprocess.run([sys.executable, os.path.abspath(__file__), 'compare', *words],
                          stdout=subprocess.PIPE, stderr=subprocess.DEVNULL)
    return done.returncode, b'0 differ' in done.stdout


def second(name):
    """The second implementation of a program, as one."""
    return [sys.executable, '-c', 'import sys; sys.path.insert(0, sys.argv[1]); '
            'from second import %s; %s.main()' % (name, name),
            os.path.dirname(os.path.dirname(os.path.abspath(__file__)))]


def packets():
    """Whether each read of a program brings one packet."""
    import compare
    for _, case, data in compare.stored('slave', 'slave'):
        if compare.replied(second('slave'), data) != compare.SECOND['slave'](data):
            print('packets of ' + case)
            return 1
    return 0


def back():
    """Whether a journal that does not come back as it was is told, and no other."""
    import compare
    nothing = [sys.executable, '-c', '']
    for data, restore, wanted in ((b'H\t5\n', second('restore'), True), (b'', nothing, True),
                                  (b'H\t5\n', nothing, False), (b'x\n', nothing, False),
                                  (b'x\n', second('restore'), True)):
        programs = {'renew': second('renew'), 'restore': restore}
        if (compare.one(programs, 'renew', 'a journal', data, {}) is None) != wanted:
            print('back from %r' % data)
            return 1
    return 0


def main():
    wanted = {('none', '50', 'good'): (0, True), ('no last LF', '10', 'good'): (1, False)}
    for change in list(CHANGES)[1:]:
        wanted[change, '50', 'good'] = 1, False
    for tasks in list(TASKS)[1:]:
        wanted['none', '50', tasks] = 1, False
    failed = packets() + back()
    for words, answer in wanted.items():
        if seen(*words) != answer:
            failed += 1
            print('%s, hour %s, tasks %s: %r, not %r' % (*words, seen(*words), answer))
    print('%d comparisons, %d failed' % (len(wanted) + 2, failed))
    return 1 if failed else 0


if __name__ == '__main__':
    DO = {'program': program, 'compare': comparison}
    sys.exit(DO[sys.argv[1]](*sys.argv[2:]) if sys.argv[1:] else main())
