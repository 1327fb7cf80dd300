"""Changes one rule of the Python package at a time and demands that a check notices it:
python3 tests/package_mutants.py

The rules of the table need pandas, and are left out where it is not installed."""

import importlib.util
import os
import shutil
import subprocess
import sys
import tempfile

ROOT = os.path.dirname(os.path.dirname(os.path.abspath(__file__)))

# The changed rule, the file, its text, the text put in its place, the check that is to notice.
MUTANTS = [
    # What the programs print.
    ('a torn line is read', 'reading.py', "if not line.endswith(b'\\n'):", 'if False:',
     'malformed'),
    ('an hour left out is read', 'reading.py', 'hour.hour != hours[-1].hour + 1',
     'hour.hour <= hours[-1].hour', 'malformed'),
    ('hours that go back are read', 'reading.py', 'hour.hour != hours[-1].hour + 1',
     'hour.hour > hours[-1].hour + 1', 'malformed'),
    ('missing is idle', 'reading.py', "idle(hour) if fields[1] == b'I' else missing(hour)",
     'idle(hour)', 'reading'),
    ('idle is missing', 'reading.py', "idle(hour) if fields[1] == b'I' else missing(hour)",
     'missing(hour)', 'reading'),
    ('bytes of any kind are read', 'reading.py', "if re.search(rb'[^\\t -~]', line[:-1]):",
     'if False:', 'malformed'),
    ('leading zeros are read', 'reading.py', "rb'0|[1-9][0-9]{0,14}'", "rb'[0-9]{1,15}'",
     'malformed'),
    ('bits in small letters are read', 'reading.py', '[0-9A-F]{16}', '[0-9A-Fa-f]{16}',
     'malformed'),
    ('any mean is taken', 'values.py',
     "if struct.pack('>d', mean) != struct.pack('>d', total / doses):", 'if False:', 'malformed'),
    ('a sum above all doses is taken', 'values.py', 'if not 0 <= total <= doses * MOST_AMOUNT:',
     'if total < 0:', 'malformed'),
    ('no dose is measured', 'values.py', 'if doses < 1:', 'if doses < 0:', 'value'),
    ('lines behind a refusal are passed over', 'reading.py', 'if len(lines) > 1:', 'if False:',
     'malformed'),
    ('any refusal is taken', 'reading.py',
     'if number not in known or (line > 0) != (number in OF_A_LINE):', 'if False:', 'malformed'),
    ('a refusal without its line', 'errors.py', 'self.line = line\n        self.sentence',
     'self.line = 0\n        self.sentence', 'refusal'),
    ('six days are a sheet', 'reading.py', 'if len(days) != DAYS_OF_A_WEEK:', 'if len(days) > 7:',
     'malformed'),
    ('days in any order', 'reading.py', 'if number != at - 1:', 'if False:', 'malformed'),
    ('an unknown day has the sum 0', 'values.py',
     'self.sum == (0 if self.kind is DayKind.HOLIDAY else None)', 'self.sum in (0, None)', 'value'),
    ('a missing hour may have figures', 'values.py',
     '((0, 0, None) if self.kind is Kind.IDLE else (None, None, None)):', 'figures:', 'value'),
    ('a holiday of fewer hours', 'values.py',
     'if [hour.kind for hour in seen] == [Kind.IDLE] * HOURS_OF_A_DAY:',
     'if all(hour.kind is Kind.IDLE for hour in seen):', 'week'),
    ('a holiday with missing hours', 'values.py',
     'if [hour.kind for hour in seen] == [Kind.IDLE] * HOURS_OF_A_DAY:', 'if len(seen) == 24:',
     'week'),
    # Long journals.
    ('a 1 does not always follow', 'journal.py', ' or count == 1', '', 'seam'),
    ('0 does not follow 999,999', 'journal.py', '(before + 1) % COUNTS', 'before + 1', 'seam'),
    ('an equal count follows', 'journal.py', ' or count == 1', ' or count in (1, before)',
     'every_seam'),
    ('an hour again after its H', 'journal.py', 'lines[-1].hour + (lines[-1].dose is None)',
     'lines[-1].hour', 'journal'),
    ('a product of 256', 'journal.py', '(255,)', '(256,)', 'journal'),
    ('an amount of 1,800,001', 'values.py', 'MOST_AMOUNT = 1_800_000', 'MOST_AMOUNT = 1_800_001',
     'journal'),
    ('a last line without LF is read', 'journal.py', "good = text.endswith(b'\\n') and greatest",
     'good = greatest', 'journal'),
    ('holes across seams are not looked for', 'joining.py', 'not follows(before[1], doses[0][1])',
     'False', 'every_seam'),
    ('a part without a D forgets the last one', 'joining.py', 'doses[-1] if doses else before',
     'doses[-1] if doses else None', 'seam'),
    ('the first D of a part is kept, not the last', 'joining.py', 'doses[-1] if doses else before',
     'doses[0] if doses else before', 'every_seam'),
    ('a hole without its last hour', 'joining.py', 'in range(first, last + 1))',
     'in range(first, last))', 'every_seam'),
    ('a hole without its first hour', 'joining.py', 'in range(first, last + 1))',
     'in range(first + 1, last + 1))', 'every_seam'),
    ('hours without a line are left out', 'joining.py',
     'for number in range(journal.lines[0].hour, journal.lines[-1].hour + 1)]',
     'for number in sorted(known)]', 'seam'),
    ('a part without its V', 'joining.py', "ask(journal.head + b''", "ask(b''", 'seam'),
    ('the V line takes no room', 'joining.py', 'longest - len(journal.head)', 'longest', 'full'),
    ('a part of 745 hours', 'joining.py', '>= span', '> span', 'seam'),
    ('an hour is cut in two', 'joining.py', 'if lines[place - 1].hour < lines[place].hour:',
     'if True:', 'join'),
    ('cut before an H where there is one behind', 'joining.py', 'if lines[place - 1].dose is None:',
     'if False:', 'seam'),
    ('a refusal names the line of its part', 'joining.py', 'refused.line + part[0]', 'refused.line',
     'run'),
    ('any hours are taken for those of a part', 'joining.py',
     'if [hour.hour for hour in hours] != list(wanted):', 'if False:', 'run'),
    ('an empty journal is not shown to the program', 'joining.py', 'return parts or [(0, 0)]',
     'return parts', 'run'),
    ('the status of a program is not looked at', 'programs.py', 'if done.returncode != 0:',
     'if False:', 'run'),
    ('the hours of all products for one', 'programs.py', 'if product is None:', 'if True:',
     'archive'),
    # Times, table and picture.
    ('a time without a zone', 'times.py', 'if not isinstance(origin.tzinfo, timezone):',
     'if False:', 'time'),
    ('the nearest hour', 'times.py', '(time - time_of(0, origin)) // timedelta(hours=1)',
     'round((time - time_of(0, origin)) / timedelta(hours=1))', 'time'),
    ('an hour past the last', 'times.py', 'range(LAST_HOUR + 1)', 'range(LAST_HOUR + 2)', 'time'),
    ('a time of any zone', 'times.py', 'if time.tzinfo is None:', 'if False:', 'time'),
    ('an hour without a date', 'times.py', 'except OverflowError:', 'except KeyError:', 'time'),
    ('a month of every year', 'times.py', '(time.year, time.month) == (begin.year, begin.month)',
     'time.month == begin.month', 'time'),
    ('a point of 4', 'times.py', 'range(4)', 'range(5)', 'time'),
    ('missing is 0 in the CSV', 'table.py', 'None if hour.sum is None else scaled(hour.sum, point)',
     'scaled(hour.sum or 0, point)', 'csv'),
    ('missing is 0 in the table', 'table.py', '[row.sum for row in rows]',
     '[row.sum or 0 for row in rows]', 'pandas'),
    ('idle is not known in the table', 'table.py', '[row.sum for row in rows]',
     '[row.sum or None for row in rows]', 'pandas'),
    ('an idle hour has the mean 0', 'table.py', '[row.mean for row in rows]',
     '[0.0 if row.sum == 0 else row.mean for row in rows]', 'pandas'),
    ('categories by what is there', 'table.py',
     ',\n                                   [kind.value for kind in Kind])', ')', 'pandas'),
    ('missing is plain', 'picture.py', 'return HATCHED\n', 'return PLAIN\n', 'picture'),
    ('an hour outside is plain', 'picture.py',
     'if hour is None or hour.sum is None:\n        return HATCHED',
     'if hour is None:\n        return PLAIN\n    if hour.sum is None:\n        return HATCHED',
     'picture'),
    ('measured with 0 is plain', 'picture.py', 'PLAIN if hour.kind is Kind.IDLE',
     'PLAIN if hour.sum == 0', 'edge'),
    ('a sum is not marked where hours are missing', 'picture.py', "gone) if gone else",
     'gone) if gone > 24 else', 'picture'),
    ('an unknown day is a holiday', 'picture.py',
     'if day.kind is DayKind.HOLIDAY:\n        return \'holiday\'\n',
     "if day.kind is not DayKind.WORKED:\n        return 'holiday'\n", 'picture'),
    ('a picture of nothing', 'picture.py',
     "if not known:\n        raise ValueError('there is no hour to draw')",
     'if not known:\n        return document((9, 9), "", "")', 'edge'),
    ('days begin with the first hour', 'picture.py', 'first - time_of(first, origin).hour', 'first',
     'picture'),
    ('darker the smaller the sum', 'svg.py', 'LOW, HIGH = (86, 148, 199), (8, 29, 68)',
     'HIGH, LOW = (86, 148, 199), (8, 29, 68)', 'contrast'),
    ('too light beside plain', 'svg.py', '(86, 148, 199)', '(200, 220, 240)', 'contrast'),
    ('a title that is not escaped', 'svg.py', 'return escape(text)', 'return text', 'edge'),
    ('a cell without its words', 'svg.py', "element('title', words(told)) if told else ''", "''",
     'picture'),
    ('an unknown day of a week is plain', 'sheet.py',
     'HATCHED if day.kind is DayKind.UNKNOWN else PLAIN', 'PLAIN', 'week_picture'),
    # The command line and the wheel.
    ('a table of nothing', '__main__.py', 'if not hours:', 'if False:', 'command'),
    ('bad input has the status 0', '__main__.py', 'return 1', 'return 0', 'command'),
    ('a wheel without its types', '../backend.py', " + [HERE / 'jehmulka' / 'py.typed']", '',
     'wheel'),
]


def run(folder, check):
    """What a check says in a folder: passed, noticed, or broken where it did not end."""
    done = subprocess.run([sys.executable, os.path.join(folder, 'tests', 'package_test.py'),
                           *check],
                          stdout=subprocess.PIPE, stderr=subprocess.STDOUT, cwd=folder)
    last = done.stdout.decode().splitlines()[-1]
    made, _, failed = last.partition(' checks, ')
    if not failed.endswith(' failed') or made == '0':
        return 'BROKEN'
    return 'passed' if failed == '0 failed' else 'noticed'


def mutated(folder, name, old, new, check):
    """What a check says of the change."""
    path = os.path.join(folder, 'python', 'jehmulka', name)
    with open(path) as file:
        text = file.read()
    if text.count(old) != 1:
        raise SystemExit('%s has %d times: %s' % (name, text.count(old), old))
    with open(path, 'w') as file:
        file.write(text.replace(old, new))
    try:
        return run(folder, [check])
    finally:
        with open(path, 'w') as file:
            file.write(text)


def main():
    sys.dont_write_bytecode = True
    os.environ['PYTHONDONTWRITEBYTECODE'] = '1'
    with tempfile.TemporaryDirectory() as folder:
        shutil.copytree(os.path.join(ROOT, 'python'), os.path.join(folder, 'python'))
        os.mkdir(os.path.join(folder, 'tests'))
        shutil.copy(os.path.join(ROOT, 'tests', 'package_test.py'), os.path.join(folder, 'tests'))
        for name in ('second', 'crates', 'docs', 'README.md', os.path.join('tests', 'cases')):
            os.symlink(os.path.join(ROOT, name), os.path.join(folder, name))
        if run(folder, []) != 'passed':
            raise SystemExit('the unchanged one does not pass')
        pandas = importlib.util.find_spec('pandas') is not None
        chosen = [mutant for mutant in MUTANTS if pandas or mutant[4] != 'pandas']
        missed = 0
        for rule, name, old, new, check in chosen:
            said = mutated(folder, name, old, new, check)
            missed += said != 'noticed'
            print('%s\t%s' % ('MISSED' if said == 'passed' else said, rule), flush=True)
    print('%d rules changed, %d not noticed' % (len(chosen), missed))
    return 1 if missed else 0


if __name__ == '__main__':
    sys.exit(main())
