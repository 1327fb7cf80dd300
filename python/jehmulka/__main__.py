"""From a journal to hours, a table and a picture: python3 -m jehmulka COMMAND [FILE]"""

from __future__ import annotations

import argparse
import sys
from datetime import datetime
from typing import Any, Callable, Dict, List, Optional

from .errors import Error
from .picture import picture
from .programs import hours_of
from .reading import Source, read_hours, read_week, text_of
from .sheet import week_picture
from .table import csv_of
from .times import EPOCH, month_of
from .values import Hour

Asked = argparse.Namespace

OPTIONS: Dict[str, Dict[str, Any]] = {
    '--product': {'type': int, 'metavar': 'CODE', 'help': 'the hours of this product alone'},
    '--first': {'type': int, 'metavar': 'HOUR', 'help': 'the first hour of the week'},
    '--origin': {'type': datetime.fromisoformat, 'default': EPOCH, 'metavar': 'TIME',
                 'help': 'when hour 0 begins; else 1970-01-01T00:00:00+00:00'},
    '--month': {'metavar': 'YYYY-MM', 'help': 'the hours of this month alone'},
    '--point': {'type': int, 'default': 0, 'metavar': 'DIGITS',
                'help': 'digits behind the decimal point; else 0'},
    '--title': {'metavar': 'TEXT', 'help': 'the title of the picture'},
}


def hours_text(asked: Asked) -> str:
    """The hours of a journal as the program prints them."""
    return text_of(hours_of(source_of(asked), asked.product)).decode('ascii')


def table_text(asked: Asked) -> str:
    """Hours as CSV."""
    return csv_of(some_hours(asked), asked.origin, asked.point)


def picture_text(asked: Asked) -> str:
    """Hours as SVG."""
    return picture(some_hours(asked), asked.origin, asked.point, asked.title)


def week_picture_text(asked: Asked) -> str:
    """A week sheet as SVG."""
    days = read_week(source_of(asked))
    return week_picture(days, asked.first, asked.origin, asked.point, asked.title)


def source_of(asked: Asked) -> Source:
    """The file that is named, or standard input."""
    named: str = asked.file
    return sys.stdin.buffer if named == '-' else named


def some_hours(asked: Asked) -> List[Hour]:
    """The hours read, of a month where one is asked for.

    None at all is an error here: a program that failed before a pipe leaves nothing, too."""
    hours = read_hours(source_of(asked))
    if not hours:
        raise Error('nothing was read: the journal is empty, or the program before did not run')
    if asked.month is None:
        return hours
    chosen = month_of(hours, asked.month, asked.origin)
    if not chosen:
        raise Error('no hour begins in %s' % asked.month)
    return chosen


def parser() -> argparse.ArgumentParser:
    """The commands and their options."""
    whole = argparse.ArgumentParser(
        prog='jehmulka', description='The hours of a dosing box as a table and as a picture.')
    commands = whole.add_subparsers(metavar='COMMAND', required=True)

    def command(name: str, answer: Callable[[Asked], str], told: str, *options: str) -> None:
        made = commands.add_parser(name, help=told, description=told)
        made.add_argument('file', nargs='?', default='-', metavar='FILE',
                          help='else standard input')
        made.set_defaults(answer=answer)
        for option in options:
            made.add_argument(option, **OPTIONS[option])

    drawn = ('--origin', '--point', '--title')
    command('hours', hours_text, 'the hours of a journal of any length', '--product')
    command('table', table_text, 'hours as CSV', '--month', '--origin', '--point')
    command('picture', picture_text, 'hours as SVG, days by 24 hours', '--month', *drawn)
    command('week-picture', week_picture_text, 'a week sheet as SVG', '--first', *drawn)
    return whole


def main(words: Optional[List[str]] = None) -> int:
    """Prints the answer; or says what was wrong on standard error, and has status 1."""
    asked = parser().parse_args(words)
    try:
        answer: str = asked.answer(asked)
    except (ValueError, OSError) as error:
        print('jehmulka: %s' % error, file=sys.stderr)
        return 1
    sys.stdout.buffer.write(answer.encode('utf-8'))
    sys.stdout.buffer.flush()
    return 0


if __name__ == '__main__':
    sys.exit(main())
