"""Runs the programs hours, product and week on a journal."""

from __future__ import annotations

import os
import subprocess
from pathlib import Path
from typing import Callable, List, Optional, Union

from .errors import Failed
from .joining import joined, parts_of
from .journal import journal_of
from .reading import Source, bytes_of, parse_hours, parse_week
from .values import Day, Hour

# The name of a program and its standard input, to what it printed.
Runner = Callable[[str, bytes], bytes]


def repository(root: Union[str, 'os.PathLike[str]', None] = None) -> Runner:
    """Runs `./run NAME` of the repository at `root`, at $JEHMULKA, or around this package."""
    folder = Path(root or os.environ.get('JEHMULKA') or Path(__file__).resolve().parents[2])
    command = folder / 'run'

    def run(name: str, data: bytes) -> bytes:
        if not (folder / 'crates' / name).is_dir() or not command.is_file():
            raise Failed('%s is not the repository: say in JEHMULKA where it is' % folder)
        done = subprocess.run([str(command), name], input=data, stdout=subprocess.PIPE)
        if done.returncode != 0:
            raise Failed('./run %s ended with status %d; what it said is on standard error'
                         % (name, done.returncode))
        return done.stdout

    return run


def hours_of(source: Source, product: Optional[int] = None,
             run: Optional[Runner] = None) -> List[Hour]:
    """The hours of a journal of any length, over all products or of one."""
    runner = run or repository()

    def ask(part: bytes) -> List[Hour]:
        if product is None:
            return parse_hours(runner('hours', part))
        return parse_hours(runner('product', b'%d\n' % product + part))

    journal = journal_of(bytes_of(source))
    return joined(journal, parts_of(journal), ask)


def week_of(source: Source, first: int, run: Optional[Runner] = None) -> List[Day]:
    """The seven days from a first hour on.

    A journal that is too long for the program is refused: take `days_of` of its hours."""
    runner = run or repository()
    return parse_week(runner('week', b'%d\n' % first + bytes_of(source)))
