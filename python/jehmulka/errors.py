"""What can go wrong: a refusal, text that no program printed, a program that did not run."""

from __future__ import annotations

from typing import Dict

# The refusals that hours, product and week print, in words.
SENTENCES: Dict[int, str] = {
    2: 'the product on the first line is malformed or above 255',
    10: 'malformed line or value out of range',
    11: 'hour order broken',
    12: "a line's hour is 744 or more above the first line's",
    13: 'journal over 65,536 bytes',
    21: 'the first hour on the first line is malformed or above 9,999,832',
}
# Those that name a line of the journal; the others name line 0.
OF_A_LINE = (10, 11, 12)


class Error(ValueError):
    """Any error of this package."""


class Refused(Error):
    """A program refused its input: the number, the journal's line (0 for none), the sentence."""

    def __init__(self, number: int, line: int) -> None:
        Error.__init__(self, number, line)
        self.number = number
        self.line = line
        self.sentence = SENTENCES[number]

    def __str__(self) -> str:
        place = ', line %d' % self.line if self.line else ''
        return 'refused: R%d%s: %s' % (self.number, place, self.sentence)


class Malformed(Error):
    """Text that the program does not print: the line, 1 for the first, and the reason."""

    def __init__(self, line: int, reason: str) -> None:
        Error.__init__(self, line, reason)
        self.line = line
        self.reason = reason

    def __str__(self) -> str:
        return 'malformed: line %d: %s' % (self.line, self.reason)


class Failed(Error):
    """A program that could not be run, or that printed other hours than its journal has."""
