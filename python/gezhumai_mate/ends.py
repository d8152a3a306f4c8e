"""The ends of a run that are no answer: a class for each code of the program."""
from typing import Optional


class NoAnswer(Exception):
    """A run that ended without an answer. Its text is the last line that the program wrote, and `code` its status."""

    code: Optional[int] = None


class OutOfTime(NoAnswer):
    """The run was ended after the seconds that it was given."""


class NoProgram(NoAnswer):
    """There is no program, and it could not be built."""

    code = 1


class WordsRefused(NoAnswer):
    """The arguments are refused, such as a number of moves beyond its limit."""

    code = 2


class TextRefused(NoAnswer):
    """The text of the position, or the formula, is refused."""

    code = 3


class NotSound(NoAnswer):
    """The position is not sound."""

    code = 4


class ReadFailed(NoAnswer):
    """Standard input could not be read."""

    code = 5


class WriteFailed(NoAnswer):
    """Standard output could not be written."""

    code = 6


class FolderFailed(NoAnswer):
    """A file of the folder could not be read or written, or is no strategy file and would be replaced."""

    code = 7


class OverBudget(NoAnswer):
    """A step exceeds the budget."""

    code = 8


class Wide(NoAnswer):
    """No move to a square of 64 bits keeps what was promised."""

    code = 9


class NoMemory(NoAnswer):
    """An allocation failed."""

    code = 10


class FileRefused(NoAnswer):
    """There is no such strategy file, or it is refused."""

    code = 11


class RepliesEnded(NoAnswer):
    """The replies end before the game does."""

    code = 12


class TooManyReplies(NoAnswer):
    """A game has more replies than the program reads."""

    code = 13


# The classes by their codes.
ENDS = {it.code: it for it in NoAnswer.__subclasses__() if it.code is not None}
