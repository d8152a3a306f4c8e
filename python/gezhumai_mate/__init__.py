"""Asks `mate`, the engine for mate-in-n problems of infinite chess, from Python. There is nothing to install: the package is a folder of the clone.

    import sys
    sys.path.insert(0, "python")
    import gezhumai_mate as mate

    mate.use("unproved")                                  # or leave it out: the first question builds the proved program
    ladder = mate.Position.of_icn("w K0,-2|R10,1|R5,7|k0,0")
    mate.least(ladder, 3)                                 # 1
    mate.first(ladder, 1)                                 # [Ray(man=3, step=(0, -1), least=7, more=False)]
    mate.many(lambda it: mate.decide(it, 1), [ladder, ladder.put(3, (7, 7))])

Each command of the program is a function, each end that is no answer a class of exceptions, and positions are values that can be read, written and
drawn. `help(mate.commands)` lists the functions, `help(mate.Position)` what a position can do.
"""
from . import commands, ends, notation, positions, program
from .commands import Distances, Ray, Shown, Truth, arith, check, crowd, decide, defend, describe, drill, first, keep, least, migrate, play, resume, run, show
from .ends import (
    ENDS, FileRefused, FolderFailed, NoAnswer, NoMemory, NoProgram, NotSound, OutOfTime, OverBudget, ReadFailed, RepliesEnded, TextRefused, TooManyReplies, Wide,
    WordsRefused, WriteFailed,
)
from .many import many
from .positions import LeftOut, Man, Position
from .program import use

__all__ = [
    "Distances", "ENDS", "FileRefused", "FolderFailed", "LeftOut", "Man", "NoAnswer", "NoMemory", "NoProgram", "NotSound", "OutOfTime", "OverBudget", "Position", "Ray",
    "ReadFailed", "RepliesEnded", "Shown", "TextRefused", "TooManyReplies", "Truth", "Wide", "WordsRefused", "WriteFailed", "arith", "check", "commands", "crowd", "decide",
    "defend", "describe", "drill", "ends", "first", "keep", "least", "many", "migrate", "notation", "play", "positions", "program", "resume", "run", "show", "use",
]
