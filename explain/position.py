"""Position texts, and how men move. Written from docs/FORMATS.md and the laws of the game for what scripts tell people; it shares nothing with the
program, nothing of it is proved, and where the program is there, the program decides.
"""
import math
import re
from dataclasses import dataclass, replace

SIDES = {"W": "White", "B": "Black"}
KINDS = {
    "K": "king", "Q": "queen", "R": "rook", "B": "bishop", "N": "knight", "P": "pawn",
    "C": "chancellor", "A": "archbishop", "Z": "amazon", "H": "nightrider",
}
NUMBER = re.compile(r"0|-?[1-9][0-9]*")
# The most bytes of a line, and the fewest men of a text.
LINE, FEWEST_MEN = 200, 2
# The second line of a text, by the side to move and the side that is to mate.
TURNS = {(turn, winner): f"turn {turn}" + " for B" * (winner == "B") for turn in "WB" for winner in "WB"}
STRAIGHT = {(1, 0), (0, 1), (-1, 0), (0, -1)}
DIAGONAL = {(1, 1), (-1, 1), (-1, -1), (1, -1)}
LEAPS = {(x, y) for x in (-2, -1, 1, 2) for y in (-2, -1, 1, 2) if abs(x) != abs(y)}
# For each kind but the pawn the steps that it makes once, and those that it makes as often as it likes.
ONCE = {"K": STRAIGHT | DIAGONAL, "N": LEAPS, "C": LEAPS, "A": LEAPS, "Z": LEAPS}
FAR = {"Q": STRAIGHT | DIAGONAL, "R": STRAIGHT, "B": DIAGONAL, "C": STRAIGHT, "A": DIAGONAL, "Z": STRAIGHT | DIAGONAL, "H": LEAPS}


@dataclass(frozen=True)
class Grammar:
    """A form of text: its first line, the most men that it has, and the least and the greatest number of a file or rank."""

    header: str
    most_men: int
    least: int
    most: int


POSITIONS = Grammar("infinite chess 1", 8, -(2**63), 2**63 - 1)
CROWDS = Grammar("infinite crowd 1", 32, -(2**60), 2**60)


def grammar_of(data):
    """Returns the form of text that bytes begin as."""
    return CROWDS if data.startswith(f"{CROWDS.header}\n".encode()) else POSITIONS


@dataclass(frozen=True)
class Man:
    """A man, on the square (x, y), or captured where that is None."""

    side: str
    kind: str
    square: tuple

    def letter(self):
        return self.kind if self.side == "W" else self.kind.lower()

    def line(self):
        place = "gone" if self.square is None else "%d %d" % self.square
        return f"{self.side} {self.kind} {place}"

    def name(self):
        return f"{SIDES[self.side]}'s {KINDS[self.kind]}"


@dataclass(frozen=True)
class Position:
    """The side to move, the men, counted from 1 by their lines, and the side that is to mate."""

    turn: str
    men: tuple
    winner: str = "W"

    def turn_line(self):
        return TURNS[self.turn, self.winner]

    def text(self, grammar=POSITIONS):
        return "\n".join([grammar.header, self.turn_line(), *[it.line() for it in self.men], "end", ""])

    def on(self, square):
        """Returns the number of a man on the square, or None."""
        return next((number for number, it in enumerate(self.men, 1) if it.square == square), None)

    def after(self, number, square):
        """Returns the position after a man has gone to a square, with whoever of the other side stood there gone."""
        mover = self.men[number - 1]
        gone = lambda it: replace(it, square=None) if it.square == square and it.side != mover.side else it
        men = [replace(it, square=square) if at == number else gone(it) for at, it in enumerate(self.men, 1)]
        return Position(other(self.turn), tuple(men), self.winner)


def other(side):
    return "B" if side == "W" else "W"


class Refused(Exception):
    """A text is refused: at this line, with its bytes, for this reason, with the men of the lines before it."""

    def __init__(self, number, line, why, men=()):
        super().__init__(why)
        self.number, self.line, self.why, self.men = number, line, why, men


def next_line(data, at, number, men):
    """Returns the line that begins at a place, and the place behind it; or refuses it."""
    end = data.find(b"\n", at)
    line = data[at:] if end < 0 else data[at:end]
    if len(line) > LINE:
        raise Refused(number, line, "long", tuple(men))
    if end < 0:
        raise Refused(number, line, "cut" if line else "missing", tuple(men))
    return line, end + 1


def number_of(field, grammar=POSITIONS):
    """Returns the number that a field spells, where it is one of the text's, or None."""
    spelled = len(field) <= 20 and NUMBER.fullmatch(field)
    return int(field) if spelled and grammar.least <= int(field) <= grammar.most else None


def read_text(data, grammar=POSITIONS):
    """Returns the position that bytes begin with, and what stands behind its text; or refuses the first line that may not stand where it stands."""
    at, men, sides = 0, [], None
    for number in range(1, grammar.most_men + 4):
        line, at = next_line(data, at, number, men)
        refuse = lambda why: Refused(number, line, why, tuple(men))
        if number == 1:
            if line != grammar.header.encode():
                raise refuse("header")
        elif number == 2:
            sides = next((sides for sides, it in TURNS.items() if it.encode() == line), None)
            if sides is None:
                raise refuse("turn")
        elif line == b"end":
            if len(men) < FEWEST_MEN:
                raise refuse("few")
            return Position(sides[0], tuple(men), sides[1]), data[at:]
        elif len(men) == grammar.most_men:
            raise refuse("many")
        else:
            men.append(read_man(line, grammar, refuse))


def read_man(line, grammar, refuse):
    """Returns the man of a line, or refuses it."""
    fields = line.decode("latin-1").split(" ")
    if len(fields[0]) != 1 or fields[0] not in SIDES or len(fields) < 2 or fields[1] not in KINDS:
        raise refuse("man")
    if fields[2:] == ["gone"]:
        return Man(fields[0], fields[1], None)
    if len(fields) != 4 or "" in fields:
        raise refuse("man")
    square = number_of(fields[2], grammar), number_of(fields[3], grammar)
    if None in square:
        raise refuse("number")
    return Man(fields[0], fields[1], square)


# How men move

def way(start, target):
    """Returns the step of a straight, diagonal or leaping way from one square to another, or None."""
    dx, dy = target[0] - start[0], target[1] - start[1]
    count = length(start, target)
    step = (dx // count, dy // count) if count and dx % count == 0 and dy % count == 0 else None
    return step if step in STRAIGHT | DIAGONAL | LEAPS else None


def length(start, target):
    """Returns how many steps of one direction lead from one square to another, where any do."""
    return math.gcd(target[0] - start[0], target[1] - start[1])


def blocker(position, start, target):
    """Returns the number of the first man between two squares on a straight, diagonal or leaping way, or None."""
    step, far = way(start, target), length(start, target)
    between = [(length(start, it.square), number) for number, it in enumerate(position.men, 1)
               if it.square is not None and way(start, it.square) == step and 0 < length(start, it.square) < far]
    return min(between)[1] if between else None


def reaches(man, target):
    """Returns whether a man bears on a square of an empty board."""
    dx, dy = target[0] - man.square[0], target[1] - man.square[1]
    if man.kind == "P":
        return abs(dx) == 1 and dy == forward(man.side)
    return (dx, dy) in ONCE.get(man.kind, ()) or way(man.square, target) in FAR.get(man.kind, ())


def forward(side):
    return 1 if side == "W" else -1


def bears(position, number, target):
    """Returns whether a man bears on a square, who is on the board."""
    man = position.men[number - 1]
    if man.square is None or not reaches(man, target):
        return False
    return blocker(position, man.square, target) is None


def attackers(position, side, target):
    """Returns the numbers of the men of a side that bear on a square."""
    return [number for number, it in enumerate(position.men, 1) if it.side == side and bears(position, number, target)]


def king(position, side):
    """Returns the number of a side's king on the board, or None."""
    return next((number for number, it in enumerate(position.men, 1) if (it.side, it.kind) == (side, "K") and it.square is not None), None)


def checkers(position, side):
    """Returns the numbers of the men that attack a side's king."""
    number = king(position, side)
    return attackers(position, other(side), position.men[number - 1].square) if number else []


def why_illegal(position, number, target):
    """Returns why a move is not legal, as a word and what belongs to it, or None where it is."""
    if number > len(position.men):
        return "no man", {}
    man, there = position.men[number - 1], position.on(target)
    if man.square is None:
        return "captured man", {}
    if man.side != position.turn:
        return "other side's man", {}
    if man.square == target:
        return "no move", {}
    if there and position.men[there - 1].side == man.side:
        return "own man there", {"there": there}
    if there and position.men[there - 1].kind == "K":
        return "king there", {"there": there}
    ahead = (man.square[0], man.square[1] + forward(man.side))
    if man.kind == "P" and not (target == ahead and not there) and not (reaches(man, target) and there):
        return ("pawn is stopped", {"there": there}) if target == ahead else ("pawn's way", {})
    if man.kind != "P" and not reaches(man, target):
        return "way", {}
    stops = blocker(position, man.square, target)
    if stops:
        return "in between", {"stops": stops}
    left = checkers(position.after(number, target), man.side)
    if left:
        return ("still in check" if checkers(position, man.side) else "into check"), {"checker": left[0]}
    return None
