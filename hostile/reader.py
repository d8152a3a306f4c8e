"""A reader of arguments, texts, formulas and replies, and a referee of mates, written from docs/FORMATS.md; it shares nothing with the program. Files are
read, and attacks found, by ../crates/file_trials/random_files.py, which is such a reader too. A man is (side, kind, place): side 0 White, 1 Black; the kinds
king, queen, rook, bishop, knight, pawn, chancellor, archbishop, amazon, nightrider are 0 to 9; the place of a captured man is None.
"""
import collections
import math
import pathlib
import re
import sys

sys.path.insert(0, str(pathlib.Path(__file__).resolve().parent.parent / "crates/file_trials"))
from random_files import Refusal, bears, is_sound, read as read_file  # noqa: E402, F401

LINE = 200
SIDES, KINDS = b"WB", b"KQRBNPCAZH"
# The second line of a text, and the side to move and the side that is to mate.
TURNS = {b"turn W": (0, 0), b"turn B": (1, 0), b"turn W for B": (0, 1), b"turn B for B": (1, 1)}
NATURAL = re.compile(rb"0|[1-9][0-9]*")
NUMBER = re.compile(rb"0|-?[1-9][0-9]*")
MAN = re.compile(rb"([WB]) ([KQRBNPCAZH]) (gone|([^ ]+) ([^ ]+))", re.DOTALL)
REPLY = re.compile(rb"([1-8]) ([^ ]+) ([^ ]+)", re.DOTALL)
NAME = re.compile(rb"[a-z0-9_]{1,32}")
# The first line of a text, the most men, and the least and the greatest number.
Grammar = collections.namedtuple("Grammar", "header men least most")
POSITIONS = Grammar(b"infinite chess 1", 8, -2**63, 2**63 - 1)
CROWDS = Grammar(b"infinite crowd 1", 32, -2**60, 2**60)
# For each command the limits of its words; a name has none. The budget may be left out.
MOVES, BUDGET = (0, 20), (1, 200000)
SHAPES = {
    b"decide": [MOVES, BUDGET], b"least": [MOVES, BUDGET], b"first": [MOVES, BUDGET], b"describe": [MOVES, BUDGET],
    b"play": [MOVES, BUDGET], b"defend": [MOVES, BUDGET], b"crowd": [(0, 2), BUDGET],
    b"keep": [MOVES, None, BUDGET], b"check": [None, BUDGET], b"resume": [None, BUDGET], b"migrate": [None, None],
    b"show": [], b"drill": [(0, 2**64 - 1), (0, 100)], b"arith": [BUDGET],
}
LETTERS = [bytes([letter]) for letter in b"abcdefghijklmnop"]


class Refused(Exception):
    """A refusal: its code and its fault line."""

    def __init__(self, code, line):
        super().__init__(line)
        self.code, self.line = code, line


def read_words(words):
    """The command and its words, or a refusal."""
    try:
        [word.decode() for word in words]
    except UnicodeDecodeError:
        raise Refused(2, "usage unknown") from None
    if not words:
        raise Refused(2, "usage no command")
    if words[0] not in SHAPES:
        raise Refused(2, "usage unknown")
    shape = SHAPES[words[0]]
    least = len(shape) - (1 if BUDGET in shape else 0)
    if not least <= len(words) - 1 <= len(shape):
        raise Refused(2, "usage count")
    for limits, word in zip(shape, words[1:]):
        if limits is None:
            if not NAME.fullmatch(word):
                raise Refused(2, "usage name")
        elif not NATURAL.fullmatch(word):
            raise Refused(2, "usage number")
        elif len(word) > 20 or not limits[0] <= int(word) <= limits[1]:
            raise Refused(2, "usage limit")
    return words[0].decode(), words[1:]


class Lines:
    """The lines of an input. Where one that is due cannot be had, that is a refusal."""

    def __init__(self, data):
        self.data, self.at, self.number = data, 0, 0

    def next(self):
        """The next line, or None where the input ends before it."""
        self.number += 1
        end = self.data.find(b"\n", self.at)
        length = (end if end >= 0 else len(self.data)) - self.at
        if length > LINE:
            self.refuse("long")
        if end < 0 and length:
            self.refuse("cut")
        if end < 0:
            return None
        line, self.at = self.data[self.at:end], end + 1
        return line

    def refuse(self, why):
        raise Refused(3, f"text line {self.number} {why}")


def coordinate(field, grammar=POSITIONS):
    """The number that a field spells, where a text may have it, or None."""
    if len(field) <= 20 and NUMBER.fullmatch(field) and grammar.least <= int(field) <= grammar.most:
        return int(field)
    return None


def read_text(lines, grammar=POSITIONS):
    """The side to move, the side that is to mate, and the men of a text, or its refusal."""
    def due():
        line = lines.next()
        if line is None:
            lines.refuse("missing")
        return line

    if due() != grammar.header:
        lines.refuse("header")
    line = due()
    if line not in TURNS:
        lines.refuse("turn")
    (turn, winner), men = TURNS[line], []
    while True:
        line = due()
        if line == b"end":
            if len(men) < 2:
                lines.refuse("few")
            return turn, winner, men
        if len(men) == grammar.men:
            lines.refuse("many")
        shape = MAN.fullmatch(line)
        if not shape:
            lines.refuse("man")
        place = None
        # The two fields of the second shape may not be read as `gone`: there is one field then.
        if shape[4] is not None:
            place = coordinate(shape[4], grammar), coordinate(shape[5], grammar)
            if None in place:
                lines.refuse("number")
        men.append((SIDES.index(shape[1]), KINDS.index(shape[2]), place))


def head_length(data):
    """The length of a strategy file's bytes before its sets."""
    at = 8
    for _ in range(data[7]):
        at += 19 if data[at + 2] else 3
    return at


def require_sound(turn, men):
    """Refuses a position that is not sound, for the first reason."""
    kings = [[man for man in men if man[0] == side and man[1] == 0] for side in (0, 1)]
    for reason, fails in [("no king", lambda its: not its), ("many kings", lambda its: len(its) > 1), ("king gone", lambda its: its[0][2] is None)]:
        for side in (0, 1):
            if fails(kings[side]):
                raise Refused(4, f"unsound {reason} {'WB'[side]}")
    for a, one in enumerate(men):
        for b in range(a + 1, len(men)):
            if one[2] is not None and one[2] == men[b][2]:
                raise Refused(4, f"unsound same square {a + 1} {b + 1}")
    if is_attacked(turn, kings[1 - turn][0][2], men):
        raise Refused(4, "unsound other side in check")


def is_attacked(side, square, men):
    """Whether a man of the side bears on the square."""
    return any(man[0] == side and man[2] is not None and bears(man, square, men) for man in men)


DIRECTIONS = [(x, y) for x in range(-2, 3) for y in range(-2, 3) if math.gcd(x, y) == 1]


def goes(man, square, men):
    """Whether a man may go to a square, where check is not looked at."""
    there = next((it for it in men if it[2] == square), None)
    if there and there[0] == man[0]:
        return False
    if man[1] == KINDS.index(b"P") and not there:
        return square == (man[2][0], man[2][1] + (1 if man[0] == 0 else -1))
    return (man[1] != KINDS.index(b"P") or there is not None) and bears(man, square, men)


def stops(man, checker, king):
    """Squares to which a man who is no king may go against a check: that of the checker, and those before him on a way of the man."""
    (x, y), (from_x, from_y) = man[2], checker[2]
    dx, dy = king[2][0] - from_x, king[2][1] - from_y
    length = math.gcd(dx, dy)
    yield checker[2]
    for to_x, to_y in DIRECTIONS:
        across = dx // length * to_y - dy // length * to_x
        far = (x - from_x) * to_y - (y - from_y) * to_x
        if across and far % across == 0 and 0 < far // across < length:
            yield from_x + dx // length * (far // across), from_y + dy // length * (far // across)


def is_mated(turn, men):
    """Whether the side to move is in check and has no legal move, on the whole board."""
    king = next(man for man in men if man[0] == turn and man[1] == 0)
    checker = next((man for man in men if man[0] != turn and man[2] is not None and bears(man, king[2], men)), None)
    if checker is None:
        return False
    for man in (man for man in men if man[0] == turn and man[2] is not None):
        around = [(king[2][0] + x, king[2][1] + y) for x, y in DIRECTIONS if abs(x) < 2 and abs(y) < 2]
        for square in around if man is king else stops(man, checker, king):
            if goes(man, square, men):
                moved = (*man[:2], square)
                left = [moved if it is man else it for it in men if it is man or it[2] != square]
                if not is_attacked(1 - turn, square if man is king else king[2], left):
                    return False
    return True


def shown(turn, winner, men):
    """What `show` writes."""
    line = next(line for line, sides in TURNS.items() if sides == (turn, winner))
    text = f"infinite chess 1\n{line.decode()}\n"
    for side, kind, place in men:
        where = "gone" if place is None else f"{place[0]} {place[1]}"
        text += f"{'WB'[side]} {KINDS.decode()[kind]} {where}\n"
    king = next(man for man in men if man[0] == turn and man[1] == 0)
    check = "yes" if is_attacked(1 - turn, king[2], men) else "no"
    return f"{text}end\ncheck {check}\nlive {sum(man[2] is not None for man in men)}\n"


def read_reply(line):
    """The move of a reply as (man, x, y), `quit`, or None where the line is none."""
    if line == b"quit":
        return "quit"
    shape = REPLY.fullmatch(line)
    if not shape:
        return None
    move = int(shape[1]), coordinate(shape[2]), coordinate(shape[3])
    return None if None in move else move


class Fields:
    """The fields of a line. The first that cannot stand where it stands is told as a refusal."""

    def __init__(self, line):
        self.fields, self.at = line.split(b" "), 0

    def refuse(self):
        raise Refused(3, f"text line 1 formula {self.at + 1}")

    def next(self, fits):
        if self.at == len(self.fields) or not fits(self.fields[self.at]):
            self.refuse()
        self.at += 1
        return self.fields[self.at - 1]


def between(low, high):
    return lambda field: len(field) < 9 and NUMBER.fullmatch(field) and low <= int(field) <= high


def read_comparison(fields, scope):
    used = []
    for _ in range(int(fields.next(between(1, 8)))):
        fields.next(lambda field: field != b"0" and between(-64, 64)(field))
        used.append(fields.next(lambda field: field in scope and field not in used))
    fields.next(between(-1000, 1000))


def read_formula(fields, scope=()):
    word = fields.next(lambda field: field in (b"not", b"and", b"or", b"ex", b"all", b"le", b"eq"))
    if word in (b"le", b"eq"):
        read_comparison(fields, scope)
    elif word in (b"ex", b"all"):
        letter = fields.next(lambda field: field in LETTERS and field not in scope)
        read_formula(fields, (*scope, letter))
    else:
        for _ in range(1 if word == b"not" else 2):
            read_formula(fields, scope)


def read_formula_line(line):
    fields = Fields(line)
    read_formula(fields)
    if fields.at < len(fields.fields):
        fields.refuse()
