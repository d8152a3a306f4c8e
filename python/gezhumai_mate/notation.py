"""Reads and writes positions in three notations: the text of `mate`, ICN and FEN.

ICN is the notation of the online game of infinite chess: `w K0,-2|R10,1|R5,7|k0,0`. FEN is that of chess on 8 by 8 squares: its rank 1 is rank 1
here, and its file a is file 1.

    >>> found = read("w K0,-2|R10,1|R5,7|k0,0")
    >>> found.position.men[1].line()
    'W R 10 1'
    >>> write(found.position, "icn")
    Written(text='w K0,-2|R10,1|R5,7|k0,0', remarks=[])

What the other notation says and a position here cannot is never dropped silently. What makes another game of it (other pieces, other win
conditions, moves that are already made) is refused, and the refusal names it; what is left out (promotion lines, castling, double steps, en
passant, move rules, names) is a remark of the result. With `strict` each remark of a reading is a refusal too.

Nothing here asks the program, and whether a position is sound is not asked.
"""
import re
from dataclasses import dataclass

from ._clone import module

chess = module("explain/position.py")

TEXT, CROWD, ICN, FEN = FORMS = ("text", "crowd", "icn", "fen")

# The kinds of men, by their abbreviations in ICN, in capitals for White.
KINDS_OF_ICN = {"K": "K", "Q": "Q", "R": "R", "B": "B", "N": "N", "P": "P", "CH": "C", "AR": "A", "AM": "Z", "NR": "H"}
ICN_OF_KINDS = {kind: name for name, kind in KINDS_OF_ICN.items()}
# Those that ICN has and `mate` lacks.
OTHER_PIECES = {
    "HA": "hawk", "GU": "guard", "CA": "camel", "GI": "giraffe", "ZE": "zebra", "CE": "centaur", "RC": "royal centaur", "RQ": "royal queen",
    "RO": "rose", "HU": "huygen", "OB": "obstacle", "VO": "void",
}
WIN_CONDITIONS = ("checkmate", "royalcapture", "allroyalscaptured", "allpiecescaptured", "koth", "threecheck", "stalemate")
TURNS_OF_ICN = {"w": "W", "b": "B", "w:b": "W", "b:w": "B"}
TOKEN = re.compile(r"\[[^\]]*\]|\{[^}]*\}|\([^()\s]*\)|\S+")
PIECE = re.compile(r"(\d*)([A-Za-z]+)(-?\d+),(-?\d+)(\+?)")
SQUARE = re.compile(r"-?\d+,-?\d+")
# The files and ranks of a FEN's board.
SIZE = 8


class Refused(ValueError):
    """A position cannot be read, or cannot be written in a notation; the text says why."""


@dataclass(frozen=True)
class Read:
    """A position that was read, the notation, and a sentence for each thing that was left out."""

    position: "chess.Position"
    form: str
    remarks: list


@dataclass(frozen=True)
class Written:
    """The text of a position in a notation, and a sentence for each thing of it that the notation cannot say."""

    text: str
    remarks: list


def form_of(text):
    """Returns the notation that a text is written in, by how it looks."""
    line = text.lstrip().split("\n")[0].strip()
    if line in (chess.POSITIONS.header, chess.CROWDS.header) or line.startswith("infinite "):
        return TEXT
    return FEN if line.split(" ")[0].count("/") >= 2 and "|" not in line and "," not in line.split(" ")[0] else ICN


def read(text, form=None, winner=None, strict=False):
    """Returns the position of a text as a Read. ICN and FEN do not say who is to mate: `winner` does, "W" or "B", White if it is None."""
    form = form or form_of(text)
    found = {TEXT: read_text, CROWD: read_text, ICN: read_icn, FEN: read_fen}[form](text, winner)
    if strict and found.remarks:
        raise Refused("; ".join(found.remarks))
    return found


def write(position, form):
    """Returns the text of a position in a notation as a Written."""
    return {TEXT: write_text, CROWD: write_crowd, ICN: write_icn, FEN: write_fen}[form](position)


# The text of mate

def read_text(text, winner=None):
    data = text.encode()
    try:
        position, rest = chess.read_text(data, chess.grammar_of(data))
    except chess.Refused as refused:
        raise Refused(f"line {refused.number} of the text is refused: {refused.why}") from None
    if winner and winner != position.winner:
        raise Refused(f"the text says itself who is to mate, {chess.SIDES[position.winner]}")
    return Read(position, TEXT, ["what follows the line `end` is left out"] if rest.strip() else [])


def write_text(position):
    """Returns the text: that of a position for up to 8 men, that of a crowd for more."""
    if len(position.men) <= chess.POSITIONS.most_men:
        return Written(checked(position, chess.POSITIONS).text(chess.POSITIONS), [])
    why = f"{len(position.men)} men are a crowd, whose text `mate crowd` reads, and no other command"
    return Written(checked(position, chess.CROWDS).text(chess.CROWDS), [why])


def write_crowd(position):
    return Written(checked(position, chess.CROWDS).text(chess.CROWDS), [])


def checked(position, grammar):
    """Returns the position, if a text of this grammar can hold it."""
    if not chess.FEWEST_MEN <= len(position.men) <= grammar.most_men:
        raise Refused(f"a text has {chess.FEWEST_MEN} to {grammar.most_men} men, and this position {len(position.men)}")
    for it in position.men:
        if it.square is not None and not all(grammar.least <= at <= grammar.most for at in it.square):
            raise Refused(f"the square of {it.line()} is too far: numbers go from {grammar.least} to {grammar.most}")
    return position


def made(turn, men, winner):
    """Returns the position of these men, if a text can hold it."""
    position = chess.Position(turn, tuple(men), winner or "W")
    return checked(position, chess.POSITIONS if len(men) <= chess.POSITIONS.most_men else chess.CROWDS)


# ICN

def read_icn(text, winner=None):
    turn, men, remarks, names, rights = None, None, [], [], []
    for token in TOKEN.findall(text):
        if token.startswith("["):
            names.append(token)
        elif token in TURNS_OF_ICN and turn is None and men is None:
            turn = TURNS_OF_ICN[token]
        elif SQUARE.fullmatch(token):
            remarks.append(f"en passant on {token} is left out: no pawn takes en passant here")
        elif re.fullmatch(r"\d+/\d+", token):
            remarks.append(f"the move rule {token} is left out: there is none here")
        elif token.isdigit():
            remarks += [f"the move number {token} is left out"] * (token != "1")
        elif token.startswith("(") and not re.search("[0-9]", token):
            check_winning(token.strip("()"))
        elif token.startswith("("):
            remarks.append(f"the promotion lines {token} are left out: no pawn is promoted here")
        elif token.lower() in WIN_CONDITIONS:
            check_winning(token)
        elif ">" in token:
            raise Refused(f"the moves {token} follow the position: give the position after them")
        elif PIECE.fullmatch(token.split("|")[0]) and men is None:
            men = [man_of_icn(it, rights) for it in token.split("|")]
        else:
            raise Refused(f"`{token}` is no field of ICN that is known here")
    if men is None:
        raise Refused("there is no position: pieces are written as K0,-2|k0,0" + "".join(f"; {it} is a name only" for it in names))
    remarks += [f"the names {' '.join(names)} are left out"] * bool(names)
    remarks += ["no side to move is named, so White is to move"] * (turn is None)
    remarks += rights_left_out(rights)
    return Read(made(turn or "W", men, winner), ICN, remarks)


def check_winning(token):
    """Refuses other win conditions than checkmate, for either side."""
    for it in re.split(r"[|,]", token):
        if it.lower() != "checkmate":
            raise Refused(f"`{it}` is a win condition, and here a side wins by checkmate alone")


def man_of_icn(token, rights):
    """Returns the man of a piece of ICN, and keeps a special right that it has."""
    found = PIECE.fullmatch(token)
    if not found:
        raise Refused(f"`{token}` is no piece of ICN: one is written as R10,1")
    player, name, x, y, right = found.groups()
    if player:
        raise Refused(f"`{token}` is a piece of player {player}, and here there are White and Black alone")
    if name.upper() in OTHER_PIECES:
        raise Refused(f"`{token}` is a piece that is not known here ({OTHER_PIECES[name.upper()]})")
    if name.upper() not in KINDS_OF_ICN or name not in (name.upper(), name.lower()):
        raise Refused(f"`{token}`: `{name}` is no piece; the pieces are {' '.join(KINDS_OF_ICN)}, in small letters for Black")
    man = chess.Man("W" if name.isupper() else "B", KINDS_OF_ICN[name.upper()], (int(x), int(y)))
    if right:
        rights.append((man.kind, token))
    return man


def rights_left_out(rights):
    """Returns the sentences on special rights that are left out."""
    steps = [token for kind, token in rights if kind == "P"]
    others = [token for kind, token in rights if kind != "P"]
    made = [f"the double steps of {', '.join(steps)} are left out: pawns go one step at a time here"] if steps else []
    return made + ([f"the castling rights (`+`) of {', '.join(others)} are left out: nobody castles here"] if others else [])


def write_icn(position):
    pieces = []
    for it in position.men:
        if it.square is not None:
            name = ICN_OF_KINDS[it.kind]
            pieces.append("%s%d,%d" % (name if it.side == "W" else name.lower(), *it.square))
    return Written(f"{position.turn.lower()} {'|'.join(pieces)}", lost_in(position, "ICN"))


def lost_in(position, name):
    """Returns the sentences on what neither ICN nor FEN says."""
    gone = [f"man {number}, {it.line()}" for number, it in enumerate(position.men, 1) if it.square is None]
    made = [f"the captured men are left out, since {name} has none: {'; '.join(gone)}"] if gone else []
    return made + [f"{name} does not say that Black is to mate: read it back with Black as the winner"] * (position.winner == "B")


# FEN

def read_fen(text, winner=None):
    fields = text.split()
    if not fields or len(fields) > 6:
        raise Refused(f"a FEN has up to 6 fields, and this one {len(fields)}")
    board, turn, castling, passing, clock, number = fields + [None, "-", "-", "0", "1"][len(fields) - 1 :]
    if turn not in (None, "w", "b"):
        raise Refused(f"the second field of a FEN is w or b, and here `{turn}`")
    men = men_of_board(board)
    remarks = ["the board of FEN has edges, and here it has none: the same men may have another answer"]
    remarks += ["no side to move is named, so White is to move"] * (turn is None)
    if castling != "-":
        remarks.append(f"the castling rights {castling} are left out: nobody castles here")
    if passing != "-":
        remarks.append(f"en passant on {passing} is left out: no pawn takes en passant here")
    if (clock, number) != ("0", "1"):
        remarks.append(f"the clocks {clock} {number} are left out: there is no move rule here")
    if any(it.kind == "P" for it in men):
        remarks.append("pawns have no double step and are not promoted here")
    return Read(made("B" if turn == "b" else "W", men, winner), FEN, remarks)


def men_of_board(board):
    """Returns the men of the first field of a FEN."""
    ranks = board.split("/")
    if len(ranks) != SIZE:
        raise Refused(f"the board of a FEN has {SIZE} ranks, and this one {len(ranks)}")
    men = []
    for rank, row in zip(range(SIZE, 0, -1), ranks):
        file = 1
        for sign in row:
            if sign.isdigit():
                file += int(sign)
                continue
            if sign.upper() not in chess.KINDS:
                raise Refused(f"`{sign}` on rank {rank} is no piece; the pieces are {' '.join(chess.KINDS)}, in small letters for Black")
            men.append(chess.Man("W" if sign.isupper() else "B", sign.upper(), (file, rank)))
            file += 1
        if file != SIZE + 1:
            raise Refused(f"rank {rank} of the board, `{row}`, has {file - 1} squares and not {SIZE}")
    return men


def write_fen(position):
    on, remarks = {}, lost_in(position, "FEN")
    for number, it in enumerate(position.men, 1):
        if it.square is None:
            continue
        if not all(1 <= at <= SIZE for at in it.square):
            raise Refused(f"man {number}, {it.line()}, is not on the board of FEN, whose files and ranks go from 1 to {SIZE}")
        if it.square in on:
            raise Refused(f"two men are on the square {'%d %d' % it.square}")
        on[it.square] = it
    rows = []
    for rank in range(SIZE, 0, -1):
        signs = "".join(on[file, rank].letter() if (file, rank) in on else "." for file in range(1, SIZE + 1))
        rows.append(re.sub(r"\.+", lambda it: str(len(it[0])), signs))
    text = f"{'/'.join(rows)} {position.turn.lower()} - - 0 1"
    if men_of_board("/".join(rows)) != [it for it in position.men if it.square is not None]:
        remarks.append("read back, the men are in the order of the ranks from above, and have other numbers")
    remarks += ["the letters C, A, Z and H are those of the texts of mate: chancellor, archbishop, amazon, nightrider"] * any(it.kind in "CAZH" for it in on.values())
    remarks.append("the board of FEN has edges, and here it has none: the same men may have another answer")
    return Written(text, remarks)
