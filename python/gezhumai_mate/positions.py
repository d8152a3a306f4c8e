"""Positions as values: read from and written to each notation, changed, and drawn."""
import warnings
from typing import Iterable, Optional, Tuple, Union

from . import notation
from ._clone import module

chess = notation.chess
Man = chess.Man
Square = Tuple[int, int]


class LeftOut(UserWarning):
    """Something that one notation says and another cannot."""


class Position(chess.Position):
    """The side to move, the men, counted from 1, and the side that is to mate. Two positions are equal if these are.

    >>> ladder = Position.of_icn("w K0,-2|R10,1|R5,7|k0,0")
    >>> ladder.move(3, 5, 0).turn
    'B'
    """

    @classmethod
    def of(cls, given: Union["Position", str], winner: Optional[str] = None) -> "Position":
        """Returns the position of a text in any notation, or a position itself. What is left out of a text is warned of."""
        if isinstance(given, chess.Position):
            return given if isinstance(given, cls) else cls(given.turn, given.men, given.winner)
        return cls._read(given, None, winner)

    @classmethod
    def of_text(cls, text: str) -> "Position":
        return cls._read(text, notation.TEXT, None)

    @classmethod
    def of_icn(cls, text: str, winner: str = "W") -> "Position":
        return cls._read(text, notation.ICN, winner)

    @classmethod
    def of_fen(cls, text: str, winner: str = "W") -> "Position":
        return cls._read(text, notation.FEN, winner)

    @classmethod
    def of_men(cls, men: Iterable[str], turn: str = "W", winner: str = "W") -> "Position":
        """Returns the position of men as lines of a text: "W K 0 -2", "W Q gone"."""
        lines = [notation.chess.CROWDS.header, chess.TURNS[turn, winner], *men, "end", ""]
        return cls._read("\n".join(lines), notation.TEXT, None)

    @classmethod
    def _read(cls, text: str, form: Optional[str], winner: Optional[str]) -> "Position":
        found = notation.read(text, form, winner)
        for it in found.remarks:
            warnings.warn(it, LeftOut, stacklevel=3)
        return cls(found.position.turn, found.position.men, found.position.winner)

    def _write(self, form: str) -> str:
        made = notation.write(self, form)
        for it in made.remarks:
            warnings.warn(it, LeftOut, stacklevel=3)
        return made.text

    def to_text(self) -> str:
        """Returns the text that the program reads: that of a crowd if there are more than eight men."""
        return self._write(notation.TEXT)

    def to_crowd(self) -> str:
        return self._write(notation.CROWD)

    def to_icn(self) -> str:
        return self._write(notation.ICN)

    def to_fen(self) -> str:
        return self._write(notation.FEN)

    def move(self, man: int, x: int, y: int) -> "Position":
        """Returns the position after a man has gone to a square; whether that is legal is not asked."""
        return self.after(man, (x, y))

    def after(self, number: int, square: Square) -> "Position":
        return Position.of(super().after(number, square))

    def put(self, man: int, square: Optional[Square]) -> "Position":
        """Returns the position with a man on another square, or captured if that is None."""
        men = [Man(it.side, it.kind, square) if number == man else it for number, it in enumerate(self.men, 1)]
        return Position(self.turn, tuple(men), self.winner)

    def svg(self, moves: Iterable[Tuple[int, int, int]] = ()) -> str:
        """Returns a drawing, with moves (man, x, y) as arrows."""
        board = module("board")
        return board.as_svg(board.Board(board.Shown(self), board.moves_of(list(moves), self)))

    def _repr_svg_(self) -> str:
        return self.svg()

    def __str__(self) -> str:
        board = module("board")
        return board.as_text(board.Board(board.Shown(self), []))
