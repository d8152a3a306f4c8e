"""The positions of the gallery, and its families: what make.py asks of the engine, and what is claimed of the answers.

A position is White's men, a stroke and Black's men. A claim is what the engine has to answer, found by chess; make.py fails where it differs.
"""
import os
import sys
from dataclasses import dataclass, field, replace

sys.path.insert(0, os.path.join(os.path.dirname(os.path.realpath(__file__)), "..", "explain"))
import position as chess  # noqa: E402

# The greatest and the least number that a text can name.
MOST, LEAST = 2**63 - 1, -(2**63)


@dataclass
class Entry:
    """A position with its title, what is asked and the answer that is claimed, and a caption. `turn` is what stands behind that word in the text.
    `rays` are the claimed lines of `first`, `distances` those of `describe`."""

    name: str
    title: str
    men: str
    moves: int
    claim: str
    caption: str
    turn: str = "W"
    rays: list = None
    replies: list = field(default_factory=list)
    played: list = field(default_factory=list)
    distances: list = None

    def is_winner_first(self):
        return self.turn in ("W", "B for B")


def rests(test, every):
    """Returns the rests modulo `every` for which the test holds, as `describe` writes them."""
    return ",".join(str(it) for it in range(every) if test(it))


def ladder(**changes):
    """Returns the men of the first position with some of them replaced."""
    men = {"king": "K 0 -2", "guard": "R 10 1", "rook": "R 5 7", "black": "K 0 0"} | changes
    return f"{men['king']}, {men['guard']}, {men['rook']} / {men['black']}"


ENTRIES = [
    Entry("ladder-in-one", "The ladder", ladder(), 1, "least 1",
          "The rook checks along rank 0; the other rook has rank 1, and the king the three squares of rank -1.",
          rays=["man 3 step 0 -1 least 7 only"], played=["white 3 5 0", "mate"]),
    Entry("ladder-mated", "The ladder, mated", "K 0 -2, R 10 1, R 10 0 / K 0 0", 0, "mate in 0",
          "Black is in check and has no move.", turn="B"),
    Entry("ladder-in-two", "The ladder in two", ladder(rook="R 7 7", black="K 1 0"), 2, "least 2",
          "A check at once lets the king out at 2 -1. The rook first takes file 2 from him.",
          replies=["4 0 0"], played=["white 3 2 7", "white 3 2 0", "mate"]),
    Entry("black-to-move", "One reply", "K 0 -2, R 10 1, R 2 7 / K 1 0", 1, "least 1",
          "Black is to move and has one move, to 0 0, where the rook mates him from 2 0.", turn="B",
          replies=["4 0 0"], played=["white 3 2 0", "mate"]),
    Entry("far-rook", "A rook from far away", ladder(rook=f"R 5 {10**18}"), 1, "least 1",
          "A rook needs one move for any distance.", rays=[f"man 3 step 0 -1 least {10**18} only"]),
    Entry("longest-way", "From one end of the numbers to the other",
          f"K 0 {LEAST + 1}, R 10 {LEAST + 4}, R 5 {MOST} / K 0 {LEAST + 3}", 1, "least 1",
          "The rook goes from the greatest rank that a text can name almost to the least: its distance is no signed number of 64 bits.",
          rays=[f"man 3 step 0 -1 least {MOST - LEAST - 3} only"]),
    Entry("bishop", "Many ways", "K 0 -2, R 10 0, R 10 1, B 5 0 / K 0 0", 1, "least 1",
          "The bishop leaves rank 0 and the rook behind it checks: as far as one likes, except to the squares where it would be in the other rook's way.",
          rays=["man 4 step 1 1 least 2 more", "man 4 step -1 1 least 2 more",
                "man 4 step -1 -1 least 1 more", "man 4 step 1 -1 least 1 more"]),
    Entry("past-64-bits", "A winning square past 64 bits",
          f"K 0 {MOST - 3}, R 10 {MOST - 1}, R 10 {MOST}, B 5 {MOST - 1} / K 0 {MOST - 1}", 1, "least 1",
          "The same at the edge of the numbers. Upward the bishop has to go two squares, and no number of 64 bits names its rank: the ray has winning squares, "
          "and `wide` is printed for the least of them.",
          rays=["man 4 step 1 1 least wide more", "man 4 step -1 1 least wide more",
                "man 4 step -1 -1 least 1 more", "man 4 step 1 -1 least 1 more"]),
    Entry("edge-of-64-bits", "No edge where the numbers end", f"K 50 50, R 10 {MOST}, R 10 {MOST - 1} / K 0 {MOST}", 0, "no mate in 0",
          "The king goes up to a rank that no number of 64 bits names.", turn="B"),
    Entry("far-defender", "Saved from far away", "K 0 -2, R 10 1, R 5 7 / K 0 0, R 3 1000000000000000000", 1, "none up to 1",
          "After the check the black rook comes down file 3 and blocks. From the file beyond the king's other side it could not, however near it is."),
    Entry("near-defender", "Lost from near by", "K 0 -2, R 10 1, R 5 7 / K 0 0, R -3 3", 1, "least 1",
          "Nearer, and on the wrong side: no square between the king and the rook at 5 0 can be reached."),
    Entry("bishop-near", "Too near to help", "K 0 -2, R 10 1, R 5 7 / K 0 0, B 1000 3", 1, "least 1",
          "The bishop is 3 ranks above rank 0 and reaches it at 997 0 and 1003 0, on the far side of the rook at 5 0.",
          rays=["man 3 step 0 -1 least 7 only"]),
    Entry("bishop-far", "Saved only from far away", "K 0 -2, R 10 1, R 5 7 / K 0 0, B 1000 997", 1, "none up to 1",
          "From 997 ranks above he comes down the diagonal to 3 0 and blocks. The table of his heights is below."),
    Entry("knight", "A knight defends", "K 0 -2, R 10 1, R 5 7 / K 0 0, N 6 2", 1, "none up to 1", "The knight takes on 5 0."),
    Entry("knight-aside", "A knight one file aside", "K 0 -2, R 10 1, R 5 7 / K 0 0, N 7 2", 1, "least 1",
          "From 7 2 a knight reaches neither 5 0 nor a square between."),
    Entry("pawn", "A pawn mates", "K 0 -2, R 10 1, N 0 2, P 1 -2 / K 0 0", 1, "least 1",
          "The pawn checks from 1 -1, where its king guards it. The knight has the squares next to the black king on his rank.",
          rays=["man 4 step 0 1 least 1 only"], played=["white 4 1 -1", "mate"]),
    Entry("queen-rook", "King, queen and rook", "K 0 2, Q 5 1, R 10 -1 / K 0 0", 1, "least 1",
          "The queen mates from 0 1, guarded by the king; the rook has rank -1."),
    Entry("queen-knight", "King, queen and knight", "K 0 2, Q 5 1, N 0 -3 / K 0 0", 1, "least 1",
          "The knight has 1 -1 and -1 -1, the two squares that a queen at 0 1 leaves.",
          rays=["man 2 step -1 0 least 5 only"], played=["white 2 0 1", "mate"]),
    Entry("queen-pawn", "King, queen and pawn", "K 0 2, Q 5 1, P 0 -2 / K 0 0", 1, "least 1",
          "A pawn at 0 -2 has the same two squares."),
    Entry("queen-alone", "A mate on 8 by 8 that is none here", "K 0 2, Q 5 1 / K 0 0", 2, "none up to 2",
          "On a board that ends below rank 0 the queen mates at 0 1. Here the king leaves to 1 -1 or -1 -1."),
    Entry("rook-alone", "A rook mates on 8 by 8", "K 0 2, R 5 5 / K 0 0", 2, "none up to 2",
          "On a board that ends below rank 0 the rook mates at 5 0. Here rank -1 is open."),
    Entry("no-edge", "A mate because there is no edge", "K 6 3, R 8 1, R 8 -1, R 2 5 / K 1 0", 1, "least 1",
          "On the board of files 1 to 8 and ranks -2 to 5 Black is stalemated. Here he has the move to 0 0, and the rook mates at 2 0.", turn="B",
          replies=["5 0 0"], played=["white 4 2 0", "mate"]),
    Entry("two-queens", "King and two queens, their king far away", "K 100 100, Q 1 2, Q -1 -7 / K 0 0", 1, "least 1",
          "Guarded by the other, the lower queen mates at -1 0. At -1 -2 she would stalemate.",
          rays=["man 3 step 0 1 least 7 only"], played=["white 3 -1 0", "mate"]),
    Entry("stalemate", "Stalemate", "K 100 100, Q 1 2, Q -1 -2 / K 0 0", 1, "none up to 1", "Black has no move and is not in check: no mate.", turn="B"),
    Entry("three-rooks-in-one", "Three rooks", "K 50 50, R 6 1, R 5 7, R -9 -1 / K 0 0", 1, "least 1",
          "Their king takes no part: each rook has a rank."),
    Entry("three-rooks-in-two", "Three rooks in two", "K 50 50, R 5 1, R 5 7, R -9 -1 / K 0 0", 2, "least 2",
          "One rook is in the other's way and steps aside first."),
    Entry("rook-bishop", "Rook and bishop", "K 0 2, R 5 -1, B 6 6 / K 3 0", 1, "none up to 1",
          "No mate here, and none anywhere: king, rook and bishop have seven of the eight squares that they need. The proof is below."),
    Entry("lone-kings", "Two kings", "K 0 0 / K 10 0", 3, "none up to 3", "A king gives no check."),
    Entry("captured-queen", "A captured queen", "K 0 -2, R 10 1, R 5 7, Q gone / K 0 0", 1, "least 1", "She takes no part."),
    Entry("guard-moves", "The guard on the wrong side", ladder(guard="R 10 -1"), 1, "none up to 1",
          "King and rook both have rank -1, and no man has rank 1."),
    Entry("king-aside", "The king one file aside", ladder(king="K 1 -2"), 1, "none up to 1", "The square -1 -1 is open."),
    Entry("beside", "A rook that is taken", ladder(rook="R 1 7"), 1, "none up to 1", "On 1 0 the rook is unguarded, and the king takes it."),
    Entry("two-files", "As near as can be", ladder(rook="R 2 7"), 1, "least 1", "At 2 0 the king does not reach it."),
    Entry("behind-the-king", "From the left", ladder(rook="R -5 7"), 1, "least 1", "Either side will do: rank 0 is a line without ends."),
    # Chancellor, archbishop, amazon and nightrider.
    Entry("amazon", "King and amazon", "K 0 -2, Z 9 2 / K 0 0", 1, "least 1",
          "At 0 2 the amazon has 0 1 and 0 -1 on her file, 1 1 and -1 1 on her diagonals, and 1 0 and -1 0 by leaps; the king has the corners below. "
          "At 1 2 she checks by a leap and has file 1, 0 1 and -1 0 on a diagonal, and -1 1 by a leap; at -1 2 the same on the other side. So she goes 8, 9 or 10 squares.",
          rays=["man 2 step -1 0 least 8 more"], distances=["man 2 step -1 0 runs 8-10 from 11 every 1 rests none"]),
    Entry("queen-for-amazon", "A queen in her place", "K 0 -2, Q 9 2 / K 0 0", 1, "none up to 1",
          "The queen at 0 2 leaves 1 0 and -1 0, which the amazon has by leaps."),
    Entry("amazon-in-two", "King and amazon in two", "K 3 0, Z -2 4 / K 0 0", 2, "least 2",
          "The amazon checks at -2 0 along the rank. She has 1 0 and -1 0 there, -1 1 and -1 -1 by diagonals, 0 1 and 0 -1 by leaps: the king goes to 1 1 or 1 -1. "
          "Then she mates by a leap, or from 2 0, where her king guards her; the moves stand below, under *Solutions*.",
          rays=["man 2 step 0 -1 least 4 only"]),
    Entry("chancellor", "A chancellor as a rook", "K 0 -2, R 10 1, C 5 7 / K 0 0", 1, "least 1",
          "The chancellor replaces the rook of the ladder: from 5 0 the rank is his.", rays=["man 3 step 0 -1 least 7 only"], played=["white 3 5 0", "mate"]),
    Entry("chancellor-leaps", "A chancellor's leaps", "K 2 0, R -1 -2, C 5 -2 / K 0 0", 1, "least 1",
          "The chancellor goes to 0 -2 and checks along the file, where he has 0 1 and 0 -1. The rook has file -1, the king file 1.",
          rays=["man 3 step -1 0 least 5 only"], played=["white 3 0 -2", "mate"]),
    Entry("double-check", "A chancellor's double check", "K -2 -1, N 2 0, B 6 6, C 3 3 / K 0 0, R 20 2", 1, "least 1",
          "The chancellor leaps to 1 2, and the bishop behind him checks too. Black's rook could take the chancellor along rank 2, and could block the bishop on 2 2, "
          "but not both. 1 1, 1 0 and 1 -1 are on the chancellor's file, -1 1 is his by a leap, 0 1 and 0 -1 are the knight's, -1 0 and -1 -1 the king's.",
          rays=["man 4 step -2 -1 least 1 only"], played=["white 4 1 2", "mate"]),
    Entry("single-check", "The same without the bishop", "K -2 -1, N 2 0, B 7 6, C 3 3 / K 0 0, R 20 2", 1, "none up to 1",
          "The bishop is one file to the side. The chancellor's check from 1 2 is answered: the rook takes him."),
    Entry("chancellors-in-two", "Chancellor and archbishop in two", "K -2 1, C 5 4, A -2 -3 / K 0 0", 2, "least 2",
          "A quiet key: the chancellor goes to 1 4 and takes file 1 from the king, to whom 0 1 is left. There the archbishop mates from -1 -1 by a leap.",
          rays=["man 2 step -1 0 least 4 only"], replies=["4 0 1"], played=["white 2 1 4", "white 3 -1 -1", "mate"]),
    Entry("archbishops", "Two archbishops", "K -2 0, A 2 4, A 2 3 / K 0 0", 1, "least 1",
          "The archbishop checks from -1 1, where the king guards him; he has 1 -1 behind the black king, and 1 0 and 0 -1 by leaps. The other has 0 1 on a diagonal, and 1 1 by a leap; "
          "the white king has the three squares of file -1.", rays=["man 2 step -1 -1 least 3 only"], played=["white 2 -1 1", "mate"]),
    Entry("archbishop-rook", "Archbishop and rook", "K 0 -2, R 1 -4, A 4 -1 / K 0 0", 1, "least 1",
          "The archbishop checks from 1 2 by a leap. He has 0 1 and -1 0 on a diagonal, and -1 1 by another leap. The rook has file 1 up to him, the king 0 -1 and -1 -1.",
          rays=["man 3 step -1 1 least 3 only"], played=["white 3 1 2", "mate"]),
    Entry("nightrider-far", "A nightrider mates from afar", "K 0 -2, R 9 1, N 0 2, H 1995 -990 / K 0 0", 1, "least 1",
          "Rook, knight and king have all eight squares next to the black king, so any check from afar mates. Two ways of leaps that are not parallel cross, on a square of the board or between squares: "
          "the ten crossings of a way of the nightrider with a line of check that are squares lie 3 to 1660 leaps from him, two on each of four of his ways.",
          rays=["man 4 step 1 2 least 1325 only", "man 4 step -1 2 least 795 more", "man 4 step -2 1 least 996 more", "man 4 step -2 -1 least 600 more",
                "man 4 step -1 -2 least 3 more", "man 4 step 1 -2 least 5 only"]),
    Entry("nightrider-one-way", "One way to the king", "K -2 -2, Q -2 1, R 1 -2, H -14 1 / K 0 0", 1, "least 1",
          "The queen has rank 1, and -1 0 and 0 -1 on a diagonal, the rook file 1, the king -1 -1. The nightrider gets to one check that mates: in four leaps to -6 -3, three leaps from the king.",
          rays=["man 4 step 2 -1 least 4 only"], played=["white 4 -6 -3", "mate"]),
    Entry("nightrider-blocked", "Blocked at a leap", "K -2 -2, Q -2 1, R 1 -2, H -14 1, P -8 -2 / K 0 0", 1, "none up to 1",
          "A pawn is on the square where his third leap would land, and he does not pass it."),
    Entry("nightrider-unblocked", "Not blocked from the side", "K -2 -2, Q -2 1, R 1 -2, H -14 1, P -8 -1 / K 0 0", 1, "least 1",
          "One rank higher no leap lands, and what he flies over does not stop him.", rays=["man 4 step 2 -1 least 4 only"]),
    Entry("nightrider-pinned", "A nightrider pins a nightrider", "K 0 -2, R 10 1, R 5 7, H 3 6 / K 0 0, H 2 4", 1, "least 1",
          "Black's nightrider could block on 4 0, in two leaps over 3 2. But it is on a line of leaps between its king and White's nightrider.",
          rays=["man 3 step 0 -1 least 7 only"]),
    Entry("nightrider-free", "The pin taken away", "K 0 -2, R 10 1, R 5 7, H 3 5 / K 0 0, H 2 4", 1, "none up to 1",
          "With White's nightrider one rank lower Black's goes to 4 0."),
    Entry("nightrider-thirds", "A nightrider's winning distances", "K -2 -1, R 1 -2, A -2 0, H 0 1 / K 0 0, P 2 0", 2, "least 2",
          "Black's king has no square: the rook has file 1, the archbishop -1 1, 0 1 and 0 -1, the king -1 0 and -1 -1. His pawn has one move, to 2 -1, and then any far check by the nightrider mates. He has to come in a second "
          "move onto a line of check: that of the leap 2 1, 1 2, -1 2, -2 1 or -1 -2; on the others stand king, rook and pawn. The ways of two leaps cross at each third, fourth or fifth square of a ray. "
          "Down to the left there are the crossings of -1 2 and -2 1 alone, each third; from the first square he goes on to -2 1, and from the second he takes the pawn. "
          "Down to the right each third and each fifth wins, except 1 -1, where the pawn takes him. On the other rays there are three kinds of crossings, and the period is 60.",
          distances=[
              f"man 4 step 2 1 runs none from 1 every 60 rests {rests(lambda t: t % 3 == 1 or t % 4 == 3 or t % 5 == 2, 60)}",
              f"man 4 step 1 2 runs none from 1 every 60 rests {rests(lambda t: t % 3 == 2 or t % 4 == 2 or t % 5 == 1, 60)}",
              f"man 4 step -1 2 runs none from 1 every 60 rests {rests(lambda t: t % 3 == 2 or t % 4 == 2 or t % 5 == 1, 60)}",
              f"man 4 step -2 1 runs none from 1 every 60 rests {rests(lambda t: t % 3 == 1 or t % 4 == 3 or t % 5 == 2, 60)}",
              "man 4 step -1 -2 runs 1-2 from 3 every 3 rests 1",
              f"man 4 step 1 -2 runs none from 2 every 15 rests {rests(lambda t: t % 3 == 1 or t % 5 == 4, 15)}",
          ]),
    Entry("bishop-runs", "Runs before the rest", "K 0 -2, R 10 0, B 5 0, R 1 20, R -1 20, N -2 2 / K 0 0", 1, "least 1",
          "Seven men. The bishop uncovers the rook of rank 0. The other rooks have 1 1 and -1 1 from above, the knight 0 1, the king rank -1. Up to the left the bishop comes into a rook's way after 4 squares, at 1 4, and after 6, at -1 6. "
          "The rook of file -1 also mates, from -1 0, where the knight guards it.",
          distances=["man 3 step 1 1 runs none from 1 every 1 rests 0", "man 3 step -1 1 runs 1-3,5-5 from 7 every 1 rests 0",
                     "man 3 step -1 -1 runs none from 1 every 1 rests 0", "man 3 step 1 -1 runs none from 1 every 1 rests 0", "man 5 step 0 -1 runs 20-20 from 21 every 1 rests none"]),
    # Black as the winner.
    Entry("black-ladder", "Black mates", "K 0 0 / K 0 2, R 10 -1, R 5 -7", 1, "least 1",
          "The ladder with colours and ranks exchanged, and Black to mate.", turn="B for B", rays=["man 4 step 0 1 least 7 only"], played=["black 4 5 0", "mate"]),
    Entry("black-pawn", "A black pawn mates", "K 0 0 / K 0 2, R 10 -1, N 0 -2, P 1 2", 1, "least 1",
          "Black's pawns go down: from 1 1, guarded by the king, it checks at 0 0. The knight has 1 0 and -1 0.", turn="B for B",
          rays=["man 5 step 0 -1 least 1 only"], played=["black 5 1 1", "mate"]),
    Entry("white-has-to-move", "White has to move", "K 1 0 / K 0 2, R 10 -1, R 2 -7", 1, "least 1",
          "White is to move and has one move, to 0 0; then the rook mates at 2 0.", turn="W for B", replies=["1 0 0"], played=["black 4 2 0", "mate"]),
    Entry("black-amazon", "A black amazon, from afar", "K 0 0 / K 0 2, Z 1000 -2", 1, "least 1",
          "She may stop at three squares of rank -2: at 1 -2, 0 -2 and -1 -2.", turn="B for B",
          distances=["man 3 step -1 0 runs 999-1001 from 1002 every 1 rests none"]),
    Entry("not-the-winner", "Who is to mate", "K 0 0 / K 0 2, R 10 -1, R 5 -7", 1, "none up to 1",
          "Black could mate, but the text asks for White: he has a bare king.", turn="B"),
    # Many men.
    Entry("eight-men", "Four defenders too few", "K 0 -2, R 10 1, R 5 7 / K 0 0, R -3 3, B 100 3, N 7 2, P 20 20", 1, "least 1",
          "Eight men. The black rook and the bishop reach rank 0 on the wrong side of the king or of the white rook, the knight reaches 6 0, which is too far, and the pawn only goes down.",
          rays=["man 3 step 0 -1 least 7 only"], played=["white 3 5 0", "mate"]),
    Entry("eight-men-saved", "One of them a file nearer", "K 0 -2, R 10 1, R 5 7 / K 0 0, R -3 3, B 100 3, N 6 2, P 20 20", 1, "none up to 1",
          "With the knight on 6 2 the rook is taken at 5 0."),
    Entry("seven-men-far", "Seven men at the edge of the numbers", f"K 0 {MOST - 3}, R 10 {MOST - 1}, R 10 {MOST}, B 5 {MOST - 1}, P 6 {MOST - 2}, P 4 {MOST - 2} / K 0 {MOST - 1}", 1, "least 1",
          "The pawns close the bishop's ways down. Upward he goes two squares or more, to ranks beyond 64 bits: there is a mate, but no text can name the move.",
          rays=["man 4 step 1 1 least wide more", "man 4 step -1 1 least wide more"]),
]


@dataclass
class Crowd:
    """A position of up to 32 men, with what is asked of it and the answer that is claimed."""

    name: str
    title: str
    men: str
    moves: int
    claim: str
    caption: str
    turn: str = "W"

    def words(self):
        return f"crowd {self.moves} 200000"


def middle_game(knight):
    """Returns a middle game of 32 men, with a black knight on this square."""
    pawns = "P 1 2, P 2 2, P 3 3, P 4 3, P 5 4, P 6 2, P 7 2, P 8 3"
    others = "P 1 7, P 2 7, P 3 7, P 4 6, P 5 5, P 6 7, P 7 7, P 8 7"
    return f"K 7 1, Q 5 2, R 6 1, R -3 9, B 3 1, B 3 4, N 4 5, N 6 3, {pawns} / K 7 8, Q 2 6, R 1 8, R 6 8, B 3 8, B 3 5, N {knight}, N 8 8, {others}"


def stopped_pawns(count, rank):
    """Returns the ladder in two with so many pawns of either side, each before one of the other, but for Black's last, who stands on this rank."""
    files = [12 + 2 * at for at in range(count)]
    white, black = ", ".join(f"P {it} 20" for it in files), ", ".join(f"P {it} 21" for it in files[:-1])
    return f"K 0 -2, R 10 1, R 7 7, {white} / K 1 0, {black}, P {files[-1]} {rank}"


CROWDS = [
    Crowd("crowd-smothered", "A middle game of 32 men, and a smothered mate", middle_game("1 5"), 1, "mate in 1",
          "The knight goes from 4 5 to 5 7. On an endless board too the king is shut in: on 6 8, 8 8, 6 7, 7 7 and 8 7 stand his own men, and the rook on -3 9, which has gone round the crowd, has 6 9, 7 9 and 8 9. Nobody takes on 5 7: Black's knights stand on 1 5 and 8 8, "
          "his queen on 2 6 and his bishop on 3 8 have no line to it, the bishop on 3 5 has his own pawn before him, the rooks have file 1, file 6 and rank 8, and his pawns take downward."),
    Crowd("crowd-defended", "The knight one leap nearer", middle_game("3 6"), 1, "no mate in 1",
          "Black's knight on 3 6 takes on 5 7. Only three moves give check, and each is answered. The knight may also go to 6 6, where the pawn on 7 7 takes him; and the rook to 7 9, where it is unguarded and the king takes. White's other men do not reach a line of the king: from below and from the sides "
          "he is behind his own men, and of those above, on file 7 and the diagonals of 6 9 and 8 9, neither the queen, the rook on 6 1, a bishop nor a pawn reaches a square; the knight on 6 3 leaps to none that checks. Nor does a man of White's who goes away open a line to the king."),
    Crowd("crowd-stopped", "Twelve men: no one can wait", stopped_pawns(4, 21), 2, "mate in 2",
          "The ladder in two, with four pawns of each side far up. Each is in front of one of the other side and none next to one, so no pawn moves or takes. The rook goes to 2 7 and takes file 2 from the king; rank 1 is the other rook's, 0 -1 and 1 -1 are the king's. Black has one move, to 0 0, and is mated from 2 0."),
    Crowd("crowd-waiting", "One pawn can wait", stopped_pawns(4, 22), 2, "no mate in 2",
          "Black's last pawn is one rank higher and has a move. With the king on 1 0 and White's on 0 -2 there is no mate: a rook on file 2 has 2 -1, 2 0 and 2 1, and the other cannot give check and have both 0 0 and the squares of rank 1. So White's quiet first moves fail to the pawn's step, except two: "
          "king to 1 -2 threatens mate from rank 0, and Black's goes to 0 0 or 2 0; pawn to 18 21 stops the other, and Black's king goes to 2 -1. There are four checks: on 7 0, to 2 -1; on 1 7, to 0 0; on 10 0, to rank 1; and the rook on 1 1 is taken."),
    Crowd("crowd-stopped-32", "The same with 32 men", stopped_pawns(14, 21), 2, "mate in 2", "Fourteen pawns of each side now stop each other. The mate is the same."),
    Crowd("crowd-waiting-32", "And with one that can wait", stopped_pawns(14, 22), 2, "no mate in 2", "The last of the black pawns has a step, as above."),
]


@dataclass
class Family:
    """Positions with a free parameter: the men for each value, the budget, and the answer that the sentence claims of it."""

    title: str
    sentence: str
    parameter: str
    values: list
    men: object
    moves: int
    claim: object
    budget: int = 200000
    word: str = "decide"
    turn: str = "W"


def mates_if(test):
    return lambda at: "mate in 1" if test(at) else "no mate in 1"


def two_rooks(file):
    return f"least {abs(file) + 1}" if abs(file) <= 1 else "none up to 2"


def three_rooks(file):
    return "least 2" if file in (-10, -9, -8, 4, 6, 7) else "least 1"


FAMILIES = [
    Family("Two rooks against a lone king, by his distance",
           "White's king is at 0 -2, his rooks at 20 1 and 30 7, Black's king at F 0. Opposite the white king he is mated in one, one file aside in two "
           "(the rook first takes the file beyond him, and he has to step back), and from two files on he is not mated in two.", "file of the black king",
           [-10, -4, -3, -2, -1, 0, 1, 2, 3, 4, 10], lambda at: f"K 0 -2, R 20 1, R 30 7 / K {at} 0", 2, two_rooks, word="least"),
    Family("Three rooks and a wandering king",
           "White's king is at 50 50, his rooks at 6 1, 5 7 and -9 -1, Black's king at F 0. He is mated in one if he is not next to 5 0, 6 1 or -9 -1, "
           "and otherwise in two: there he would take the rook that checks or one that guards, and White first sends it away. (On the files 5, 6 and -9 he is in check.)",
           "file of the black king", [-1000, -100, -11, -10, -8, -7, -1, 0, 1, 2, 3, 4, 7, 8, 9, 100, 1000],
           lambda at: f"K 50 50, R 6 1, R 5 7, R -9 -1 / K {at} 0", 2, three_rooks, word="least"),
    Family("A defender who saves himself only from far away",
           "A black bishop on file 1000. From the heights 995 to 999 a diagonal leads him to one of the squares 1 0 to 4 0 or to the rook at 5 0. Nearer to rank 0, "
           "and farther still, it leads him elsewhere, and White mates.", "height of the bishop",
           [1, 2, 3, 10, 100, 500, 994, 995, 996, 997, 998, 999, 1000, 1001, 2000], lambda at: ladder() + f", B 1000 {at}", 1,
           mates_if(lambda at: not 995 <= at <= 999)),
    Family("The white king's rank", "There is a mate if he is two ranks below the black king.", "rank of the white king",
           [-1000, -4, -3, -2, 2, 3, 1000], lambda at: ladder(king=f"K 0 {at}"), 1, mates_if(lambda at: at == -2)),
    Family("The ladder by distance", "The rook mates from every height of file 5.", "rank of the rook",
           [1, 2, 3, 7, 8, 100, 2**16, 10**6, 2**31, 10**12, 10**18, MOST], lambda at: ladder(rook=f"R 5 {at}"), 1, mates_if(lambda at: True)),
    Family("The ladder by file", "The rook mates from each file except those next to the king's and the guard's own.", "file of the rook",
           [-1000, -10, -3, -2, -1, 1, 2, 3, 4, 5, 9, 10, 11, 1000], lambda at: ladder(rook=f"R {at} 7"), 1, mates_if(lambda at: abs(at) > 1 and at != 10)),
    Family("The white king's file", "There is a mate if and only if he is on the black king's file.", "file of the white king",
           [-1000, -3, -2, -1, 0, 1, 2, 3, 1000], lambda at: ladder(king=f"K {at} -2"), 1, mates_if(lambda at: at == 0)),
    Family("A black rook far up", "He saves himself on the files 1 to 5 only: on four he blocks, on the fifth he takes.", "file of the black rook",
           [-2, -1, 0, 1, 2, 3, 4, 5, 6, 7, 8], lambda at: ladder() + f", R {at} 1000", 1, mates_if(lambda at: not 1 <= at <= 5)),
    Family("How far the bishop goes", "The bishop of `bishop` after D steps up to the right, with Black to move: he is mated but for D = 1, so the set of winning "
           "squares on this ray, as far as it is listed, is all but the first.", "D", [1, 2, 3, 4, 5, 6, 10, 100, 10**6, 10**18],
           lambda at: f"K 0 -2, R 10 0, R 10 1, B {5 + at} {at} / K 0 0", 0, lambda at: "no mate in 0" if at == 1 else "mate in 0", turn="B"),
    Family("Near he is taken, far he takes", "A black bishop on the diagonal from 5 0 down to the right: at 5 0 he is taken with mate, from each farther square he takes the rook.",
           "steps from 5 0", [0, 1, 2, 3, 10, 1000, 10**6, 10**18], lambda at: ladder() + f", B {5 + at} {-at}", 1, mates_if(lambda at: at == 0)),
]


@dataclass
class Tried:
    """A position with White to move of which a mate is asked for with the greatest budget, and the seconds that it may take."""

    men: str
    moves: int
    most_seconds: int = 60


TRIED = [
    Tried("K 0 -2, R 10 1, R 7 7 / K 1 0, Q 20 20", 2),
    Tried("K 0 -2, R 10 1, R 7 7 / K 1 0, R 20 20", 2),
    Tried("K 50 50, R 6 1, R 5 7, R -9 -1 / K 4 0", 3),
    Tried("K 0 -2, R 10 1, R 5 7 / K 0 0, Q 7905747460161236407 -5270498306774157605", 1),
]


@dataclass
class Search:
    """Positions of which the least number is asked for, with a budget and the seconds that each may take."""

    sentence: str
    positions: list
    moves: int
    budget: int
    most_seconds: int


SEARCH = Search(
    "The budget of a command which names none is 50000. These positions of king and two rooks were searched with it: White's king at 0 -2 or 0 -3, his rooks "
    "at 10 1 and 7 7, Black's king at F 0 for F from 0 to 3.",
    [f"K 0 {rank}, R 10 1, R 7 7 / K {file} 0" for rank in (-2, -3) for file in range(4)], 4, 50000, 90)


@dataclass
class Drawn:
    """A map: a position, the man who is put on each square, within how many moves, the rectangle, and what is claimed of each square where no other man stands."""

    name: str
    title: str
    men: str
    man: int
    moves: int
    files: tuple
    ranks: tuple
    caption: str
    claim: object
    turn: str = "W"
    budget: list = field(default_factory=list)


def placed(men, number, square):
    """Returns the position of these men, White to move, with a man on another square."""
    sides = [(side, man.split()) for side, part in zip("WB", men.split("/")) for man in part.split(",")]
    position = chess.Position("W", tuple(chess.Man(side, kind, (int(x), int(y))) for side, (kind, x, y) in sides))
    return replace(position, men=tuple(replace(it, square=square) if at == number else it for at, it in enumerate(position.men, 1)))


def checks(position, number):
    return chess.bears(position, number, position.men[chess.king(position, "B") - 1].square)


def reaches(position, number, square):
    """Returns whether a man may go to a free square."""
    return chess.bears(position, number, square) and position.on(square) is None


def rook_of_ladder(x, y):
    if y == 0 or (x == 0 and y > -2):
        return "unsound"
    return 1 if abs(x) > 1 else "none"


CAGE = "K 0 -2, R 9 1, N 0 2, H 5 5 / K 0 0"
# So many leaps lead from each square of the map past all lines of check that a way of his crosses.
MOST_LEAPS = 60


def nightrider_of_cage(x, y):
    position = placed(CAGE, 4, (x, y))
    if checks(position, 4):
        return "unsound"
    ways = [[(x + dx * count, y + dy * count) for count in range(1, MOST_LEAPS)] for dx, dy in chess.LEAPS]
    is_check = any(reaches(position, 4, it) and checks(placed(CAGE, 4, it), 4) for way in ways for it in way)
    return 1 if is_check or chess.bears(position, 4, (0, 1)) else "none"


AMAZON = "K 0 -2, Z 9 2 / K 0 0"


def amazon_with_king(x, y):
    position = placed(AMAZON, 2, (x, y))
    if checks(position, 2):
        return "unsound"
    mates = [(file, rank) for file in (-1, 0, 1) for rank in (2, -1)]
    return 1 if any(reaches(position, 2, it) for it in mates) else "none"


def far_bishop(x, y):
    return "none" if 1 <= x - y <= 5 else 1


def knight_that_defends(x, y):
    leaps = [(x + dx, y + dy) for dx, dy in chess.LEAPS]
    saves = any((file, 0) in leaps for file in range(1, 6)) or (0, -2) in leaps
    stands_between = (y == 0 and 1 <= x <= 4) or (x == 5 and 1 <= y <= 6) or (y == 1 and 0 <= x <= 9)
    return "none" if saves or stands_between else 1


MAPS = [
    Drawn("map-rook", "Where the rook of the ladder mates from", ladder(), 3, 1, (-8, 8), (-8, 8),
          "From each file that is not next to the king's the rook goes to rank 0 and mates. On the files 1 and -1 he would be next to the king there, who takes him; on rank 0 and above White's king on file 0 he already gives check, which no sound position has; "
          "below White's king he has no way to rank 0.", rook_of_ladder),
    Drawn("map-nightrider", "Where a nightrider mates from", CAGE, 4, 1, (-8, 8), (-8, 8),
          "Rook, knight and king have the eight squares next to the black king, so any check by the nightrider mates. He gets to one from nearly everywhere: a square is blank if he already gives check there, on eight lines of leaps, and has a point if no way of his "
          "crosses such a line on a square. From six more he cannot check, but guards 0 1, so that the rook mates there.", nightrider_of_cage),
    Drawn("map-amazon", "Where an amazon mates from", AMAZON, 2, 1, (-8, 8), (-8, 8),
          "With her king at 0 -2 she mates on six squares: -1 2, 0 2 and 1 2, and -1 -1, 0 -1 and 1 -1, where the king guards her. There is a mate if she gets to one of them, by lines or by a leap, and does not give check yet.", amazon_with_king),
    Drawn("map-bishop", "Where a bishop saves", ladder() + ", B 20 20", 5, 1, (12, 28), (8, 24),
          "Far from the ladder a black bishop saves his king from a band of diagonals: those that meet rank 0 on one of the files 1 to 5, where he blocks or takes the rook.", far_bishop),
    Drawn("map-knight", "Where a knight saves", ladder() + ", N 20 20", 5, 1, (-4, 12), (-6, 10),
          "A black knight saves his king if a leap leads him between king and rook, or onto the rook on 5 0; if he is in the way of a rook, on file 5, rank 0 or rank 1; and if he gives check. On 5 0 he is taken, with mate.", knight_that_defends),
]


@dataclass
class Solved:
    """A solution: a position, the number of moves, and the lines that are claimed."""

    title: str
    men: str
    moves: int
    caption: str
    claim: str
    turn: str = "W"
    has_tries: bool = False


SOLUTIONS = [
    Solved("The ladder in two, with its tries", ladder(rook="R 7 7", black="K 1 0"), 2,
           "The key takes file 2 from the king and threatens nothing; he has to step back opposite White's king. A try fails to one reply: on 2 1 the guard is taken, and after the two others the king has file 2.",
           """White to move: mate in 2

1. R3 2 7!  zugzwang
   1... k4 0 0   2. R3 2 0#

1. R2 2 1?   1... k4x2 1!
1. R3 7 0?   1... k4 2 -1!
1. R3 7 -1?   1... k4 2 0!
""", has_tries=True),
    Solved("King and amazon in two", "K 3 0, Z -2 4 / K 0 0", 2,
           "After the key there are two replies, and each has two mates: by a leap from beyond the black king, or next to him on 2 0, where White's king guards her.",
           """White to move: mate in 2

1. Z2 -2 0!  check
   1... k3 1 1   2. Z2 2 0#, Z2 -1 2#
   1... k3 1 -1   2. Z2 2 0#, Z2 -1 -2#
"""),
    Solved("Chancellor and archbishop in two", "K -2 1, C 5 4, A -2 -3 / K 0 0", 2,
           "A quiet key, one reply, and a mate by a leap.",
           """White to move: mate in 2

1. C2 1 4!  zugzwang
   1... k4 0 1   2. A3 -1 -1#
"""),
    Solved("Three rooks", "K 50 50, R 5 1, R 5 7, R -9 -1 / K 0 0", 2,
           "One rook is in the other's way. Either gets out of it, as far as it likes, but not to where the king would take the one that guards or the one that mates; the words after the nearest square name the others.",
           """White to move: mate in 2

1. R2 6 1!, or any from 7 on  threat R3 5 0#
   1... k5 1 0, k5 -1 0   2. R3 5 0#
1. R2 4 1!, or any of 3, from -3 down  threat R3 5 0#
   1... k5 1 0, k5 -1 0   2. R3 5 0#
1. R3 6 7!, or any from 7 on  threat R3 6 0#
   1... k5 1 0, k5 -1 0   2. R3 6 0#
1. R3 4 7!, or any of 3, 1, -1, from -3 down  threat R3 4 0#
   1... k5 1 0, k5 -1 0   2. R3 4 0#
"""),
]


@dataclass
class Defended:
    """A defence: a position in which the winner does not mate within so many moves, the moves that he tries, and the lines that are claimed."""

    title: str
    men: str
    moves: int
    caption: str
    tried: list
    claim: list
    turn: str = "W"


DEFENCES = [
    Defended("Held for two moves", "K 0 -2, R 10 1, R 7 7 / K 2 0", 2,
             "White needs three moves. After the rook's move to 3 7 Black's king has 1 0 and 2 -1; by his rays 1 0 comes first, and after the check on 3 0 he could still go to 2 -1.",
             ["3 3 7", "3 3 0"], ["black 4 1 0", "held"]),
    Defended("Held against a check", "K 0 -2, R 10 1, R 7 7 / K 2 0", 2,
             "The same, with a check at once. The king goes to 2 -1, which White's king does not reach.", ["3 7 0", "3 7 -1"], ["black 4 2 -1", "held"]),
    Defended("White holds", "K 2 0 / K 0 2, R 10 -1, R 7 -7", 2,
             "Colours and ranks exchanged. The first of the two squares by the king's rays is now 2 1, the one ahead.", ["4 3 -7", "4 7 -7"], ["white 1 2 1", "held"], turn="B for B"),
    Defended("Stuck", "K 100 100, Q 1 2, Q -1 -2 / K 0 0", 3, "Stalemate: Black has no move, and White does not mate.", [], ["stuck"], turn="B"),
]
