"""Tries notation.py: round trips of random positions, and each thing that is refused or left out."""
import os
import random
import sys
import unittest

sys.path.insert(0, os.path.dirname(os.path.dirname(os.path.realpath(__file__))))
from gezhumai_mate import notation  # noqa: E402
from gezhumai_mate.notation import chess  # noqa: E402

ROUNDS = 2000


def drawn(random_, most_men, numbers, may_be_gone):
    """Returns a random position, sound or not, with two men on no square."""
    men, taken = [], set()
    for _ in range(random_.randint(2, most_men)):
        square = random_.choice(numbers)(), random_.choice(numbers)()
        if may_be_gone and random_.random() < 0.1:
            square = None
        if square in taken:
            continue
        taken |= {square} - {None}
        men.append(chess.Man(random_.choice("WB"), random_.choice("KQRBNPCAZH"), square))
    return chess.Position(random_.choice("WB"), tuple(men), random_.choice("WB")) if len(men) > 1 else drawn(random_, most_men, numbers, may_be_gone)


def on_board(position):
    return [it for it in position.men if it.square is not None]


class RoundTrips(unittest.TestCase):
    def setUp(self):
        self.random = random.Random(7)
        near, far = lambda: self.random.randint(-9, 9), lambda: self.random.randint(-(2**63), 2**63 - 1)
        edge = lambda: self.random.choice([-(2**63), 2**63 - 1])
        self.numbers, self.small = [near, near, far, edge], [lambda: self.random.randint(1, 8)]
        self.crowd = [near, lambda: self.random.randint(-(2**60), 2**60)]

    def test_text(self):
        for _ in range(ROUNDS):
            position = drawn(self.random, 8, self.numbers, True)
            found = notation.read(notation.write(position, "text").text, strict=True)
            self.assertEqual((found.position, found.form), (position, "text"))

    def test_crowd(self):
        for _ in range(ROUNDS // 4):
            position = drawn(self.random, 32, self.crowd, True)
            self.assertEqual(notation.read(notation.write(position, "crowd").text).position, position)

    def test_icn(self):
        for _ in range(ROUNDS):
            position = drawn(self.random, 8, self.numbers, True)
            if len(on_board(position)) < 2:
                continue
            made = notation.write(position, "icn")
            found = notation.read(made.text, winner=position.winner, strict=True)
            self.assertEqual(found.form, "icn")
            self.assertEqual((found.position.turn, found.position.winner, list(found.position.men)), (position.turn, position.winner, on_board(position)))
            self.assertEqual(len(made.remarks), (len(on_board(position)) < len(position.men)) + (position.winner == "B"))

    def test_fen(self):
        for _ in range(ROUNDS):
            position = drawn(self.random, 32, self.small, False)
            made = notation.write(position, "fen")
            found = notation.read(made.text, winner=position.winner)
            self.assertEqual(found.form, "fen")
            self.assertEqual((found.position.turn, found.position.winner, set(found.position.men)), (position.turn, position.winner, set(position.men)))
            self.assertEqual(list(found.position.men) != list(position.men), any("other numbers" in it for it in made.remarks))

    def test_each_into_each(self):
        for _ in range(ROUNDS // 4):
            position = drawn(self.random, 8, self.small, False)
            here = notation.read(notation.write(position, "fen").text, winner=position.winner).position
            for first in ("icn", "fen", "text"):
                for second in ("icn", "fen", "text"):
                    there = here
                    for form in (first, second):
                        there = notation.read(notation.write(there, form).text, winner=None if form == "text" else position.winner).position
                    self.assertEqual(there, here)


class Refusals(unittest.TestCase):
    def test_refused(self):
        kings = "K0,0|k9,9"
        for text, says in [
            (f"w {kings}|ha3,4", "hawk"), (f"w {kings}|ob3,4", "obstacle"), (f"w {kings}|xx3,4", "`xx` is no piece"), (f"w {kings}|Ch3,4", "`Ch` is no piece"),
            (f"w {kings}|3q3,4", "player 3"), (f"w (koth|checkmate) {kings}", "koth"), (f"w royalcapture {kings}", "royalcapture"),
            (f"w (checkmate|checkmate,threecheck) {kings}", "threecheck"), (f"w {kings} 1,2>3,4", "moves 1,2>3,4"), (f"w {kings} {{\"slideLimit\":8}}", "slideLimit"),
            ('[Variant "Classical"] w 0/100 1', "Classical"), ("w K0,0", "2 to 8 men"), ("w K0,0|k9,9223372036854775808", "too far"), (f"w {kings} R", "`R` is no field"),
            ("w " + "|".join([kings, *["P1,%d" % at for at in range(31)]]), "2 to 32 men"), (f"w {kings}|R1,2,3", "`R1,2,3` is no piece"), (f"w {kings}|", "`` is no piece"),
            ("8/8/8/8/8/8/8 w", "8 ranks"), ("9/8/8/8/8/8/8/8 w", "rank 8"), ("k7/8/8/8/8/8/8/x6K w", "`x` on rank 1"), ("k7/8/8/8/8/8/8/7K x", "w or b"),
            ("infinite chess 1\nturn W\nend\n", "line 3"), ("infinite chess 2\n", "line 1"), ("", "no position"),
        ]:
            with self.subTest(text), self.assertRaises(notation.Refused) as refused:
                notation.read(text)
            self.assertIn(says, str(refused.exception))

    def test_left_out(self):
        kings = "K0,0|k9,9"
        for text, says in [
            (f"w 4,3 {kings}", "en passant on 4,3"), (f"w 3/100 {kings}", "move rule 3/100"), (f"w 12 {kings}", "move number 12"), (f"w (8;q|1;q) {kings}", "promotion lines (8;q|1;q)"),
            (f"w {kings}|P1,2+", "double steps of P1,2+"), ("w K0,0+|k9,9", "castling rights (`+`) of K0,0+"), (kings, "White is to move"), (f'[Event "a b"] w {kings}', '[Event "a b"]'),
            ("k7/8/8/8/8/8/8/R3K3 w Q - 0 1", "castling rights Q"), ("k7/8/8/8/8/8/8/7K w - e3 0 1", "en passant on e3"), ("k7/8/8/8/8/8/8/7K w - - 5 9", "clocks 5 9"),
            ("k7/8/8/8/8/8/P7/7K w - - 0 1", "not promoted"), ("k7/8/8/8/8/8/8/7K", "White is to move"), ("infinite chess 1\nturn W\nW K 0 0\nB K 9 9\nend\nBy me.\n", "`end`"),
        ]:
            with self.subTest(text):
                self.assertTrue(any(says in it for it in notation.read(text).remarks), notation.read(text).remarks)
                self.assertRaises(notation.Refused, notation.read, text, strict=True)

    def test_nothing_left_out(self):
        for text in ("w K0,0|k9,9", "b 1 checkmate K0,0|k9,9", "w (checkmate|checkmate) K0,0|k9,9"):
            self.assertEqual(notation.read(text).remarks, [])

    def test_not_written(self):
        man = chess.Man
        for men, form, says in [
            ([man("W", "K", (0, 1)), man("B", "K", (8, 8))], "fen", "not on the board"), ([man("W", "K", (1, 1)), man("B", "K", (1, 1))], "fen", "two men"),
            ([man("W", "K", (2**61, 1)), man("B", "K", (1, 1))], "crowd", "too far"),
        ]:
            with self.assertRaises(notation.Refused) as refused:
                notation.write(chess.Position("W", tuple(men)), form)
            self.assertIn(says, str(refused.exception))


if __name__ == "__main__":
    unittest.main()
