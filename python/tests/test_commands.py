"""Tries the commands, the ends and `many` on the program that MATE_PROGRAM names, or on the proved one."""
import os
import sys
import tempfile
import unittest
import warnings

sys.path.insert(0, os.path.dirname(os.path.dirname(os.path.realpath(__file__))))
import gezhumai_mate as mate  # noqa: E402
from gezhumai_mate._clone import module  # noqa: E402

LADDER = mate.Position.of_icn("w K0,-2|R10,1|R5,7|k0,0")
TWO = mate.Position.of_icn("w K0,-2|R10,1|R7,7|k1,0")
BISHOP = mate.Position.of_men(["W K 1 -2", "W R 100 1", "W R 100 -1", "W B 5 0", "B K 1 0"])


class Answers(unittest.TestCase):
    def test_decide(self):
        self.assertIs(mate.decide(LADDER, 1), True)
        self.assertIs(mate.decide(LADDER, 0), False)
        self.assertIs(mate.decide("w K0,-2|R10,1|R5,7|k0,0", 1), True)
        self.assertIs(mate.decide(LADDER.to_text(), 1, budget=1000, seconds=60), True)

    def test_crowd(self):
        self.assertIs(mate.crowd(LADDER, 1), True)
        self.assertIs(mate.crowd(LADDER, 0), False)

    def test_least(self):
        self.assertEqual((mate.least(TWO, 3), mate.least(TWO, 1)), (2, None))

    def test_black_to_mate(self):
        mirrored = mate.Position("B", tuple(mate.Man("B" if it.side == "W" else "W", it.kind, (it.square[0], -it.square[1])) for it in TWO.men), "B")
        self.assertEqual(mate.least(mirrored, 3), 2)

    def test_first(self):
        self.assertEqual(mate.first(LADDER, 1), [mate.Ray(3, (0, -1), 7, False)])

    def test_describe(self):
        found = mate.describe(LADDER, 1)
        self.assertEqual([(it.man, it.step, it.runs, it.rests) for it in found], [(3, (0, -1), ((7, 7),), ())])
        self.assertTrue(7 in found[0] and 6 not in found[0] and 10**30 not in found[0])

    def test_describe_without_a_period(self):
        found = mate.commands._distances("man 4 step 1 1 no period up to 60")
        self.assertEqual((found.man, found.every), (4, None))
        self.assertRaises(ValueError, lambda: 3 in found)

    def test_games(self):
        self.assertEqual(mate.play(TWO, 2, ["4 0 0"]), ["white 3 2 7", "white 3 2 0", "mate"])
        self.assertEqual(mate.defend(LADDER, 0, []), ["held"])

    def test_files(self):
        with tempfile.TemporaryDirectory() as folder:
            self.assertIs(mate.keep(TWO, 2, "two", folder=folder), True)
            self.assertIs(mate.keep(TWO, 2, "two", folder=folder), True)
            self.assertEqual(mate.check("two", folder=folder), 2)
            mate.migrate("two", "other", folder=folder)
            self.assertEqual(mate.check("other", folder=folder), 2)
            self.assertEqual(mate.resume("two", ["4 0 0"], folder=folder), ["white 3 2 7", "white 3 2 0", "mate"])

    def test_nothing_else_is_replaced(self):
        with tempfile.TemporaryDirectory() as folder:
            path = f"{folder}/notes"
            with open(path, "w", encoding="utf-8") as it:
                it.write("My notes.\n")
            os.mkdir(f"{folder}/taken")
            for name in ("notes", "taken"):
                self.assertRaises(mate.FolderFailed, mate.keep, LADDER, 1, name, folder=folder)
                self.assertRaises(mate.FolderFailed, mate.migrate, "two", name, folder=folder)
            with open(path, encoding="utf-8") as it:
                self.assertEqual(it.read(), "My notes.\n")

    def test_others(self):
        shown = mate.show(LADDER)
        self.assertEqual((shown.position, shown.check, shown.live), (LADDER, False, 4))
        self.assertEqual(mate.drill(7, 10), 4)
        self.assertEqual(mate.arith("ex a eq 1 2 a 8"), mate.Truth(True, 4, "true witness 4"))
        self.assertIs(mate.arith("ex a eq 1 2 a 7").holds, False)


class Complete(unittest.TestCase):
    def test_each_command_has_a_function(self):
        for name in module("explain/explain.py").SHAPES:
            self.assertTrue(callable(getattr(mate, name, None)) and name in mate.__all__, name)


class Ends(unittest.TestCase):
    def test_ends(self):
        lonely = mate.Position("W", LADDER.men[:-1])
        for end, ask, says in [
            (mate.WordsRefused, lambda: mate.decide(LADDER, 21), "usage limit"), (mate.NotSound, lambda: mate.decide(lonely, 1), "unsound no king B"),
            (mate.OverBudget, lambda: mate.decide(LADDER, 1, 1), "over budget at"), (mate.RepliesEnded, lambda: mate.play(TWO, 2, []), "ended"),
            (mate.FileRefused, lambda: mate.check("none"), "file missing"), (mate.TextRefused, lambda: mate.arith("ex"), "text line 1 formula"),
            (mate.OutOfTime, lambda: mate.least(TWO, 3, seconds=0.0001), "no answer within 0.0001 s"),
        ]:
            with self.subTest(end.__name__), self.assertRaises(end) as raised:
                ask()
            self.assertTrue(str(raised.exception).startswith(says), raised.exception)

    def test_codes(self):
        self.assertEqual(sorted(mate.ENDS), [1, *range(2, 14)])

    def test_many(self):
        found = mate.many(lambda it: mate.decide(it, 1), [LADDER, TWO, mate.Position("W", LADDER.men[:-1])], bar=False)
        self.assertEqual((found[:2], type(found[2])), ([True, False], mate.NotSound))


class Positions(unittest.TestCase):
    def test_values(self):
        self.assertEqual(LADDER, mate.Position.of_text(LADDER.to_text()))
        self.assertEqual(len({LADDER, mate.Position.of(LADDER.to_icn()), TWO}), 2)
        self.assertEqual(LADDER.move(3, 5, 0).men[2].line(), "W R 5 0")
        self.assertEqual((type(LADDER.move(3, 5, 0)), LADDER.move(3, 5, 0).turn), (mate.Position, "B"))
        self.assertEqual(LADDER.put(3, None).men[2].line(), "W R gone")

    def test_notations(self):
        with warnings.catch_warnings(record=True) as caught:
            warnings.simplefilter("always")
            near = mate.Position.of_fen("7k/8/8/8/8/8/R7/1R2K3 b - - 0 1")
            self.assertEqual(near.to_fen(), "7k/8/8/8/8/8/R7/1R2K3 b - - 0 1")
            self.assertTrue(all(issubclass(it.category, mate.LeftOut) for it in caught) and len(caught) == 2)
        self.assertRaises(mate.notation.Refused, LADDER.to_fen)

    def test_drawn(self):
        drawing = LADDER.svg([(3, 5, 0)])
        self.assertTrue(drawing.startswith("<svg ") and drawing == LADDER.svg([(3, 5, 0)]) and LADDER._repr_svg_().startswith("<svg "))
        self.assertIn("White to move", str(LADDER))


if __name__ == "__main__":
    unittest.main()
