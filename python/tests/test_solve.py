"""Tries how ./solve names the moves along a ray: what is written is read back, and is the set of distances that `describe` printed."""
import importlib.machinery
import importlib.util
import os
import random
import re
import sys
import unittest

TOP = os.path.dirname(os.path.dirname(os.path.dirname(os.path.realpath(__file__))))
sys.dont_write_bytecode = True
loader = importlib.machinery.SourceFileLoader("solve", f"{TOP}/solve")
solve = importlib.util.module_from_spec(importlib.util.spec_from_loader("solve", loader))
sys.modules["solve"] = solve
loader.exec_module(solve)

MOST = 200


def drawn(draw):
    """Returns a line of `describe` of man 1, his square, his step, and the distances that it names, up to MOST."""
    runs, at = [], draw.choice([0, 0, 1, 4])
    for _ in range(draw.randint(0, 3)):
        low = at + draw.randint(1, 4)
        at = low + draw.randint(0, 4)
        runs.append((low, at))
        at += 1
    begin, every = at + draw.randint(1, 5), draw.randint(1, 4)
    rests = sorted(draw.sample(range(every), draw.randint(0 if runs else 1, every)))
    distances = {it for low, high in runs for it in range(low, high + 1)} | {it for it in range(begin, MOST) if it % every in rests}
    step = draw.choice([(0, 1), (0, -1), (1, 0), (-1, 0), (1, 1), (-1, 1), (1, -2)])
    told = ",".join(f"{low}-{high}" for low, high in runs) or "none", ",".join(map(str, rests)) or "none"
    return f"man 1 step {step[0]} {step[1]} runs {told[0]} from {begin} every {every} rests {told[1]}", (3, -5), step, distances


def read(words, start, step):
    """Returns the distances that the words after the nearest square name, up to MOST."""
    distance = lambda name: next(it for it in range(1, 10 * MOST) if solve.named(start, step, it) == name)
    found = set()
    for part in re.sub(r"^or (any of |any )?", "", words).split(", ") if words else []:
        tail = re.fullmatch(r"(?:every (\d+)\. square )?from (.+) (on|down)", part)
        if tail:
            found |= set(range(distance(tail[2]), MOST, int(tail[1] or 1)))
        elif " to " in part:
            low, high = part.split(" to ")
            found |= set(range(distance(low), distance(high) + 1))
        else:
            found.add(distance(part))
    return {it for it in found if it < MOST}


class Names(unittest.TestCase):
    def test_read_back(self):
        draw = random.Random(11)
        for _ in range(3000):
            line, start, step, distances = drawn(draw)
            position = solve.chess.Position("W", (solve.chess.Man("W", "Q", start),))
            move = solve.described(position, line)
            least = min(distances)
            self.assertEqual(move.square, tuple(at + least * by for at, by in zip(start, step)), line)
            self.assertEqual(read(move.among, start, step) | {least}, distances, (line, move.among))

    def test_words(self):
        position = solve.chess.Position("W", (solve.chess.Man("W", "R", (2, 0)),))
        for line, square, words in [
            ("man 1 step 0 1 runs 7-9 from 10 every 1 rests 0", (2, 7), "or any of 8, 9, from 10 on"), ("man 1 step 0 1 runs 7-8 from 10 every 1 rests none", (2, 7), "or 8"),
            ("man 1 step 0 1 runs 7-7 from 8 every 1 rests none", (2, 7), ""), ("man 1 step -1 0 runs none from 1 every 1 rests 0", (1, 0), "or any from 0 down"),
            ("man 1 step 1 0 runs 2-6 from 9 every 3 rests 0", (4, 0), "or any of 5 to 8, every 3. square from 11 on"),
        ]:
            found = solve.described(position, line)
            self.assertEqual((found.square, found.among), (square, words))


if __name__ == "__main__":
    unittest.main()
