#!/usr/bin/env python3
"""usage: spread_runs.py [PROGRAM] [--seed S] [--count N] [--most M]

Compares the step that is named over a budget with a second count. N times a position, a claim, a crowd or a formula is drawn from the seed; spreads.cpp computes from
the definitions how many states each of its steps needs, up to M, in another language and by other means. The program runs at each record of these numbers,
with that budget and one less: it must name that step, and then the next one, or answer. First come a position and a claim for steps that nothing drawn names. The
claims are files that the program keeps, also with tuples added and removed, with other sets, or with another position. Runs that end otherwise are printed, and
what was counted, also after SIGTERM. PROGRAM is by default ../crates/mate_main/out/mate_main; the exit code is 0 if nothing was found.
"""
import argparse
import collections
import pathlib
import random
import signal
import subprocess
import sys
import tempfile
import time

import reader
from hemmed_claims import hemmed
from random_runs import BLACK_FIRST, BUILT, HERE, LADDER, MATED, drawn_formula

sys.path.insert(0, str(HERE.parent / "crates/run_trials"))
from forged_files import File, Table, all_words, no_words  # noqa: E402

KINDS, SECONDS = "QRBNPCAZH", 60
TWO_MOVES = LADDER.replace(b"W R 5 7", b"W R 7 7").replace(b"B K 0 0", b"B K 1 0")
FAR_KNIGHT = LADDER.replace(b"end", b"W N 4611686018427387909 5\nend")
BLACK_MATES = LADDER.translate(bytes.maketrans(b"WB", b"BW")).replace(b"turn B", b"turn B for B")


class Runs:
    """The program and the counter, in a folder; what was counted, and what was found."""

    def __init__(self, program, counter, folder, most):
        self.program, self.counter, self.folder, self.most, self.seconds = program, counter, folder, most, SECONDS
        self.counts, self.steps, self.wrong = collections.Counter(), collections.Counter(), 0

    def ended(self, words, text):
        return subprocess.run(words, cwd=self.folder, input=text, capture_output=True, timeout=self.seconds).stdout.decode()

    def compare(self, kind, counted, words, text, answered):
        """The counter's words, the program's words before the budget, and whether an output is an answer."""
        try:
            records = self.ended([self.counter, *counted, str(self.most)], text).splitlines()
        except subprocess.TimeoutExpired:
            self.counts["too long"] += 1
            return
        end = records.pop()
        self.counts[kind] += 1
        self.counts["stopped" if end == "stopped" else "ended"] += 1
        steps = [record.split(" ", 1) for record in records]
        asked = sorted({budget for spread, _ in steps for budget in (int(spread) - 1, int(spread)) if budget})
        for budget in asked:
            over = [step for spread, step in steps if int(spread) > budget]
            if not over and end == "stopped":
                break
            said = self.ended([self.program, *words, str(budget)], text)
            fits = said == f"over budget at {over[0]}\n" if over else answered(said, end.removeprefix("end "))
            self.counts["runs"] += 1
            if over:
                self.steps[over[0].split(" ")[-3] if "part" in over[0] else over[0].split(" ")[-2]] += 1
            elif "rule" in end:
                self.steps["rule " + end.split(" ")[-1]] += 1
            if not fits:
                self.wrong += 1
                file = (self.folder / "a").read_bytes().hex()[:4000] if "check" in words else None
                print(f"{words} {budget}: {said!r}, wanted {over[:1] or end}\n  input {text}\n  file {file}", flush=True)
        return end


def drawn_men(draw):
    count = draw.choices([2, 3, 4, 5], [6, 12, 6, 1])[0]
    wide = draw.choice([3, 6, 6, 6, 60])
    men = [["W", "K"], ["B", "K"]] + [[draw.choice("WB"), draw.choice(KINDS)] for _ in range(count - 2)]
    draw.shuffle(men)
    for man in men:
        man += ["gone"] if man[1] != "K" and draw.random() < 0.07 else [str(draw.randrange(-wide, wide + 1)) for _ in range(2)]
    return men


def drawn_position(draw):
    """A text of a sound position, and a number of moves."""
    if draw.random() < 0.15:
        text = draw.choice([LADDER, MATED, BLACK_FIRST, BLACK_MATES, TWO_MOVES])
        return text, 2 if text == TWO_MOVES else 0 if text == MATED else 1
    while True:
        text = "\n".join(["infinite chess 1", draw.choice(list(reader.TURNS)).decode(), *(" ".join(man) for man in drawn_men(draw)), "end", ""]).encode()
        turn, _, men = reader.read_text(reader.Lines(text))
        try:
            reader.require_sound(turn, men)
        except reader.Refused:
            continue
        return text, 2 if len(men) == 2 and draw.random() < 0.2 else draw.choice([0, 1, 1, 1])


def drawn_tuple(draw, file, mask):
    """Places of the mask's men, not far from those of the position."""
    places, at = [], 8
    for number in range(file.head[7]):
        live = file.head[at + 2]
        if mask >> number & 1:
            places += [int.from_bytes(file.head[at + 3 + 8 * half : at + 11 + 8 * half], "big", signed=True) + draw.choice([0, 0, 0, 0, 1, -1, 2, -2]) for half in (0, 1)]
        at += 19 if live else 3
    return places


def with_other_claim(draw, file):
    """The file with one or two of its sets changed, or with another position."""
    for _ in range(draw.choice([1, 1, 2])):
        at = draw.choice(list(file.sets))
        tracks, table, pick = 2 * bin(at[1]).count("1"), file.sets[at], draw.random()
        if pick < 0.75:
            for _ in range(draw.choice([1, 1, 3])):
                file.sets[at] = file.sets[at].with_tuple(tracks, drawn_tuple(draw, file, at[1]), draw.random() < 0.8)
        elif pick < 0.8:
            file.sets[at] = draw.choice([all_words, no_words])(tracks)
        elif pick < 0.9:
            # Words of one tuple may part here.
            rows = [list(row) for row in table.rows]
            rows[draw.randrange(len(rows))][draw.randrange(2**tracks)] = draw.randrange(len(rows))
            file.sets[at] = Table(table.first, rows, table.accept)
        else:
            file.head[8 + 10] ^= draw.choice([1, 2, 4])
    return file


def empty_claim(text, moves):
    """A file of the position, with empty sets."""
    turn, winner, men = reader.read_text(reader.Lines(text))
    head = b"ICSF" + bytes([2, moves, turn + 2 * winner, len(men)])
    for side, kind, place in men:
        head += bytes([side, kind, place is not None]) + b"".join(part.to_bytes(8, "big", signed=True) for part in place or ())
    file = File(head)
    kings = sum(1 << number for number, man in enumerate(men) if man[1] == 0)
    live = sum(1 << number for number, man in enumerate(men) if man[2] is not None)
    for ply in range(1, 2 * moves, 2) if turn == winner else range(0, 2 * moves + 1, 2):
        for mask in range(live + 1):
            if mask & ~live == 0 and mask & kings == kings:
                file.sets[ply, mask] = no_words(2 * bin(mask).count("1"))
    return file


def plan_runs(draw, runs):
    """The plan of a position, and those of claims about it."""
    text, moves = drawn_position(draw)
    equal = lambda said, end: said == end + "\n"
    turn, winner, _ = reader.read_text(reader.Lines(text))
    command = draw.choice(["decide", "decide", "decide", "play", "keep"] + ["first", "describe", "describe"] * (turn == winner and moves > 0))
    words = [command, str(moves)] + ["b"] * (command == "keep")
    answered = equal if command in ("decide", "keep") else lambda said, end: not said.startswith("over budget")
    end = runs.compare("plans", ["describe" if command == "describe" else "decide", str(moves)], words, text, answered)
    (runs.folder / "a").unlink(missing_ok=True)
    if end in (None, "stopped"):
        return
    runs.ended([runs.program, "keep", str(moves), "a", "200000"], text)
    kept = (runs.folder / "a").exists()
    if not kept and draw.random() < 0.5:
        return
    if kept:
        runs.compare("claims kept", ["check", "a"], ["check", "a"], b"", equal)
    first = (runs.folder / "a").read_bytes() if kept else empty_claim(text, moves).written()
    for _ in range(3 if kept else 1):
        file = File(first)
        if file.sets:
            (runs.folder / "a").write_bytes(with_other_claim(draw, file).written(2))
            # A position that is not sound makes no claim.
            if "unsound" not in runs.ended([runs.program, "check", "a", "1"], b""):
                runs.compare("other claims", ["check", "a"], ["check", "a"], b"", equal)


def known_runs(runs):
    """A step of `win` and one of `stale` are the last that budgets name. They may take longer."""
    most, runs.most, runs.seconds = runs.most, 4000, 10 * SECONDS
    equal = lambda said, end: said == end + "\n"
    runs.compare("plans", ["decide", "1"], ["decide", "1"], FAR_KNIGHT, equal)
    (runs.folder / "a").write_bytes(hemmed(16))
    runs.compare("other claims", ["check", "a"], ["check", "a"], b"", equal)
    runs.most, runs.seconds = most, SECONDS


def formula_runs(draw, runs):
    line = drawn_formula(draw, [], draw.choice([2, 3, 4]))
    if len(line) <= 200 and b" " in line:
        runs.compare("formulas", ["arith"], ["arith"], line + b"\n", lambda said, end: said.split() [:1] == [end])


def crowd_runs(draw, runs):
    """The plan of a position as a crowd's."""
    text, moves = drawn_position(draw)
    text = text.replace(b"infinite chess", b"infinite crowd")
    runs.compare("crowds", ["crowd", str(moves)], ["crowd", str(moves)], text, lambda said, end: said == end + "\n")


def main():
    parser = argparse.ArgumentParser(usage=__doc__)
    parser.add_argument("program", nargs="?", default=BUILT)
    parser.add_argument("--seed", type=int, default=1)
    parser.add_argument("--count", type=int, default=1000)
    parser.add_argument("--most", type=int, default=2000)
    given = parser.parse_args()
    draw, begun, stopped = random.Random(given.seed), time.time(), []
    signal.signal(signal.SIGTERM, lambda *_: stopped.append(True))
    with tempfile.TemporaryDirectory() as top:
        folder = pathlib.Path(top)
        counter = folder / "spreads"
        subprocess.run(["c++", "-O2", "-std=c++17", "-o", counter, HERE / "spreads.cpp"], check=True)
        runs = Runs(pathlib.Path(given.program).resolve(), counter, folder, given.most)
        known_runs(runs)
        drawn = 0
        while drawn < given.count and not stopped:
            draw.choices([plan_runs, formula_runs, crowd_runs], [3, 1, 1])[0](draw, runs)
            drawn += 1
    print(f"seed {given.seed}: {drawn} drawn; {time.time() - begun:.0f} s")
    for counts in (runs.counts, runs.steps):
        print(", ".join(f"{what} {count}" for what, count in sorted(counts.items())))
    print(f"{runs.wrong} wrong")
    return 1 if runs.wrong else 0


if __name__ == "__main__":
    sys.exit(main())
