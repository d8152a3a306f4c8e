#!/usr/bin/env python3
"""usage: two_engines.py [PROGRAM] [--seed S] [--count N] [--seconds T]

Draws positions of two to eight men from the seed, decides each by `decide` and, as a crowd's text, by `crowd`, and compares the output. The two computations
share little: the first uses the squares of all men, the second the distances of the moves. It ends when N positions were answered by both; other runs exceeded
the budget, the memory or T seconds of processor time, and are counted. In most positions the loser's king is near strong men, and if `crowd` finds no mate,
`decide` is called only while fewer than three in four answers are that. PROGRAM is by default ../crates/mate_main/out/mate_main; the exit code is 0 if no answer
differs.
"""
import argparse
import collections
import pathlib
import random
import resource
import signal
import subprocess
import sys

import reader

BUILT = pathlib.Path(__file__).resolve().parent.parent / "crates/mate_main/out/mate_main"
HEADERS = {"crowd": "infinite crowd 1", "decide": "infinite chess 1"}
STRONG, ANY = "QQRRRRCAZH", "QRBNPCAZH"
# The number of moves, and whether the winner is to move, as often as it stands here; and up to how many men there are then: a run takes longer with both.
ASKED = [(0, False)] * 12 + [(1, True)] * 60 + [(1, False)] * 8 + [(2, True)]
MOST_MEN = {(0, False): 8, (1, True): 8, (1, False): 4, (2, True): 4}
# The codes of runs without an answer: past the budget, no memory, no time.
NO_ANSWER = (8, 10, -signal.SIGKILL, -signal.SIGXCPU)


def near(draw, reach):
    return draw.randrange(-reach, reach + 1), draw.randrange(-reach, reach + 1)


def squares(draw, count, is_tight):
    """Squares for the loser's king, the winner's, and the other men."""
    reach = draw.choice([4, 7, 7, 12])
    king = draw.choice([(0, 2), (1, 2), (2, 2), (2, 0), (2, 1), (2, -2)]) if is_tight else near(draw, reach)
    turned = draw.choice([lambda x, y: (x, y), lambda x, y: (y, x), lambda x, y: (-x, -y), lambda x, y: (-y, x)])
    far = draw.choice([0, 0, 0, 0, 1000, 2**40, 2**60 - 20])
    return [(far + x, y - far) for x, y in [(0, 0), turned(*king), *[near(draw, reach) for _ in range(count)]]]


def drawn(draw):
    """A sound position, with who is to move, who is to mate and within how many moves."""
    moves, is_winners = draw.choice(ASKED)
    most = MOST_MEN[moves, is_winners]
    winner = draw.randrange(2)
    turn = winner if is_winners else 1 - winner
    is_tight = draw.random() < 0.8
    strong = min(draw.choice([1, 2, 2, 3]), most - 2) if is_tight else 0
    others = min(draw.choice([0] * 10 + [1] * 8 + [2] * 4 + [3, 6]), most - 2 - strong)
    kinds = [(winner, draw.choice(STRONG)) for _ in range(strong)] + [(draw.randrange(2), draw.choice(ANY)) for _ in range(others)]
    men = [(1 - winner, "K"), (winner, "K"), *kinds]
    places = squares(draw, len(kinds), is_tight)
    placed = [(side, reader.KINDS.index(kind.encode()), place if number < 2 or draw.random() < 0.96 else None) for number, ((side, kind), place) in enumerate(zip(men, places))]
    draw.shuffle(placed)
    try:
        reader.require_sound(turn, placed)
    except reader.Refused:
        return drawn(draw)
    return moves, (turn, winner), placed


def text_of(header, sides, men):
    line = next(line for line, its in reader.TURNS.items() if its == sides).decode()
    lines = [f"{'WB'[side]} {reader.KINDS.decode()[kind]} {'gone' if place is None else '%d %d' % place}" for side, kind, place in men]
    return "".join(f"{it}\n" for it in [header, line, *lines, "end"])


def asked(program, command, moves, sides, men, seconds):
    limit = lambda: resource.setrlimit(resource.RLIMIT_CPU, (seconds, seconds))
    done = subprocess.run([program, command, str(moves)], input=text_of(HEADERS[command], sides, men).encode(), stdout=subprocess.PIPE, preexec_fn=limit)
    return done.stdout.decode(), done.returncode


def is_wrong(ends):
    """Whether there is an end that may not come, or there are two answers."""
    return any(code not in NO_ANSWER for _, code in ends if code) or (all(code == 0 for _, code in ends) and len({output for output, _ in ends}) > 1)


def is_enough(counts):
    """Whether three in four of the positions that were answered, or more, have no mate."""
    mates = sum(count for (_, _, is_mate), count in counts.items() if is_mate)
    return sum(counts.values()) > 20 and 4 * mates < sum(counts.values())


def main():
    parser = argparse.ArgumentParser(usage=__doc__)
    parser.add_argument("program", nargs="?", default=BUILT)
    parser.add_argument("--seed", type=int, default=1)
    parser.add_argument("--count", type=int, default=1000)
    parser.add_argument("--seconds", type=int, default=20)
    given = parser.parse_args()
    program, draw, stopped = pathlib.Path(given.program).resolve(), random.Random(given.seed), []
    signal.signal(signal.SIGTERM, lambda *_: stopped.append(True))
    counts, left_out, differ = collections.Counter(), collections.Counter(), 0
    while sum(counts.values()) < given.count and not stopped:
        moves, sides, men = drawn(draw)
        ends = {}
        for command in HEADERS:
            output, code = ends[command] = asked(program, command, moves, sides, men, given.seconds)
            is_mate = output == f"mate in {moves}\n"
            if code:
                left_out[f"{command}, code {code}"] += 1
            if code or (len(ends) == 1 and not is_mate and is_enough(counts)):
                break
        else:
            counts[moves, len(men), is_mate] += 1
        if is_wrong(list(ends.values())):
            differ += 1
            print(f"{ends}\n{text_of(HEADERS['crowd'], sides, men)}", flush=True)
    mates = sum(count for (_, _, is_mate), count in counts.items() if is_mate)
    print(f"seed {given.seed}: {sum(counts.values())} positions answered by both, {mates} of them with a mate; {differ} differ")
    for moves in range(3):
        told = [f"{men} men {counts[moves, men, True]} and {counts[moves, men, False]}" for men in range(2, 9) if counts[moves, men, True] + counts[moves, men, False]]
        print(f"  {moves} moves, with a mate and without: {', '.join(told)}")
    print("not answered, by the command and its code: " + ", ".join(f"{what}: {count}" for what, count in sorted(left_out.items())))
    return 1 if differ else 0


if __name__ == "__main__":
    sys.exit(main())
