"""Makes random files, and random changes of good ones, and compares the program's answers with a reader of its own.

    python3 random_files.py SEED COUNT PROGRAM

The reader below is written from docs/FORMATS.md and shares nothing with the program. The good files are those of `stdin`. PROGRAM is the
built program (`rt run` leaves it as `out/file_trials`).
"""

import pathlib
import random
import subprocess
import sys

HERE = pathlib.Path(__file__).parent
STEPS = [(1, 0), (1, 1), (0, 1), (-1, 1), (-1, 0), (-1, -1), (0, -1), (1, -1)]
LEAPS = [(2, 1), (1, 2), (-1, 2), (-2, 1), (-2, -1), (-1, -2), (1, -2), (2, -1)]
NO_TRACK = 255
MOST = {1: {"turn": 1, "men": 5, "kind": 5}, 2: {"turn": 3, "men": 8, "kind": 9}}


class Refusal(Exception):
    pass


class Bytes:
    def __init__(self, data):
        self.data = data
        self.at = 0

    def number(self, width, least, most, why):
        if len(self.data) - self.at < width:
            raise Refusal(f"cut at {len(self.data)}")
        n = int.from_bytes(self.data[self.at:self.at + width], "big")
        if not least <= n <= most:
            raise Refusal(f"byte {self.at} {why}")
        self.at += width
        return n

    def coordinate(self):
        n = self.number(8, 0, 2**64 - 1, None)
        return n - 2**64 if n >= 2**63 else n


# The kinds that bear along ranks and files, along diagonals, by one leap, and by any number of equal leaps.
STRAIGHT, SLANT, LEAPING, RIDING = {1, 2, 6, 8}, {1, 3, 7, 8}, {4, 6, 7, 8}, {9}


def bears(man, square, men):
    """Whether a man bears on a square."""
    side, kind, place = man
    x, y = square[0] - place[0], square[1] - place[1]
    if kind == 0:
        return (x, y) in STEPS
    if kind == 5:
        return abs(x) == 1 and y == (1 if side == 0 else -1)
    if kind in LEAPING and (x, y) in LEAPS:
        return True
    straight = (x == 0) != (y == 0)
    slant = abs(x) == abs(y) != 0
    riding = min(abs(x), abs(y)) != 0 and max(abs(x), abs(y)) == 2 * min(abs(x), abs(y))
    if not (straight and kind in STRAIGHT or slant and kind in SLANT or riding and kind in RIDING):
        return False
    length = max(abs(x), abs(y)) if x == 0 or y == 0 else min(abs(x), abs(y))
    step = (x // length, y // length)
    return not any(
        other[2] == (place[0] + step[0] * far, place[1] + step[1] * far)
        for other in men if other[2] is not None and other is not man
        for far in [how_far(other[2], place, step)] if 0 < far < length
    )


def how_far(square, place, step):
    """After how many of the steps one coordinate of the square is reached."""
    at = 0 if step[0] != 0 else 1
    return (square[at] - place[at]) // step[at]


def is_sound(men, turn):
    for side in (0, 1):
        kings = [m for m in men if m[0] == side and m[1] == 0]
        if len(kings) != 1 or kings[0][2] is None:
            return False
    places = [m[2] for m in men if m[2] is not None]
    if len(set(places)) != len(places):
        return False
    king = next(m for m in men if m[0] != turn and m[1] == 0)
    return not any(m[0] == turn and m[2] is not None and bears(m, king[2], men) for m in men)


def masks_of(men):
    live = sum(1 << k for k, m in enumerate(men) if m[2] is not None)
    kings = sum(1 << k for k, m in enumerate(men) if m[1] == 0)
    return [m for m in range(1 << len(men)) if m & ~live == 0 and m & kings == kings]


def read_rows(b, states, tracks):
    """The rows and flags of a set of version 1: a state for each letter."""
    for _ in range(1 << tracks):
        b.number(4, 0, states - 1, "entry")
    for _ in range(states):
        b.number(1, 0, 1, "flag")
        for _ in range(1 << tracks):
            b.number(4, 0, states - 1, "entry")


def read_nodes(b, states, tracks):
    """Those of version 2: each row is a state or a node, and a part of a node is a state or an earlier node of a later track."""
    looks_at = [NO_TRACK] * states
    for _ in range(b.number(4, 0, 30_000_000, "nodes")):
        track = b.number(1, 0, tracks - 1, "track")
        for _ in range(2):
            at = b.at
            part = b.number(4, 0, 2**32 - 1, None)
            if part >= len(looks_at) or looks_at[part] <= track:
                raise Refusal(f"byte {at} ref")
        looks_at.append(track)
    b.number(4, 0, len(looks_at) - 1, "ref")
    for _ in range(states):
        b.number(1, 0, 1, "flag")
        b.number(4, 0, len(looks_at) - 1, "ref")


def read(data):
    b = Bytes(data)
    b.number(4, 0x49435346, 0x49435346, "magic")
    version = b.number(1, 1, 2, "version")
    most = MOST[version]
    moves = b.number(1, 0, 20, "moves")
    winner, turn = divmod(b.number(1, 0, most["turn"], "turn"), 2)
    men = []
    for _ in range(b.number(1, 2, most["men"], "count")):
        side = b.number(1, 0, 1, "side")
        kind = b.number(1, 0, most["kind"], "kind")
        tag = b.number(1, 0, 1, "place")
        men.append((side, kind, (b.coordinate(), b.coordinate()) if tag else None))
    if not is_sound(men, turn):
        raise Refusal(f"byte {b.at} unsound")
    text = f"claim {moves} {'WB'[turn]}{' for B' * winner} {len(men)}"
    plies = range(1, 2 * moves, 2) if turn == winner else range(0, 2 * moves + 1, 2)
    for ply in plies:
        for mask in masks_of(men):
            b.number(1, ply, ply, "ply")
            b.number(1, mask, mask, "men")
            states = b.number(4, 1, 200000, "states")
            READERS[version](b, states, 2 * bin(mask).count("1"))
            text += f" {ply}/{mask}/{states}"
    if b.at < len(data):
        raise Refusal(f"extra at {b.at}")
    return text


READERS = {1: read_rows, 2: read_nodes}


def outcome(data):
    try:
        return read(data)
    except Refusal as refusal:
        return str(refusal)


def spelled(words):
    out = b""
    for word in words.split():
        digits, _, count = word.partition("*")
        out += bytes.fromhex(digits) * (int(count) if count else 1)
    return out


def good_files():
    files = {}
    for line in (HERE / "stdin").read_text().splitlines():
        if line.startswith("file "):
            _, name, words = line.split(" ", 2)
            files[name] = (words, spelled(words))
    return files


def field_byte(rng):
    return rng.choice([0, 0, 1, 1, 2, 3, 4, 5, 6, 9, 11, 13, 15, 20, 21, 255, rng.randrange(256)])


def random_row(rng, files):
    name = rng.choice(sorted(files))
    data = files[name][1]
    pick = rng.randrange(10)
    if pick == 0 or not data:
        size = rng.choice([rng.randrange(1, 60), rng.randrange(1, 400)])
        front = data[:rng.randrange(len(data) + 1)][:200]
        data = front + bytes(field_byte(rng) for _ in range(size))
        return [f"file drawn {data.hex()}"], data, "read drawn"
    if pick == 1:
        piece = bytes(field_byte(rng) for _ in range(rng.randrange(1, 5)))
        return [], data + piece, f"more {name} {piece.hex()}"
    early = rng.random() < 0.6
    at = rng.randrange(min(len(data), 200) if early else len(data))
    size = min(len(data) - at, rng.choice([1, 1, 1, 2, 4, 8]))
    piece = bytes(field_byte(rng) for _ in range(size))
    return [], data[:at] + piece + data[at + size:], f"change {name} {at} {piece.hex()}"


def main():
    seed, count, program = int(sys.argv[1]), int(sys.argv[2]), sys.argv[3]
    rng = random.Random(seed)
    files = good_files()
    script = [f"file {name} {words}" for name, (words, _) in files.items()]
    wanted, rows, drawn = [], [], 0
    for name, (_, data) in sorted(files.items()):
        script.append(f"read {name}")
        rows.append(f"read {name}")
        wanted.append(outcome(data))
    for _ in range(count):
        before, data, row = random_row(rng, files)
        if before:
            drawn += 1
            before = [line.replace("drawn", f"drawn{drawn}") for line in before]
            row = row.replace("drawn", f"drawn{drawn}")
        script += before + [row]
        rows.append(row)
        wanted.append(outcome(data))
    ran = subprocess.run([program], input="\n".join(script) + "\n", capture_output=True, text=True)
    answers = ran.stdout.splitlines()
    tally = {}
    for row, want, got in zip(rows, wanted, answers):
        tally[want.split()[-1] if want.startswith("byte") else want.split()[0]] = tally.get(want.split()[-1] if want.startswith("byte") else want.split()[0], 0) + 1
        if want != got:
            raise SystemExit(f"{row}\n  wanted {want}\n  got {got}")
    if len(answers) != len(wanted):
        raise SystemExit(f"{len(wanted)} answers were wanted, {len(answers)} came")
    print(f"{len(wanted)} agree:", ", ".join(f"{word} {n}" for word, n in sorted(tally.items())))


if __name__ == "__main__":
    main()
