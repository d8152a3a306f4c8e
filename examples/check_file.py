#!/usr/bin/env python3
"""usage: check_file.py FILE [SAMPLES [SEED]]

Reads a strategy file of either version, and tests its rules on positions drawn from its sets, by default 20 of each set. It is written from docs/FORMATS.md
alone and shares nothing with the program. Drawn positions are evidence, not a proof: only `./mate check` tests every position.

A refused file is refused as by `./mate check`, with the same line. If a drawn position breaks a rule, the rule and the position are printed; rules that only
other positions break are not found. Of a sliding man some distances are tried: near ones, far ones, and those at which he comes near the lines of other men.
So a reply may be missed, and in rare files an answer, which is then reported as missing. The exit code is 0 if no broken rule is found, 11 if the file is
refused or a rule is broken, and 2 for other arguments.
"""
import random
import sys

ALL = [(1, 0), (1, 1), (0, 1), (-1, 1), (-1, 0), (-1, -1), (0, -1), (1, -1)]
LEAPS = [(2, 1), (1, 2), (-1, 2), (-2, 1), (-2, -1), (-1, -2), (1, -2), (2, -1)]
KING, QUEEN, ROOK, BISHOP, KNIGHT, PAWN, CHANCELLOR, ARCHBISHOP, AMAZON, NIGHTRIDER = range(10)
STEPS = {KING: ALL, KNIGHT: LEAPS, CHANCELLOR: LEAPS, ARCHBISHOP: LEAPS, AMAZON: LEAPS}
SLIDES = {QUEEN: ALL, ROOK: ALL[0::2], BISHOP: ALL[1::2], CHANCELLOR: ALL[0::2], ARCHBISHOP: ALL[1::2], AMAZON: ALL, NIGHTRIDER: LEAPS}


class Refused(Exception):
    """The reason for which a file is refused."""


class Fields:
    """The fields of a file, read in order."""

    def __init__(self, data):
        self.data, self.at = data, 0

    def number(self, width, most=2**64, why="", least=0):
        if len(self.data) - self.at < width:
            raise Refused(f"cut at {len(self.data)}")
        number = int.from_bytes(self.data[self.at:self.at + width], "big")
        if not least <= number <= most:
            raise Refused(f"byte {self.at} {why}")
        self.at += width
        return number

    def coordinate(self):
        return (self.number(8) + 2**63) % 2**64 - 2**63


class Set:
    """An automaton: a row and a flag for each state. A row is a reference: to a state, or to a node (track, low, high), which are numbered after the states.
    `length` has for each reference the least number of further letters up to an accepting state, or None."""

    def __init__(self, fields, version, tracks):
        self.tracks, self.nodes, self.known = tracks, [], {}
        self.count = fields.number(4, 200_000, "states", 1)
        track_of = [tracks] * self.count
        for _ in range(fields.number(4, 30_000_000, "nodes") if version == 2 else 0):
            node = [fields.number(1, tracks - 1, "track")]
            for _ in range(2):
                node.append(fields.number(4, len(track_of) - 1, "ref"))
                if track_of[node[-1]] <= node[0]:
                    raise Refused(f"byte {fields.at - 4} ref")
            self.nodes.append(node)
            track_of.append(node[0])
        self.rows, self.flags = [], []
        for state in range(-1, self.count):
            if state >= 0:
                self.flags.append(fields.number(1, 1, "flag"))
            if version == 2:
                self.rows.append(fields.number(4, len(track_of) - 1, "ref"))
            else:
                self.rows.append(self.joined([fields.number(4, self.count - 1, "entry") for _ in range(2**tracks)], 0))
        self.first, *self.rows = self.rows
        self.length, before = [0 if flag else None for flag in self.flags] + [None] * len(self.nodes), None
        while before != self.length:
            before = list(self.length)
            for at, (_, *sides) in enumerate(self.nodes, self.count):
                self.length[at] = min((self.length[side] for side in sides if self.length[side] is not None), default=None)
            for state, row in enumerate(self.rows):
                if self.length[row] is not None and (self.length[state] is None or self.length[row] + 1 < self.length[state]):
                    self.length[state] = self.length[row] + 1

    def joined(self, states, track):
        """Returns the reference to a row of version 1, a list of states by the bits from this track on."""
        if len(states) == 1:
            return states[0]
        low, high = self.joined(states[0::2], track + 1), self.joined(states[1::2], track + 1)
        if low != high and (track, low, high) not in self.known:
            self.known[track, low, high] = self.count + len(self.nodes)
            self.nodes.append((track, low, high))
        return low if low == high else self.known[track, low, high]

    def accepts(self, values, repeats=0):
        """Whether the tuple is in the set, by its shortest word with the first letter repeated."""
        bits = max((~v if v < 0 else v).bit_length() for v in values)
        at, reference = bits + repeats, self.first
        while True:
            while reference >= self.count:
                track, low, high = self.nodes[reference - self.count]
                reference = high if values[track] >> at & 1 else low
            if at == 0:
                return bool(self.flags[reference])
            at, reference = at - 1, self.rows[reference]

    def drawn(self, draw):
        """Returns a random tuple of the set, or None if it is empty. After some letters it takes a shortest way to an accepting state."""
        values, reference, left, sign = [0] * self.tracks, self.first, draw.randrange(12), -1
        while self.length[reference] is not None:
            letter = [draw.randrange(2) for _ in values]
            while reference >= self.count:
                track, low, high = self.nodes[reference - self.count]
                sides = [(self.length[side], bit, side) for bit, side in ((0, low), (1, high)) if self.length[side] is not None]
                _, letter[track], reference = draw.choice(sides) if left > 0 else min(sides)
            values, left, sign = [2 * value + sign * bit for value, bit in zip(values, letter)], left - 1, 1
            if self.flags[reference] and (left <= 0 or self.length[self.rows[reference]] is None):
                return values
            reference = self.rows[reference]
        return None


class Game:
    """The rules, for the men of a file. A position is a map from the numbers of the live men, counted from 0, to their squares."""

    def __init__(self, men):
        self.men = men
        self.kings = [men.index((side, KING)) if (side, KING) in men else None for side in (0, 1)]

    def rays(self, k):
        """Returns for each direction of man k: the step, whether he may make any number of them, whether onto empty squares, and whether to take."""
        side, kind = self.men[k]
        if kind == PAWN:
            return [((dx, 1 - 2 * side), False, dx == 0, dx != 0) for dx in (0, -1, 1)]
        return [(step, far, True, True) for table, far in ((SLIDES, True), (STEPS, False)) for step in table.get(kind, [])]

    def hit(self, place, k, step):
        """Returns the number of steps to the nearest man on this ray of man k, and his number; or None."""
        (x, y), (dx, dy) = place[k], step
        steps = [((its[0] - x) // dx if dx else (its[1] - y) // dy, other) for other, its in place.items()]
        return min(((t, other) for t, other in steps if t >= 1 and (x + t * dx, y + t * dy) == place[other]), default=None)

    def in_check(self, place, side):
        for k, step, far, takes in [(k, step, far, takes) for k in place if self.men[k][0] != side for step, far, _, takes in self.rays(k)]:
            hit = self.hit(place, k, step) if takes else None
            if hit and hit[1] == self.kings[side] and (far or hit[0] == 1):
                return True
        return False

    def legal(self, place, side, draw, sets=None):
        """Yields the positions after legal moves of the side, for some distances of sliding men; with sets, only those in them."""
        for k, step, far, moves, takes in [(k, *ray) for k in place if self.men[k][0] == side for ray in self.rays(k)]:
            hit = self.hit(place, k, step)
            distances = self.distances(place, k, step, draw) if far else [1] * moves
            tried = [(t, None) for t in distances if not hit or t < hit[0]]
            if hit and takes and (far or hit[0] == 1) and self.men[hit[1]][0] != side and hit[1] not in self.kings:
                tried.append(hit)
            for t, taken in tried:
                made = {other: square for other, square in place.items() if other != taken}
                made[k] = (place[k][0] + t * step[0], place[k][1] + t * step[1])
                if (sets is None or is_in(sets, made)) and not self.in_check(made, side):
                    yield made

    def distances(self, place, k, step, draw):
        lines = [v // step[i] + d for other in place for i in (0, 1) if step[i] for v in [place[other][i] - place[k][i]] for d in (-2, -1, 0, 1, 2)]
        return sorted({t for t in [*range(1, 9), *lines, draw.randrange(1, 2**20), draw.randrange(1, 2**64), 2**65] if t >= 1})


def mask_of(place):
    return sum(1 << k for k in place)


def is_in(sets, place):
    return mask_of(place) in sets and sets[mask_of(place)].accepts([v for k in sorted(place) for v in place[k]])


def read(data):
    """Returns the number of moves, the side to move, the winner, the game, the position, and the sets by ply and mask."""
    fields = Fields(data)
    fields.number(4, 0x49435346, "magic", 0x49435346)
    version = fields.number(1, 2, "version", 1)
    moves = fields.number(1, 20, "moves")
    winner, turn = divmod(fields.number(1, 3 if version == 2 else 1, "turn"), 2)
    men, place = [], {}
    for k in range(fields.number(1, 8 if version == 2 else 5, "count", 2)):
        men.append((fields.number(1, 1, "side"), fields.number(1, NIGHTRIDER if version == 2 else PAWN, "kind")))
        if fields.number(1, 1, "place"):
            place[k] = (fields.coordinate(), fields.coordinate())
    game = Game(men)
    has_kings = all(men.count((side, KING)) == 1 and game.kings[side] in place for side in (0, 1))
    if not has_kings or len(set(place.values())) < len(place) or game.in_check(place, 1 - turn):
        raise Refused(f"byte {fields.at} unsound")
    sets = {}
    for ply in range(1, 2 * moves, 2) if turn == winner else range(0, 2 * moves + 1, 2):
        sets[ply] = {}
        for mask in range(2**len(men)):
            if mask & ~mask_of(place) == 0 and all(mask >> king & 1 for king in game.kings):
                fields.number(1, ply, "ply", ply)
                fields.number(1, mask, "men", mask)
                sets[ply][mask] = Set(fields, version, 2 * bin(mask).count("1"))
    if fields.at < len(data):
        raise Refused(f"extra at {fields.at}")
    return moves, turn, winner, game, place, sets


def broken(file, samples, draw):
    """Returns the number of positions drawn, and the broken rules found: each with its place in the order of the rules, what is printed, and the position."""
    moves, turn, winner, game, start, sets = file
    count, found = 0, []
    add = lambda order, ply, mask, rule, place: found.append((order, f"not kept at ply {ply} men {mask} rule {rule}", place))
    if not (any(game.legal(start, winner, draw, sets.get(1, {}))) if turn == winner else is_in(sets[0], start)):
        add((1,), 0, mask_of(start), "first", start)
    for ply, mask in [(ply, mask) for ply in sets for mask in sets[ply] for _ in range(samples)]:
        values = sets[ply][mask].drawn(draw)
        if values is None:
            continue
        count += 1
        place = dict(zip([k for k in range(len(game.men)) if mask >> k & 1], zip(values[0::2], values[1::2])))
        if not all(sets[ply][mask].accepts(values, repeats) for repeats in range(3)):
            add((0, ply, mask, 0), ply, mask, "sign", place)
        if len(set(place.values())) < len(place):
            add((0, ply, mask, 1), ply, mask, "same", place)
            continue
        if game.in_check(place, winner):
            add((0, ply, mask, 2), ply, mask, "guard", place)
        replies = list(game.legal(place, 1 - winner, draw))
        for reply in replies:
            if not any(game.legal(reply, winner, draw, sets.get(ply + 2, {}))):
                add((2, ply, 0, mask_of(reply)), ply + 1, mask_of(reply), "left", reply)
        if not replies and not game.in_check(place, 1 - winner):
            add((2, ply, 1, mask), ply, mask, "stale", place)
    return count, found


def main(words):
    if not (1 <= len(words) <= 3 and all(word.isdecimal() for word in words[1:])):
        print(__doc__, end="", file=sys.stderr)
        return 2
    samples, seed = [int(word) for word in words[1:]] + [20, 1][len(words) - 1:]
    try:
        with open(words[0], "rb") as it:
            file = read(it.read())
    except (FileNotFoundError, Refused) as why:
        print("file missing" if isinstance(why, FileNotFoundError) else f"file {why}")
        return 11
    count, found = broken(file, samples, random.Random(seed))
    if found:
        _, rule, place = min(found, key=lambda it: it[0])
        print(f"file {rule}\nposition {' '.join(f'{k + 1}:{x},{y}' for k, (x, y) in sorted(place.items()))}")
        return 11
    print(f"mate in {file[0]}, as far as {count} drawn positions show")
    return 0


if __name__ == "__main__":
    sys.exit(main(sys.argv[1:]))
