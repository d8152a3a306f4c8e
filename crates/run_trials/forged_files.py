#!/usr/bin/env python3
"""usage: forged_files.py PROGRAM [SEED]

Writes strategy files that the program did not write, in a folder of its own, and compares the answer of `check` for each with chess. First come
strategies that are written otherwise: with states in another order, drawn from the seed, and more states than needed. They must be accepted. Then
come claims that are no strategy, each with the first rule that it breaks, by docs/FORMATS.md. Each is written in both versions. The automata are
made here, from the format alone. The exit code is 0 if all answers are right, otherwise 1.
"""
import random
import struct
import subprocess
import sys
import tempfile

LADDER = "turn W\nW K 0 -2\nW R 10 1\nW R 5 7\nB K 0 0\n"
TWO_MOVES = "turn W\nW K 0 -2\nW R 10 1\nW R 7 7\nB K 1 0\n"
BLACK_FIRST = "turn B\nW K 0 -2\nW R 10 1\nW R 2 7\nB K 1 0\n"
QUEENS = "turn B\nW K 100 100\nW Q 1 2\nW Q -1 -2\nB K 0 0\n"


class Table:
    """An automaton: a state for each sign letter, for each state a row and whether it accepts."""

    def __init__(self, first, rows, accept):
        self.first, self.rows, self.accept = first, rows, accept

    def renamed(self, draw, copies):
        """The same words: so many states have a twin, and all are in another order."""
        count = len(self.rows)
        twins = {state: [state] for state in range(count)}
        for number in range(count, count + copies):
            twins[draw.randrange(count)].append(number)
        origin = {number: state for state, its in twins.items() for number in its}
        order = list(range(count + copies))
        draw.shuffle(order)
        lead = lambda state: order[draw.choice(twins[state])]
        rows, accept = [None] * len(order), [None] * len(order)
        for number, place in enumerate(order):
            rows[place] = [lead(state) for state in self.rows[origin[number]]]
            accept[place] = self.accept[origin[number]]
        return Table([lead(state) for state in self.first], rows, accept)

    def with_tuple(self, tracks, values, there):
        """The same set, but that it has the tuple, or has not."""
        other = of_tuple(tracks, values)
        places, rows, accept = {}, [], []

        def place(pair):
            if pair not in places:
                places[pair] = len(places)
            return places[pair]

        first = [place(pair) for pair in zip(self.first, other.first)]
        done = 0
        while done < len(places):
            one, two = list(places)[done]
            rows.append([place(pair) for pair in zip(self.rows[one], other.rows[two])])
            accept.append(there if other.accept[two] else self.accept[one])
            done += 1
        return Table(first, rows, accept)


def of_tuple(tracks, values):
    """The automaton of one tuple."""
    bits = max([(~v if v < 0 else v).bit_length() for v in values]) + 1
    word = [sum((v >> at & 1) << track for track, v in enumerate(values)) for at in reversed(range(bits))]
    letters, dead = 2**tracks, bits
    first = [0 if letter == word[0] else dead for letter in range(letters)]
    rows = []
    for at in range(bits):
        row = [dead] * letters
        if at + 1 < bits:
            row[word[at + 1]] = at + 1
        if at == 0:
            row[word[0]] = 0
        rows.append(row)
    return Table(first, rows + [[dead] * letters], [at == bits - 1 for at in range(bits)] + [False])


def all_words(tracks):
    letters = 2**tracks
    return Table([0] * letters, [[0] * letters], [True])


def no_words(tracks):
    letters = 2**tracks
    return Table([0] * letters, [[0] * letters], [False])


class Nodes:
    """Nodes of a set of version 2, each once. A part is the number of a state, or of a node behind all states."""

    def __init__(self, states, tracks, nodes=()):
        self.states, self.tracks, self.nodes = states, tracks, list(nodes)
        self.places = {node: states + at for at, node in enumerate(self.nodes)}

    def row(self, part):
        """The state for each letter."""
        def leads(letter, part):
            while part >= self.states:
                track, low, high = self.nodes[part - self.states]
                part = high if letter >> track & 1 else low
            return part
        return [leads(letter, part) for letter in range(2**self.tracks)]

    def part(self, row, track=0):
        """The part of a row, whose letters have the bits from this track on."""
        if len(row) == 1:
            return row[0]
        low, high = self.part(row[0::2], track + 1), self.part(row[1::2], track + 1)
        node = (track, low, high)
        if low != high and node not in self.places:
            self.places[node] = self.states + len(self.nodes)
            self.nodes.append(node)
        return low if low == high else self.places[node]


class File:
    """A strategy file of version 2: what stands before its sets, and its sets by ply and mask."""

    def __init__(self, data):
        self.head_length = 8
        for _ in range(data[7]):
            self.head_length += 19 if data[self.head_length + 2] else 3
        self.head, at = bytearray(data[: self.head_length]), self.head_length
        self.sets = {}
        while at < len(data):
            ply, mask, states, count = struct.unpack_from(">BBII", data, at)
            at += 10
            nodes = Nodes(states, 2 * bin(mask).count("1"), struct.iter_unpack(">BII", data[at : at + 9 * count]))
            at += 9 * count
            first, at = nodes.row(*struct.unpack_from(">I", data, at)), at + 4
            its = list(struct.iter_unpack(">BI", data[at : at + 5 * states]))
            self.sets[ply, mask], at = Table(first, [nodes.row(part) for _, part in its], [bool(flag) for flag, _ in its]), at + 5 * states

    def written(self, version=2):
        out = bytearray(self.head)
        out[4] = version
        for (ply, mask), table in sorted(self.sets.items()):
            nodes = Nodes(len(table.rows), 2 * bin(mask).count("1"))
            put = (lambda row: struct.pack(">I", nodes.part(row))) if version == 2 else (lambda row: struct.pack(f">{len(row)}I", *row))
            rows = put(table.first) + b"".join(bytes([accepts]) + put(row) for row, accepts in zip(table.rows, table.accept))
            out += struct.pack(">BBI", ply, mask, len(table.rows))
            if version == 2:
                out += struct.pack(">I", len(nodes.nodes)) + b"".join(struct.pack(">BII", *node) for node in nodes.nodes)
            out += rows
        return bytes(out)


class Program:
    def __init__(self, program, folder):
        self.program, self.folder = program, folder

    def run(self, words, text=""):
        done = subprocess.run([self.program, *words.split()], cwd=self.folder, input=text.encode(), stdout=subprocess.PIPE)
        return done.stdout.decode().strip(), done.returncode

    def kept(self, position, moves):
        """The file that the program keeps of a position."""
        self.run(f"keep {moves} kept", f"infinite chess 1\n{position}end\n")
        with open(f"{self.folder}/kept", "rb") as it:
            return File(it.read())

    def says(self, file, version):
        with open(f"{self.folder}/forged", "wb") as it:
            it.write(file.written(version))
        return self.run("check forged 200000")


def changed(file, ply, mask, *tuples, there=True):
    """The tuples are put into the set, or taken out of it."""
    for values in tuples:
        file.sets[ply, mask] = file.sets[ply, mask].with_tuple(len(values), values, there)
    return file


def replaced(file, ply, mask, table):
    file.sets[ply, mask] = table
    return file


def forged(program):
    """Claims that are no strategy: what they are, the file, and the first rule that fails."""
    ladder = lambda: program.kept(LADDER, 1)
    two = lambda: program.kept(TWO_MOVES, 2)
    mate = (0, -2, 10, 1, 5, 0, 0, 0)
    yield "one too many: the king steps to rank 1", changed(ladder(), 1, 15, (0, -2, 10, 2, 5, 0, 0, 0)), "ply 2 men 15 rule left"
    yield "one too many, after a capture: there is no mate with one rook here", changed(ladder(), 1, 11, (0, -2, 10, 0, 0, 0)), "ply 2 men 11 rule left"
    yield "two rooks on one square", changed(ladder(), 1, 15, (0, -2, 10, 1, 10, 1, 0, 0)), "ply 1 men 15 rule same"
    yield "kings side by side", changed(ladder(), 1, 9, (0, -1, 0, 0)), "ply 1 men 9 rule guard"
    yield "all tuples", replaced(ladder(), 1, 15, all_words(8)), "ply 1 men 15 rule same"
    yield "the mated position is missing", changed(ladder(), 1, 15, mate, there=False), "ply 0 men 15 rule first"
    yield "another mated position, which no move leads to", changed(changed(ladder(), 1, 15, mate, there=False), 1, 15, (0, -2, 20, 1, 30, 0, 0, 0)), "ply 0 men 15 rule first"
    other = ladder()
    other.head[33] = 1  # the first rook stands 2 ^ 32 files further to the right
    yield "the sets of another position", other, "ply 0 men 15 rule first"
    short = ladder()
    table = short.sets[1, 15]
    table.rows[1] = [0 if state == 1 else state for state in table.rows[1]]
    yield "a word with one sign letter alone", short, "ply 1 men 15 rule sign"
    # Black's one reply leads to the king on 0 0, and the rook mates on 2 0.
    answer = (0, -2, 10, 1, 2, 0, 0, 0)
    yield "the answer to a reply is missing", changed(two(), 3, 15, answer, there=False), "ply 2 men 15 rule left"
    worse = changed(two(), 3, 15, answer, there=False)
    yield "the reply is answered by a check from which the king escapes", changed(worse, 3, 15, (0, -2, 10, 0, 2, 7, 0, 0)), "ply 4 men 15 rule left"
    start = program.kept(BLACK_FIRST, 1)
    yield "the position itself is missing", changed(start, 0, 15, (0, -2, 10, 1, 2, 7, 1, 0), there=False), "ply 0 men 15 rule first"
    # The kept sets of a position that is no mate in 0 are empty, and no file is kept: the claim is put together of another one.
    stale = program.kept("turn B\nW K 0 -2\nW Q 10 0\nW Q 10 1\nB K 0 0\n", 0)
    with_men = program.kept(LADDER, 1)
    stale.head = bytearray(with_men.head[:5]) + bytes([0, 1, 4])
    for side, kind, x, y in [(0, 0, 100, 100), (0, 1, 1, 2), (0, 1, -1, -2), (1, 0, 0, 0)]:
        stale.head += struct.pack(">BBBqq", side, kind, 1, x, y)
    for ply, mask in stale.sets:
        stale.sets[ply, mask] = no_words(2 * bin(mask).count("1"))
    yield "stalemate", changed(stale, 0, 15, (100, 100, 1, 2, -1, -2, 0, 0)), "ply 0 men 15 rule stale"


def main(words):
    if len(words) not in (1, 2):
        print(__doc__, end="", file=sys.stderr)
        return 2
    draw = random.Random(int(words[1]) if len(words) == 2 else 1)
    count = wrong = 0
    with tempfile.TemporaryDirectory() as folder:
        program = Program(words[0], folder)
        cases = []
        for position, moves in [(LADDER, 1), (BLACK_FIRST, 1), (TWO_MOVES, 2)]:
            for copies in (0, 1, 5, 20):
                file = program.kept(position, moves)
                file.sets = {at: table.renamed(draw, copies) for at, table in file.sets.items()}
                cases.append((f"{copies} states more, in another order", file, f"mate in {moves}", 0))
        cases += [(what, file, f"file not kept at {rule}", 11) for what, file, rule in forged(program)]
        for version in (1, 2):
            for what, file, wanted, code in cases:
                said = program.says(file, version)
                count, wrong = count + 1, wrong + (said != (wanted, code))
                print(f"{'as it should be' if said == (wanted, code) else f'WANTED {wanted!r}'}: {said[0]}  (version {version}: {what})", flush=True)
    print(f"{count} files, {wrong} wrong")
    return 1 if wrong else 0


if __name__ == "__main__":
    sys.exit(main(sys.argv[1:]))
