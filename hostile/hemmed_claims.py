"""Claims of a hemmed king, whose rule `stale` needs more states than any step before it.

Black's king on 0 0 has no square: his pawn is on 0 1, and White's king on 2 1 and his amazon on -3 -1 have the others. White's pawns on files
1 and -1 and his knight on file -2 are on any even rank. Black has a move if a pawn is on rank 0, since his pawn takes it, and if the knight is
there, since he blocks the amazon's way to -1 1; otherwise it is stalemate. So the set of ply 0 does not depend on how far a rank may still become
0, except for the common number of letters, and each option of Black tests one of the three men. The union of what they reach distinguishes
which of the three may still be on rank 0, and the difference also what is claimed. All ranks are increased by a height, which makes the words
longer. White answers by the king's step to 3 1. The sets of ply 2 contain what he reaches.
"""
import struct

KINGS = 0b101
NONE = (1, [], 0, [(False, 0)])
MEN = [(0, 0, 2, 1), (0, 8, -3, -1), (1, 0, 0, 0), (1, 5, 0, 1), (0, 5, 1, 6), (0, 5, -1, 4), (0, 4, -2, 4)]
ALL, FREE = (1 << len(MEN)) - 1, {5: 1, 6: -1, 7: -2}


class Product:
    """The set of the tuples with these numbers on some tracks, and an even number on others, as a table of version 2.

    The numbers have one word together, of the fewest letters. State 0 has no way to acceptance; another one is how many letters are read, the
    first of which may be repeated, and the last digits of the even numbers.
    """

    def __init__(self, numbers, even):
        self.numbers, self.tracks = numbers, sorted([*numbers, *even])
        self.count = max((~x if x < 0 else x).bit_length() + 1 for x in numbers.values())
        self.keys, self.nodes, self.rows, done = ["dead"], [], [(False, 0)], 1
        self.first = self.row([1])
        while done < len(self.keys):
            read, digits = self.keys[done]
            follows = [1] * (read == 1) + [read + 1] * (read < self.count)
            self.rows.append((read == self.count and not any(digits), self.row(follows)))
            done += 1

    def row(self, follows, at=0, digits=()):
        """The part of a row behind some tracks: how many letters may have been read, and the even numbers' digits so far."""
        if not follows or at == len(self.tracks):
            return self.number(self.keys, (follows[0], digits)) if follows else 0
        track = self.tracks[at]
        if track in self.numbers:
            digit = lambda read: self.numbers[track] >> self.count - read & 1
            low, high = (self.row([read for read in follows if digit(read) == bit], at + 1, digits) for bit in (0, 1))
        else:
            low, high = (self.row(follows, at + 1, (*digits, bit)) for bit in (0, 1))
        return low if low == high else ("node", self.number(self.nodes, (track, low, high)))

    def number(self, known, key):
        if key not in known:
            known.append(key)
        return known.index(key)

    def table(self):
        ref = lambda part: len(self.keys) + part[1] if isinstance(part, tuple) else part
        return len(self.keys), [(track, ref(low), ref(high)) for track, low, high in self.nodes], ref(self.first), [(flag, ref(part)) for flag, part in self.rows]


def claimed(mask, height, moved):
    """Of the mask's men those that are free stand on their files, on an even rank, and the others where they do or have moved to."""
    numbers, even = {}, []
    for at, man in enumerate(man for man in range(1, 8) if mask >> man - 1 & 1):
        if man in FREE:
            numbers[2 * at], even = FREE[man], [*even, 2 * at + 1]
        else:
            x, y = moved.get(man, MEN[man - 1][2:])
            numbers[2 * at], numbers[2 * at + 1] = x, y + height
    return Product(numbers, even).table()


def hemmed(height):
    """The file of the claim; the height is even."""
    sets = {(0, ALL): claimed(ALL, height, {}), (2, ALL): claimed(ALL, height, {1: (3, 1), 3: (-1, 1)})}
    for man in (5, 6):
        sets[2, ALL & ~(1 << man - 1)] = claimed(ALL & ~(1 << man - 1), height, {1: (3, 1), 4: (FREE[man], 0)})
    out = b"ICSF" + bytes([2, 1, 1, len(MEN)])
    for side, kind, x, y in MEN:
        out += struct.pack(">BBBqq", side, kind, 1, x, y + height)
    for ply in (0, 2):
        for mask in range(ALL + 1):
            if mask & KINGS == KINGS:
                states, nodes, first, rows = sets.get((ply, mask), NONE)
                out += struct.pack(">BBII", ply, mask, states, len(nodes)) + b"".join(struct.pack(">BII", *node) for node in nodes)
                out += struct.pack(">I", first) + b"".join(struct.pack(">?I", *row) for row in rows)
    return out
