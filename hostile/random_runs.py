#!/usr/bin/env python3
"""usage: random_runs.py [PROGRAM] [--seed S] [--count N]

Runs the program `mate` N times, with arguments, texts, formulas, replies and files drawn from the seed: changes of good ones, and new ones combined from
the pieces of the formats. Each run must end within 60 seconds of processor time with a code of docs/FORMATS.md, with nothing on standard error, with the
output of the command and the code, and with the files that it has to leave; if reader.py knows the answer, with exactly that. Other runs are printed.
Then the codes and commands are counted; so it is after SIGTERM. PROGRAM is by default ../crates/mate_main/out/mate_main; the exit code is 0 if nothing was
found.
"""
import argparse
import collections
import pathlib
import random
import re
import resource
import signal
import subprocess
import sys
import tempfile
import time

import reader
from reader import Lines, Refused

HERE = pathlib.Path(__file__).resolve().parent
sys.path.insert(0, str(HERE.parent / "crates/run_trials"))
from forged_files import File  # noqa: E402

BUILT = HERE.parent / "crates/mate_main/out/mate_main"
SECONDS, LINES = 60, 10000
# So many paths of moves, by the number of men alone, a crowd may have for which the budget is drawn as for the other commands.
MOST_PATHS = 300
HEAD = b"infinite chess 1\n"
LADDER = HEAD + b"turn W\nW K 0 -2\nW R 10 1\nW R 5 7\nB K 0 0\nend\n"
MATED = HEAD + b"turn B\nW K 0 -2\nW R 10 0\nW R 10 1\nB K 0 0\nend\n"
BLACK_FIRST = HEAD + b"turn B\nW K 0 -2\nW R 10 1\nW R 2 7\nB K 1 0\nend\n"
# The same for the other side, and the mate in 1 with men of other kinds.
WHITE_FIRST = HEAD + b"turn W for B\nB K 0 2\nB R 10 -1\nB R 2 -7\nW K 1 0\nend\n"
OTHER_KINDS = HEAD + b"turn B for B\nB K 0 2\nB C 10 -1\nB Z 5 -7\nW K 0 0\nW P gone\nend\n"
GOOD = [LADDER, MATED, BLACK_FIRST, WHITE_FIRST, OTHER_KINDS, HEAD + b"turn W\nW K 0 0\nB K 10 0\nend\n", HEAD + b"turn B for B\nW K 5 5\nB P 1 2\nB K -3 -3\nW Q gone\nW N 7 7\nB C 2 9\nW H 40 -7\nend\n"]
EDGES = [2**63 - 1, -2**63, 2**63, -2**63 - 1, 2**64, 10**19, 10**18, 2**31, 10**40, 0, -1, 20, 21, 100, 101, 200000, 200001]
# What may come with each code where the reader does not say it. With the codes 3, 9, 12 and 13 the lines of a game may come before.
NAMED = rb"over budget at (moves [0-9]+ ply [0-9]+ men [0-9]+ part [a-z]+ at|arith|crowd|describe man [1-8] ray [0-9]+ (line|period)) [0-9]+\n"
DISTANCES = rb"(runs (none|[0-9]+-[0-9]+(,[0-9]+-[0-9]+)*) from [0-9]+ every [0-9]+ rests (none|[0-9]+(,[0-9]+)*)|no period up to 60|far|many)"
GAME = rb"(((?:white|black) [1-8] \S+ \S+|illegal|unreadable)\n)*"
WHYS = rb"(magic|version|moves|turn|count|side|kind|place|unsound|ply|men|states|entry|flag|nodes|track|ref)"
RULES = rb"(sign|same|guard|first|left|stale)"
# What each command may write where it is done, N being the number of its first word.
RAYS = rb"(man [1-8] step -?[012] -?[012] %s\n)*end\n"
DONE = {
    b"decide": rb"(no )?mate in N\n", b"crowd": rb"(no )?mate in N\n", b"keep": rb"(no )?mate in N\n", b"least": rb"least [0-9]+\n|none up to N\n",
    b"first": RAYS % rb"least (wide|[0-9]+) (only|more)", b"describe": RAYS % DISTANCES,
    b"play": rb"no mate in N\n|" + GAME + rb"mate\n", b"defend": rb"mate in N\n|" + GAME + rb"(held|stuck)\n", b"resume": GAME + rb"mate\n",
    b"check": rb"mate in [0-9]+\n", b"migrate": rb"migrated\n", b"show": rb"(?s).*\ncheck (yes|no)\nlive [2-8]\n",
    b"drill": rb"[0-9]+ of [0-9]+ mate in 1\n", b"arith": rb"true( witness (wide|0|-?[1-9][0-9]*))?\n|false\n",
}
ANSWERS = {
    3: GAME + rb"text line [0-9]+ (cut|long)\n",
    8: NAMED,
    9: GAME + rb"wide\n",
    11: rb"file (missing|too long|cut at [0-9]+|byte [0-9]+ " + WHYS + rb"|extra at [0-9]+|not kept at ply [0-9]+ men [0-9]+ rule " + RULES + rb"|too large [0-9]+)\n",
    12: GAME + rb"ended\n",
    13: GAME + rb"too many lines\n",
}


class Case:
    """A run: its words, its input and the file `a` of its folder; the output and code that have to come, if they are known, and else the output that has
    to come where the run is done, if that is known."""

    def __init__(self, words, text=b"", file=None, wanted=None, answer=None):
        self.words, self.text, self.file, self.wanted, self.answer = words, text, file, wanted, answer


def drawn_number(draw):
    small = draw.random() < 0.6
    number = draw.randrange(-12, 13) if small else draw.choice(EDGES) + draw.choice([0, 0, 1, -1])
    spelled = str(number)
    if draw.random() < 0.06:
        spelled = draw.choice(["+", "0", "-", "00", "", "--"]) + spelled
    if draw.random() < 0.03:
        spelled += draw.choice([".", "x", "\r", "\t", "\0", "é", "0" * 30])
    return spelled.encode()


def changed(draw, data):
    """The bytes with a few changes."""
    data = bytearray(data)
    for _ in range(draw.choice([1, 1, 1, 2, 3])):
        at = draw.randrange(len(data) + 1)
        piece = bytes(draw.choice([10, 32, 32, 48, 45, 87, 66, 75, 13, 0, 255, draw.randrange(256)]) for _ in range(draw.choice([1, 1, 2, 5])))
        pick = draw.randrange(6)
        if pick == 0:
            del data[at:]
        elif pick == 1:
            del data[at:at + len(piece)]
        elif pick == 2:
            data[at:at] = piece
        elif pick == 3:
            data[at:at + len(piece)] = piece
        elif pick == 4:
            lines = bytes(data).split(b"\n")
            lines.insert(draw.randrange(len(lines) + 1), draw.choice(lines))
            data = bytearray(b"\n".join(lines))
        else:
            lines = bytes(data).split(b"\n")
            del lines[draw.randrange(len(lines))]
            data = bytearray(b"\n".join(lines))
    return bytes(data)


def drawn_words(draw):
    words = [draw.choice([*reader.SHAPES, b"", b"Decide", b"decide ", b"mate", b"help", b"version", b"--help", b"cost", b"\xff"] if draw.random() < 0.2 else [*reader.SHAPES])]
    for limits in reader.SHAPES.get(words[0], [reader.MOVES]):
        if limits is None and draw.random() < 0.8:
            words.append(bytes(draw.choice(b"abz09_") for _ in range(draw.choice([0, 1, 2, 5, 31, 32, 33]))))
        elif limits is None:
            words.append(draw.choice([b"a.b", b"A", b"../a", b"a b", b"a/b", b".", "ä".encode(), b"a\n", b"-", b"a" * 300]))
        elif draw.random() < 0.5:
            words.append(str(draw.randrange(limits[0], limits[1] + 1)).encode())
        else:
            words.append(drawn_number(draw).replace(b"\0", b"0"))
    pick = draw.random()
    if pick < 0.1:
        words.insert(draw.randrange(len(words) + 1), draw.choice([b"", b"1", b"a", b"\xc3", b"show", b"z" * 5000]))
    elif pick < 0.3 and len(words) > 1:
        words.pop()
    elif pick < 0.32:
        words = []
    return words


def words_case(draw):
    """Words, with no input behind them: where they are in order, the text or the file is missing."""
    words = drawn_words(draw)
    try:
        command, given = reader.read_words(words)
    except Refused as why:
        return Case(words, wanted=(f"{why.line}\n".encode(), why.code))
    if command == "drill":
        # A drill takes a tenth of a second for each position.
        words[2] = b"0"
        return Case(words, wanted=(b"0 of 0 mate in 1\n", 0))
    if command in ("check", "resume", "migrate"):
        return Case(words, wanted=(b"file missing\n", 11))
    return Case(words, wanted=(b"text line 1 missing\n", 3))


def drawn_text(draw, grammar):
    if draw.random() < 0.4:
        text = draw.choice(GOOD)
        return changed(draw, text if draw.random() < 0.05 else text.replace(reader.POSITIONS.header, grammar.header))
    lines = [grammar.header, draw.choice([*reader.TURNS, b"turn W", b"turn B"])]
    others = draw.choice([0, 0, 1, 2, 2, 3, 3, 4, 6, 7] + [10, 16, 29, 30, 31] * (grammar is reader.CROWDS))
    men = [b"W K", b"B K"] + [draw.choice([b"W", b"B"]) + b" " + draw.choice([b"Q", b"R", b"B", b"N", b"P", b"C", b"A", b"Z", b"H"]) for _ in range(others)]
    if draw.random() < 0.1:
        men[draw.randrange(len(men))] = draw.choice([b"W K", b"B K", b"B R"])
    draw.shuffle(men)
    near = draw.random() < 0.8
    # On so few squares as many men as a crowd has would mostly share one.
    reach = 6 if others < 9 else 60
    for man in men:
        if draw.random() < 0.08:
            lines.append(man + b" gone")
        elif near:
            lines.append(man + b" %d %d" % (draw.randrange(-reach, reach + 1), draw.randrange(-reach, reach + 1)))
        else:
            lines.append(man + b" " + drawn_number(draw) + b" " + drawn_number(draw))
    text = b"\n".join(lines + [b"end", b""])
    return changed(draw, text) if draw.random() < 0.1 else text + draw.choice([b"", b"", b"x", b"quit\n", b"a" * 300])


def text_case(draw):
    """A text, with a command that takes one."""
    moves = draw.choice([0, 0, 0, 1, 1, 2])
    budget = draw.choice([1, 2, 5, 20, 100, 500]) if moves < 2 else draw.choice([1, 20, 60])
    command = draw.choice(["show", "show", "decide", "least", "first", "describe", "play", "defend", "keep", "crowd", "crowd"])
    words = [command] if command == "show" else [command, str(moves)] + ["a"] * (command == "keep") + [str(budget)]
    words = [word.encode() for word in words]
    grammar = reader.CROWDS if command == "crowd" else reader.POSITIONS
    text = drawn_text(draw, grammar)
    lines = Lines(text)
    try:
        turn, winner, men = reader.read_text(lines, grammar)
        reader.require_sound(turn, men)
    except Refused as why:
        return Case(words, text, wanted=(f"{why.line}\n".encode(), why.code))
    if command == "crowd" and len(men) ** (2 * moves + (turn != winner)) > MOST_PATHS:
        # With a greater budget it might take minutes.
        words[2] = draw.choice([b"1", b"5", b"20"])
    if command == "show":
        return Case(words, text, wanted=(reader.shown(turn, winner, men).encode(), 0))
    if command in ("first", "describe") and (turn != winner or moves == 0):
        return Case(words, text, wanted=(b"end\n", 0))
    if turn == winner and moves == 0:
        answers = {"least": b"none up to 0\n", "defend": b"held\n"}
        return Case(words, text, wanted=(answers.get(command, b"no mate in 0\n"), 0))
    if moves == 0 and command in ("decide", "keep", "crowd"):
        return Case(words, text, answer=b"mate in 0\n" if reader.is_mated(turn, men) else b"no mate in 0\n")
    return Case(words, text)


def drawn_atom(draw, scope):
    letters = draw.sample(scope, min(len(scope), draw.choice([1, 1, 2, 2, 3])))
    pairs = [b"%d %s" % (draw.choice([1, 1, -1, 2, -2, 3, -3, 5, -7, 64, -64]), letter) for letter in letters]
    return b" ".join([draw.choice([b"le", b"eq"]), b"%d" % len(pairs), *pairs, b"%d" % draw.choice([0, 0, 1, -1, 5, 17, -40, 1000, -1000])])


def drawn_formula(draw, scope, depth):
    """A formula within quantifiers of these letters."""
    pick = draw.randrange(8) if depth else 7
    if not scope or pick < 3:
        letter = draw.choice([it for it in reader.LETTERS if it not in scope])
        return b" ".join([draw.choice([b"ex", b"ex", b"all"]), letter, drawn_formula(draw, [*scope, letter], max(depth - 1, 0))])
    if pick < 6:
        return b" ".join([draw.choice([b"and", b"or"]), drawn_formula(draw, scope, depth - 1), drawn_formula(draw, scope, depth - 1)])
    return b"not " + drawn_formula(draw, scope, depth - 1) if pick < 7 else drawn_atom(draw, scope)


def changed_fields(draw, line):
    fields = line.split(b" ")
    at = draw.randrange(len(fields))
    other = draw.choice([b"", b"0", b"-0", b"01", b"+1", b"9", b"65", b"-65", b"1001", b"q", b"a", b"b", b"ab", b"ex", b"all", b"le", b"and", b"Not", b"\xff", b"9" * 30])
    fields[at:at + draw.choice([0, 1, 1, 2])] = draw.choice([[], [other], [other], [other, other]])
    return b" ".join(fields)


def formula_case(draw):
    """A line for `arith`."""
    line = drawn_formula(draw, [], draw.choice([0, 1, 2, 3]))
    line = changed_fields(draw, line) if draw.random() < 0.5 else line
    text = line + draw.choice([b"\n", b"\n", b"\n", b"", b"\r\n", b" \n", b"\nx", b" " * 200 + b"\n"])
    words = [b"arith", b"%d" % draw.choice([1, 2, 5, 20, 100, 500])]
    try:
        due = Lines(text)
        read = due.next()
        if read is None:
            due.refuse("missing")
        reader.read_formula_line(read)
    except Refused as why:
        return Case(words, text, wanted=(f"{why.line}\n".encode(), why.code))
    return Case(words, text)


def drawn_reply(draw):
    pick = draw.random()
    if pick < 0.015:
        return draw.choice([b"quit", b"4 0 0"])
    if pick < 0.7:
        return draw.choice([b"%d" % draw.randrange(0, 10), b"4", b"4"]) + b" " + drawn_number(draw) + b" " + drawn_number(draw)
    if pick < 0.85:
        return changed(draw, draw.choice([b"4 0 0", b"quit", b"4 2 0"])).replace(b"\n", b" ")
    return draw.choice([b"", b" ", b"Quit", b"quit ", b"a" * draw.choice([199, 200]), b"4 0 0 ", b" 4 0 0", b"4\t0 0", b"4 0 0\r", b"mate", b"end"])


def game(lines, winner=b"white"):
    """What is written, and the code, of a game from BLACK_FIRST, or from WHITE_FIRST with Black as the winner: the loser's one legal move is his king's to
    0 0, and then he is mated on 2 0."""
    written, count = b"", 0
    try:
        while count < LINES:
            line = lines.next()
            count += 1
            move = None if line is None else reader.read_reply(line)
            if line is None or move == "quit":
                return written + b"ended\n", 12
            if move == (4, 0, 0):
                return written + winner + b" 3 2 0\nmate\n", 0
            written += b"illegal\n" if move else b"unreadable\n"
    except Refused as why:
        return written + f"{why.line}\n".encode(), why.code
    return written + b"too many lines\n", 13


# Two kings: the loser steps aside along his first ray, and the winner, who makes few moves, never comes near.
DEFENDED = {b"black": HEAD + b"turn W\nW K 0 0\nB K 10 0\nend\n", b"white": HEAD + b"turn B for B\nB K 0 0\nW K 10 0\nend\n"}


def defence(lines, moves, loser):
    """What is written, and the code, where the loser's king defends from DEFENDED, and the winner's moves are typed."""
    written, count, king, file = b"", 0, (0, 0), 10
    try:
        while count < LINES:
            line = lines.next()
            count += 1
            move = None if line is None else reader.read_reply(line)
            if line is None or move == "quit":
                return written + b"ended\n", 12
            if move and move[0] == 1 and max(abs(move[1] - king[0]), abs(move[2] - king[1])) == 1:
                king, moves, file = move[1:], moves - 1, file + 1
                if moves == 0:
                    return written + b"held\n", 0
                written += b"%s 2 %d 0\n" % (loser, file)
            else:
                written += b"illegal\n" if move else b"unreadable\n"
    except Refused as why:
        return written + f"{why.line}\n".encode(), why.code
    return written + b"too many lines\n", 13


def defence_case(draw):
    loser, moves = draw.choice(list(DEFENDED)), draw.choice([1, 2, 3])
    steps = [b"1 %d %d\n" % (draw.randrange(-1, 3), draw.randrange(-1, 2)) for _ in range(draw.choice([0, 2, 5, 20]))]
    replies = b"".join(draw.choice([drawn_reply(draw).replace(b"\n", b" ") + b"\n", *steps[:3]]) for _ in range(draw.choice([0, 3, 10, 40])))
    replies += draw.choice([b"", b"", b"quit\n", b"quit", b"a" * 201, b"x\n" * 10000])
    text = DEFENDED[loser] + replies
    lines = Lines(text)
    reader.read_text(lines)
    return Case([b"defend", b"%d" % moves], text, None, defence(lines, moves, loser))


def replies_case(draw, kept):
    """A game with some dozens of replies."""
    if draw.random() < 0.3:
        return defence_case(draw)
    replies = b"".join(drawn_reply(draw) + b"\n" for _ in range(draw.choice([0, 1, 5, 40, 40])))
    replies += draw.choice([b"", b"", b"4 0 0\n", b"4 0 0", b"quit\n", b"quit", b"a" * 201, b"x\n" * 200, b"x\n" * 10000])
    start, winner = draw.choice([(BLACK_FIRST, b"white"), (WHITE_FIRST, b"black")])
    if draw.random() < 0.5:
        return Case([b"resume", b"a"], replies, draw.choice(kept[start]), game(Lines(replies), winner))
    lines = Lines(start + replies)
    reader.read_text(lines)
    return Case([b"play", b"1"], start + replies, None, game(lines, winner))


def changed_file(draw, data):
    data = bytearray(data)
    for _ in range(draw.choice([1, 1, 1, 2, 4])):
        at = draw.randrange(len(data) + 1) if draw.random() < 0.5 else draw.randrange(min(len(data), 300) + 1)
        value = draw.choice([0, 1, 2, 3, 4, 5, 6, 9, 15, 20, 21, 127, 128, 255, draw.randrange(256)])
        pick = draw.randrange(8)
        if pick == 0:
            del data[at:]
        elif pick == 1:
            data[at:at] = bytes([value]) * draw.choice([1, 4, 19])
        elif pick == 2:
            del data[at:at + draw.choice([1, 4, 19])]
        else:
            data[at:at + 1] = bytes([value])
    return bytes(data)


def file_case(draw, kept):
    data = changed_file(draw, draw.choice(draw.choice(list(kept.values())))) if draw.random() < 0.97 else bytes(draw.randrange(256) for _ in range(draw.randrange(300)))
    budget = draw.choice([b"1", b"10", b"100", b"500"])
    words = [draw.choice([b"check", b"check", b"resume"]), b"a", budget] if draw.random() < 0.8 else [b"migrate", b"a", draw.choice([b"a", b"b"])]
    try:
        reader.read_file(data)
    except reader.Refusal as why:
        return Case(words, b"quit\n", data, (f"file {why}\n".encode(), 11))
    return Case(words, b"quit\n", data, (b"migrated\n", 0) if words[0] == b"migrate" else None)


def files_of(folder):
    return {it.name: it.read_bytes() for it in folder.iterdir()}


def run(program, folder, case):
    """The output, the code and the standard error, and the files behind it. A signal that ends the process is a code below 0."""
    for it in folder.iterdir():
        it.unlink()
    if case.file is not None:
        (folder / "a").write_bytes(case.file)
    process = subprocess.Popen([program, *case.words], cwd=folder, stdin=subprocess.PIPE, stdout=subprocess.PIPE, stderr=subprocess.PIPE)
    resource.prlimit(process.pid, resource.RLIMIT_CPU, (SECONDS, SECONDS))
    output, errors = process.communicate(case.text)
    return output, process.returncode, errors, files_of(folder)


def claim_of(data):
    """The position, the sides, the number of moves and the plies and masks of a file, without the numbers of states."""
    claim = re.sub(r"(\d+/\d+)/\d+", r"\1", reader.read_file(data))
    return claim, data[5:reader.head_length(data)]


def files_fault(case, output, code, files):
    """What is wrong with the files that are left, or None."""
    before = {} if case.file is None else {"a": case.file}
    if code or case.words[0] not in (b"keep", b"migrate") or output.startswith(b"no mate"):
        return None if files == before else "files"
    name = case.words[2].decode()
    new = files.pop(name, b"")
    before.pop(name, None)
    if files != before:
        return "another file"
    try:
        claim = claim_of(new)
    except reader.Refusal as why:
        return f"file {why}"
    if case.words[0] == b"migrate":
        return None if new[4] == 2 and claim == claim_of(case.file) else "another claim"
    turn, winner, men = reader.read_text(Lines(case.text))
    head = bytes([int(case.words[1]), turn + 2 * winner, len(men)])
    return None if new[4] == 2 and claim[1][:3] == head else "another problem"


def fault(case, output, code, errors, files):
    """What is wrong with an end, or None."""
    if errors:
        return "standard error"
    if case.wanted and (output, code) != case.wanted:
        return f"wanted {case.wanted}"
    if not case.wanted:
        number = case.words[1] if len(case.words) > 1 else b""
        answer = DONE[case.words[0]].replace(b"N", number) if code == 0 else ANSWERS.get(code)
        if answer is None:
            return "code"
        if not re.fullmatch(answer, output) or (code == 0 and case.answer not in (None, output)):
            return "output"
    return files_fault(case, output, code, files)


def kept_files(program, folder):
    """The files that are kept of some positions, in both versions where the first has room for them."""
    for text, moves in [(LADDER, b"1"), (BLACK_FIRST, b"1"), (MATED, b"0"), (WHITE_FIRST, b"1"), (OTHER_KINDS, b"1")]:
        data = run(program, folder, Case([b"keep", moves, b"a"], text))[3]["a"]
        yield text, [data, File(data).written(1)] if text in (LADDER, BLACK_FIRST, MATED) else [data]


def main():
    parser = argparse.ArgumentParser(usage=__doc__)
    parser.add_argument("program", nargs="?", default=BUILT)
    parser.add_argument("--seed", type=int, default=1)
    parser.add_argument("--count", type=int, default=100000)
    given = parser.parse_args()
    draw, begun, wrong, slowest, stopped = random.Random(given.seed), time.time(), 0, 0, []
    signal.signal(signal.SIGTERM, lambda *_: stopped.append(True))
    codes, kinds, commands, known = collections.Counter(), collections.Counter(), collections.Counter(), 0
    with tempfile.TemporaryDirectory() as top:
        folder, program = pathlib.Path(top), pathlib.Path(given.program).resolve()
        kept = dict(kept_files(program, folder))
        makers = {"words": words_case, "texts": text_case, "formulas": formula_case}
        makers |= {"games": lambda it: replies_case(it, kept), "files": lambda it: file_case(it, kept)}
        for number in range(given.count):
            if stopped:
                break
            kind = draw.choices(list(makers), [350, 350, 150, 10, 140])[0]
            case, started = makers[kind](draw), time.time()
            output, code, errors, left = run(program, folder, case)
            why = f"no end in {SECONDS} s" if code == -signal.SIGKILL else fault(case, output, code, errors, left)
            slowest = max(slowest, time.time() - started)
            kinds[kind] += 1
            codes[code] += 1
            commands[case.words[0].decode() if case.words and case.words[0] in reader.SHAPES else "none"] += code != 2
            known += case.wanted is not None or (code == 0 and case.answer is not None)
            if why:
                wrong += 1
                file = None if case.file is None else case.file[:600].hex()
                print(f"{number}: {why}\n  words {case.words}\n  input {case.text[:600]}\n  file {file}\n  code {code}, {output[:300]}, {errors[:300]}", flush=True)
    spread = ", ".join(f"{kind} {count}" for kind, count in sorted(kinds.items()))
    print(f"seed {given.seed}: {sum(kinds.values())} runs ({spread}), {known} of them with a known answer; {time.time() - begun:.0f} s, the slowest {slowest:.1f} s")
    print("not refused for their words: " + ", ".join(f"{command} {count}" for command, count in sorted(commands.items()) if count))
    print("codes: " + ", ".join(f"{code}: {count}" for code, count in sorted(codes.items(), key=lambda it: str(it[0]).zfill(3))))
    print(f"{wrong} wrong ends")
    return 1 if wrong else 0


if __name__ == "__main__":
    sys.exit(main())
