"""What the page asks beside runs: what a text says, why a move is not legal, the moves of a solution. The scripts of this repository answer, by the
program."""
import importlib.machinery
import importlib.util
import os
import sys
import time
from concurrent.futures import ThreadPoolExecutor

from studio_runs import Busy, Run

TOP = os.path.dirname(os.path.dirname(os.path.dirname(os.path.realpath(__file__))))
sys.path[:0] = [f"{TOP}/explain", f"{TOP}/python"]
import explain  # noqa: E402
import position as chess  # noqa: E402
from gezhumai_mate import notation as notations  # noqa: E402


def script(name):
    """Returns a script of the top folder as a module."""
    loader = importlib.machinery.SourceFileLoader(name, f"{TOP}/{name}")
    module = importlib.util.module_from_spec(importlib.util.spec_from_loader(name, loader))
    sys.modules[name] = module
    loader.exec_module(module)
    return module


board, solve = script("board"), script("solve")
NOT_ASKED = "Whether the position is sound was not asked: as many programs run as there are processors."


def facts():
    """Returns what the page has to know of men and commands."""
    commands = {it: text_of(f"{TOP}/script/help/{it}.txt") for it in commands_here()}
    names = sorted(it for it in os.listdir(f"{TOP}/examples") if it.endswith(".txt"))
    examples = {it[:-4]: text_of(f"{TOP}/examples/{it}") for it in names}
    examples = {name: text for name, text in examples.items() if text.startswith(("infinite chess", "infinite crowd"))}
    return {"shapes": board.SHAPES, "kinds": chess.KINDS, "sides": chess.SIDES, "commands": commands, "examples": examples}


def commands_here():
    """Returns the commands of the program that have a page of help."""
    return sorted(it[:-4] for it in os.listdir(f"{TOP}/script/help") if it.endswith(".txt") and it[:-4] not in explain.OF_SCRIPT)


def text_of(path):
    with open(path, encoding="utf-8") as it:
        return it.read()


def described(position, grammar):
    """Returns a position as the page takes it; numbers of 64 bits are no numbers of a browser, so they are texts."""
    men = [{"side": it.side, "kind": it.kind, "at": it.square and [str(at) for at in it.square]} for it in position.men]
    return {"men": men, "turn": position.turn, "winner": position.winner, "isCrowd": grammar is chess.CROWDS, "text": position.text(grammar)}


def read(runs, text, connection):
    """Returns the position that a text says, and whether it is sound, or why the text is refused."""
    data = text.encode()
    grammar = chess.grammar_of(data)
    words = board.words_for(grammar)
    try:
        position = chess.read_text(data, grammar)[0]
    except chess.Refused as why:
        told = f"text line {why.number} {why.why}\n"
        return {"line": why.number, "told": told, "sentences": explain.sentences(3, told, words, data)}
    found = {"position": described(position, grammar)}
    try:
        runs.take_place(2)
    except Busy:
        return {**found, "code": None, "told": [], "sentences": [NOT_ASKED]}
    try:
        asked = board.told_at_once(data) if grammar is chess.CROWDS else data
        code, told = Run(runs, words, asked, 10).finish(connection)
    finally:
        runs.give_place()
    found = {**found, "code": code, "told": told.splitlines()}
    return {**found, "sentences": explain.sentences(code, told, words, data) if code else []}


def why_illegal(text, noun, number, move):
    """Returns the sentence on a move that the program has refused, in the position of a text."""
    position = chess.read_text(text.encode())[0]
    return explain.of_reply(noun, number, "illegal", ("%d %s %s" % tuple(move)).encode(), position)


class Engine(solve.Engine):
    """The program, asked one question after another in the place of one run, as long as the page waits and the time allows."""

    def __init__(self, runs, budget, seconds, connection):
        super().__init__(runs.program, budget)
        self.runs, self.until, self.connection = runs, time.monotonic() + seconds, connection
        self.pool = ThreadPoolExecutor(1)

    def end_of(self, words, text, folder=None, position=None):
        return Run(self.runs, words, text, max(0, self.until - time.monotonic()), folder=folder).finish(self.connection)


def position_of(text):
    """Returns the position of a text; a refusal is that of the program."""
    try:
        return chess.read_text(text.encode())[0]
    except chess.Refused as why:
        raise solve.Ended(f"text line {why.number} {why.why}\n", 3, ["show"], text.encode()) from None


def solution(engine, text, moves, depth, has_tries):
    """Yields the lines of ./solve."""
    asked = solve.Asked(moves, engine.budget, depth=depth, has_tries=has_tries)
    yield from solve.lines_of(solve.Solution(engine, asked), position_of(text))


def branches(engine, text, moves):
    """Returns what opens below a position in which the winner mates within the moves: his moves where he is to move, else the loser's replies."""
    position = position_of(text)
    written = solve.Solution(engine, solve.Asked(moves, engine.budget)).written
    if position.turn == position.winner:
        least = engine.least(position, moves)
        if least is None:
            return {"least": None, "moves": [], "more": []}
        found, more = engine.first_moves(position, least), []
    else:
        cases, longer = solve.candidates(position, solve.REACH)
        least, found = moves, engine.legal(position, moves, cases)
        more = [] if engine.is_check(position) else [position.men[it - 1].name() for it in sorted(longer)]
    is_winner = position.turn == position.winner
    left = least - 1 if is_winner else moves
    made = [{"text": written(position, it, "#" if is_winner and left == 0 else ""), "among": it.among, "left": left,
             "after": it.square and solve.after(position, it).text(), "man": it.man, "to": it.square and [str(at) for at in it.square]} for it in found]
    return {"least": least, "moves": made, "more": more}


class Placed:
    """An engine in the place of one run, which it gives back."""

    def __init__(self, runs, budget, seconds, connection):
        self.runs, self.made = runs, (runs, budget, seconds, connection)

    def __enter__(self):
        self.runs.take_place()
        self.engine = Engine(*self.made)
        return self.engine

    def __exit__(self, *_):
        self.engine.pool.shutdown(cancel_futures=True)
        # ./solve keeps how each position came about, for one run of it.
        getattr(solve, "CAME", {}).clear()
        self.runs.give_place()


def notation(text, form):
    """Returns a text of ICN or FEN as a position text, or a position text in the notation `form`, with what was left out."""
    if not form:
        found = notations.read(text)
        return {"text": notations.write(found.position, "text").text, "told": found.remarks, "form": found.form.upper()}
    written = notations.write(notations.read(text, "text").position, form)
    return {"text": written.text, "told": written.remarks, "form": form}
