#!/usr/bin/env python3
"""usage: explain/explain.py CODE OUTPUT ARGUMENTS.. < TEXT

Says in a sentence why a run of `mate` ended as it did. CODE is its exit code, OUTPUT its standard output or the last line of it, ARGUMENTS are its arguments, and
standard input is its input, which is read only if it is a file. Call it in the folder of the run. The sentence comes from sentences.txt, by the reason that the
program printed and by what is found in the text; if the text does not show that reason, only the reason is explained. Nothing here is proved. trial.py tests it
by the rows of rows.txt.
"""
import collections
import difflib
import os
import re
import shlex
import stat
import sys
from dataclasses import dataclass, field

HERE = os.path.dirname(os.path.realpath(__file__))
sys.path.insert(0, HERE)
import position as chess  # noqa: E402

MOVES, BUDGET, NAME, SEED, COUNT = "N", "BUDGET", "NAME", "SEED", "COUNT"
NAMES = [NAME, "OLD", "NEW"]
# The words of each command; the budget may be left out.
SHAPES = {
    "decide": [MOVES, BUDGET], "least": ["L", BUDGET], "first": [MOVES, BUDGET], "describe": [MOVES, BUDGET], "play": [MOVES, BUDGET], "defend": [MOVES, BUDGET],
    "crowd": [MOVES, BUDGET], "keep": [MOVES, NAME, BUDGET], "check": [NAME, BUDGET], "resume": [NAME, BUDGET], "migrate": ["OLD", "NEW"], "drill": [SEED, COUNT], "arith": [BUDGET], "show": [],
}
# The commands that play a game.
GAMES = ("play", "resume", "defend")
# The commands that are the script's own, and the scripts beside it.
OF_SCRIPT = ["help", "version", "program", "manual", "completion", "cost", "unproved", "solve", "map", "board", "convert", "studio"]
# The commands that read nothing from standard input, and those whose position `crowd` reads too.
TEXTLESS = ("check", "migrate", "drill")
OF_CROWD = ("decide", "least", "first", "describe", "play", "defend", "keep")
# How ./mate was called, and what stands for the input's file in advice if its name is not known.
CALL = os.environ.get("MATE_CALL", "./mate")
FILE = "FILE"
LIMITS = {MOVES: (0, 20), "L": (0, 20), BUDGET: (1, 200000), SEED: (0, 2**64 - 1), COUNT: (0, 100)}
CROWD_MOVES = (0, 2)
SAID = {MOVES: "the number of moves", "L": "the number of moves", BUDGET: "the budget", SEED: "the seed", COUNT: "the number of positions"}
DEFAULT_BUDGET, MOST_BUDGET = 50000, 200000
NATURAL = re.compile(r"0|[1-9][0-9]*")
NAMED = re.compile(r"[a-z0-9_]{1,32}")
REPLY = re.compile(r"[1-8] \S+ \S+")
# Of so many replies that were refused it is said why, of the last ones.
MOST_REPLIES = 10
# The kinds of men by their numbers in files.
FILE_KINDS = "KQRBNPCAZH"
# By the version of a file: how many kinds it has, how many bytes may stand for the turn and the winner, and how many men it has at most.
FileLimits = collections.namedtuple("FileLimits", "kinds turns men")
FILE_LIMITS = {1: FileLimits(6, 2, 5), 2: FileLimits(10, 4, 8)}
# What an input was that is no text.
FOLDER, CLOSED = "folder", "closed"


def table():
    """Returns the sentence of each reason."""
    with open(f"{HERE}/sentences.txt", encoding="utf-8") as it:
        rows = [row.rstrip("\n") for row in it if row.strip() and not row.startswith("#")]
    return {reason: sentence for reason, _, sentence in (row.partition(": ") for row in rows)}


SENTENCES = table()


class Advice:
    """What sentences name so that a command in them can be pasted: the file that the run read, as a shell takes its name."""

    file = FILE


def said(reason, **values):
    sentence = SENTENCES[reason].format(**{"file": Advice.file, **values})
    return re.sub(r"(?<![\w./])\./mate\b", lambda _: CALL, sentence)


def pasted(words):
    """Returns words of ./mate as a shell takes them, with the input that the command reads."""
    reads = bool(words) and words[0] in SHAPES and words[0] not in TEXTLESS
    return " ".join(shlex.quote(it) for it in words) + f" < {Advice.file}" * reads


def quoted(line):
    """Returns bytes as they can be read in a sentence."""
    text = line.decode("utf-8", "backslashreplace")
    shown = "".join({"\t": r"\t", "\r": r"\r", "\n": r"\n"}.get(it, it if it.isprintable() else f"\\u{ord(it):04x}") for it in text)
    return shown if len(shown) <= 80 else shown[:77] + ".."


def plain(line):
    return line.decode("utf-8", "backslashreplace")


def grammar_of(words):
    """Returns the form of text that a command reads."""
    return chess.CROWDS if words[0] == "crowd" else chess.POSITIONS


def limits_of(command, what):
    """Returns the least and the greatest number that a command takes for a word."""
    return CROWD_MOVES if (command, what) == ("crowd", MOVES) else LIMITS[what]


def is_file(word):
    return os.path.isfile(word) or bool(re.search(r"[./]", word) and re.search(r"\.(txt|icsf|pos)$|/", word))


# Words

def usage_of(command):
    words = [f"[{it}]" if it == BUDGET else it for it in SHAPES[command]]
    return " ".join([command, *words])


def of_words(why, words):
    """Returns the sentence on words that are refused."""
    if why == "no command":
        return said("no command")
    command = words[0] if words else ""
    if why == "unknown":
        return of_unknown(command, words)
    usage = usage_of(command)
    behind, shape = words[1:], SHAPES[command]
    least = len(shape) - (BUDGET in shape)
    if why == "count":
        named = next((it for it in behind if is_file(it)), None)
        rest = [it for it in behind if it != named]
        if named and least <= len(rest) <= len(shape) and command not in ("check", "resume", "migrate", "drill"):
            return said("count / file", word=shlex.quote(named), mended=" ".join([command, *rest]))
        return said("count / few" if len(behind) < least else "count / many", command=command, usage=usage)
    for at, (what, word) in enumerate(zip(shape, behind)):
        if what in NAMES:
            if not NAMED.fullmatch(word):
                return of_name(word) if why == "name" else None
        elif not NATURAL.fullmatch(word):
            return of_number(command, behind, at, usage) if why == "number" else None
        elif len(word) > 20 or not is_within(limits_of(command, what), word):
            return of_limit(command, behind, at, what) if why == "limit" else None
    return None


def is_within(limits, word):
    return limits[0] <= int(word) <= limits[1]


def of_unknown(command, words):
    if any("\udc80" <= letter <= "\udcff" for word in words for letter in word):
        return said("unknown / bytes")
    near = near_to(command, OF_SCRIPT)
    later = [it for it in words[1:] if it in SHAPES]
    if later and not near:
        return said("unknown / order", word=command, mended=pasted([later[0], *[it for it in words if it != later[0]]]))
    if is_file(command):
        return said("unknown / file", word=command)
    near = near_to(command, [*SHAPES, *OF_SCRIPT])
    return said("unknown / near", word=command, near=near) if near else said("unknown", word=command)


def near_to(word, known):
    """Returns the one of some words that a word is near to, or begins, or None."""
    near = difflib.get_close_matches(word.lower(), known, 1, 0.5) or [it for it in known if word and it.startswith(word.lower())]
    return near[0] if near else None


def of_number(command, behind, at, usage):
    word = behind[at]
    rest = [it for place, it in enumerate(behind) if place != at]
    if NAMED.fullmatch(word) and NAME in SHAPES[command] and any(it.isdigit() for it in [*behind[at + 1 :], behind[SHAPES[command].index(NAME)]]):
        return said("number / order", word=word, usage=usage)
    if is_file(word):
        return said("number / file", word=word, mended=" ".join([command, *rest]))
    if re.fullmatch(r"0[0-9]+", word):
        return said("number / zero", word=word, mended=word.lstrip("0") or "0")
    if re.fullmatch(r"\+[0-9]+", word):
        return said("number / plus", word=word, mended=word[1:].lstrip("0") or "0")
    if re.fullmatch(r"[0-9]{1,3}([,_.'][0-9]{3})+", word):
        return said("number / comma", word=word, mended=re.sub(r"[^0-9]", "", word))
    if re.fullmatch(r"-[0-9]+", word):
        return said("number / minus", word=word, usage=usage)
    return said("number", word=word, usage=usage)


def of_limit(command, behind, at, what):
    least, most = limits_of(command, what)
    told = dict(word=behind[at], what=SAID[what], least=least, most=most)
    turned = [command, *behind]
    last = len(turned) - 1
    if SHAPES[command][-1] == BUDGET and at == 0 and last > 1 and NATURAL.fullmatch(behind[-1]) and len(behind[-1]) <= 2 and is_within((least, most), behind[-1]):
        turned[1], turned[last] = turned[last], turned[1]
        return said("limit / order", mended=pasted(turned), **told)
    return said("limit", **told)


def of_name(word):
    if "/" in word:
        return said("name / folder", word=word)
    if "." in word:
        return said("name / dot", word=word)
    if NAMED.fullmatch(word.lower()):
        return said("name / capital", word=word, mended=word.lower())
    if re.fullmatch(r"[a-z0-9_]{33,}", word):
        return said("name / long", word=word)
    return said("name", word=word)


# The position text

def due_at(number, men, grammar):
    """Returns what is due on a line of a text."""
    if number < 3:
        return [f"`{grammar.header}`", "the side to move, `turn W` or `turn B`"][number - 1]
    return "a man's line" if men < chess.FEWEST_MEN else "`end`" if men == grammar.most_men else "a man's line or `end`"


def refusal_of(text, grammar):
    """Returns the refusal of a text, by this script's own reader, or None."""
    try:
        chess.read_text(text, grammar)
    except chess.Refused as refused:
        return refused
    return None


def of_text(number, why, words, text):
    """Returns the sentence on a text that is refused."""
    grammar = grammar_of(words)
    example = "crowd-in-one" if grammar is chess.CROWDS else "ladder-in-one"
    about = dict(line=number, header=grammar.header, most=grammar.most_men, low=grammar.least, high=grammar.most, example=f"examples/{example}.txt")
    refused = refusal_of(text, grammar) if isinstance(text, bytes) else None
    if refused is None or (refused.number, refused.why) != (number, why):
        generic = {"number": "number of 64 bits"}.get(why, why)
        return said(generic, wanted=due_at(number, 0 if number == 3 else 3, grammar), **about)
    line, men = refused.line, len(refused.men)
    told = dict(quote=quoted(line), wanted=due_at(number, men, grammar), **about)
    if why == "missing":
        return of_missing(told, words, text, men)
    if why in ("long", "cut"):
        return said("long" if why == "long" else "cut / quote", **told)
    return seen_in(line, told) or of_line(why, line, men, told)


def of_missing(told, words, text, men):
    if not text:
        return said("missing / nothing", mended=" ".join(words), **told)
    return said("missing / end" if men >= chess.FEWEST_MEN else "missing", **told)


def seen_in(line, told):
    """Returns the sentence on what is seen of a line, whatever is due there; or None."""
    if line.startswith(b"\xef\xbb\xbf"):
        return said("text / bom", **told)
    if line.startswith((b"\xff\xfe", b"\xfe\xff")):
        return said("header / wide bytes", **told)
    if line.endswith(b"\r"):
        return said("text / crlf", **told)
    if not line.strip():
        return said("text / blank line", **told)
    if line.lstrip().startswith((b"#", b";", b"//", b"--", b"%")):
        return said("text / comment", **told)
    if b"\t" in line:
        return said("text / tab", mended=quoted(b" ".join(line.split())), **told)
    if b" ".join(line.split()) != line and len(line.split()) < 7:
        return said("text / blanks", mended=quoted(b" ".join(line.split())), **told)
    return None


def of_line(why, line, men, told):
    return {"header": of_header, "turn": of_turn, "few": of_few, "many": of_many, "man": of_man, "number": of_field}[why](line, men, told)


def of_header(line, _men, told):
    due, text = told["header"], plain(line)
    other = next((it.header for it in (chess.POSITIONS, chess.CROWDS) if it.header != due), None)
    if text == other:
        return said("header / crowd" if other == chess.CROWDS.header else "header / position", **told)
    if text.lower() == due:
        return said("header / case", **told)
    if line.startswith(b"ICSF"):
        return said("header / strategy", **told)
    if re.fullmatch(due[:-1] + "[0-9]+", text):
        return said("header / version", **told)
    if re.match(rb"(ex|all|not|and|or|le|eq) ", line):
        return said("header / formula", **told)
    return said("header / quote", **told)


def of_turn(line, _men, told):
    lower = plain(line).lower()
    one_letter = re.sub(r"(white|black)", lambda it: it[0][0], lower)
    mended = next((it for it in chess.TURNS.values() if it.lower() == one_letter), None)
    if mended:
        return said("turn / case" if lower == one_letter else "turn / word", mended=mended, **told)
    if re.fullmatch(r"turn [wb] for w", one_letter):
        return said("turn / for white", mended=f"turn {one_letter[5].upper()}", **told)
    if re.match(rb"[WBwb] [KQRBNPCAZHkqrbnpcazh]( |$)", line):
        return said("turn / left out", **told)
    return said("turn / quote", **told)


def of_few(_line, men, told):
    return said("few / quote", count="no man" if men == 0 else "one man", **told)


def of_many(line, _men, told):
    if line.strip(b" .").lower() == b"end":
        return said("man / end", **told)
    if REPLY.fullmatch(plain(line)) or line == b"quit":
        return said("man / reply", **told)
    return said("many / quote", **told)


def of_man(line, _men, told):
    text = plain(line)
    fields = text.split(" ")
    if text.strip(" .").lower() == "end":
        return said("man / end", **told)
    if REPLY.fullmatch(text) or text == "quit":
        return said("man / reply", **told)
    if text == told["header"] or text in chess.TURNS.values():
        return said("man / again", **told)
    if "," in text:
        return said("text / comma", mended=" ".join(re.sub(",", " ", text).split()), **told)
    raised = " ".join([*[it.upper() for it in fields[:2]], *[it.lower() if it.lower() == "gone" else it for it in fields[2:]]])
    if raised != text and is_shape(raised):
        return said("man / case", mended=raised, **told)
    if fields[0] not in chess.SIDES:
        return said("man / side", word=fields[0], **told)
    if len(fields) > 1 and fields[1] not in chess.KINDS:
        return said("man / kind", word=fields[1], **told)
    if "gone" in fields:
        return said("man / gone", mended=" ".join([*fields[:2], "gone"]), **told)
    if len(fields) < 4:
        return said("man / few fields", **told)
    if len(fields) > 4:
        return said("man / many fields", **told)
    return said("man", **told)


def is_shape(text):
    return bool(re.fullmatch(r"[WB] [KQRBNPCAZH] (gone|\S+ \S+)", text))


def of_field(line, _men, told):
    fields = plain(line).split(" ")
    is_crowd = told["header"] == chess.CROWDS.header
    at = next(it for it in (2, 3) if chess.number_of(fields[it], chess.CROWDS if is_crowd else chess.POSITIONS) is None)
    word = fields[at]
    mend = lambda it: " ".join([*fields[:at], it, *fields[at + 1 :]])
    reason = "number of 64 bits / "
    if word == "gone":
        return said("man / gone", mended=" ".join([*fields[:2], "gone"]), **told)
    if re.fullmatch(r"\+[0-9]+", word):
        return said(reason + "plus", mended=mend(word[1:].lstrip("0") or "0"), **told)
    if re.fullmatch(r"-?0[0-9]*", word):
        digits = word.lstrip("-0")
        return said(reason + "zero", mended=mend(("-" if word[0] == "-" and digits else "") + (digits or "0")), **told)
    if re.fullmatch(r"[−–—‐‑][0-9]+", word):
        return said(reason + "minus", **told)
    if chess.NUMBER.fullmatch(word):
        return said(reason + ("wide, of a crowd" if is_crowd else "wide"), **told)
    if re.fullmatch(r"-?[0-9]+([.,'_][0-9]+)+|[0-9]+,|,[0-9]+", word):
        return said(reason + "comma", **told)
    if re.fullmatch(r"[a-zA-Z]", word):
        return said(reason + "letter", word=word, **told)
    return said(reason + "quote", word=quoted(word.encode()), **told)


# Formulas

class Stopped(Exception):
    """A field, counted from 1, cannot stand where it stands, and this is due there."""

    def __init__(self, number, wanted):
        super().__init__(wanted)
        self.number, self.wanted = number, wanted


class Formula:
    """The fields of a formula, read from the front."""

    def __init__(self, line):
        self.fields, self.at = line.split(" "), 0

    def next(self, wanted, fits):
        if self.at == len(self.fields) or not fits(self.fields[self.at]):
            raise Stopped(self.at + 1, wanted)
        self.at += 1
        return self.fields[self.at - 1]

    def number(self, wanted, low, high):
        return self.next(wanted, lambda it: len(it) < 9 and chess.NUMBER.fullmatch(it) and low <= int(it) <= high)

    def formula(self, scope):
        word = self.next("a formula, which begins with `not`, `and`, `or`, `ex`, `all`, `le` or `eq`", lambda it: it in ("not", "and", "or", "ex", "all", "le", "eq"))
        if word in ("le", "eq"):
            return self.comparison(scope)
        if word in ("ex", "all"):
            letter = self.next("a letter from `a` to `p` that no outer quantifier has", lambda it: re.fullmatch("[a-p]", it) and it not in scope)
            return self.formula([*scope, letter])
        for _ in range(1 if word == "not" else 2):
            self.formula(scope)

    def comparison(self, scope):
        used = []
        around = "a letter of an outer quantifier, each at most once"
        for _ in range(int(self.number("the number of products, 1 to 8", 1, 8))):
            self.next("a number from -64 to 64 except 0", lambda it: len(it) < 4 and chess.NUMBER.fullmatch(it) and 0 < abs(int(it)) <= 64)
            used.append(self.next(around, lambda it: it in scope and it not in used))
        self.number("the bound, a number from -1000 to 1000", -1000, 1000)


def stop_of(line):
    """Returns where a line is no formula, by this script's own reader, or None."""
    formula = Formula(line)
    try:
        formula.formula([])
    except Stopped as stopped:
        return formula, stopped
    return formula, Stopped(formula.at + 1, None) if formula.at < len(formula.fields) else None


def of_formula(number, text):
    line = plain(text.split(b"\n")[0]) if isinstance(text, bytes) else None
    if line is None:
        return said("formula", field=number)
    formula, stopped = stop_of(line)
    if stopped is None or stopped.number != number:
        return said("formula", field=number)
    if line.startswith(("infinite chess", "infinite crowd")):
        return said("formula / text")
    if number > len(formula.fields):
        return said("formula / ends", field=number, wanted=stopped.wanted)
    word = formula.fields[number - 1]
    if not word:
        return said("formula / blanks", field=number)
    if stopped.wanted is None:
        return said("formula / behind", field=number, word=quoted(word.encode()))
    return said("formula / quote", field=number, word=quoted(word.encode()), wanted=stopped.wanted)


# Soundness

def of_unsound(told, words, text):
    """Returns the sentence on a position that is not sound; the fields of the told line are behind `unsound`."""
    try:
        position = chess.read_text(text, grammar_of(words))[0] if isinstance(text, bytes) else None
    except chess.Refused:
        position = None
    if told[:2] == ["no", "king"]:
        return said("no king", side=chess.SIDES[told[2]])
    if told[:2] == ["many", "kings"]:
        return of_kings(told[2], position)
    if told[:2] == ["king", "gone"]:
        return of_gone(told[2], position)
    if told[:2] == ["same", "square"]:
        return of_square(int(told[2]), int(told[3]), position)
    return of_check(position)


def of_kings(side, position):
    kings = [f"`{it.line()}`" for it in position.men if (it.side, it.kind) == (side, "K")] if position else []
    if len(kings) < 2:
        return said("many kings", side=chess.SIDES[side])
    return said("many kings / quote", side=chess.SIDES[side], quotes=" and ".join([", ".join(kings[:-1]), kings[-1]]))


def of_gone(side, position):
    at = next((number for number, it in enumerate(position.men, 1) if (it.side, it.kind, it.square) == (side, "K", None)), None) if position else None
    if at is None:
        return said("king gone", side=chess.SIDES[side])
    return said("king gone / quote", line=at + 2, quote=position.men[at - 1].line())


def of_square(one, other, position):
    men = position.men if position else ()
    if not 1 <= one < other <= len(men) or men[one - 1].square != men[other - 1].square:
        return said("same square", one=one, other=other)
    return said("same square / quote", one=one, other=other, quote=men[one - 1].line(), other_quote=men[other - 1].line())


def of_check(position):
    loser = chess.other(position.turn) if position else None
    checkers = chess.checkers(position, loser) if position and chess.king(position, loser) else []
    if not checkers:
        return said("other side in check")
    number = checkers[0]
    names = dict(loser=chess.SIDES[loser], mover=chess.SIDES[position.turn], letter=loser)
    return said("other side in check / quote", number=number, quote=position.men[number - 1].line(), **names)


# The budget

def counted(number, word):
    return f"{number} {word}" + "s" * (number != 1)


def of_budget(told, words):
    """Returns the sentence on a step that is past the budget; the fields of the told line are behind `over budget at`."""
    command, shape = words[0], SHAPES[words[0]]
    if command == "drill":
        return said("over budget / drill")
    budget = int(words[len(shape)]) if len(words) > len(shape) else DEFAULT_BUDGET
    values = dict(budget=budget, greatest=MOST_BUDGET, mended=pasted([*words[: len(shape)], str(MOST_BUDGET)]))
    greatest = ", greatest" if budget == MOST_BUDGET else ""
    if told[0] in ("arith", "crowd"):
        return said(f"over budget / {told[0]}{greatest}", step=told[1], **values)
    if told[0] == "describe":
        return said(f"over budget / describe{greatest}", man=told[2], **values)
    if command in ("check", "resume") and greatest:
        return said("over budget / file, greatest", **values)
    moves = int(told[1])
    values["crowd"] = f"crowd {moves} {MOST_BUDGET}"
    short = " / short" if command in OF_CROWD and moves <= CROWD_MOVES[1] else ""
    if command == "least" and moves > 1:
        return said(f"over budget / least{greatest}{short}", fewer=counted(moves - 1, "move"), moves=moves, **values)
    return said(("over budget / greatest" if greatest else "over budget") + short, **values)


def of_memory(command):
    """Returns the sentence on want of memory."""
    shape = SHAPES[command]
    return said("memory" if {MOVES, "L"} & set(shape) else "memory / no moves" if BUDGET in shape else "memory / no budget")


# Files

def names_of(words):
    """Returns the names of files that words have."""
    return [word for what, word in zip(SHAPES[words[0]], words[1:]) if what in NAMES]


def head_of(path):
    """Returns the first bytes of a file, or None."""
    try:
        with open(path, "rb") as it:
            return it.read(16)
    except OSError:
        return None


def of_shelf(words, folder):
    names = names_of(words)
    for name in names:
        if os.path.isdir(os.path.join(folder, name)):
            return said("shelf fault / folder", name=name)
    is_kept = words[0] in ("keep", "migrate")
    if is_kept and is_other_file(os.path.join(folder, names[-1])):
        return said("shelf no strategy file", name=names[-1])
    if words[0] == "migrate":
        return said("shelf fault / migrate", name=names[0], other=names[-1])
    return said("shelf fault", name=names[0], done="written" if is_kept else "read")


def is_other_file(path):
    """Returns whether a file is there that is no strategy file."""
    return os.path.isfile(path) and head_of(path) is not None and head_of(path)[:4] != b"ICSF"


def of_file(told, words, folder):
    """Returns the sentence on a file that is refused; the fields of the told line are behind `file`."""
    name = names_of(words)[0]
    head = head_of(os.path.join(folder, name))
    if told[0] == "missing":
        return said("file missing", name=name)
    if told[:2] == ["too", "large"]:
        return said("file too large", length=told[2])
    if told[:3] == ["set", "too", "large"]:
        return said("file set too large", states=told[3])
    if told[:2] == ["too", "long"]:
        return said("file too long", name=name)
    if told[0] == "cut":
        return said("file empty" if told[2] == "0" else "file cut", name=name)
    if told[0] == "extra":
        return said("file extra", name=name, at=told[2])
    if told[:2] == ["not", "kept"]:
        return said("file not kept", name=name, rule=told[8], ply=told[4], men=men_of(int(told[6])))
    if told[2] == "magic" and head is not None and head.startswith(b"infinite chess"):
        return said("file text", name=name, command=words[0])
    if told[2] in ("magic", "version", "unsound"):
        return said(f"file {told[2]}", name=name)
    return said("file byte", name=name, at=told[1], why=told[2])


def men_of(mask):
    return ", ".join(str(at + 1) for at in range(8) if mask >> at & 1)


# Games

@dataclass
class Replies:
    """A game as its replies and the lines of its report tell it: each reply that gave `illegal` or `unreadable`, with its number and the position there."""

    refused: list = field(default_factory=list)
    last: str = None


def replies_of(told, position, rest):
    """Returns what became of the replies of a game, as far as the lines of its report and this script's own board agree."""
    game, lines = Replies(), list(told)
    for number, reply in enumerate(rest.split(b"\n")[:-1], 1):
        while lines and lines[0].startswith(("white ", "black ")):
            man, x, y = map(int, lines.pop(0).split()[1:])
            position = position.after(man, (x, y))
        if not lines or lines[0] not in ("illegal", "unreadable"):
            if not lines or position is None:
                return game
            move = REPLY.fullmatch(plain(reply))
            if move is None:
                game.last = plain(reply)
                return game
            man, x, y = map(int, plain(reply).split())
            if chess.why_illegal(position, man, (x, y)) is not None:
                return game
            position = position.after(man, (x, y))
            continue
        game.refused.append((number, lines.pop(0), reply, position))
    return game


def of_reply(noun, number, why, reply, position):
    """Returns the sentence on a reply, or on a move of the winner, that is refused."""
    text = plain(reply)
    told = dict(what=noun.capitalize(), noun=noun, line=number, quote=quoted(reply))
    fields = text.split(" ")
    if why == "unreadable":
        return of_unreadable(told, text, fields, position)
    if not REPLY.fullmatch(text):
        return said("illegal", **told)
    man, square = int(fields[0]), (int(fields[1]), int(fields[2]))
    found = chess.why_illegal(position, man, square)
    if found is None:
        return said("illegal", **told)
    reason, more = found
    name = lambda at: f"man {at}, {position.men[at - 1].name()},"
    known = man <= len(position.men)
    values = {
        "man": man, "count": counted(len(position.men), "man").replace("mans", "men"),
        "name": position.men[man - 1].name() if known else "",
        "square": "%d %d" % position.men[man - 1].square if known and position.men[man - 1].square else "",
        "mover": chess.SIDES[position.turn], "men": own_men(position),
        "ahead": "up" if position.turn == "W" else "down",
        "there": name(more["there"]) if more.get("there") else "", "stops": name(more["stops"]) if more.get("stops") else "",
        "checker": name(more["checker"]) if more.get("checker") else "",
    }
    return said(f"illegal / {reason}", **told, **values)


def own_men(position):
    """Returns the men of the side to move on the board, with their numbers."""
    mine = [f"{number} ({chess.KINDS[it.kind]})" for number, it in enumerate(position.men, 1) if it.side == position.turn and it.square is not None]
    return ("man " if len(mine) == 1 else "men ") + ", ".join(mine)


def of_unreadable(told, text, fields, position):
    if not text.strip():
        return said("unreadable / blank", **told)
    if text.endswith("\r"):
        return said("unreadable / crlf", **told)
    if len(fields) == 3 and "" not in fields and re.fullmatch("[1-8]", fields[0]):
        word = next((it for it in fields[1:] if chess.number_of(it) is None), None)
        if word:
            return said("unreadable / number", word=quoted(word.encode()), **told)
    if re.match("[A-Za-z]", text):
        return said("unreadable / letter", word=quoted(fields[0].encode()), men=own_men(position), **told)
    return said("unreadable", **told)


def of_game(code, lines, words, text, folder):
    """Returns the sentences on the replies of a game, and on its end."""
    position, rest = start_of(words, text, folder)
    game = replies_of([it for it in lines if it not in ("mate", "held", "stuck")], position, rest) if position else Replies()
    noun = "move" if words[0] == "defend" else "reply"
    made = [of_reply(noun, *it) for it in game.refused[-MOST_REPLIES:]]
    if code == 12:
        by = f" / {words[0]}" if words[0] in ("resume", "defend") else ""
        made.append(said(f"ended{by}" if game.last != "quit" else "ended / defend quit" if words[0] == "defend" else "ended / quit", mended=" ".join(words)))
    return made


def start_of(words, text, folder):
    """Returns the position that a game begins with and the replies, or None twice where they are not known."""
    if not isinstance(text, bytes):
        return None, None
    try:
        if words[0] == "resume":
            return read_head(os.path.join(folder, names_of(words)[0]))[1], text
        return chess.read_text(text)
    except (chess.Refused, OSError, ValueError):
        return None, None




def read_head(path):
    """Returns the number of moves and the position that a strategy file begins with; refuses another file by a ValueError that says why."""
    with open(path, "rb") as it:
        data = it.read(8 + chess.POSITIONS.most_men * 19)
    if data[:4] != b"ICSF":
        raise ValueError("its first four bytes are not `ICSF`, so it is no strategy file")
    if len(data) < 8:
        raise ValueError("it is cut within its head")
    version, moves, turn, count = data[4:8]
    if version not in FILE_LIMITS:
        raise ValueError(f"it is a strategy file of version {version}, and this script reads versions 1 and 2")
    limits = FILE_LIMITS[version]
    at, men = 8, []
    for _ in range(count):
        if len(data) < at + 3 or (data[at + 2] and len(data) < at + 19):
            raise ValueError("it is cut within its men")
        side, kind, place = data[at : at + 3]
        if side > 1 or kind >= limits.kinds or place > 1:
            raise ValueError(f"it has a wrong field among its men, at byte {at}")
        square = tuple(int.from_bytes(data[at + 3 + 8 * it : at + 11 + 8 * it], "big", signed=True) for it in (0, 1)) if place else None
        men.append(chess.Man("WB"[side], FILE_KINDS[kind], square))
        at += 19 if place else 3
    if turn >= limits.turns or moves > 20 or not chess.FEWEST_MEN <= count <= limits.men:
        raise ValueError("it has a wrong field in its head")
    return moves, chess.Position("WB"[turn % 2], tuple(men), "WB"[turn // 2])


# The whole

def of_answer(told, words, text, file=None):
    """Returns the sentences on an answer: why one of `first` or `describe` lists no move."""
    if told.split() != ["end"] or words[:1] not in (["first"], ["describe"]) or not isinstance(text, bytes):
        return []
    Advice.file = shlex.quote(file) if file else FILE
    try:
        position = chess.read_text(text)[0]
    except chess.Refused:
        return []
    mover, winner = chess.SIDES[position.turn], chess.SIDES[position.winner]
    reason = "no first move" if position.turn == position.winner else "no first move / loser"
    return [said(reason, mover=mover, winner=winner, moves=counted(int(words[1]), "move"), mended=" ".join(words))]


def sentences(code, told, words, text, folder=".", file=None):
    """Returns the sentences on a run: its code, what it wrote or the last line of that, its words, its input (bytes, FOLDER, CLOSED or None), its folder,
    and the name of the input's file if it is known."""
    Advice.file = shlex.quote(file) if file else FILE
    lines = told.splitlines()
    fields = lines[-1].split(" ") if lines else []
    words = words[1:] if words[:1] == ["cost"] else words
    is_game = bool(words) and words[0] in GAMES
    try:
        made = of_game(code, lines, words, text, folder) if is_game and code in (0, 9, 12, 13) else []
        made += [it for it in [of_end(code, fields, words, text, folder)] if it]
    except (IndexError, ValueError, KeyError):
        return []
    return made


def of_end(code, fields, words, text, folder):
    """Returns the sentence on how a run ended, or None."""
    if code == 2:
        return of_words(" ".join(fields[1:]), words)
    if code == 3:
        return of_refused_text(int(fields[2]), fields[3:], words, text)
    if code == 4:
        return of_unsound(fields[1:], words, text)
    if code == 5:
        return said(f"read fault / {text}" if text in (FOLDER, CLOSED) else "read fault")
    if code == 6:
        return said("write fault")
    if code == 7:
        return of_shelf(words, folder)
    if code == 8:
        return of_budget(fields[3:], words)
    if code == 9:
        return said(f"wide / {words[0]}" if words[0] in ("resume", "defend") else "wide")
    if code == 10:
        return of_memory(words[0]) if fields[-1:] == ["memory"] else said("memory / words")
    if code == 11:
        return of_file(fields[1:], words, folder)
    if code == 13:
        return said("too many lines / defend" if words[0] == "defend" else "too many lines")
    return None


def of_refused_text(number, why, words, text):
    if words[0] == "arith":
        if why[0] == "formula":
            return of_formula(int(why[1]), text)
        return said({"missing": "formula / nothing"}.get(why[0], f"formula / {why[0]}"))
    if words[0] == "resume":
        return said(why[0], line=number)
    return of_text(number, why[0], words, text)


def given():
    """Returns the input where it is a file, or what else it is, or None. It is descriptor 3 where that is open, and else the standard input: Python does not
    start where that is a folder."""
    for descriptor in (3, 0):
        try:
            kind = os.fstat(descriptor)
        except OSError:
            continue
        if stat.S_ISDIR(kind.st_mode):
            return FOLDER
        return os.pread(descriptor, 1 << 20, 0) if stat.S_ISREG(kind.st_mode) else b"" if is_nothing(kind) else None
    return CLOSED


def named():
    """Returns the name of the input's file from this folder on, or None."""
    for descriptor in (3, 0):
        try:
            kind, path = os.fstat(descriptor), os.readlink(f"/proc/self/fd/{descriptor}")
        except OSError:
            continue
        if not stat.S_ISREG(kind.st_mode) or not os.path.isfile(path):
            return None
        near = os.path.relpath(path)
        return path if near.startswith("../..") else near
    return None


def is_nothing(kind):
    """Returns whether an input is /dev/null."""
    return stat.S_ISCHR(kind.st_mode) and kind.st_rdev == os.stat(os.devnull).st_rdev


def tried(program):
    """Tries the rows of rows.txt, as trial.py does."""
    import trial

    return trial.tried(program)


def main(words):
    if len(words) < 2 or not words[0].isdigit():
        print(__doc__, end="", file=sys.stderr)
        return 2
    for it in sentences(int(words[0]), words[1], words[2:], given(), file=named()):
        print(it)
    return 0


if __name__ == "__main__":
    sys.exit(main(sys.argv[1:]))
