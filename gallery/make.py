#!/usr/bin/env python3
"""usage: gallery/make.py [--unproved | --mate PROGRAM] [--stored] [--quick] [--kept] [--only WORD]

Asks the program what positions.py lists, compares each answer with what is claimed there, and writes docs/GALLERY.md with its pictures
docs/gallery/*.svg; maps are made by ./map, and solutions by ./solve. Every answer is put into gallery/answers.json, with the program that gave it.

  --stored         takes the answers that are in answers.json, and asks only for the others
  --kept           asks for nothing, and leaves what has no kept answer out of the page, which says so
  --only WORD      asks for the entries and families whose names have the word; it writes no page and keeps no answer. With --stored or --kept it
                   takes answers from answers.json too. Each line says how many answers were asked for, and how many were taken
  --quick          looks for the budget among the numbers 256, 512, 1024 and so on alone
  --unproved       asks the program without proofs (./mate help unproved); so does the variable MATE_PROGRAM
  --mate PROGRAM   asks another program, whatever it is

The code is 0 if all claims are true, else 1, and 2 if no name has the word.
"""
import importlib.machinery
import importlib.util
import json
import os
import resource
import subprocess
import sys
import tempfile

HERE = os.path.dirname(os.path.realpath(__file__))
TOP = os.path.dirname(HERE)
sys.path[:0] = [HERE, f"{TOP}/python"]
sys.dont_write_bytecode = True
from gezhumai_mate import program as programs  # noqa: E402
from gezhumai_mate.ends import NoProgram  # noqa: E402
from positions import CROWDS, DEFENCES, ENTRIES, FAMILIES, MAPS, SEARCH, SOLUTIONS, TRIED  # noqa: E402

ANSWERS = f"{HERE}/answers.json"
MOST_BUDGET = 200000
OVER = 8
# Where a verdict takes more seconds than the first, the least budget is not looked for by halves, and where it takes more than the second, not at all.
SECONDS_FOR_HALVES, SECONDS_FOR_BUDGET = 1.0, 2.0
OWN = "./mate"


def module_of(name):
    """Returns a script of the top folder as a module."""
    loader = importlib.machinery.SourceFileLoader(name, f"{TOP}/{name}")
    made = importlib.util.module_from_spec(importlib.util.spec_from_loader(name, loader))
    sys.modules[name] = made
    loader.exec_module(made)
    return made


board, maps, solve = (module_of(it) for it in ("board", "map", "solve"))


def text_of(men, turn, grammar=board.chess.POSITIONS):
    """Returns the text of men as positions.py writes them."""
    sides = zip("WB", men.split("/"))
    lines = [f"{side} {man.strip()}" for side, part in sides for man in part.split(",")]
    return "\n".join([grammar.header, f"turn {turn}", *lines, "end", ""])


def position_of(men, turn):
    return board.chess.read_text(text_of(men, turn).encode())[0]


class Missing(Exception):
    """No answer is kept, and none may be asked for."""


class Engine:
    """The program, with the answers that it gave: what it wrote, its code, and the user seconds that it took."""

    def __init__(self, program, words):
        self.fresh, self.taken, self.answers, self.fresh_keys = 0, 0, {}, set()
        self.is_quick, self.asks, self.keeps = "--quick" in words, "--kept" not in words, "--only" not in words
        self.program = program
        self.name = OWN if program is None or os.path.realpath(program) == programs.PROVED_PATH else "another build"
        if {"--stored", "--kept"} & set(words) and os.path.exists(ANSWERS):
            with open(ANSWERS, encoding="utf-8") as it:
                self.answers = json.load(it)

    def count(self, key):
        """Counts an answer that was asked for by this run, or taken from those that are kept."""
        if key in self.fresh_keys:
            self.fresh += 1
        else:
            self.taken += 1

    def ask(self, words, text, most_seconds=None):
        key = words + "\n" + text
        if key not in self.answers and not self.asks:
            raise Missing
        if key not in self.answers:
            self.answers[key] = self.run(words, text, most_seconds)
            self.fresh_keys.add(key)
            self.store()
        self.count(key)
        return self.answers[key]

    def made(self, words, text, make):
        """Returns what a script makes of answers of the program, which it asks by its path."""
        key = words + "\n" + text
        if key not in self.answers and not self.asks:
            raise Missing
        if key not in self.answers:
            before = resource.getrusage(resource.RUSAGE_CHILDREN).ru_utime
            wrote = make(self.program)
            seconds = resource.getrusage(resource.RUSAGE_CHILDREN).ru_utime - before
            self.answers[key] = {"wrote": wrote, "code": 0, "seconds": round(seconds, 2), "states": [], "by": self.name}
            self.fresh_keys.add(key)
            self.store()
        self.count(key)
        return self.answers[key]

    def run(self, words, text, most_seconds):
        def bound():
            if most_seconds:
                resource.setrlimit(resource.RLIMIT_CPU, (most_seconds, most_seconds))

        with tempfile.TemporaryDirectory() as folder:
            before = resource.getrusage(resource.RUSAGE_CHILDREN).ru_utime
            done = subprocess.run([self.program, *words.split()], input=text.encode(), stdout=subprocess.PIPE, cwd=folder, preexec_fn=bound)
            seconds = resource.getrusage(resource.RUSAGE_CHILDREN).ru_utime - before
            kept = [states_in(f"{folder}/{it}") for it in os.listdir(folder)]
        states = kept[0] if kept else []
        return {"wrote": done.stdout.decode(), "code": done.returncode, "seconds": round(seconds, 2), "states": states, "by": self.name}

    def store(self):
        if not self.keeps:
            return
        with open(ANSWERS, "w", encoding="utf-8") as it:
            json.dump(self.answers, it, indent=1, sort_keys=True)
            it.write("\n")


def states_in(path):
    """Returns the ply, the mask and the number of states of each set of a strategy file; docs/FORMATS.md has its form."""
    with open(path, "rb") as it:
        data = it.read()
    count, at = data[7], 8
    for _ in range(count):
        at += 3 + 16 * data[at + 2]
    sets = []
    while at < len(data):
        number = lambda place: int.from_bytes(data[place : place + 4], "big")
        states = number(at + 2)
        sets.append([data[at], data[at + 1], states])
        letters = 4 ** bin(data[at + 1]).count("1")
        at += 6 + 4 * letters + states * (1 + 4 * letters) if data[4] == 1 else 14 + 9 * number(at + 6) + 5 * states
    return sets


def least_budget(engine, words, text, is_quick):
    """Returns bounds of the least budget with which the words are answered, by doubling and then by halves: the first is too small (or 0), the second
    is enough, or None where the greatest is too small."""
    answers = lambda budget: engine.ask(f"{words} {budget}", text)["code"] != OVER
    high = 256
    while high < MOST_BUDGET and not answers(high):
        high = min(2 * high, MOST_BUDGET)
    if not answers(high):
        return high, None
    low = 0 if high == 256 else high // 2
    while high - low > 1 and not is_quick:
        middle = (low + high) // 2
        low, high = (low, middle) if answers(middle) else (middle, high)
    return low, high


def verdict_words(entry):
    return f"least {entry.moves}" if entry.claim.startswith(("least", "none")) else f"decide {entry.moves}"


class Wrong(Exception):
    """An answer is not what is claimed."""


def expect(what, claimed, answer):
    if claimed != answer:
        raise Wrong(f"{what}: claimed {claimed!r}, answered {answer!r}")


def answers_of(engine, entry):
    """Asks all that the page tells of an entry, and compares it with what is claimed."""
    text = text_of(entry.men, entry.turn)
    verdict = engine.ask(f"{verdict_words(entry)} {MOST_BUDGET}", text)
    expect(entry.name, entry.claim + "\n", verdict["wrote"])
    mates = entry.claim.startswith(("least", "mate"))
    rays, distances, states, game = [], [], None, []
    if mates and entry.is_winner_first():
        rays = engine.ask(f"first {entry.moves} {MOST_BUDGET}", text)["wrote"].splitlines()[:-1]
        if entry.rays is not None:
            expect(f"{entry.name}, first moves", entry.rays, rays)
    if entry.distances:
        distances = engine.ask(f"describe {entry.moves} {MOST_BUDGET}", text)["wrote"].splitlines()[:-1]
        expect(f"{entry.name}, distances", entry.distances, distances)
    if mates:
        states = engine.ask(f"keep {entry.moves} kept {MOST_BUDGET}", text)["states"]
    if entry.played:
        replies = "".join(f"{it}\n" for it in entry.replies)
        game = engine.ask(f"play {entry.moves} {MOST_BUDGET}", text + replies)["wrote"].splitlines()
        expect(f"{entry.name}, played", entry.played, game)
    is_quick = engine.is_quick or verdict["seconds"] > SECONDS_FOR_HALVES
    budget = None if verdict["seconds"] > SECONDS_FOR_BUDGET else least_budget(engine, f"decide {entry.moves}", text, is_quick)
    return {"text": text, "verdict": verdict, "rays": rays, "distances": distances, "states": states, "game": game, "budget": budget}


def picture(entry, shown):
    """Writes the drawing of an entry, and returns its path from docs/ on."""
    name = f"gallery/{entry.name}.svg"
    with open(f"{TOP}/docs/{name}", "w", encoding="utf-8") as it:
        it.write(board.as_svg(board.Board(shown, [])))
    return name


def alt_of(entry):
    """Returns what stands for the drawing of an entry where it is not seen."""
    turn = board.chess.SIDES[entry.turn[0]]
    return f"White: {entry.men.replace(' / ', '. Black: ')}. {turn} to move{', Black is to mate' * entry.turn.endswith('for B')}."


def described(states):
    """Returns the sentence about the sets of a strategy file."""
    ply, mask, most = max(states, key=lambda it: it[2])
    names = [str(at + 1) for at in range(8) if mask >> at & 1]
    return f"{len(states)} sets; the greatest has {most} states (ply {ply}, men {', '.join(names)})"


def budget_told(small, enough):
    if enough is None:
        return f"{small} is too small"
    if enough == small + 1:
        return f"{enough} is the least"
    return f"{enough} is enough" + f", {small} too small" * bool(small)


def entry_lines(engine, number, entry):
    told = answers_of(engine, entry)
    path = picture(entry, board.position_of(engine.ask("show", told["text"])["wrote"].splitlines()))
    rows = [("Verdict", f"`{entry.claim}` (`{verdict_words(entry)}`)")]
    if told["distances"]:
        rows.append(("Winning first moves (`describe`)", "<br>".join(f"`{it}`" for it in told["distances"])))
    elif told["rays"]:
        rows.append(("Winning first moves", "<br>".join(f"`{it}`" for it in told["rays"])))
    if told["states"] is not None:
        rows.append(("Strategy", described(told["states"])))
    if told["budget"]:
        rows.append(("Budget", budget_told(*told["budget"])))
    rows.append(("Time", f"{told['verdict']['seconds']:.2f} s"))
    if told["game"]:
        replies = f", replies {', '.join(f'`{it}`' for it in entry.replies)}" * bool(entry.replies)
        rows.append(("Played", " ".join(f"`{it}`" for it in told["game"]) + replies))
    table = [f"| {name} | {value} |" for name, value in rows]
    return [f"### {number}. {entry.title}", "", f"![{alt_of(entry)}]({path})", "", entry.caption, "", "| | |", "|---|---|", *table, ""]


def crowd_lines(engine, crowd):
    """Returns the section of a crowd, which is answered as it is claimed to be."""
    text = text_of(crowd.men, crowd.turn, board.chess.CROWDS)
    told = engine.ask(crowd.words(), text)
    expect(crowd.name, crowd.claim + "\n", told["wrote"])
    path = picture(crowd, board.read_alone(text.encode()))
    rows = [f"| Verdict | `{crowd.claim}` (`{crowd.words()}`) |", f"| Time | {told['seconds']:.2f} s |"]
    return [f"### {crowd.title}", "", f"![{alt_of(crowd)}]({path})", "", crowd.caption, "", "| | |", "|---|---|", *rows, ""]


def map_lines(engine, drawn):
    """Returns the section of a map, of which each square is as it is claimed to be."""
    words = [str(drawn.man), str(drawn.moves), f"{drawn.files[0]}:{drawn.files[1]}", f"{drawn.ranks[0]}:{drawn.ranks[1]}", *drawn.budget]
    asked = maps.asked_of(words, position_of(drawn.men, drawn.turn))
    make = lambda program: maps.as_csv(asked, maps.answers(program, asked))
    told = engine.made(" ".join(["map", *words]), text_of(drawn.men, drawn.turn), make)
    found = {}
    for row in told["wrote"].splitlines()[1:]:
        x, y, answer = row.split(",")
        square = int(x), int(y)
        if square not in asked.others():
            expect(f"{drawn.name}, {x} {y}", str(drawn.claim(*square)), answer)
            found[square] = int(answer) if answer.isdigit() else answer
    path = f"gallery/{drawn.name}.svg"
    with open(f"{TOP}/docs/{path}", "w", encoding="utf-8") as it:
        it.write(maps.as_svg(asked, found))
    alt = f"{maps.caption(asked)}. White: {drawn.men.replace(' / ', '. Black: ')}."
    return [f"### {drawn.title}", "", f"![{alt}]({path})", "", drawn.caption, "", f"`./map {' '.join(words)}`, {told['seconds']:.0f} s of processors", ""]


def solution_lines(engine, solved):
    """Returns the section of a solution, which is as it is claimed to be."""
    text = text_of(solved.men, solved.turn)

    def make(program):
        asked = solve.Asked(solved.moves, [str(MOST_BUDGET)], has_tries=solved.has_tries)
        solution = solve.Solution(solve.Engine(program, asked.budget), asked)
        return "".join(f"{it}\n" for it in solve.lines_of(solution, position_of(solved.men, solved.turn)))

    words = f"solve {'--tries ' * solved.has_tries}{solved.moves} {MOST_BUDGET}"
    told = engine.made(words, text, make)["wrote"]
    expect(solved.title, solved.claim, told)
    return [f"### {solved.title}", "", solved.caption, "", f"White: {solved.men.replace(' / ', '. Black: ')}. `./{words}`", "", "```", *told.splitlines(), "```", ""]


def defence_lines(engine, defended):
    """Returns the section of a defence, which goes as it is claimed to."""
    moves = "".join(f"{it}\n" for it in defended.tried)
    words = f"defend {defended.moves} {MOST_BUDGET}"
    told = engine.ask(words, text_of(defended.men, defended.turn) + moves)["wrote"].splitlines()
    expect(defended.title, defended.claim, told)
    played = f", moves {', '.join(f'`{it}`' for it in defended.tried)}" * bool(defended.tried)
    position = f"White: {defended.men.replace(' / ', '. Black: ')}. {board.chess.SIDES[defended.turn[0]]} to move{', Black is to mate' * defended.turn.endswith('for B')}."
    return [f"### {defended.title}", "", defended.caption, "", f"{position} `{words}`{played}: {' '.join(f'`{it}`' for it in told)}", ""]


def family_lines(engine, family):
    lines = [f"### {family.title}", "", family.sentence, "", f"| {family.parameter} | answer |", "|---|---|"]
    for value in family.values:
        words = f"{family.word} {family.moves} {family.budget}"
        answer = engine.ask(words, text_of(family.men(value), family.turn))["wrote"].strip()
        expect(f"{family.title}, {value}", family.claim(value), answer)
        lines.append(f"| {value} | {answer} |")
    return [*lines, ""]


def outcome(engine, words, text, most_seconds):
    """Returns what the engine answers within so many seconds, or that it does not."""
    answer = engine.ask(words, text, most_seconds)
    done = answer["code"] in (0, OVER) and answer["wrote"].endswith("\n")
    return answer["wrote"].strip() if done else f"no answer within {most_seconds} s"


def tried_lines(engine):
    """Returns the section on what passes every budget, with the step that the engine names."""
    lines = ["Decided with the greatest budget. The engine names the step that exceeds it; see [FORMATS](FORMATS.md#exit-codes).", ""]
    lines += ["| White / Black | command | outcome |", "|---|---|---|"]
    numbers = {"mate in": [], "over budget": [], "no answer": []}
    for number, tried in enumerate(TRIED, 1):
        words = f"decide {tried.moves} {MOST_BUDGET}"
        told = outcome(engine, words, text_of(tried.men, "W"), tried.most_seconds)
        lines.append(f"| {number}. {tried.men} | `{words}` | `{told}` |")
        next(its for part, its in numbers.items() if part in told).append(f"{number}")
    said = {
        "mate in": "Decided: position {}.",
        "over budget": "Over every budget: position {}. The engine cannot decide whether White mates there within this number of moves.",
        "no answer": "Out of time: position {}. It is not known whether the budget is enough there.",
    }
    return [*lines, "", *[said[part].format(", ".join(its)) for part, its in numbers.items() if its], ""]


def search_lines(engine):
    """Returns the section on the longest least number among the positions that were searched with the budget of a command that names none."""
    words = f"least {SEARCH.moves} {SEARCH.budget}"
    lines = ["| White / Black | outcome |", "|---|---|"]
    longest = 0
    for men in SEARCH.positions:
        told = outcome(engine, words, text_of(men, "W"), SEARCH.most_seconds)
        longest = max(longest, int(told.split()[1]) if told.startswith("least ") else 0)
        lines.append(f"| {men} | `{told}` |")
    end = f"The longest least number found among these {len(SEARCH.positions)} is {longest}. Others were not searched, so there may be longer ones."
    return [SEARCH.sentence, "", f"Command: `{words}`, for at most {SEARCH.most_seconds} s each.", "", *lines, "", end, ""]


def collected(engine, only):
    """Returns the lines of all entries, those of all families, what is not as it is claimed, what is left out, and how many were tried."""
    entries, families, wrong, left_out, tried_names = [], [], [], [], []

    def collect(lines, wrong, left_out, name, made):
        tried_names.append(name)
        collect_one(engine, lines, wrong, left_out, name, made)

    for number, entry in enumerate(ENTRIES, 1):
        if only in entry.name:
            collect(entries, wrong, left_out, entry.name, lambda: entry_lines(engine, number, entry))
    for family in FAMILIES:
        if only in family.title:
            collect(families, wrong, left_out, family.title, lambda: family_lines(engine, family))
    crowds, drawn, solved = [], [], []
    for it in CROWDS:
        if only in it.name:
            collect(crowds, wrong, left_out, it.name, lambda: crowd_lines(engine, it))
    for it in MAPS:
        if only in it.name:
            collect(drawn, wrong, left_out, it.name, lambda: map_lines(engine, it))
    for it in SOLUTIONS:
        if only in it.title:
            collect(solved, wrong, left_out, it.title, lambda: solution_lines(engine, it))
    defended = []
    for it in DEFENCES:
        if only in it.title:
            collect(defended, wrong, left_out, it.title, lambda: defence_lines(engine, it))
    tried, search = [], []
    if not only:
        collect(tried, wrong, left_out, "what passes every budget", lambda: tried_lines(engine))
        collect(search, wrong, left_out, "the longest least number", lambda: search_lines(engine))
    return {"Positions": entries, "Crowds": crowds, "Maps": drawn, "Solutions": solved, "Defences": defended, "Families": families, "What the engine cannot decide": tried, "The longest least number": search}, wrong, left_out, len(tried_names)


def collect_one(engine, lines, wrong, left_out, name, made):
    fresh, taken = engine.fresh, engine.taken
    try:
        lines += made()
        print(f"as claimed  {name}  ({engine.fresh - fresh} asked, {engine.taken - taken} taken from answers.json)", flush=True)
    except Wrong as why:
        wrong.append(str(why))
        print(f"WRONG       {why}", flush=True)
    except Missing:
        left_out.append(name)
        print(f"left out    {name}", flush=True)


def whose(engine):
    """Returns the sentence on the programs that gave the answers."""
    others = sum(it.get("by") != OWN for it in engine.answers.values())
    if not others:
        return "All answers are those of the proved program, `./mate`."
    return f"Of the {len(engine.answers)} answers, {others} are those of a build of the same sources without proofs."


def page_of(engine, sections, left_out):
    with open(f"{HERE}/head.md", encoding="utf-8") as it:
        head = it.read()
    with open(f"{HERE}/by-hand.md", encoding="utf-8") as it:
        hand = it.read()
    head += f"\n{whose(engine)}\n"
    head += f"\nLeft out, because their answers were not kept: {', '.join(left_out)}.\n" * bool(left_out)
    parts = [line for title, lines in sections.items() if lines for line in (f"## {title}", "", *lines)]
    return "\n".join([head, *parts, hand])


def option(words, name, default):
    return words[words.index(name) + 1] if name in words else default


def main(words):
    if {"-h", "--help", "help"} & set(words):
        print(__doc__, end="")
        return 0
    named = option(words, "--mate", None)
    only = option(words, "--only", "")
    words = programs.take_option(words)
    engine = Engine(named or (programs.path() if "--kept" not in words else None), words)
    os.makedirs(f"{TOP}/docs/gallery", exist_ok=True)
    sections, wrong, left_out, tried = collected(engine, only)
    if not tried:
        print(f"no entry and no family has a name with {only!r}")
        return 2
    if not wrong and engine.keeps:
        with open(f"{TOP}/docs/GALLERY.md", "w", encoding="utf-8") as it:
            it.write(page_of(engine, sections, left_out))
    seconds = sum(it["seconds"] for it in engine.answers.values())
    whole = f"{len(ENTRIES)} positions, {len(CROWDS)} crowds, {len(MAPS)} maps, {len(SOLUTIONS)} solutions, {len(DEFENCES)} defences, {len(FAMILIES)} families"
    print(f"{whole if engine.keeps else f'{tried} tried'}, {len(wrong)} wrong; {engine.fresh} answers asked for, {engine.taken} taken from answers.json, {seconds:.0f} s of the program in all")
    return 1 if wrong else 0


if __name__ == "__main__":
    try:
        sys.exit(main(sys.argv[1:]))
    except KeyboardInterrupt:
        sys.modules["runs"].stop_all()
        sys.exit(130)
    except NoProgram:
        print("there is no program, and it could not be built", file=sys.stderr)
        sys.exit(1)
