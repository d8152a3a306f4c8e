"""The commands of the program, a function for each. Each takes a position, as a value or as a text in any notation; `budget` is the most states
that a step may need, and `seconds` how long the run may take. An end that is no answer is raised: a class for each is in `ends`."""
import os
import re
import subprocess
from dataclasses import dataclass
from typing import Iterable, List, Optional, Tuple, Union

from . import program
from .ends import ENDS, FolderFailed, NoAnswer, OutOfTime
from .positions import Position

Given = Union[Position, str]


@dataclass(frozen=True)
class Ray:
    """The winning first moves of a man along a ray: `least` is the nearest distance, None if it leads to no square of 64 bits; `more` says that there are others."""

    man: int
    step: Tuple[int, int]
    least: Optional[int]
    more: bool


@dataclass(frozen=True)
class Distances:
    """All winning distances of a man along a ray: those of `runs` and, from `start` on, those that leave one of `rests` when divided by `every`.
    If `every` is None the program names no period, and `line` says why."""

    man: int
    step: Tuple[int, int]
    runs: Tuple[Tuple[int, int], ...]
    start: Optional[int]
    every: Optional[int]
    rests: Tuple[int, ...]
    line: str

    def __contains__(self, distance: int) -> bool:
        if self.every is None or self.start is None:
            raise ValueError(f"not all distances are known: {self.line}")
        if any(low <= distance <= high for low, high in self.runs):
            return True
        return distance >= self.start and distance % self.every in self.rests


@dataclass(frozen=True)
class Shown:
    """A position as the program read it, whether the side to move is in check, and how many men are on the board."""

    position: Position
    check: bool
    live: int


@dataclass(frozen=True)
class Truth:
    """Whether a formula is true and, if it asks for a number and that is known, the number nearest to 0."""

    holds: bool
    witness: Optional[int]
    line: str


def run(words: Iterable[object], text: str = "", seconds: Optional[float] = None, folder: Optional[str] = None) -> List[str]:
    """Returns the lines that the program writes; raises the end that is no answer."""
    called = [program.path(), *[str(it) for it in words if it is not None]]
    try:
        done = subprocess.run(called, input=text, stdout=subprocess.PIPE, text=True, timeout=seconds, cwd=folder)
    except subprocess.TimeoutExpired:
        raise OutOfTime(f"no answer within {seconds} s") from None
    lines = done.stdout.splitlines()
    if done.returncode:
        raise ENDS.get(done.returncode, NoAnswer)(*lines[-1:])
    return lines


def decide(position: Given, n: int, budget: Optional[int] = None, seconds: Optional[float] = None) -> bool:
    """Returns whether the winner can force mate within n moves."""
    return run(["decide", n, budget], Position.of(position).to_text(), seconds) == [f"mate in {n}"]


def crowd(position: Given, n: int, budget: Optional[int] = None, seconds: Optional[float] = None) -> bool:
    """Returns what decide does, of up to 32 men and within at most two moves."""
    return run(["crowd", n, budget], Position.of(position).to_crowd(), seconds) == [f"mate in {n}"]


def least(position: Given, most: int, budget: Optional[int] = None, seconds: Optional[float] = None) -> Optional[int]:
    """Returns the least number of moves within which the winner can force mate, or None if it is greater than `most`."""
    word, number = run(["least", most, budget], Position.of(position).to_text(), seconds)[0].split()[:2]
    return int(number) if word == "least" else None


def first(position: Given, n: int, budget: Optional[int] = None, seconds: Optional[float] = None) -> List[Ray]:
    """Returns the winner's first moves that mate within n moves, ray by ray."""
    return [_ray(it) for it in run(["first", n, budget], Position.of(position).to_text(), seconds)[:-1]]


def describe(position: Given, n: int, budget: Optional[int] = None, seconds: Optional[float] = None) -> List[Distances]:
    """Returns all distances of the winner's first moves that mate within n moves, ray by ray."""
    return [_distances(it) for it in run(["describe", n, budget], Position.of(position).to_text(), seconds)[:-1]]


def play(position: Given, n: int, replies: Iterable[str], budget: Optional[int] = None, seconds: Optional[float] = None) -> List[str]:
    """Returns the lines of the game against these replies, each as "4 0 0"."""
    return run(["play", n, budget], Position.of(position).to_text() + _lines(replies), seconds)


def defend(position: Given, n: int, moves: Iterable[str], budget: Optional[int] = None, seconds: Optional[float] = None) -> List[str]:
    """Returns the lines of the game that the loser plays against these moves of the winner."""
    return run(["defend", n, budget], Position.of(position).to_text() + _lines(moves), seconds)


def keep(position: Given, n: int, name: str, budget: Optional[int] = None, seconds: Optional[float] = None, folder: Optional[str] = None) -> bool:
    """Returns what decide does. If it is true, the winner's strategy is then the file of this name in the folder. A strategy file of that name is
    replaced; another file, or a folder, is left as it is, and FolderFailed is raised."""
    _spare(name, folder)
    return run(["keep", n, name, budget], Position.of(position).to_text(), seconds, folder) == [f"mate in {n}"]


def check(name: str, budget: Optional[int] = None, seconds: Optional[float] = None, folder: Optional[str] = None) -> int:
    """Returns within how many moves the strategy of the file mates; raises FileRefused if it is no winning strategy."""
    return int(run(["check", name, budget], "", seconds, folder)[0].split()[2])


def resume(name: str, replies: Iterable[str], budget: Optional[int] = None, seconds: Optional[float] = None, folder: Optional[str] = None) -> List[str]:
    """Returns the lines of the game that the winner plays by the file against these replies."""
    return run(["resume", name, budget], _lines(replies), seconds, folder)


def migrate(old: str, new: str, seconds: Optional[float] = None, folder: Optional[str] = None) -> None:
    """Keeps the strategy of the file `old` in the newest version under the name `new`. What `keep` leaves as it is, this does too."""
    _spare(new, folder)
    run(["migrate", old, new], "", seconds, folder)


def show(position: Given, seconds: Optional[float] = None) -> Shown:
    """Returns the position as the program read it; raises NotSound if it is not sound."""
    lines = run(["show"], Position.of(position).to_text(), seconds)
    at = lines.index("end")
    text = "".join(f"{it}\n" for it in lines[: at + 1])
    return Shown(Position.of_text(text), lines[at + 1] == "check yes", int(lines[at + 2].split()[1]))


def drill(seed: int, count: int, seconds: Optional[float] = None) -> int:
    """Returns how many of the positions that are drawn from the seed have a mate in one."""
    return int(run(["drill", seed, count], "", seconds)[0].split()[0])


def arith(formula: str, budget: Optional[int] = None, seconds: Optional[float] = None) -> Truth:
    """Returns whether a formula over the integers is true, and a number if it says that there is one."""
    line = run(["arith", budget], formula.rstrip("\n") + "\n", seconds)[0]
    found = re.search(r"witness (-?\d+)$", line)
    return Truth(line.startswith("true"), int(found[1]) if found else None, line)


def _lines(lines: Iterable[str]) -> str:
    return "".join(f"{it}\n" for it in lines)


def _ray(line: str) -> Ray:
    _, man, _, dx, dy, _, distance, count = line.split()
    return Ray(int(man), (int(dx), int(dy)), None if distance == "wide" else int(distance), count == "more")


DESCRIBED = re.compile(r"man (\d+) step (-?\d+) (-?\d+)(?: runs (\S+) from (\d+) every (\d+) rests (\S+))?.*")


def _distances(line: str) -> Distances:
    man, dx, dy, runs, start, every, rests = DESCRIBED.fullmatch(line).groups()
    listed = lambda word: [] if word in (None, "none") else word.split(",")
    pairs = tuple(tuple(int(it) for it in run.split("-")) for run in listed(runs))
    number = lambda word: None if word is None else int(word)
    return Distances(int(man), (int(dx), int(dy)), pairs, number(start), number(every), tuple(int(it) for it in listed(rests)), line)


def _spare(name: str, folder: Optional[str]) -> None:
    """Raises FolderFailed if the file of this name, or the one by which it is made, is no strategy file."""
    for it in (name, f"{name}.new"):
        path = os.path.join(folder or ".", it)
        if "/" in name or not os.path.lexists(path):
            continue
        begins = b"?"
        if os.path.isfile(path):
            with open(path, "rb") as file:
                begins = file.read(4)
        # The other file may have been left, cut, by a run that was ended.
        if begins != b"ICSF" and not (it != name and b"ICSF".startswith(begins)):
            raise FolderFailed(f"{it} is no strategy file, so it is not replaced")
