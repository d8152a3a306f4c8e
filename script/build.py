#!/usr/bin/env python3
"""usage: script/build.py MATE [WORD..]   |   script/build.py version

Called by ./mate. Makes sure that there is a program of the sources as they are, and becomes MATE with these words, in the same process. `cost` and
`unproved` may come before the others. If the variable MATE_PROGRAM is `unproved`, the program is one that is built without its proofs, by `rt try`;
if it is a path, it is the program there, which must have a stamp of these sources and of this kit next to it.

A program is of these sources if their bytes have the same sums as those that it was built from, whatever their times are. If it is not, the
crates that it depends on are proved and built as the gate does it: `rt ci` runs in a room, a folder with the sources of these crates alone and
without their must-fail edits. So each library is built with the statements of its proofs in place of the proofs, and rt keeps each crate as soon
as it is proved: a build that was interrupted goes on from there, and neither a later build nor the gate proves a kept crate again.

The builder is a separate process, in a session of its own, and ends what it started when the process that ./mate became ends, however that ends.
"""
import contextlib
import os
import re
import shutil
import signal
import subprocess
import sys
import threading
import time

from forecast import Forecast
from processes import end_process, in_builder, pause, started
from room import ROOM, clear, furnish, hold
from sources import BUILT, MAIN, PROGRAM, TOP, Ended, check_elsewhere, check_kit, end, is_built, kit_in_path, note, now, say, sources_of, stamp_of, tell_end_of, text_of
from unproved import UNPROVED, build_unproved, is_unproved_built
from words import refuse

# Seconds between two lines that say how far a build is.
BETWEEN = 60
# What rt ci says of a crate that is done.
DONE = re.compile(r"^rt: (\w+) (proved|is kept)\b")


class Build:
    """A build: the crates that the program depends on, which of them are done, and which rt had kept."""

    def __init__(self, sources):
        self.sources, self.crates = sources, sources.below(MAIN)
        self.forecast = Forecast({it: sources.below(it)[:-1] for it in self.crates}, len(os.sched_getaffinity(0)))
        self.done, self.kept = set(), set()
        self.started = self.told = time.monotonic()

    def read(self, lines, log):
        """Follows what rt ci prints, and copies it to the log."""
        for line in lines:
            log.write(line)
            log.flush()
            found = DONE.match(line)
            if found and found[1] in self.crates:
                self.done.add(found[1])
                if found[2] == "is kept":
                    self.kept.add(found[1])

    def tell(self):
        elapsed = time.monotonic() - self.started
        left = self.forecast.left(self.done, self.kept, elapsed)
        when = "" if left is None else f", about {minutes(left)} to go, until {time.strftime('%H:%M', time.localtime(time.time() + left))}"
        say(f"{len(self.done)} of {len(self.crates)} crates proved after {minutes(elapsed)}{when}")

    def run(self):
        """Proves and builds all. It stops if the reader of its lines is gone."""
        seen = now()
        say(f"building the program first, with its proofs: {len(self.crates)} crates, {minutes(self.forecast.whole())} of work for {self.forecast.processors} processors if none is kept")
        say("./mate unproved COMMAND.. takes two or three minutes, and is not proved")
        furnish(self.sources, self.crates)
        at = f"{ROOM}/log"
        with open(at, "w", encoding="utf-8") as log:
            proving = started(["rt", "ci"], cwd=ROOM, stdout=subprocess.PIPE, stderr=subprocess.STDOUT, text=True, errors="replace")
            reader = threading.Thread(target=self.read, args=(proving.stdout, log), daemon=True)
            reader.start()
            try:
                while proving.poll() is None:
                    if time.monotonic() - self.told >= BETWEEN:
                        self.told = time.monotonic()
                        self.tell()
                    pause(0.3)
                reader.join()
            finally:
                end_process(proving)
        if proving.returncode:
            kept = f"{TOP}/out/build.log"
            shutil.move(at, kept)
            tell_end_of(kept)
            end("the program was not built; the lines above are from out/build.log")
        self.take(seen)

    def take(self, seen):
        """Moves the program from the room to its place, and notes what it was built from: what the room has, since a file can be changed meanwhile."""
        lines = sources_of(ROOM).all_lines(MAIN)
        os.makedirs(os.path.dirname(PROGRAM), exist_ok=True)
        os.replace(f"{ROOM}/crates/{MAIN}/out/{MAIN}", PROGRAM)
        seen_at_end = now()
        note(check_kit(), lines, seen_at_end if sources_of(TOP).all_lines(MAIN) == lines else seen)
        say(f"built with its proofs in {minutes(time.monotonic() - self.started)}")


def minutes(seconds):
    return f"{round(seconds)} s" if seconds < 90 else f"{round(seconds / 60)} min"


def build():
    sources = sources_of(TOP)
    hold(sources.below(MAIN))
    # What a build has left that was killed.
    clear()
    try:
        Build(sources).run()
    finally:
        clear()


def become(mate, words):
    """Becomes ./mate, which runs the program."""
    os.environ["MATE_BUILT"] = str(os.getpid())
    kept = os.environ.pop("MATE_INPUT", None)
    if kept:
        os.dup2(int(kept), 0)
        os.close(int(kept))
    for it in (signal.SIGPIPE, signal.SIGXFSZ):
        signal.signal(it, signal.SIG_DFL)
    os.execv(mate, [mate, *words])


def see_to_proved(words):
    """Returns whether there is a program of these sources, or one could be built."""
    if os.path.isfile(PROGRAM) and is_still_built():
        return True
    refuse(words)
    check_kit()
    return in_builder(build)


def is_still_built():
    """Returns whether the program that is there was built from these sources, and writes down that it was found so now."""
    seen = None
    # Where nothing can be written, each run compares the sums.
    with contextlib.suppress(OSError):
        seen = now()
    lines = sources_of(TOP).all_lines(MAIN)
    if not is_built(lines):
        return False
    if seen is not None:
        with contextlib.suppress(OSError):
            note(text_of(BUILT).partition("\n")[0], lines, seen)
    return True


def see_to_unproved(words):
    """Returns whether there is a program without proofs of these sources, or one could be built."""
    refuse(words)
    if is_unproved_built(kit_in_path(), sources_of(TOP)):
        say("this run is not proved")
        return True
    kit = check_kit()
    say("this run is not proved: its program is now built without proofs, which takes two or three minutes; later runs start at once")
    return in_builder(lambda: build_unproved(kit))


def see_to_elsewhere(words, path):
    """Returns whether the program of this path, which was built elsewhere, may be run as one of these sources."""
    refuse(words)
    if not check_elsewhere(path):
        say("this run is not proved")
    return True


def number_of_version():
    """Returns the number of the version, which is that of the first heading of CHANGELOG."""
    heads = [it.split()[1] for it in text_of(f"{TOP}/CHANGELOG.md").splitlines() if it.startswith("## ")]
    return heads[0] if heads else "unknown"


def state_of(stamp, how, makes):
    """Returns what is known of a program of this stamp: whether it was built from these sources."""
    kit, *lines = stamp.splitlines() or [""]
    if lines == sources_of(TOP).all_lines(MAIN):
        return f"built {how} from these sources, by {kit}"
    return f"built from other sources; {makes}"


def version():
    """Prints the number of the version, the commit, the kit, and which programs are there and whether they were built from these sources."""
    signal.signal(signal.SIGPIPE, signal.SIG_DFL)
    git = lambda *words: subprocess.run(["git", "-C", TOP, *words], stdin=subprocess.DEVNULL, capture_output=True, text=True).stdout.strip()
    commit = git("log", "-1", "--format=%h of %cs") if shutil.which("git") and git("rev-parse", "--show-toplevel") == TOP else ""
    changes = ", with changes since" if commit and git("status", "--porcelain", "--untracked-files=no") else ""
    lines = [f"mate: version {number_of_version()}, " + (f"commit {commit}{changes}" if commit else "of no commit that is known here")]
    lines.append(f"kit: {kit_in_path() or 'there is no rt in PATH'}")
    if os.path.isfile(PROGRAM):
        lines.append("program: " + state_of(text_of(BUILT), "with its proofs", "the next command that needs it builds it again, with its proofs"))
    else:
        lines.append("program: not built yet; the first command that needs it builds it, with its proofs")
    if os.path.isfile(f"{UNPROVED}/mate"):
        lines.append("unproved program: " + state_of(stamp_of(f"{UNPROVED}/mate")[0], "without proofs", "the next `unproved` builds it again"))
    asked = os.environ.get("MATE_PROGRAM")
    if asked and asked != "unproved":
        stamp, is_proved = stamp_of(asked)
        state = state_of(stamp, "with its proofs" if is_proved else "without proofs", "it is refused") if stamp else "no stamp beside it; it is refused"
        lines.append(f"program of MATE_PROGRAM: {state}")
    try:
        os.write(1, "".join(f"{it}\n" for it in lines).encode())
    except OSError:
        # Standard output is closed.
        return 6
    return 0


def main(words):
    if words == ["version"]:
        return version()
    mate, *words = words
    try:
        rest = words
        while rest[:1] in (["unproved"], ["cost"]):
            rest = rest[1:]
        asked = os.environ.get("MATE_PROGRAM", "")
        if not asked:
            is_there = see_to_proved(rest)
        else:
            is_there = see_to_unproved(rest) if asked == "unproved" else see_to_elsewhere(rest, asked)
    except Ended:
        return 1
    if not is_there:
        return 1
    become(mate, words)


if __name__ == "__main__":
    sys.exit(main(sys.argv[1:]))
