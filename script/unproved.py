"""A program without proofs, made by way of `rt try`."""
import contextlib
import os
import shutil
import subprocess
import tempfile
import time

from processes import end_process, pause, started
from sources import MAIN, TOP, UNPROVED_STAMP, end, note, now, say, sources_of, tell_end_of, text_of

UNPROVED = f"{TOP}/out/unproved"
UNPROVED_SUMS, UNPROVED_WATCHED = f"{UNPROVED}/{UNPROVED_STAMP}", f"{UNPROVED}/watched"


def module_in(folder):
    """Returns the module of the whole program, where rt try has written it below the folder and makes something of it, or None."""
    for at, _, names in os.walk(folder):
        if "module.bc" in names and len(names) > 1 and os.path.getsize(f"{at}/module.bc") > 1 << 20:
            return f"{at}/module.bc"
    return None


def is_unproved_built(kit, sources):
    """Returns whether the program without proofs that is there is of these sources, and of this kit if one is known; writes down that it was found so now."""
    built_by, *lines = text_of(UNPROVED_SUMS).splitlines() or [""]
    if not os.access(f"{UNPROVED}/mate", os.X_OK) or kit and kit != built_by:
        return False
    # If nothing can be written, each run compares the sums.
    with contextlib.suppress(OSError):
        seen = now(UNPROVED_SUMS)
        if lines == sources.all_lines(MAIN):
            note(built_by, lines, seen, UNPROVED_SUMS, UNPROVED_WATCHED)
    return lines == sources.all_lines(MAIN)


class Progress:
    """Says how far the build is: its parts, with the share of the whole time that each took when it was measured."""

    PARTS = {"rt reads the sources and makes one module of them": 0.45, "clang makes machine code of the module": 0.54, "the program is linked": 0.01}
    BETWEEN = 15

    def __init__(self):
        self.started = self.told = time.monotonic()
        self.part = 0
        self.begun = self.started

    def begin(self, part):
        self.part, self.begun = part, time.monotonic()
        self.tell()

    def tick(self):
        if time.monotonic() - self.told >= self.BETWEEN:
            self.tell()

    def tell(self):
        self.told = now = time.monotonic()
        shares = list(self.PARTS.values())
        done, taken = sum(shares[: self.part]), self.begun - self.started
        left = taken / done * (1 - done) - (now - self.begun) if self.part else None
        about = f", about {max(left, 1):.0f} s to go" if left is not None else ""
        say(f"part {self.part + 1} of {len(shares)}, {list(self.PARTS)[self.part]}; {now - self.started:.0f} s so far{about}")


def try_until_module(folder, how, progress):
    """Has rt try make the module of the program, and keeps it in the folder. Returns whether there is one."""
    progress.begin(0)
    trying = started(["rt", "try", "--", "help"], cwd=f"{TOP}/crates/{MAIN}", **how)
    try:
        while trying.poll() is None:
            pause(0.5)
            progress.tick()
            module = module_in(folder)
            if module:
                os.link(module, f"{folder}/module")
                return True
        return False
    finally:
        end_process(trying)


def run(words, how, progress, part):
    """Runs a command to its end, and returns whether it did what it was to do."""
    progress.begin(part)
    process = started(words, **how)
    try:
        while process.poll() is None:
            pause(0.1)
            progress.tick()
        return process.returncode == 0
    finally:
        end_process(process)


def build_unproved(kit):
    """Makes a program of the module that `rt try` makes of the sources, with the checks that stand where proofs would stand."""
    seen, lines = now(UNPROVED_SUMS), [kit, *sources_of(TOP).all_lines(MAIN)]
    at = os.path.dirname(os.path.dirname(os.path.realpath(shutil.which("rt"))))
    os.makedirs(UNPROVED, exist_ok=True)
    with tempfile.TemporaryDirectory(prefix="mate-unproved-") as folder:
        compiling = [f"{at}/toolchain/bin/clang", "-x", "ir", "-O2", "-c", f"{folder}/module", "-o", f"{folder}/mate.o"]
        linking = [f"{at}/bin/rattle-link", "--target", "x86_64-unknown-linux-gnu", "--toolchain", f"{at}/toolchain", "-o", f"{folder}/mate"]
        linking += [f"{folder}/mate.o", f"{at}/c/libos_c.a", f"{at}/c/liblibc_c.a"]
        with open(f"{folder}/log", "wb") as log:
            how = {"stdout": log, "stderr": subprocess.STDOUT, "env": {**os.environ, "TMPDIR": folder}}
            progress = Progress()
            is_made = try_until_module(folder, how, progress) and run(compiling, how, progress, 1) and run(linking, how, progress, 2)
        if not is_made:
            tell_end_of(f"{folder}/log")
            end("rt try made no program of these sources; the lines above say why")
        os.replace(shutil.move(f"{folder}/mate", f"{UNPROVED}/mate.{os.getpid()}"), f"{UNPROVED}/mate")
    note(lines[0], lines[1:], seen, UNPROVED_SUMS, UNPROVED_WATCHED)
