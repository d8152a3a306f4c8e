#!/usr/bin/env python3
"""usage: script/seconds.py [--write] COMMAND..

Runs a command, as `rt ci --anew`, and measures the processor seconds of each rattle process that it starts. Prints a line for each crate:
its name, the seconds of its proof (for a program, with its two builds), and those of its must-fail edits. With --write the lines are written
to docs/seconds.tsv, from which script/build.py forecasts a build and docs/lines makes the table of docs/CRATES.md. Ends with the status of the command.

The processes are read from /proc twice a second, so each count may lack half a second.
"""
import collections
import os
import subprocess
import sys
import time

TOP = os.path.dirname(os.path.dirname(os.path.realpath(__file__)))
TABLE = f"{TOP}/docs/seconds.tsv"
HEAD = "# Processor seconds of a gate from nothing, on four processors of 2.5 GHz: crate, proof (of a program, with its two builds), mutants of must-fail/.\n"
TICKS = os.sysconf("SC_CLK_TCK")
BETWEEN = 0.5
Process = collections.namedtuple("Process", "parent started seconds")


def process_of(pid):
    """Returns the parent, the start and the processor seconds of a process, or None if it has ended."""
    try:
        with open(f"/proc/{pid}/stat") as it:
            fields = it.read().rpartition(")")[2].split()
    except OSError:
        return None
    return Process(int(fields[1]), fields[19], (int(fields[11]) + int(fields[12])) / TICKS)


def crate_of(pid):
    """Returns the crate that a rattle process works on and whether it tries an edit, or None for any other process."""
    try:
        with open(f"/proc/{pid}/cmdline", errors="replace") as it:
            words = it.read().split("\0")
        folder = os.readlink(f"/proc/{pid}/cwd")
    except OSError:
        return None
    if os.path.basename(words[0]) != "rattle" or "--crate-name" not in words:
        return None
    is_edit = any(it.startswith(("rt-edit", "rt-seed")) for it in folder.split("/")) or "seed" in words
    return words[words.index("--crate-name") + 1], is_edit


def sample(root, seen):
    """Notes the seconds of each rattle process below the process `root`."""
    found = {int(it): process_of(it) for it in os.listdir("/proc") if it.isdigit()}
    inside = {root}
    for pid in sorted(found):
        at, above = pid, []
        while at in found and found[at] and at not in inside and at > 1:
            above.append(at)
            at = found[at].parent
        if at in inside:
            inside.update(above)
    for pid in inside - {root}:
        crate = found.get(pid) and crate_of(pid)
        if crate:
            seen[pid, found[pid].started] = crate, found[pid].seconds


def measured(command):
    """Runs the command and returns its status and the seconds by crate and by whether it was an edit."""
    seen, sums = {}, collections.Counter()
    with subprocess.Popen(command) as running:
        while running.poll() is None:
            sample(running.pid, seen)
            time.sleep(BETWEEN)
    for crate, seconds in seen.values():
        sums[crate] += seconds
    return running.returncode, sums


def main(words):
    writes = words[:1] == ["--write"]
    command = words[writes:]
    if not command or command[0].startswith("-"):
        print(__doc__.partition("\n")[0], file=sys.stderr)
        return 2
    status, sums = measured(command)
    names = sorted({name for name, _ in sums})
    lines = [f"{name}\t{sums[name, False]:.0f}\t{sums[name, True]:.0f}\n" for name in names]
    sys.stdout.writelines([*lines, f"# in all {sum(sums.values()) / 60:.0f} processor minutes\n"])
    if writes:
        with open(TABLE, "w", encoding="utf-8") as it:
            it.writelines([HEAD, *lines])
    return status


if __name__ == "__main__":
    sys.exit(main(sys.argv[1:]))
