#!/usr/bin/env python3
"""usage: memory.py [PROGRAM] [--stride N] [--all-from] [COMMAND ..]

Runs commands of the program `mate` and lets each allocation in turn fail, or each N-th, and prints each number whose end is neither code 10 nor the
answer of the run without a failure. With --all-from all later allocations fail too. A run that ends with code 10 may print only `memory` (or
nothing, if there is no room for the arguments), and must leave the files of its folder as they were.

A run does not start again for each number: memory.c, which `cc` makes into a library for this, forks the process at the allocation and lets it fail
in the copy. PROGRAM is by default ../crates/mate_main/out/mate_main. The exit code is 0 if nothing was found, otherwise 1.
"""
import argparse
import os
import pathlib
import subprocess
import sys
import tempfile
import time

HERE = pathlib.Path(__file__).resolve().parent
BUILT = HERE.parent / "crates/mate_main/out/mate_main"
LADDER = (HERE.parent / "examples/ladder-in-one.txt").read_bytes()
BLACK_FIRST = b"infinite chess 1\nturn B\nW K 0 -2\nW R 10 1\nW R 2 7\nB K 1 0\nend\n"
MATED = b"infinite chess 1\nturn B\nW K 0 -2\nW R 10 0\nW R 10 1\nB K 0 0\nend\n"
CROWD = LADDER.replace(b"chess", b"crowd")
GAME = BLACK_FIRST + b"4 2 0\n4 0 0\n"
RUNNING = b"infinite chess 1\nturn W\nW K 0 0\nB K 10 0\nend\n1 1 0\n1 2 0\n"
KEPT = ("keep 1 a", LADDER)
# The name of each command, its words, its input, and what is run before it in the same folder.
COMMANDS = {
    "show": ("show", LADDER, []),
    "decide0": ("decide 0", LADDER, []),
    "decide-mated": ("decide 0", MATED, []),
    "play-mated": ("play 0", MATED, []),
    "keep-mated": ("keep 0 a", MATED, []),
    "check-mated": ("check a", b"", [("keep 0 a", MATED)]),
    "decide": ("decide 1", LADDER, []),
    "least": ("least 1", LADDER, []),
    "first": ("first 1", LADDER, []),
    "describe": ("describe 1", LADDER, []),
    "play": ("play 1", GAME, []),
    "defend-held": ("defend 0", LADDER, []),
    "defend": ("defend 2", RUNNING, []),
    "crowd0": ("crowd 0", CROWD, []),
    "crowd-mated": ("crowd 0", MATED.replace(b"chess", b"crowd"), []),
    "crowd": ("crowd 1", CROWD, []),
    "keep": ("keep 1 a", LADDER, []),
    "keep-again": ("keep 1 a", LADDER, [("keep 1 a", BLACK_FIRST)]),
    "check": ("check a", b"", [KEPT]),
    "resume": ("resume a", b"4 2 0\n4 0 0\n", [("keep 1 a", BLACK_FIRST)]),
    "migrate": ("migrate a b", b"", [KEPT]),
    "migrate-mated": ("migrate a a", b"", [("keep 0 a", MATED)]),
    "drill": ("drill 7 1", b"", []),
    "arith": ("arith", (HERE.parent / "examples/remainders.txt").read_bytes(), []),
    "arith-refused": ("arith", b"ex a le 1 1 b 0\n", []),
}
MEMORY = 10


def compiled(folder):
    library = folder / "memory.so"
    subprocess.run(["cc", "-O2", "-shared", "-fPIC", "-o", library, HERE / "memory.c"], check=True)
    return library


def run(program, words, text, folder, more=None):
    """The output and the code, where the input and the output are files."""
    with tempfile.TemporaryFile() as given, tempfile.TemporaryFile() as written:
        given.write(text)
        given.seek(0)
        code = subprocess.run([program, *words.split()], cwd=folder, stdin=given, stdout=written, env={**os.environ, **(more or {})}).returncode
        written.seek(0)
        return written.read(), code


def ended(status):
    """The code of a status that `wait` gives, or what ended the process."""
    return os.waitstatus_to_exitcode(status)


def faults(lines, answer):
    """The numbers whose ends are none of those that may come, and how many ends there were of each kind."""
    found, counts, told = [], {"memory": 0, "memory, words": 0, "the answer": 0}, False
    for line in lines:
        number, status, before, same, *written = line.split(" ")
        output, code = answer[0][: int(before)] + bytes.fromhex(written[0].strip()), ended(int(status))
        if code == MEMORY and output == b"memory\n" and same == "1":
            counts["memory"] += 1
            told = True
        elif code == MEMORY and output == b"" and same == "1" and not told:
            counts["memory, words"] += 1
        elif (output, code) == answer:
            counts["the answer"] += 1
        else:
            found.append(f"allocation {number}: code {code}, folder {'as it was' if same == '1' else 'changed'}, {output!r}")
    return found, counts


def trial(program, library, name, stride, all_from):
    words, text, earlier = COMMANDS[name]
    with tempfile.TemporaryDirectory() as top:
        folder, log = pathlib.Path(top, "files"), pathlib.Path(top, "log")
        for room in ("plain", "files"):
            pathlib.Path(top, room).mkdir()
            for each in earlier:
                run(program, *each, pathlib.Path(top, room))
        answer = run(program, words, text, pathlib.Path(top, "plain"))
        more = {"LD_PRELOAD": str(library), "FAIL_LOG": str(log), "FAIL_OUTPUT": f"{top}/output"}
        more |= {"FAIL_FIRST": "1", "FAIL_STRIDE": str(stride), "FAIL_ALL": "1" if all_from else "0"}
        begun = time.time()
        whole = run(program, words, text, folder, more)
        lines = log.read_text().splitlines()
        found, counts = faults(lines, answer)
    if whole != answer:
        found.append(f"the run in which none fails ends with {whole}, not with {answer}")
    ends = ", ".join(f"{what} {count}" for what, count in counts.items())
    print(f"{words}: {len(lines)} allocations failed{f', each {stride}th' if stride > 1 else ''}: {ends}; {time.time() - begun:.0f} s", flush=True)
    for each in found[:20]:
        print(f"  {each}")
    return len(found)


def main():
    parser = argparse.ArgumentParser(usage=__doc__)
    parser.add_argument("--stride", type=int, default=1)
    parser.add_argument("--all-from", action="store_true")
    parser.add_argument("program", nargs="?", default=BUILT)
    parser.add_argument("commands", nargs="*", choices=[*COMMANDS, []])
    given = parser.parse_intermixed_args()
    with tempfile.TemporaryDirectory() as folder:
        library = compiled(pathlib.Path(folder))
        program = pathlib.Path(given.program).resolve()
        wrong = sum(trial(program, library, name, given.stride, given.all_from) for name in given.commands or COMMANDS)
    print(f"{wrong} wrong ends")
    return 1 if wrong else 0


if __name__ == "__main__":
    sys.exit(main())
