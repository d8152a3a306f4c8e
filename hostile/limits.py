#!/usr/bin/env python3
"""usage: limits.py [PROGRAM] [PART ..]

Runs the program `mate` at the limits of a machine, and prints how each run ends. The parts are

  memory   `decide 20` on five men with a limited address space: it must end with a code, not be killed
  slow     the input comes byte by byte, or in pieces between which the process is stopped; a slow reader of the output
  closed   the output is closed before or after its first byte, or full; the input is closed, or a folder
  store    the files of the folder cannot be opened, written, synced or renamed
  signals  `keep` and `migrate` are ended by SIGTERM and SIGKILL at many moments, and before each of their file calls: the old file or the new one
           must be complete, with at most NAME.new next to it; and commands that keep no file, which must leave the folder as it was

PROGRAM is by default ../crates/mate_main/out/mate_main. The exit code is 0 if each run ended as it must, otherwise 1.
"""
import os
import pathlib
import random
import resource
import signal
import subprocess
import sys
import tempfile
import time

HERE = pathlib.Path(__file__).resolve().parent
BUILT = HERE.parent / "crates/mate_main/out/mate_main"
HEAD = b"infinite chess 1\n"
LADDER = HEAD + b"turn W\nW K 0 -2\nW R 10 1\nW R 5 7\nB K 0 0\nend\n"
MATED = HEAD + b"turn B\nW K 0 -2\nW R 10 0\nW R 10 1\nB K 0 0\nend\n"
BLACK_FIRST = HEAD + b"turn B\nW K 0 -2\nW R 10 1\nW R 2 7\nB K 1 0\nend\n"
CROWD = LADDER.replace(b"chess", b"crowd")
GAME = BLACK_FIRST + b"4 2 0\n4 0 0\n"
# The rook mates on 5 0 alone, seven squares down.
DESCRIBED = b"man 3 step 0 -1 runs 7-7 from 8 every 1 rests none\nend\n"
DEFENCE = HEAD + b"turn W\nW K 0 0\nB K 10 0\nend\n1 5 5\n1 1 0\n"
PLAYED = b"illegal\nwhite 3 2 0\nmate\n"
FIVE_MEN = HEAD + b"turn W\nW K 50 50\nW Q 5 1\nW R 5 7\nB R -9 -1\nB K 0 0\nend\n"
MEGABYTE = 1 << 20


class Trials:
    def __init__(self, program, folder):
        self.program, self.folder, self.count, self.wrong = program, folder, 0, 0

    def room(self):
        """A new working folder."""
        return pathlib.Path(tempfile.mkdtemp(dir=self.folder))

    def run(self, words, text=b"", room=None, **more):
        """The output, the code (below 0 where a signal ended the process) and the seconds."""
        begun = time.time()
        ended = subprocess.run([self.program, *words.split()], input=text, stdout=subprocess.PIPE, cwd=room or self.room(), timeout=900, **more)
        return ended.stdout, ended.returncode, time.time() - begun

    def tell(self, what, end, is_right):
        self.count += 1
        if not is_right:
            self.wrong += 1
        print(f"{'' if is_right else 'WRONG '}{what}: {end}", flush=True)

    def want(self, what, end, wanted):
        self.tell(what, end, end == wanted)


def memory(trials):
    for megabytes in (500, 100, 20):
        for budget in ("", " 200000"):
            size = megabytes * MEGABYTE
            limit = lambda: resource.setrlimit(resource.RLIMIT_AS, (size, size))
            output, code, seconds = trials.run(f"decide 20{budget}", FIVE_MEN, preexec_fn=limit)
            line, named = output.decode(), {0: ("mate in", "no mate in"), 8: ("over budget at ",), 10: ("memory",)}
            right = code in named and line.startswith(named[code]) and line.count("\n") == 1
            trials.tell(f"decide 20{budget}, {megabytes} MB", f"code {code}, {line.strip()}, {seconds:.1f} s", right)


def piped(trials, words, **more):
    return subprocess.Popen([trials.program, *words.split()], cwd=trials.room(), stdin=subprocess.PIPE, stdout=subprocess.PIPE, **more)


def slow(trials):
    shown = LADDER + b"check no\nlive 4\n"
    for words, text, wanted in [("show", LADDER, shown), ("decide 1", LADDER, b"mate in 1\n"), ("describe 1", LADDER, DESCRIBED), ("play 1", GAME, PLAYED), ("defend 1", DEFENCE, b"illegal\nheld\n"), ("crowd 1", CROWD, b"mate in 1\n")]:
        process = piped(trials, words)
        for at in range(len(text)):
            process.stdin.write(text[at:at + 1])
            process.stdin.flush()
            time.sleep(0.002)
        output, _ = process.communicate()
        trials.want(f"{words}, byte by byte", (output, process.returncode), (wanted, 0))
    process = piped(trials, "play 1")
    for at in range(0, len(GAME), 5):
        process.send_signal(signal.SIGSTOP)
        process.stdin.write(GAME[at:at + 5])
        process.stdin.flush()
        process.send_signal(signal.SIGCONT)
        time.sleep(0.01)
    output, _ = process.communicate()
    trials.want("play 1, stopped and continued while it reads", (output, process.returncode), (PLAYED, 0))
    process = piped(trials, "play 1")
    process.stdin.write(BLACK_FIRST)
    heard = []
    for reply in (b"x\n", b"4 2 0\n", b"4 0 0\n"):
        process.stdin.write(reply)
        process.stdin.flush()
        heard.append(process.stdout.readline())
    process.stdin.close()
    rest = process.stdout.read()
    process.wait()
    trials.want("play 1, each reply behind the answer to the one before", (heard, rest, process.returncode), ([b"unreadable\n", b"illegal\n", b"white 3 2 0\n"], b"mate\n", 0))
    # A pipe holds 64 KiB, and this output has 110000 bytes: the writes wait for the reader.
    with tempfile.TemporaryFile() as given:
        given.write(BLACK_FIRST + b"x\n" * 10000)
        given.seek(0)
        process = subprocess.Popen([trials.program, "play", "1"], cwd=trials.room(), stdin=given, stdout=subprocess.PIPE)
        time.sleep(1)
        output = b""
        while piece := process.stdout.read(1000):
            output += piece
            time.sleep(0.002)
        trials.want("play 1, 110000 bytes to a slow reader", (output == b"unreadable\n" * 10000 + b"too many lines\n", process.wait()), (True, 13))


def without_reader(trials, words, text):
    """The code where nobody reads the output."""
    reader, writer = os.pipe()
    os.close(reader)
    ended = subprocess.run([trials.program, *words.split()], input=text, stdout=writer, cwd=trials.room())
    os.close(writer)
    return ended.returncode


def closed(trials):
    for words, text, wanted in [
        ("show", LADDER, 6), ("decide 1", LADDER, 6), ("least 1", LADDER, 6), ("first 1", LADDER, 6), ("describe 1", LADDER, 6), ("play 1", LADDER, 6), ("defend 1", LADDER, 6), ("defend 1", DEFENCE, 6), ("crowd 1", CROWD, 6), ("keep 1 a", LADDER, 6),
        ("drill 7 0", b"", 6), ("decide 21", b"", 2), ("show", b"", 3), ("decide 1 1", LADDER, 8), ("check a", b"", 11), ("migrate a b", b"", 11),
        ("describe 1 1", LADDER, 8), ("crowd 1 1", CROWD, 8), ("crowd 1", LADDER, 3), ("play 1", BLACK_FIRST, 12),
    ]:
        trials.want(f"{words}, nobody reads the output", without_reader(trials, words, text), wanted)
        with open("/dev/full", "wb") as full:
            ended = subprocess.run([trials.program, *words.split()], input=text, stdout=full, cwd=trials.room())
            trials.want(f"{words}, the output is full", ended.returncode, wanted)
        ended = subprocess.run([trials.program, *words.split()], input=text, cwd=trials.room(), preexec_fn=lambda: os.close(1))
        trials.want(f"{words}, the output is closed", ended.returncode, wanted)
    process = piped(trials, "play 1")
    process.stdin.write(BLACK_FIRST + b"4 2 0\n")
    process.stdin.flush()
    first = process.stdout.read(1)
    process.stdout.close()
    try:
        process.stdin.write(b"x\n")
        process.stdin.close()
    except BrokenPipeError:
        pass
    trials.want("play 1, closed behind the first byte", (first, process.wait()), (b"i", 6))
    room, _ = with_old(trials)
    with open("/dev/full", "wb") as full:
        ended = subprocess.run([trials.program, "migrate", "b", "a"], stdout=full, cwd=room)
    trials.want("migrate b a, the output is full", (ended.returncode, (room / "a").read_bytes() == (room / "b").read_bytes()), (6, True))
    for words in ("show", "decide 1", "describe 1", "keep 1 a", "play 1", "defend 1", "crowd 1"):
        ended = subprocess.run([trials.program, *words.split()], stdout=subprocess.PIPE, cwd=trials.room(), preexec_fn=lambda: os.close(0))
        trials.want(f"{words}, the input is closed", (ended.stdout, ended.returncode), (b"read fault\n", 5))
        folder = os.open("/", os.O_RDONLY)
        ended = subprocess.run([trials.program, *words.split()], stdin=folder, stdout=subprocess.PIPE, cwd=trials.room())
        os.close(folder)
        trials.want(f"{words}, the input is a folder", (ended.stdout, ended.returncode), (b"read fault\n", 5))


# What makes the new file a: from the position, or from the file b.
MAKERS = [("keep 1 a", LADDER), ("migrate b a", b"")]


def with_old(trials):
    """A folder that has an old file a, and its bytes, and a file b."""
    room = trials.room()
    trials.run("keep 0 a", MATED, room)
    trials.run("keep 1 b", LADDER, room)
    return room, (room / "a").read_bytes()


def store(trials):
    shelf = (b"shelf fault\n", 7)
    for what, prepare in [
        ("a.new is a folder", lambda room: (room / "a.new").mkdir()),
        ("a.new takes no byte", lambda room: (room / "a.new").symlink_to("/dev/full")),
        ("a.new cannot be synced", lambda room: (room / "a.new").symlink_to("/dev/null")),
        ("a.new leads nowhere", lambda room: (room / "a.new").symlink_to("no/where")),
    ]:
        for words, text in MAKERS:
            room, old = with_old(trials)
            prepare(room)
            trials.want(f"{words}, {what}", (trials.run(words, text, room)[:2], (room / "a").read_bytes() == old), (shelf, True))
    for words, text in [("keep 1 a", LADDER), ("check a", b""), ("resume a", b""), ("migrate a a", b""), ("migrate a b", b"")]:
        room = trials.room()
        (room / "a").mkdir()
        (room / "a" / "b").write_bytes(b"")
        end = trials.run(words, text, room)[:2]
        trials.want(f"{words}, a is a folder", (end, sorted(it.name for it in room.iterdir())), (shelf, ["a"]))
    for words in ("check a", "resume a", "migrate a b"):
        room = trials.room()
        (room / "a").symlink_to("a")
        trials.want(f"{words}, a is a link to itself", trials.run(words, b"", room)[:2], shelf)
        room = trials.room()
        (room / "a").symlink_to("/dev/zero")
        limit = lambda: resource.setrlimit(resource.RLIMIT_AS, (2000 * MEGABYTE, 2000 * MEGABYTE))
        trials.want(f"{words}, a has no end", trials.run(words, b"", room, preexec_fn=limit)[:2], (b"file too long\n", 11))
        limit = lambda: resource.setrlimit(resource.RLIMIT_AS, (100 * MEGABYTE, 100 * MEGABYTE))
        trials.want(f"{words}, a has no end, 100 MB", trials.run(words, b"", room, preexec_fn=limit)[:2], (b"memory\n", 10))
    at_file_limit(trials)


def at_file_limit(trials):
    """A file may have 512 bytes, and what is to be kept has 545. The system ends a process that goes on, if it does not ignore the signal for it."""
    limit = lambda: resource.setrlimit(resource.RLIMIT_FSIZE, (512, 512))
    for words, text in MAKERS:
        room, old = with_old(trials)
        end = trials.run(words, text, room, preexec_fn=limit, restore_signals=False)[:2]
        names = sorted(it.name for it in room.iterdir())
        trials.want(f"{words}, files of 512 bytes at most, SIGXFSZ ignored", (end, (room / "a").read_bytes() == old, names), ((b"shelf fault\n", 7), True, ["a", "b"]))
        room, old = with_old(trials)
        code = trials.run(words, text, room, preexec_fn=limit)[1]
        trials.want(f"{words}, the same, SIGXFSZ not ignored", (code, (room / "a").read_bytes() == old), (-signal.SIGXFSZ, True))


class Kept:
    """The old file and the new one, and whether a folder has one of them whole, beside b and at most a.new."""

    def __init__(self, trials):
        room, self.old = with_old(trials)
        self.new = (room / "b").read_bytes()

    def has(self, room):
        names = {it.name for it in room.iterdir()}
        if not {"a", "b"} <= names <= {"a", "a.new", "b"} or (room / "b").read_bytes() != self.new:
            return None
        return {self.old: "the old file", self.new: "the new file"}.get((room / "a").read_bytes())


# Commands that keep no file, and take some tenths of a second.
KEEPERS_OF_NONE = [("describe 2", LADDER), ("defend 1", DEFENCE), ("crowd 1", CROWD), ("crowd 2", CROWD)]


def signals(trials):
    kept = Kept(trials)
    for words, text in MAKERS:
        at_moments(trials, kept, random.Random(1), words, text)
        before_calls(trials, kept, words, text)
    for words, text in KEEPERS_OF_NONE:
        without_files(trials, random.Random(2), words, text)


def without_files(trials, draw, words, text):
    """Ends a run of a command that keeps no file: the folder is then as it was."""
    for number in (signal.SIGTERM, signal.SIGKILL):
        room, _ = with_old(trials)
        before, counts = {it.name: it.read_bytes() for it in room.iterdir()}, {}
        for _ in range(50):
            process = subprocess.Popen([trials.program, *words.split()], cwd=room, stdin=subprocess.PIPE, stdout=subprocess.PIPE)
            process.stdin.write(text)
            process.stdin.close()
            time.sleep(draw.uniform(0, 0.3))
            process.send_signal(number)
            output, code = process.stdout.read(), process.wait()
            process.stdout.close()
            counts[code] = counts.get(code, 0) + 1
            if code not in (0, -number) or {it.name: it.read_bytes() for it in room.iterdir()} != before:
                trials.tell(f"{words}, {number.name}", (code, output), False)
        trials.tell(f"{words}, {number.name} at 50 moments", ", ".join(f"code {code}: {count}" for code, count in sorted(counts.items())), True)


def at_moments(trials, kept, draw, words, text):
    room, _ = with_old(trials)
    begun = time.time()
    trials.run(words, text, room)
    whole = time.time() - begun
    for number in (signal.SIGTERM, signal.SIGKILL):
        counts = {}
        for turn in range(200):
            room, _ = with_old(trials)
            process = subprocess.Popen([trials.program, *words.split()], cwd=room, stdin=subprocess.PIPE, stdout=subprocess.PIPE)
            process.stdin.write(text)
            process.stdin.close()
            # Half of the moments are near the end, where the file is written.
            time.sleep(whole * (draw.uniform(0, 1.1) if turn % 2 else draw.uniform(0.8, 1.05)))
            process.send_signal(number)
            code = process.wait()
            process.stdout.close()
            beside = " and a.new" if (room / "a.new").exists() else ""
            end = f"{kept.has(room)}{beside}, {'done' if code == 0 else 'ended'}"
            counts[end] = counts.get(end, 0) + 1
            if kept.has(room) is None or code not in (0, -number):
                trials.tell(f"{words}, {number.name}", f"{code}, {end}", False)
        trials.tell(f"{words}, {number.name} at 200 moments", ", ".join(f"{end}: {count}" for end, count in sorted(counts.items())), True)


def before_calls(trials, kept, words, text):
    library = trials.folder / "limits.so"
    subprocess.run(["cc", "-O2", "-shared", "-fPIC", "-o", library, HERE / "limits.c", "-ldl"], check=True)
    for number in (signal.SIGTERM, signal.SIGKILL):
        for half in (0, 1):
            for at in range(1, 10):
                room, _ = with_old(trials)
                more = {"LD_PRELOAD": str(library), "KILL_AT": str(at), "KILL_SIGNAL": str(int(number)), "KILL_HALF": str(half)}
                _, code, _ = trials.run(words, text, room, env={**os.environ, **more})
                beside = f" and a.new of {(room / 'a.new').stat().st_size} bytes" if (room / "a.new").exists() else ""
                what = f"{words}, {number.name} before file call {at}{', half written' if half else ''}"
                trials.tell(what, f"code {code}, {kept.has(room)}{beside}", kept.has(room) is not None and code in (0, -number))
                # What is left does not stand in the way of the next run.
                trials.want("  and kept again", (trials.run("keep 1 a", LADDER, room)[:2], sorted(it.name for it in room.iterdir())), ((b"mate in 1\n", 0), ["a", "b"]))


PARTS = {"memory": memory, "slow": slow, "closed": closed, "store": store, "signals": signals}


def main(words):
    if any(word.startswith("-") for word in words):
        print(__doc__, end="", file=sys.stderr)
        return 2
    program = pathlib.Path(words[0] if words else BUILT).resolve()
    with tempfile.TemporaryDirectory() as folder:
        trials = Trials(program, pathlib.Path(folder))
        for part in words[1:] or PARTS:
            begun = time.time()
            print(f"-- {part}")
            PARTS[part](trials)
            print(f"-- {part}: {time.time() - begun:.0f} s", flush=True)
    print(f"{trials.count} runs told, {trials.wrong} wrong")
    return 1 if trials.wrong else 0


if __name__ == "__main__":
    sys.exit(main(sys.argv[1:]))
