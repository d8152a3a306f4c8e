#!/usr/bin/env python3
"""usage: script/watch.py [--cost] PROGRAM WORD..

Called by ./mate at a terminal. Runs the program and passes on what is read and what it writes as it comes. Standard error has how long the run has
taken so far, if that is more than three seconds, why a reply is refused, and after the last line what it means. Ends with the program's status.
What it says comes from explain/explain.py. With --cost the program is run by script/cost.sh.
"""
import os
import select
import signal
import stat
import subprocess
import sys

TOP = os.path.dirname(os.path.dirname(os.path.realpath(__file__)))
sys.path.insert(0, f"{TOP}/explain")
import explain  # noqa: E402
import life  # noqa: E402

# How much is read at a time: as much as the program itself may take behind its last line.
AT_ONCE = 256
# Of so many replies that are refused it is said why.
MOST_REFUSALS = 100
REFUSALS = (b"illegal\n", b"unreadable\n")
# Milliseconds without a word from either side, after which it is said what is waited for.
SILENCE = 300
POSED = [it for it in explain.SHAPES if it not in (*explain.GAMES, *explain.TEXTLESS)]
TYPED = {**dict.fromkeys(POSED, "a position, up to its line `end`"), "arith": "a formula, in one line", "crowd": "a crowd's text, up to its line `end`"}
REPLIES = "the loser's replies, a line each: the man's number and the square that he goes to, as 4 0 0, or quit"
MOVES = "the winner's moves, a line each: the man's number and the square that he goes to, as 3 5 0, or quit"
WRITE_FAILED = 6


def say(sentences):
    for it in sentences:
        os.write(2, f"mate: {it}\n".encode())


def is_live():
    """Returns whether standard input is typed or piped."""
    kind = os.fstat(0).st_mode
    return os.isatty(0) or stat.S_ISFIFO(kind) or stat.S_ISSOCK(kind)


def as_by_a_shell():
    """Undoes what Python does to signals, but that a file at the limit of its size is a write that fails."""
    signal.signal(signal.SIGPIPE, signal.SIG_DFL)
    signal.signal(signal.SIGXFSZ, signal.SIG_IGN)


class Run:
    """A run of the program: what it was given, where that can be known, and what it has written."""

    def __init__(self, command, words):
        self.words, self.is_live = words, is_live() and words[:1] not in [[it] for it in explain.TEXTLESS]
        self.given, self.file = bytearray() if self.is_live else explain.given(), explain.named()
        self.told, self.has_failed, self.refusals = b"", False, 0
        given = subprocess.PIPE if self.is_live else None
        how = {"stdin": given, "stdout": subprocess.PIPE, "restore_signals": False, "preexec_fn": as_by_a_shell}
        self.process = subprocess.Popen([*command, *words], **how)
        self.signs = life.Signs(self.process.pid)

    def sentences(self, code, told):
        return explain.sentences(code, told, self.words, self.text(), file=self.file)

    def text(self):
        return bytes(self.given) if self.is_live else self.given

    def take(self):
        """Hands on what was typed or piped, and returns whether more can come."""
        data = os.read(0, AT_ONCE)
        self.signs.clear()
        self.given += data
        try:
            os.write(self.process.stdin.fileno(), data)
        except BrokenPipeError:
            return False
        if not data:
            self.process.stdin.close()
        return bool(data)

    def hand_on(self):
        """Hands on what the program wrote, and returns whether more can come."""
        data = os.read(self.process.stdout.fileno(), 1 << 16)
        self.signs.clear()
        for line in data.splitlines(keepends=True):
            try:
                at = 0
                while at < len(line):
                    at += os.write(1, line[at:])
            except OSError:
                self.has_failed = True
                return False
            self.told += line
            if line in REFUSALS and self.refusals < MOST_REFUSALS:
                self.refusals += 1
                say(self.sentences(0, self.told.decode())[-1:])
        return bool(data)

    def invite(self):
        """Says what is waited for."""
        command = self.words[0] if self.words else None
        if command in explain.GAMES:
            has_text = command == "resume" or not os.isatty(0)
            awaited = MOVES if command == "defend" else REPLIES
            say([f"reading {awaited}" if has_text else f"reading a position up to its line `end`, then {awaited}"])
        elif command in TYPED and os.isatty(0):
            say([f"reading {TYPED[command]}"])

    def interrupted(self, number, _):
        """Takes the sign of life away, and ends as an interrupt ends a program."""
        self.signs.clear()
        signal.signal(number, signal.SIG_DFL)
        os.kill(os.getpid(), number)

    def go(self):
        """Runs the program to its end, and returns its status."""
        signal.signal(signal.SIGINT, self.interrupted)
        waiting, is_invited = select.poll(), False
        waiting.register(self.process.stdout, select.POLLIN)
        is_open = self.is_live
        if is_open:
            waiting.register(0, select.POLLIN)
        while True:
            ready = dict(waiting.poll(SILENCE if is_open and not is_invited else life.BETWEEN * 1000))
            if not ready and is_open and not is_invited:
                is_invited = True
                self.invite()
            elif not ready:
                self.signs.tick()
            if self.process.stdout.fileno() in ready and not self.hand_on():
                break
            if 0 in ready and not self.take():
                is_open = False
                waiting.unregister(0)
        self.process.stdout.close()
        code = self.process.wait()
        if self.has_failed and code == 0:
            code = WRITE_FAILED
        if code > 0:
            say(self.sentences(code, self.told.decode().splitlines()[-1] if self.told else ""))
        elif code == 0 and not self.refusals:
            say(explain.of_answer(self.told.decode(), self.words, self.text(), self.file))
        return code if code >= 0 else 128 - code


def main(words):
    costs = words[:1] == ["--cost"]
    program, *words = words[costs:]
    signal.signal(signal.SIGINT, signal.SIG_DFL)
    return Run(["sh", f"{TOP}/script/cost.sh", program] if costs else [program], words).go()


if __name__ == "__main__":
    sys.exit(main(sys.argv[1:]))
