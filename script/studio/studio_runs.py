"""Runs of the program: at most as many at a time as there are processors, and each ends with the page that asked, or by its time limit."""
import ctypes
import os
import secrets
import select
import signal
import subprocess
import threading
import time

# The seconds between two signs of life, and between two looks at who waits for the answer.
BEAT = 0.5
# The most bytes that a run may write: the longest answers have some ten thousand.
MOST_OUTPUT = 4 << 20
LIBRARY = ctypes.CDLL(None)
PAGE = os.sysconf("SC_PAGE_SIZE")


class Busy(Exception):
    """As many programs run as there are processors."""


class Stopped(Exception):
    """A run was ended: why, `time`, `page` or `output`."""


def end_with_server():
    """Has the system end the program when the server ends, however that ends."""
    LIBRARY.prctl(1, signal.SIGKILL)


class Runs:
    """The program, the folder that it works in, and its runs."""

    def __init__(self, program, folder):
        self.program, self.folder = program, folder
        # A game waits for the user most of its time, so a machine of one processor has a second place.
        self.most = max(2, len(os.sched_getaffinity(0)))
        self.places = threading.BoundedSemaphore(self.most)
        self.live = {}

    def take_place(self, seconds=0):
        """Takes the place of a run, for which it waits so long."""
        if not self.places.acquire(timeout=seconds) if seconds else not self.places.acquire(blocking=False):
            raise Busy

    def give_place(self):
        self.places.release()

    def end_all(self):
        for it in list(self.live.values()):
            it.end()


class Run:
    """A run of the program on a text, which ends with its block. The place is the caller's. With is_live, lines are handed to it while it runs."""

    def __init__(self, runs, words, text, seconds, is_live=False, folder=None):
        self.runs, self.words, self.text, self.seconds = runs, words, text, seconds
        self.name, self.begun, self.told = secrets.token_hex(8), time.monotonic(), b""
        self.until, self.is_live = self.begun + seconds, is_live
        how = {"stdin": subprocess.PIPE, "stdout": subprocess.PIPE, "stderr": subprocess.DEVNULL, "cwd": folder or runs.folder}
        self.process = subprocess.Popen([runs.program, *words], start_new_session=True, preexec_fn=end_with_server, **how)
        self.runs.live[self.name] = self
        self.give(text)
        if not is_live:
            self.close_input()

    def give(self, data):
        """Hands bytes to the program, and lets its time limit begin again."""
        self.until = time.monotonic() + self.seconds
        try:
            self.process.stdin.write(data)
            self.process.stdin.flush()
        except (BrokenPipeError, ValueError):
            pass

    def say(self, line):
        self.text += line
        self.give(line)

    def close_input(self):
        try:
            self.process.stdin.close()
        except BrokenPipeError:
            pass

    def end(self):
        self.process.kill()
        self.process.wait()

    def __enter__(self):
        return self

    def __exit__(self, *_):
        self.runs.live.pop(self.name, None)
        self.end()
        self.process.stdout.close()
        self.close_input()

    def memory(self):
        """Returns how many megabytes of memory the program has now."""
        try:
            with open(f"/proc/{self.process.pid}/statm", encoding="ascii") as it:
                return int(it.read().split()[1]) * PAGE / 1e6
        except (OSError, IndexError):
            return 0

    def events(self, connection):
        """Yields the lines that the program writes, as bytes, and between them signs of life, as the seconds gone, until the program has ended."""
        output, rest, beat = self.process.stdout, b"", self.begun
        while True:
            ready = select.select([output, connection], [], [], BEAT)[0]
            now = time.monotonic()
            # Nothing more is due from the page, so whatever comes is its end.
            if connection in ready:
                raise Stopped("page")
            if now > self.until:
                raise Stopped("time")
            if output in ready:
                data = os.read(output.fileno(), 1 << 16)
                if not data:
                    break
                self.told += data
                if len(self.told) > MOST_OUTPUT:
                    raise Stopped("output")
                *lines, rest = (rest + data).split(b"\n")
                yield from lines
            if now - beat >= BEAT:
                beat = now
                yield now - self.begun
        self.process.wait()

    def finish(self, connection):
        """Returns the code of the run and what it wrote."""
        with self:
            for _ in self.events(connection):
                pass
            return self.process.returncode, self.told.decode("utf-8", "replace")
