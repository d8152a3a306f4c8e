"""Signs of life at a terminal: how long a run has taken so far, and how much memory it has. Nothing here looks at what a run computes."""
import os
import threading
import time

# The seconds after which a run shows that it works, and those between two such signs.
FIRST, BETWEEN = 3, 1
CLEAR = "\r\033[K"


def processes_below(pid):
    """Returns the processes that a process started, and those that these started, with it."""
    found = [pid]
    for at in found:
        try:
            for task in os.listdir(f"/proc/{at}/task"):
                with open(f"/proc/{at}/task/{task}/children", encoding="ascii") as it:
                    found += [int(child) for child in it.read().split()]
        except OSError:
            # It has ended.
            pass
    return found


def memory_of(pids):
    """Returns how many bytes of memory some processes have."""
    total = 0
    for pid in pids:
        try:
            with open(f"/proc/{pid}/statm", encoding="ascii") as it:
                total += int(it.read().split()[1]) * os.sysconf("SC_PAGE_SIZE")
        except (OSError, IndexError, ValueError):
            pass
    return total


def ticks_of(pids):
    """Returns how many ticks of processor time some processes have taken."""
    total = 0
    for pid in pids:
        try:
            with open(f"/proc/{pid}/stat", encoding="ascii", errors="replace") as it:
                fields = it.read().rpartition(")")[2].split()
            total += int(fields[11]) + int(fields[12])
        except (OSError, IndexError, ValueError):
            pass
    return total


def spelled(seconds):
    """Returns a time as it is read: 42 s, 3 min 05 s."""
    seconds = int(seconds)
    if seconds < 120:
        return f"{seconds} s"
    return f"{seconds // 60} min {seconds % 60:02d} s" if seconds < 3600 else f"{seconds // 3600} h {seconds % 3600 // 60:02d} min"


def sized(count):
    """Returns bytes as they are read: 45 MB, 1.2 GB."""
    return f"{count / 1e6:.0f} MB" if count < 1e9 else f"{count / 1e9:.1f} GB"


class Signs:
    """The line at the end of a terminal that is written again and again while a run works."""

    def __init__(self, pid):
        self.pid, self.since, self.ticks, self.is_shown = pid, time.monotonic(), 0, False

    def tick(self):
        """Shows the line, if the run has worked since the last time; one that waits for its input does not."""
        pids = processes_below(self.pid)
        ticks, before = ticks_of(pids), self.ticks
        self.ticks = ticks
        taken = time.monotonic() - self.since
        if taken >= FIRST and ticks > before:
            self.is_shown = True
            os.write(2, f"{CLEAR}mate: working for {spelled(taken)}, {sized(memory_of(pids))}".encode())

    def clear(self):
        """Takes the line away, before something else is written. The time of the next one begins here."""
        if self.is_shown:
            os.write(2, CLEAR.encode())
        self.is_shown, self.since = False, time.monotonic()


class Status:
    """What a script that asks the program many questions says of itself: at a terminal a line that is written again each second, elsewhere a line from
    time to time. `text` is called for what is said; the time and the memory of the programs that run are added to it."""

    # The seconds between two lines where there is no terminal.
    ELSEWHERE = 10

    def __init__(self, name, text):
        self.name, self.text = name, text
        self.started = self.told = time.monotonic()
        self.is_terminal, self.is_shown = os.isatty(2), False
        self.lock, self.ended = threading.Lock(), threading.Event()
        threading.Thread(target=self.work, daemon=True).start()

    def work(self):
        while not self.ended.wait(BETWEEN):
            with self.lock:
                self.tick()

    def tick(self):
        now = time.monotonic()
        if self.ended.is_set() or now - self.started < FIRST or not self.is_terminal and now - self.told < self.ELSEWHERE:
            return
        self.told = now
        below = [it for it in processes_below(os.getpid()) if it != os.getpid()]
        line = f"{self.name}: {self.text()}; {spelled(now - self.started)}, {sized(memory_of(below))}"
        if self.is_terminal:
            self.is_shown = True
            width = os.get_terminal_size(2).columns
            os.write(2, (CLEAR + (line if len(line) < width or width < 20 else line[: width - 3] + "..")).encode())
        else:
            os.write(2, f"{line}\n".encode())

    def clear(self):
        """Takes the line away, before something else is written."""
        with self.lock:
            if self.is_shown:
                os.write(2, CLEAR.encode())
            self.is_shown = False

    def end(self):
        self.ended.set()
        self.clear()
