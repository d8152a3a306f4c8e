"""Runs of the program that a script has side by side, all of which can be ended at once."""
import signal
import subprocess
import threading
import time
import weakref

import life


# All that there are, so that they can be ended with the script.
ALL = weakref.WeakSet()


class Runs:
    """The runs that go on now, each with what it is asked and since when."""

    def __init__(self):
        ALL.add(self)
        self.lock, self.running, self.stopped, self.count = threading.Lock(), {}, threading.Event(), 0

    def end_of(self, program, words, text, what="", folder=None):
        """Returns the code of a run of the program, and what it wrote; the code is negative if the run was ended."""
        with self.lock:
            if self.stopped.is_set():
                return -signal.SIGKILL, ""
            # In a session of its own, so that Ctrl-C reaches the script alone, which ends the runs and then says what is done.
            run = subprocess.Popen([program, *words], stdin=subprocess.PIPE, stdout=subprocess.PIPE, cwd=folder, start_new_session=True)
            self.running[run] = what, time.monotonic()
        if self.stopped.is_set():
            run.kill()
        try:
            wrote, _ = run.communicate(text)
        finally:
            with self.lock:
                del self.running[run]
                self.count += 1
        return run.returncode, wrote.decode()

    def stop(self):
        """Ends all runs, and begins no other."""
        self.stopped.set()
        for it in list(self.running):
            it.kill()

    def asked(self):
        """Returns what the runs are asked, the longest first."""
        return [what for what, _ in list(self.running.values())]

    def longest(self):
        """Returns what the run that has taken longest is asked, and for how long, or nothing if there is none."""
        now = time.monotonic()
        found = [f"{what} ({life.spelled(now - since)})" for what, since in list(self.running.values())]
        return found[0] if found else ""


def stop_all():
    """Ends the runs of all that there are."""
    for it in list(ALL):
        it.stop()


def on_interrupt(act):
    """Has an interrupt, an end of the terminal or a request to end do this; the runs are in sessions of their own, and are not reached by these."""
    for it in (signal.SIGINT, signal.SIGTERM, signal.SIGHUP):
        if signal.getsignal(it) != signal.SIG_IGN:
            signal.signal(it, lambda *_: act())
