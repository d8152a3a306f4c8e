"""A running ./studio, for trials of it."""
import os
import signal
import subprocess

TOP = os.path.dirname(os.path.dirname(os.path.dirname(os.path.realpath(__file__))))


class Failed(Exception):
    """Something is not as it has to be."""


def equal(found, due, what):
    if found != due:
        raise Failed(f"{what}: {found!r}, and due is {due!r}")


def has(text, part, what):
    if part not in text:
        raise Failed(f"{what}: {text!r} has no {part!r}")


def takes_ctrl_c():
    """Has a process take Ctrl-C, also where this one was started by a shell that has it ignored."""
    signal.signal(signal.SIGINT, signal.SIG_DFL)


class Studio:
    """A running ./studio, started with these words."""

    def __init__(self, words, top=TOP):
        how = {"stdout": subprocess.PIPE, "stderr": subprocess.PIPE, "text": True, "start_new_session": True, "preexec_fn": takes_ctrl_c}
        self.process = subprocess.Popen([f"{top}/studio", *words], **how)
        self.url = self.process.stdout.readline().strip()
        if not self.url:
            raise SystemExit(f"./studio gives no address: {self.process.stderr.read()}")
        self.port, self.token = int(self.url.split(":")[2].split("/")[0]), self.url.split("/")[3]

    def programs(self):
        """Returns the processes that the server has started and that still run."""
        found, top = set(), f"/proc/{self.process.pid}/task"
        for task in os.listdir(top):
            try:
                with open(f"{top}/{task}/children", encoding="ascii") as it:
                    found.update(it.read().split())
            except OSError:
                continue
        return sorted(found)

    def kill(self):
        """Ends it, where it has not ended."""
        if self.process.poll() is None:
            self.process.kill()
            self.process.wait()

    def end(self, with_signal=signal.SIGINT):
        """Ends it, and returns its status, and what it said on standard error beside what it has to say."""
        self.process.send_signal(with_signal)
        status, lines = self.process.wait(60), self.process.stderr.read().splitlines()
        equal(lines[-1:], ["studio: ended"], "the last line")
        return status, [it for it in lines[:-1] if not it.endswith("Ctrl-C ends.") and it != "mate: this run is not proved"]
