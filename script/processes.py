"""Processes that end with the one that started them."""
import ctypes
import os
import select
import signal
import subprocess

from sources import Ended, say


def end_process(process):
    """Ends an rt, which ends what it started."""
    process.terminate()
    try:
        process.wait(10)
    except subprocess.TimeoutExpired:
        process.kill()
        process.wait()


def end_with_parent():
    """Has the system end this process when the one that started it ends."""
    ctypes.CDLL(None).prctl(1, signal.SIGTERM)


def started(words, stdin=subprocess.DEVNULL, **how):
    return subprocess.Popen(words, stdin=stdin, start_new_session=True, preexec_fn=end_with_parent, **how)


def in_builder(make):
    """Calls make in a process apart, and returns whether it came to its end. It is stopped when this process is, by whatever signal."""
    front = os.getpid()
    builder = os.fork()
    if not builder:
        code = 1
        try:
            os.setsid()
            signal.signal(signal.SIGTERM, stop)
            end_with_parent()
            if os.getppid() == front:
                make()
                code = 0
        except (Ended, BrokenPipeError):
            pass
        except Exception as why:
            say(f"the build ends because {why}")
        finally:
            os._exit(code)
    caught = []

    def hand_on(number, _):
        caught.append(number)
        os.kill(builder, signal.SIGTERM)

    for it in (signal.SIGINT, signal.SIGTERM, signal.SIGHUP, signal.SIGQUIT, signal.SIGPIPE):
        # Python itself ignores the last one.
        if signal.getsignal(it) != signal.SIG_IGN or it == signal.SIGPIPE:
            signal.signal(it, hand_on)
    _, status = os.waitpid(builder, 0)
    if caught:
        if caught[0] != signal.SIGPIPE:
            say("stopped; what was built so far is kept for the next time")
        signal.signal(caught[0], signal.SIG_DFL)
        os.kill(os.getpid(), caught[0])
    return status == 0


def stop(*_):
    signal.signal(signal.SIGTERM, signal.SIG_IGN)
    raise Ended


def pause(seconds):
    """Waits, and ends where nobody reads any more what is said."""
    watch = select.poll()
    watch.register(2, 0)
    if watch.poll(seconds * 1000):
        raise Ended
