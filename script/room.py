"""The room of a build: a folder with the sources of the program's crates, in which `rt ci` proves and builds them."""
import fcntl
import os
import shutil
import subprocess

from sources import MAIN, PARTS, TOP, end

ROOM = f"{TOP}/out/room"
# What a program is run on by rt ci.
RUN_ON = ("stdin", "stdout", "args", "status", "data")


def is_held(path):
    """Returns whether another process has the lock of the file."""
    try:
        with open(path) as it:
            fcntl.flock(it, fcntl.LOCK_SH | fcntl.LOCK_NB)
    except BlockingIOError:
        return True
    except OSError:
        pass
    return False


def hold(names):
    """Takes the locks by which each rt keeps others out of a crate's folder. They are held until this process and its children end."""
    for name in names:
        try:
            fcntl.flock(os.open(f"{TOP}/crates/{name}", os.O_RDONLY), fcntl.LOCK_EX | fcntl.LOCK_NB)
        except BlockingIOError:
            who = f"an rt works in crates/{name}"
            if is_held(git_folder() + "/rt-ci.lock"):
                who = "rt ci works in this folder and has put the program aside"
            elif os.path.isdir(ROOM):
                who = "another ./mate builds the program in this folder"
            end(f"{who}, and a program cannot be built at the same time: call again when it has ended")
        except OSError:
            # Some file systems have no locks.
            pass


def git_folder():
    try:
        done = subprocess.run(["git", "-C", TOP, "rev-parse", "--absolute-git-dir"], stdin=subprocess.DEVNULL, capture_output=True, text=True)
    except OSError:
        return ""
    return done.stdout.strip()


def furnish(sources, names):
    """Copies to the room what these crates are proved from, and what the program is run on."""
    # To rt the room is the top of a repository.
    os.makedirs(f"{ROOM}/.git")
    with open(f"{ROOM}/crates.txt", "w", encoding="utf-8") as it:
        it.write("".join(" ".join([f"{each}:", *sources.named[each]]) + "\n" for each in names))
    shutil.copyfile(f"{TOP}/HANDLES", f"{ROOM}/HANDLES")
    for name in names:
        parts = (*PARTS, *(RUN_ON if name == MAIN else ()))
        found = [it for it in parts if os.path.exists(f"{TOP}/crates/{name}/{it}")]
        subprocess.run(["cp", "-a", "--parents", "-t", ROOM, *[f"crates/{name}/{it}" for it in found]], cwd=TOP, check=True)


def clear():
    subprocess.run(["rm", "-rf", ROOM])
