"""The one way to the program: ./mate of the clone says where it is, and builds it first if there is none of these sources.

The variable MATE_PROGRAM, or `use`, names another one: "unproved" is the program that `./mate unproved` makes without proofs, and a path is a
program that was built elsewhere, with a stamp of these sources and of this kit beside it. ./mate says on standard error that a program is not proved.
"""
import os
import subprocess
import threading
from typing import List, Optional

from ._clone import TOP
from .ends import NoProgram

UNPROVED = "unproved"
PROVED_PATH = f"{TOP}/crates/mate_main/out/mate_main"
_found = {}
_lock = threading.Lock()
_used: Optional[str] = None


def use(which: Optional[str]) -> None:
    """Names the program that is asked from now on: "unproved", a path, or None for the proved one, which is built if it is missing."""
    global _used
    _used = which


def wanted() -> str:
    """Returns what names the program: `unproved`, a path, or nothing."""
    return _used or os.environ.get("MATE_PROGRAM", "")


def path() -> str:
    """Returns the path of the program, which may be called directly. Raises NoProgram if there is none and it cannot be built."""
    which = wanted()
    with _lock:
        if which not in _found:
            env = {**os.environ, "MATE_PROGRAM": which}
            done = subprocess.run([f"{TOP}/mate", "program"], stdin=subprocess.DEVNULL, stdout=subprocess.PIPE, text=True, env=env)
            if done.returncode:
                raise NoProgram("there is no program, and it could not be built")
            _found[which] = done.stdout.strip()
        return _found[which]


def path_if_built() -> Optional[str]:
    """Returns the path of the program, or None if none is named and no proved one is there."""
    if wanted():
        return path()
    return PROVED_PATH if os.access(PROVED_PATH, os.X_OK) else None


def take_option(words: List[str]) -> List[str]:
    """Returns the arguments of a script without --unproved; with it the program without proofs is asked from now on, if no other is named."""
    if "--unproved" in words and not wanted():
        use(UNPROVED)
    return [it for it in words if it != "--unproved"]
