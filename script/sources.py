"""The sources of the program: their sums, and whether the program that is there was built from them."""
import hashlib
import os
import re
import subprocess
from dataclasses import dataclass, field

TOP = os.path.dirname(os.path.dirname(os.path.realpath(__file__)))
# The parts of a crate that it is made from.
PARTS = ("src", "specs", "proofs")
MAIN = "mate_main"
PROGRAM = f"{TOP}/crates/{MAIN}/out/{MAIN}"
# What the program was built with: the kit, and a line for each file with its sum. Its time is when the sources were last known to be these.
BUILT = f"{TOP}/crates/{MAIN}/out/mate.built"
# The names of the files and folders that were looked at for it, for `find -files0-from`.
WATCHED = f"{TOP}/crates/{MAIN}/out/mate.watched"
OLDEST_KIT = "13b"
# How much is told of a log.
MOST_LINES, MOST_LETTERS = 20, 400


def say(text):
    os.write(2, f"mate: {text}\n".encode())


class Ended(Exception):
    """There is no program; what has to be said is said."""


def end(text):
    say(text)
    raise Ended


@dataclass
class Sources:
    """The crates below a folder, with the libraries that the line of each in crates.txt names, and what was read of their files."""

    top: str
    named: dict
    known: dict = field(default_factory=dict)

    def below(self, name):
        """Returns the crate and all that it stands on, lowest first."""
        found = {}

        def add(one):
            if one in self.named and one not in found:
                for it in self.named[one]:
                    add(it)
                found[one] = None

        add(name)
        return list(found)

    def files_and_folders(self, name):
        """Returns the crate's files and its folders, by their names from crates/ on."""
        files, folders = [], [name]
        for part in PARTS:
            for at, _, names in os.walk(f"{self.top}/crates/{name}/{part}"):
                here = os.path.relpath(at, f"{self.top}/crates")
                folders.append(here)
                files += [f"{here}/{it}" for it in names]
        return sorted(files), folders

    def lines(self, name):
        """Returns the lines that fix what the crate is made from, without what it stands on: that of crates.txt, and the sum of each file."""
        if name not in self.known:
            lines = [" ".join([f"{name}:", *self.named[name]])]
            for it in self.files_and_folders(name)[0]:
                lines.append(f"{hashlib.sha256(bytes_of(f'{self.top}/crates/{it}')).hexdigest()} {it}")
            self.known[name] = lines
        return self.known[name]

    def all_lines(self, name):
        return [line for it in self.below(name) for line in self.lines(it)]

    def size(self, name):
        """Returns how many lines of code the crate has."""
        files = [it for it in self.files_and_folders(name)[0] if it.endswith(".rt")]
        return sum(bytes_of(f"{self.top}/crates/{it}").count(b"\n") for it in files)


def sources_of(top):
    named = {}
    with open(f"{top}/crates.txt", encoding="utf-8") as it:
        for line in it:
            head, colon, uses = line.partition("#")[0].partition(":")
            if colon:
                named[head.split()[0]] = uses.split()
    return Sources(top, named)


def bytes_of(path):
    with open(path, "rb") as it:
        return it.read()


# The stamps of a program, in the folder of its file: that of one built without its proofs, and that of one with them.
UNPROVED_STAMP, PROVED_STAMP = "sums", "mate.built"


def stamp_of(path):
    """Returns the text of the stamp beside a program and whether the program is proved; the text is empty if there is no stamp."""
    folder = os.path.dirname(os.path.realpath(path))
    unproved = text_of(f"{folder}/{UNPROVED_STAMP}")
    return (unproved, False) if unproved else (text_of(f"{folder}/{PROVED_STAMP}"), True)


def check_elsewhere(path):
    """Returns whether a program that was built elsewhere is proved; ends if it is none of these sources, or of another kit than that in PATH."""
    if not os.path.isfile(path) or not os.access(path, os.X_OK):
        end(f"MATE_PROGRAM is {path}, which is no program; it is `unproved`, or the path of a program")
    stamp, is_proved = stamp_of(path)
    kit, *lines = stamp.splitlines() or [""]
    if not lines:
        end(f"beside {path} there is no stamp, a file `{UNPROVED_STAMP}` or `{PROVED_STAMP}`, so it is not known of which sources it is")
    if lines != sources_of(TOP).all_lines(MAIN):
        end(f"{path} was built from other sources than those here")
    here = kit_in_path()
    if here and here != kit:
        end(f"{path} was built by {kit}, and the rt in PATH is {here}")
    return is_proved


def tell_end_of(log):
    """Writes on standard error what a log tells of errors, or else its last lines."""
    lines = bytes_of(log).decode(errors="replace").splitlines()
    errors = [it for it in lines if re.search(r"\berror\b|: not proved", it)]
    for it in errors[:MOST_LINES] or lines[-MOST_LINES:]:
        os.write(2, f"{it[:MOST_LETTERS]}\n".encode())


def text_of(path):
    try:
        with open(path, encoding="utf-8") as it:
            return it.read()
    except OSError:
        return ""


def is_built(lines):
    """Returns whether the program that is there was built from files with these lines."""
    return os.access(PROGRAM, os.X_OK) and text_of(BUILT).splitlines()[1:] == lines


def note(kit, lines, seen, built=BUILT, watches=WATCHED):
    """Writes down what the program was built from. What changes from the moment `seen` on is looked at again."""
    sources = sources_of(TOP)
    watched = ["../crates.txt"]
    for it in sources.below(MAIN):
        files, folders = sources.files_and_folders(it)
        watched += folders + files
    write(watches, "".join(f"{path}\0" for path in watched), seen)
    write(built, "".join(f"{line}\n" for line in [kit, *lines]), seen)


def write(path, text, seen):
    """Writes a file as a whole, as of the moment `seen`."""
    made = f"{path}.{os.getpid()}"
    with open(made, "w", encoding="utf-8") as it:
        it.write(text)
    os.utime(made, ns=(seen, seen))
    os.replace(made, path)


def now(built=BUILT):
    """Returns the time as the file system of the program has it."""
    made = f"{built}.{os.getpid()}"
    os.makedirs(os.path.dirname(made), exist_ok=True)
    with open(made, "w"):
        seen = os.stat(made).st_mtime_ns
    os.remove(made)
    return seen


def kit_in_path():
    """Returns the line of `rt version`, or None where there is no rt."""
    try:
        return subprocess.run(["rt", "version"], stdin=subprocess.DEVNULL, stdout=subprocess.PIPE, stderr=subprocess.DEVNULL, text=True).stdout.strip()
    except OSError:
        return None


def check_kit():
    """Returns the kit's line, where it is not too old."""
    kit = kit_in_path()
    if kit is None:
        end(f"there is no rt in PATH. The program is built by a Rattle kit: put the folder bin of kit {OLDEST_KIT} or a later one into PATH")
    number = lambda it: (int(re.match(r"\d+", it)[0]), it.lstrip("0123456789"))
    found = re.match(r"rattle-kit-(\d+[a-z]*)", kit)
    if found and number(found[1]) < number(OLDEST_KIT):
        end(f"the rt in PATH is of the Rattle kit {found[1]}, and this program needs kit {OLDEST_KIT} or a later one: put that kit's folder bin into PATH before it")
    return kit
