#!/usr/bin/env python3
"""usage: explain/trial.py [PROGRAM]

Tests explain.py by the rows of rows.txt: the sentences and, if a program is given, the code and the last line of each run. Also lists the reasons of
sentences.txt that have no row. The exit code is 0 if nothing differs, otherwise 1.

  explain/trial.py            the sentences alone
  explain/trial.py ./mate     the runs too
"""
import os
import re
import subprocess
import sys
import tempfile
import time
from dataclasses import dataclass, field

sys.path.insert(0, os.path.dirname(os.path.realpath(__file__)))
import explain  # noqa: E402

@dataclass
class Row:
    """A run and what is said of it. Where it is not run, `unrun` says why."""

    words: list
    input: object = b""
    is_piped: bool = False
    code: int = 0
    line: str = ""
    says: list = field(default_factory=list)
    files: dict = field(default_factory=dict)
    folders: list = field(default_factory=list)
    told: list = field(default_factory=list)
    before: list = field(default_factory=list)
    unrun: str = ""


def bytes_of(text):
    """Returns the bytes that a text of rows.txt stands for: a stroke is a newline, and `\\t`, `\\r`, `\\xHH` are such bytes."""
    plain_text = text.replace("|", "\n").encode()
    return re.sub(rb"\\(t|r|x[0-9a-f]{2})", lambda it: {b"t": b"\t", b"r": b"\r"}.get(it[1]) or bytes([int(it[1][1:], 16)]), plain_text)


def rows():
    """Returns the rows of rows.txt. Its head says how they are written."""
    texts, made = {}, []
    with open(f"{explain.HERE}/rows.txt", encoding="utf-8") as it:
        lines = [line.rstrip("\n") for line in it]
    spelled = lambda text: bytes_of(re.sub(r"\{(\w+)(?:\*(\d+))?\}", lambda it: texts[it[1]] * int(it[2] or 1), text))
    for line in lines:
        key, _, rest = line.partition(" ")
        if not line or line.startswith("#"):
            continue
        if key == "text":
            name, _, texts_of = rest.partition(" ")
            texts[name] = texts_of
        elif key == "words":
            made.append(Row(words=[spelled(it).decode("utf-8", "surrogateescape") for it in rest.split(" ")] if rest else []))
        elif key == "input":
            made[-1].input = rest if rest in (explain.FOLDER, explain.CLOSED) else spelled(rest)
        elif key == "pipe":
            made[-1].input, made[-1].is_piped = spelled(rest), True
        elif key == "file":
            name, _, what = rest.partition(" ")
            made[-1].files[name] = spelled(what)
        elif key == "folder":
            made[-1].folders.append(rest)
        elif key == "before":
            words, _, what = rest.partition(" < ")
            made[-1].before.append((words.split(), spelled(what)))
        elif key == "code":
            made[-1].code = int(rest)
        elif key in ("line", "unrun"):
            setattr(made[-1], key, rest)
        elif key in ("says", "told"):
            getattr(made[-1], key).append(rest)
        else:
            raise ValueError(f"rows.txt: {line}")
    return made


def run(program, row, folder):
    """Runs a row, and returns its code and what it wrote."""
    if row.input == explain.FOLDER:
        descriptor = os.open(folder, os.O_RDONLY)
    elif row.input == explain.CLOSED:
        descriptor = None
    else:
        with tempfile.TemporaryFile() as it:
            it.write(row.input)
            it.seek(0)
            descriptor = os.dup(it.fileno())
    close = (lambda: os.close(0)) if descriptor is None else None
    done = subprocess.run([*program, *row.words], stdin=descriptor, stdout=subprocess.PIPE, stderr=subprocess.DEVNULL, cwd=folder, preexec_fn=close)
    if descriptor is not None:
        os.close(descriptor)
    return done.returncode, done.stdout.decode()


def differs(program, row):
    """Returns how a row differs from what stands there, or None."""
    if row.before and not program:
        return None
    with tempfile.TemporaryDirectory() as folder:
        for name, data in row.files.items():
            with open(f"{folder}/{name}", "wb") as it:
                it.write(data)
        for name in row.folders:
            os.mkdir(f"{folder}/{name}")
        told = "\n".join([*row.told, row.line])
        if program and not row.unrun:
            for words, data in row.before:
                run(program, Row(words, data), folder)
            code, told = run(program, row, folder)
            last = told.splitlines()[-1] if told else ""
            if (code, last) != (row.code, row.line):
                return f"code {code}, line {last!r}"
        before = os.getcwd()
        os.chdir(folder)
        try:
            text = None if row.is_piped else row.input
            made = explain.sentences(row.code, told, row.words, text, folder)
            made += explain.of_answer(told, row.words, text) if row.code == 0 else []
        finally:
            os.chdir(before)
        return None if made == row.says else f"says {made}"


def tried(program):
    """Tries the rows, on a program where one is given as a list of words, and yields for each its words, how it differs or None, and the seconds."""
    for row in rows():
        start = time.monotonic()
        why = differs(program, row)
        head = " ".join(row.words).encode("utf-8", "backslashreplace").decode()
        yield f"explain {head} # code {row.code} {row.line}", why, time.monotonic() - start


def unused():
    """Returns the reasons of the table that no row has."""
    told = {sentence for row in rows() for sentence in row.says}
    # A sentence with words in braces is that of a row where what stands around them is.
    patterns = {reason: re.compile(re.sub(r"\\\{\w+\\\}", ".*", re.escape(sentence))) for reason, sentence in explain.SENTENCES.items()}
    return [reason for reason, pattern in patterns.items() if not any(pattern.fullmatch(it) for it in told)]


def main(words):
    if words[:1] in (["help"], ["--help"], ["-h"]):
        print(__doc__, end="")
        return 0
    if len(words) > 1 or (words and not os.access(words[0], os.X_OK)):
        print(__doc__, end="", file=sys.stderr)
        return 2
    program = [os.path.abspath(words[0])] if words else None
    count = wrong = 0
    for head, why, _ in tried(program):
        count, wrong = count + 1, wrong + bool(why)
        if why:
            print(f"DIFFERS: {why}  {head}")
    missing = unused()
    for reason in missing:
        print(f"NO ROW: {reason}")
    print(f"{count} rows, {wrong + len(missing)} differ")
    return 1 if wrong or missing else 0


if __name__ == "__main__":
    sys.exit(main(sys.argv[1:]))
