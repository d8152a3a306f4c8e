#!/usr/bin/env python3
"""Makes the expected output of a script of `run_trials` from the answers in the script.

usage: answers.py SCRIPT > stdout        the whole output, from the lines that begin with `#=` only
       answers.py SCRIPT --count         how many runs are under each heading, a line that begins with `##`

No program is run. docs/TESTING.md describes a script and its answers.
"""
import re, sys

RANGE = re.compile(r"^(.*) (\d+) \.\. (\d+)( .*)?$")
FRONT = re.compile(r"^first (K|K - 1|\d+) bytes of$")
ESCAPE = re.compile(rb"\\(\\|n|r|x[0-9a-f]{2})")
CODE = re.compile(r"^code \d+$")


def plain(text):
    """The bytes that a text with escapes spells."""
    one = lambda m: {b"\\": b"\\", b"n": b"\n", b"r": b"\r"}.get(m[1]) or bytes([int(m[1][1:], 16)])
    return ESCAPE.sub(one, text.encode())


def piece(line):
    """The bytes of a line that begins with a bar."""
    if line.startswith("|- "):
        return plain(line[3:])
    if line.startswith("|* "):
        count, text = line[3:].split(" ", 1)
        return int(count) * plain(text)
    return plain(line[2:]) + b"\n"


class Run:
    def __init__(self, head, heading, number):
        self.lines, self.answers, self.input = [head], [], b""
        self.heading, self.number = heading, number

    def cases(self):
        found = [RANGE.match(line) for line in self.lines]
        found = [m for m in found if m]
        if len(found) > 1:
            sys.exit(f"line {self.number}: two ranges")
        return range(int(found[0][2]), int(found[0][3]) + 1) if found else [0]

    def written(self, k, texts):
        """What comes of one case: the line that names it, the output, the code, and what is told of files."""
        title = " / ".join(RANGE.sub(lambda m: f"{m[1]} {k}{m[4] or ''}", line) for line in self.lines)
        code = next((at for at, answer in enumerate(self.answers) if CODE.match(answer)), None)
        if code is None:
            sys.exit(f"line {self.number}: no code")
        output, front = b"", None
        for answer in self.answers[:code]:
            if m := FRONT.match(answer):
                front = {"K": k, "K - 1": k - 1}.get(m[1])
                front = int(m[1]) if front is None else front
            elif answer == "the input":
                output += self.input
            elif answer.startswith("the text "):
                output += texts[answer[9:]]
            else:
                output += answer.replace("{K}", str(k)).encode() + b"\n"
        output = output if front is None else output[:front]
        if output and not output.endswith(b"\n"):
            output += b"\n(no LF)\n"
        behind = "".join(answer.replace("{K}", str(k)) + "\n" for answer in self.answers[code:])
        return title.encode() + b"\n" + output + behind.encode()


def read(script):
    """The runs and the texts of a script."""
    runs, texts, block, heading = [], {}, None, ""
    for number, line in enumerate(script.split("\n"), 1):
        line = line.lstrip()
        if line.startswith("## "):
            heading = line[3:]
        elif line.startswith("#="):
            block.answers.append(line[3:])
        elif line == "" or line.startswith("#"):
            continue
        elif line.startswith("|"):
            if isinstance(block, Run):
                block.input += piece(line)
            else:
                texts[block] += piece(line)
        elif line.startswith("text "):
            block = line[5:]
            texts[block] = b""
        elif line.split()[0] == "run":
            block = Run(line.rstrip(), heading, number)
            runs.append(block)
        else:
            block.lines.append(line.rstrip())
            if line.startswith("input ") and len(line.split()) == 2:
                block.input += texts[line.split()[1]]
    return runs, texts


def main():
    runs, texts = read(open(sys.argv[1], newline="").read())
    total = sum(len(run.cases()) for run in runs)
    if "--count" in sys.argv:
        counts = {}
        for run in runs:
            counts[run.heading] = counts.get(run.heading, 0) + len(run.cases())
        for heading, count in counts.items():
            print(f"{count:5} {heading}")
        print(f"{total:5} runs")
        return
    for run in runs:
        for k in run.cases():
            sys.stdout.buffer.write(run.written(k, texts))
    sys.stdout.buffer.write(f"{total} runs\n".encode())


if __name__ == "__main__":
    main()
