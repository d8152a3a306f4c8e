"""Makes `stdout` of a test program from the answers next to the rows of its script.

    python3 crates/trial_rows/answers.py crates/diagram_trials

Each row of `stdin`, except those that only name something, is followed by one or more lines `#= ANSWER`. Nothing is run.
"""

import pathlib
import sys

MARK = "#= "
NAMING = ("position ", "set ", "file ", "noise ")


def main():
    folder = pathlib.Path(sys.argv[1])
    answers = []
    open_row = None
    for number, line in enumerate((folder / "stdin").read_text().splitlines(), 1):
        if line.startswith(MARK):
            answers.append(line[len(MARK):])
            open_row = None
        elif line and not line.startswith("#"):
            if open_row:
                raise SystemExit(f"line {open_row} has no answer")
            open_row = None if line.startswith(NAMING) else number
    if open_row:
        raise SystemExit(f"line {open_row} has no answer")
    (folder / "stdout").write_text("".join(answer + "\n" for answer in answers))


main()
