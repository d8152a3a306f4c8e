#!/usr/bin/env python3
"""usage: script/pages.py manual   |   script/pages.py completion bash|zsh

Called by ./mate. Writes the manual page, or what completes the arguments of ./mate in a shell, from the table of commands of script/help.txt, the texts
of script/help/ and the first lines of the scripts that are commands too.
"""
import os
import re
import sys
from dataclasses import dataclass

TOP = os.path.dirname(os.path.dirname(os.path.realpath(__file__)))
SCRIPTS = ["solve", "map", "board", "convert", "studio"]
# A row of the table: how a command is written, and what it does. What goes on is indented further.
ROW = re.compile(r"^  ((\w+)\S*(?: \S+)*) {2,}(\S.*)$")


@dataclass
class Command:
    """A command: its name, how it is written, what it does, and the text of its help."""

    name: str
    usage: str
    does: str
    text: str


def text_of(path):
    with open(f"{TOP}/{path}", encoding="utf-8") as it:
        return it.read()


def help_of(name):
    """Returns the help of a command: its text, or the head of its script."""
    if name in SCRIPTS:
        return re.search(r'"""(.*?)"""', text_of(name), re.S)[1]
    return text_of(f"script/help/{name}.txt")


def is_known(name):
    return name in SCRIPTS or os.path.exists(f"{TOP}/script/help/{name}.txt")


def commands():
    """Returns the commands of the table, in its order."""
    found = []
    for line in text_of("script/help.txt").splitlines():
        row = ROW.match(line)
        if row and is_known(row[2]):
            found.append(Command(row[2], row[1], row[3], help_of(row[2])))
        elif found and re.match(r"^ {10,}\S", line):
            found[-1].does += " " + line.strip()
    return found


def version():
    heads = [it.split()[1] for it in text_of("CHANGELOG.md").splitlines() if it.startswith("## ")]
    return heads[0]


# The manual page

def escaped(text):
    return "\n".join(("\\&" + it if it[:1] in (".", "'") else it) for it in text.replace("\\", "\\e").replace("-", "\\-").split("\n"))


def paragraphs(lines):
    """Returns the paragraphs of lines, each joined."""
    return [" ".join(it.split()) for it in "\n".join(lines).split("\n\n") if it.strip()]


def manual():
    """Returns the manual page, in the language of man."""
    lines = text_of("script/help.txt").splitlines()
    rows = [at for at, it in enumerate(lines) if ROW.match(it) and is_known(ROW.match(it)[2])]
    head = [it for it in paragraphs(lines[1 : rows[0]]) if not it.startswith("./mate")]
    last = rows[-1] + 1
    while last < len(lines) and lines[last].startswith("   "):
        last += 1
    rest = paragraphs(lines[last:])
    codes = [it for it in rest if it.startswith("Codes:")]
    made = [f'.TH MATE 1 "" "mate {version()}" "infinite chess"', ".SH NAME", "mate \\- mate\\-in\\-n problems of infinite chess, decided by a proved program"]
    made += [".SH SYNOPSIS", ".B ./mate", "COMMAND.. < POSITION", ".SH DESCRIPTION", *[line for it in head for line in (escaped(it), ".PP")]]
    made += [".SH COMMANDS"]
    for it in commands():
        made += [".TP", f".B {escaped(it.usage)}", escaped(it.does)]
    made += [".SH LIMITS", *[line for it in rest if it not in codes for line in (escaped(it), ".PP")]]
    made += [".SH EXIT STATUS"]
    for it in codes:
        for part in re.split(r"[;:] (?=\d)|\.$", it.removeprefix("Codes: ")):
            number, _, says = part.partition(" ")
            made += [".TP", f".B {number}", escaped(says)] if part else []
    made += [".SH ENVIRONMENT", ".TP", ".B MATE_PROGRAM", "the program that is asked: unproved, or the path of one that was built of the same sources elsewhere"]
    made += [".SH EACH COMMAND"]
    for it in commands():
        made += [f".SS {it.name}", ".nf", escaped(it.text.strip("\n")), ".fi"]
    made += [".SH SEE ALSO", "README.md and the pages of docs/ in the folder of ./mate."]
    return "\n".join(made) + "\n"


# Completion

def options_of(name):
    """Returns the options that the usage of a script names."""
    usage = help_of(name).split("\n\n")[0]
    return sorted(set(re.findall(r"--[a-z]+", usage)) | ({"-o"} if "-o " in usage else set()))


BASH = """# Completes the arguments of ./mate in bash. To use it: eval "$(./mate completion bash)"
_mate() {{
    local word=${{COMP_WORDS[COMP_CWORD]}} at=1
    while [[ $at -lt $COMP_CWORD && ${{COMP_WORDS[at]}} == @(cost|unproved) ]]; do at=$((at + 1)); done
    COMPREPLY=()
    if [[ $at -eq $COMP_CWORD ]]; then
        COMPREPLY=($(compgen -W "{names}" -- "$word"))
        return
    fi
    case ${{COMP_WORDS[at]}} in
    help) COMPREPLY=($(compgen -W "{names}" -- "$word")) ;;
    completion) COMPREPLY=($(compgen -W "bash zsh" -- "$word")) ;;
    check | resume | migrate) COMPREPLY=($(compgen -f -- "$word")) ;;
{scripts}
    esac
}}
complete -o default -F _mate mate ./mate
"""

ZSH = """#compdef mate
# Completes the arguments of ./mate in zsh. To use it: eval "$(./mate completion zsh)"
_mate() {{
    local -a commands
    commands=(
{rows}
    )
    local at=2
    while (( at < CURRENT )) && [[ $words[at] == (cost|unproved) ]]; do (( at++ )); done
    if (( at == CURRENT )); then
        _describe command commands
        return
    fi
    case $words[at] in
    help) _describe command commands ;;
    completion) compadd bash zsh ;;
{scripts}
    *) _files ;;
    esac
}}
if (( $+functions[compdef] )); then compdef _mate mate ./mate; fi
"""


def bash():
    names = " ".join(it.name for it in commands())
    scripts = "\n".join(f'    {it}) COMPREPLY=($(compgen -W "{" ".join(options_of(it))}" -- "$word")) ;;' for it in SCRIPTS)
    return BASH.format(names=names, scripts=scripts)


def zsh():
    quoted = lambda text: text.replace("'", "'\\''").replace(":", "\\:")
    rows = "\n".join(f"        '{it.name}:{quoted(it.does)}'" for it in commands())
    scripts = "\n".join(f"    {it}) compadd -- {' '.join(options_of(it))}; _files ;;" for it in SCRIPTS)
    return ZSH.format(rows=rows, scripts=scripts)


def main(words):
    made = {("manual",): manual, ("completion", "bash"): bash, ("completion", "zsh"): zsh}.get(tuple(words))
    if made is None:
        print(__doc__, end="", file=sys.stderr)
        return 2
    try:
        sys.stdout.write(made())
        sys.stdout.flush()
    except BrokenPipeError:
        os.dup2(os.open(os.devnull, os.O_WRONLY), 1)
        return 141
    return 0


if __name__ == "__main__":
    sys.exit(main(sys.argv[1:]))
