"""Words that the program would refuse, before there is a program: docs/FORMATS.md says which. A build takes long, and only then would it be told."""
import contextlib
import os
import sys

from sources import TOP, say

WORDS_REFUSED = 2


def refusal(explain, words):
    """Returns why the words are no order, or None where they are one."""
    if not words:
        return "no command"
    command, *rest = words
    if command not in explain.SHAPES:
        return "unknown"
    shape = explain.SHAPES[command]
    if not len([it for it in shape if it != explain.BUDGET]) <= len(rest) <= len(shape):
        return "count"
    for what, word in zip(shape, rest):
        if what in explain.NAMES:
            if not explain.NAMED.fullmatch(word):
                return "name"
        elif not explain.NATURAL.fullmatch(word):
            return "number"
        else:
            least, most = explain.limits_of(command, what)
            if len(word) > len(str(most)) or not least <= int(word) <= most:
                return "limit"
    return None


def refuse(words):
    """Ends as the program does if it refuses the words, with a sentence after its line."""
    if words == ["program"]:
        return
    sys.path.insert(0, f"{TOP}/explain")
    with contextlib.suppress(ImportError):
        import explain

        why = refusal(explain, words)
        if why:
            os.write(1, f"usage {why}\n".encode())
            for it in explain.sentences(WORDS_REFUSED, f"usage {why}", words, b""):
                say(it)
            sys.exit(WORDS_REFUSED)
