"""What the models have in common: the files beside a model, and what is said of them."""

import os
import re
import sys


def put(folder, name, lines, check):
    """Writes a file of a folder, or compares it with the one that is there."""
    path = os.path.join(folder, name)
    whole = "".join(line + "\n" for line in lines)
    if check:
        with open(path, newline="\n") as f:
            if f.read() != whole:
                sys.exit("%s is not what the model gives" % path)
    else:
        with open(path, "w", newline="\n") as f:
            f.write(whole)


def put_cases(folder, lines, answers, digits, letters, check):
    """A case a line of `stdin`, of so many digits, and an answer a line of `stdout`, of these letters."""
    assert len(lines) == len(answers)
    for line, got in zip(lines, answers):
        assert re.fullmatch(r"[0-9a-f]{%d,%d}" % digits, line)
        assert re.fullmatch(r"[%s]+" % letters, got) and "  " not in got and got == got.strip()
    put(folder, "stdin", lines, check)
    put(folder, "stdout", answers, check)


def say(checks, groups, count):
    print("%d answers worked out by hand hold" % checks)
    for name, first, size in groups:
        print("%6d cases, lines %d to %d: %s" % (size, first, first + size - 1, name))
    print("%6d cases" % count)
