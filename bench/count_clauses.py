#!/usr/bin/env python3
"""How many clauses state one call of a session: a line for each function that the call passes, and the sum.

    count_clauses.py [FOLDER]

FOLDER is a copy of the repository, and where none is given this one. Counted are the `requires` and `ensures` of each function, from
what stands after a history up to the players of scripts: those of a session beside others, and those of a session alone.
"""

import os
import sys

TOP = os.path.dirname(os.path.dirname(os.path.abspath(__file__)))

# the file below `crates`, and the functions in it
PASSED = [
    ("xl_standing/src/standing.rt", ["answer"]),
    ("xl_core/src/state.rt", ["submit"]),
    ("xl_studio/src/shared.rt", ["submit"]),
    ("xl_studio/src/calls.rt", ["call", "edit", "undo", "redo", "top", "tile", "peek"]),
    ("xl_sessions/src/session.rt", ["make_call", "play_call", "play_line"]),
    ("xl_sessions/src/played.rt", ["play_lines", "play_session"]),
    ("xl_play/src/playing.rt", ["play_call", "play_line", "play_lines", "play"]),
]


def clauses_of(lines, name):
    """How many clauses stand between the head of this function and its body."""
    heads = [at for at, line in enumerate(lines) if ("fn %s<" % name) in line or ("fn %s(" % name) in line]
    if len(heads) != 1:
        raise SystemExit("fn %s stands %d times" % (name, len(heads)))
    count = 0
    for line in lines[heads[0] :]:
        words = line.split()
        count += bool(words) and words[0] in ("requires", "ensures")
        if words and words[-1] == "{" and words[0] not in ("requires", "ensures"):
            break
    return count


def main():
    top = sys.argv[1] if len(sys.argv) > 1 else TOP
    total, functions = 0, 0
    for path, names in PASSED:
        with open(os.path.join(top, "crates", path), encoding="utf-8") as file:
            lines = file.read().split("\n")
        for name in names:
            count = clauses_of(lines, name)
            print("%4d  %s of %s" % (count, name, path))
            total, functions = total + count, functions + 1
    print("%4d  on %d functions" % (total, functions))


main()
