"""Small runs that were written by hand, each with what the auditor must say of it, for check_audit.py.

A case is (name, script, text, file afterwards, status, why): why is none where the run is right, else a part of what is said. All
are over a file of one pixel, c86432ff in a layer with the id 1, at opacity 255.
"""

import hashlib

ONE = bytes.fromhex(
    "67696d7020786366 2066696c6500 000000010000000100000000 000000110000000100 0000000000000000 0000003700000000 00000000"
    "00000001000000010000000100000002 4100 0000000600000004000000ff 000000070000000400000000 000000080000000400000001"
    "0000000b0000000400000001 0000000f000000080000000000000000 0000000000000000 0000009900000000"
    "000000010000000100000004000000ad00000000 0000000100000001000000bd00000000 c86432ff")
OPACITY_AT = 84


def with_opacity(value):
    """The file once its layer has another opacity."""
    return ONE[:OPACITY_AT] + bytes([value]) + ONE[OPACITY_AT + 1:]


def shows(pixel):
    return hashlib.sha256(bytes.fromhex(pixel)).hexdigest()


PLAIN, CLEAR, HALF, FADED = shows("c86432ff"), shows("00000000"), shows("c8643280"), shows("7a3d1eff")
CASES = []


def ended(lines):
    return "".join(line + "\n" for line in lines)


def case(name, why, script, lines, order, left=None, status=None):
    CASES.append((name, ended(script), ended(lines + [order]), left, status, why))


def other(lines, at, line):
    """The lines with another one at a place."""
    return lines[:at] + [line] + lines[at + 1:]


# Two sessions that edit, undo and save beside each other. At its last call session 1 has seen version 3, and version 1 is kept.
SCRIPT = ["0 opacity 1 0", "0 tile 0 0 0", "0 save", "1 peek 0 0 0", "1 opacity 1 255", "1 undo", "1 save", "1 peek 0 0 0"]
LINES = ["0.0 changed 1 1 2", "0.1 tile 1 " + CLEAR, "0.2 saved 2", "1.0 stale none 0", "1.1 changed 2 2 2", "1.2 changed 3 2 2",
         "1.3 saved 3", "1.4 tile 3 " + CLEAR]
ORDER = "order 0.0 1.0 0.1 1.1 0.2 1.2 0.2e 1.3 1.3e 1.4"


def of_two(name, why, lines=None, order=ORDER, left=with_opacity(0), status=0):
    case(name, why, SCRIPT, LINES if lines is None else lines, order, left, status)


of_two("two sessions", None)
for number, reply in enumerate(("tile 0 " + PLAIN, "tile 1 " + CLEAR)):
    of_two("a first peek, %d" % number, None, other(LINES, 3, "1.0 " + reply))
for reply in ("stale 1 3", "stale 2 3"):
    of_two("a last peek, " + reply, None, other(LINES, 7, "1.4 " + reply))
for reply, why in (("tile 2 " + PLAIN, "its session has seen"), ("tile 1 " + CLEAR, "its session has seen"),
                   ("tile 4 " + CLEAR, "not there yet"), ("tile 3 " + PLAIN, "not tile"), ("stale 3 3", "late enough"),
                   ("stale 1 2", "has seen version 3"), ("stale none 3", "is kept"), ("stale 0 3", "is kept"),
                   ("stale 1 3 3", "no reply"), ("stale 01 3", "no reply"), ("tile 3 " + CLEAR.upper(), "no reply"),
                   ("tile 3", "no reply"), ("no stack 0", "no reply"), ("outside tile", "no reply"), ("saved 3", "no reply")):
    of_two("a last peek, " + reply[:12], why, other(LINES, 7, "1.4 " + reply))
of_two("a wrong digest", "not tile", other(LINES, 1, "0.1 tile 1 " + PLAIN))
of_two("a tile at an older version", "not tile", other(LINES, 1, "0.1 tile 0 " + PLAIN))
of_two("an undo that makes no version", "not changed", other(LINES, 5, "1.2 changed 2 2 2"))
of_two("an undo of another group", "not changed", other(LINES, 5, "1.2 changed 3 1 2"))
of_two("a group of a wrong number", "not changed", other(LINES, 4, "1.1 changed 2 1 2"))
of_two("a next id that rose", "not changed", other(LINES, 4, "1.1 changed 2 2 3"))
of_two("a save of what came after its start", "a save of version 2", other(LINES, 2, "0.2 saved 3"))
of_two("a save of what came before its start", "a save of version 2", other(LINES, 2, "0.2 saved 1"))
of_two("the old file", "the file is not", left=ONE)
of_two("a file of another pixel", "the file is not", left=with_opacity(255)[:-1] + b"\0")
of_two("a part of the file", "the file is not", left=with_opacity(0)[:-1])
of_two("another status", "status 8", status=8)
of_two("a fault of no save", "status 6", status=6)
of_two("a line dropped", "not the next line", LINES[:1] + LINES[2:])
of_two("the last line dropped", "4 lines for 5 calls", LINES[:-1])
of_two("a line twice", "not the next line", LINES[:2] + LINES[1:])
of_two("a line too many", "6 lines for 5 calls", LINES + ["1.5 top none 3"])
of_two("the sessions' lines in another order", "not the next line", LINES[3:] + LINES[:3])
of_two("a line of no session", "no line of a session", LINES + ["8.0 top none 3"])
of_two("a word missing", "not the next call", order="order 0.0 1.0 1.1 0.2 1.2 0.2e 1.3 1.3e 1.4")
of_two("the last word missing", "without its word: 1.4", order="order 0.0 1.0 0.1 1.1 0.2 1.2 0.2e 1.3 1.3e")
of_two("no words", "without its word: 0.0", order="order")
of_two("a word twice", "not the next call", order="order 0.0 1.0 0.1 0.1 1.1 0.2 1.2 0.2e 1.3 1.3e 1.4")
of_two("a word too many", "a call more", order=ORDER + " 1.5")
of_two("a session's calls in another order", "not the next call", order="order 0.0 1.0 0.1 1.2 0.2 1.1 0.2e 1.3 1.3e 1.4")
of_two("two edits in another order", "not changed", order="order 1.0 1.1 0.0 0.1 0.2 1.2 0.2e 1.3 1.3e 1.4")
of_two("two saves that cross", "two saves cross", order="order 0.0 1.0 0.1 1.1 0.2 1.2 1.3 0.2e 1.3e 1.4")
of_two("a save inside another", "two saves cross", order="order 0.0 1.0 0.1 1.1 0.2 1.2 1.3 1.3e 0.2e 1.4")
of_two("an end before its start", "an end of no save", order="order 0.0 1.0 0.1 1.1 0.2e 0.2 1.2 1.3 1.3e 1.4")
of_two("an end twice", "an end of no save", order="order 0.0 1.0 0.1 1.1 0.2 0.2e 0.2e 1.2 1.3 1.3e 1.4")
of_two("the end of another call", "an end of no save", order="order 0.0 1.0 0.1 1.1 0.2 1.2 0.1e 1.3 1.3e 1.4")
of_two("no end", "two saves cross", order="order 0.0 1.0 0.1 1.1 0.2 1.2 1.3 1.3e 1.4")
of_two("no last end", "without an end", order="order 0.0 1.0 0.1 1.1 0.2 1.2 0.2e 1.3 1.4")
for word in ("00.0", "0.00", "8.0", "0.0ee", "0", "0.", ".0", "", "0.0 ", "order"):
    of_two("the word '%s'" % word, "no word of an order", order="order %s 1.0 0.1 1.1 0.2 1.2 0.2e 1.3 1.3e 1.4" % word)
of_two("no order line", "no order line", order="orders" + ORDER[5:])
of_two("a blank at the end", "no word of an order", order=ORDER + " ")
of_two("a line behind the order", "no order line", order=ORDER + "\n")

# What a tile call has shown is kept for the peeks of others.
KEPT = ["0 opacity 1 0", "0 tile 0 0 0", "1 peek 0 0 0"]
SHOWN = ["0.0 changed 1 1 2", "0.1 tile 1 " + CLEAR]
case("a peek at what is kept", None, KEPT, SHOWN + ["1.0 tile 1 " + CLEAR], "order 0.0 0.1 1.0", ONE, 0)
case("a peek before that", None, KEPT, SHOWN + ["1.0 tile 0 " + PLAIN], "order 0.0 1.0 0.1", ONE, 0)
for reply in ("tile 0 " + PLAIN, "stale none 0"):
    case("an older peek, " + reply[:6], "is kept", KEPT, SHOWN + ["1.0 " + reply], "order 0.0 0.1 1.0")
case("nothing is kept of an edit alone", None, ["0 opacity 1 10", "0 peek 0 0 0"], ["0.0 changed 1 1 2", "0.1 stale none 1"],
     "order 0.0 0.1", ONE, 0)
case("an edit that damages no tile", None, ["0 tile 0 0 0", "0 rename 1 42", "0 peek 0 0 0"],
     ["0.0 tile 0 " + PLAIN, "0.1 changed 1 1 2", "0.2 tile 1 " + PLAIN], "order 0.0 0.1 0.2", ONE, 0)
case("an edit that damages no tile ends nothing", "is kept", ["0 tile 0 0 0", "0 rename 1 42", "0 peek 0 0 0"],
     ["0.0 tile 0 " + PLAIN, "0.1 changed 1 1 2", "0.2 stale 0 1"], "order 0.0 0.1 0.2")

# Undo and redo.
UNDO = ["0 opacity 1 0", "0 opacity 1 128", "0 undo", "0 tile 0 0 0", "0 redo", "0 tile 0 0 0", "0 undo 1", "0 top"]
UNDONE = ["0.0 changed 1 1 2", "0.1 changed 2 2 2", "0.2 changed 3 2 2", "0.3 tile 3 " + CLEAR, "0.4 changed 4 2 2",
          "0.5 tile 4 " + HALF, "0.6 not top 2", "0.7 top 2 4"]
FORWARD = "order 0.0 0.1 0.2 0.3 0.4 0.5 0.6 0.7"
case("undo and redo", None, UNDO, UNDONE, FORWARD, ONE, 0)
for at, line in ((3, "0.3 tile 3 " + PLAIN), (3, "0.3 tile 3 " + HALF), (5, "0.5 tile 4 " + CLEAR), (6, "0.6 not top 1"),
                 (6, "0.6 changed 5 1 2"), (7, "0.7 top 1 4"), (7, "0.7 top none 4"), (2, "0.2 nothing to undo"),
                 (4, "0.4 nothing to redo")):
    case("undo and redo, but " + line[:16], "at 0.%d" % at, UNDO, other(UNDONE, at, line), FORWARD)

# Guards, refusals, tiles that are not there.
GUARDED = ["0 begin 0", "0 opacity 1 0", "0 end", "1 begin 0", "1 opacity 1 128", "1 end", "1 opacity 9 1", "2 tile 2 0 0",
           "2 tile 0 1 0", "3 newgroup 0 0 -", "4 peek 2 0 0"]
GUARDS = ["0.0 changed 1 1 2", "1.0 moved 1", "1.1 refused 0 1 9", "2.0 no stack 2", "2.1 outside tile", "3.0 changed 2 2 3",
          "4.0 tile 2 " + CLEAR]
MOVED = "order 0.0 1.0 2.0 3.0 1.1 4.0 2.1"
case("guards and refusals", None, GUARDED, GUARDS, MOVED, ONE, 0)
case("nothing is kept of a new stack", None, GUARDED, other(GUARDS, 6, "4.0 stale none 0"), MOVED, ONE, 0)
for at, line in ((1, "1.0 changed 2 2 2"), (1, "1.0 moved 0"), (2, "1.1 refused 0 1 8"), (2, "1.1 refused 1 1 9"),
                 (2, "1.1 refused 0 1"), (3, "2.0 tile 0 " + CLEAR), (4, "2.1 no stack 0"), (6, "4.0 tile 1 " + CLEAR),
                 (6, "4.0 no stack 2")):
    case("guards and refusals, but " + line[:18], "at %s: " % line[:3], GUARDED, other(GUARDS, at, line), MOVED)
case("a stack that comes later", "not no stack 2", GUARDED, GUARDS, "order 0.0 1.0 2.0 4.0 3.0 1.1 2.1")

# Each session has filters of its own, and only an accepted group uses one.
FADES = ["0 filter 1 0 0 1 1 3", "0 filter 1 0 0 1 1 3", "0 forget 3", "0 tile 0 0 0", "1 filter 1 0 0 1 1 3", "1 tile 0 0 0"]
FADING = ["0.0 changed 1 1 2", "0.1 changed 2 2 2", "0.2 tile 2 " + FADED, "1.0 changed 3 3 2", "1.1 tile 3 " + FADED]
USES = "order 0.0 0.1 0.2 1.0 1.1"
case("filters", None, FADES, FADING, USES, ONE, 0)
case("a filter that was not used before", "at 0.2", FADES, other(FADING, 2, "0.2 tile 2 " + PLAIN), USES)
case("a filter of another session", "at 1.1", FADES, other(FADING, 4, "1.1 tile 3 " + shows("1a0d06ff")), USES)
TRIED = ["0 begin", "0 filter 1 0 0 1 1 3", "0 opacity 9 0", "0 end", "0 filter 1 0 0 1 1 3", "0 tile 0 0 0"]
TRIES = ["0.0 refused 1 1 9", "0.1 changed 1 1 2", "0.2 tile 1 " + PLAIN]
case("a refused group uses no filter", None, TRIED, TRIES, "order 0.0 0.1 0.2", ONE, 0)
case("a refused group used a filter", "at 0.2", TRIED, other(TRIES, 2, "0.2 tile 1 " + FADED), "order 0.0 0.1 0.2")

# Saves that fail, and one inside of which its session makes its next call: no run makes this, but it is a legal text.
FAILS, FAULT = ["0 opacity 1 0", "0 save"], ["0.0 changed 1 1 2", "0.1 save fault 1"]
for left in (ONE, with_opacity(0)):
    case("a save that fails", None, FAILS, FAULT, "order 0.0 0.1 0.1e", left, 6)
case("a save that fails and leaves another file", "the file is not", FAILS, FAULT, "order 0.0 0.1 0.1e", with_opacity(1), 6)
case("a save that fails at status 0", "status 0", FAILS, FAULT, "order 0.0 0.1 0.1e", ONE, 0)
case("a fault of another version", "a save of version 1", FAILS, other(FAULT, 1, "0.1 save fault 0"), "order 0.0 0.1 0.1e", ONE, 6)
case("a call inside its session's save", None, ["0 save", "0 top"], ["0.0 saved 0", "0.1 top none 0"], "order 0.0 0.1 0.0e", ONE, 0)
case("no calls", None, [], [], "order", ONE, 0)
case("a call of no session", "no line of a session", [], ["0.0"], "order", ONE, 0)
CASES += [("no newline at the end", "0 top\n", "0.0 top none 0\norder 0.0", ONE, 0, "does not end"),
          ("no text", "", "", ONE, 0, "does not end"),
          ("no text at another status", "0 top\n", "", ONE, 8, "status 8"),
          ("a bad line", "0 top\n", "bad line 1\n", ONE, 3, "status 3"),
          ("a session's line at the end", "0 top\n", "order 0.0\n0.0 top none 0\n", ONE, 0, "no order line")]
