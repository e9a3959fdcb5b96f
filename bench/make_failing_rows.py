#!/usr/bin/env python3
"""Writes rows of the crate `stored_runs`: devices that fail, and files that are cut or have another word somewhere.

    make_failing_rows.py FOLDER

FOLDER, that of the crate's data, takes `failures.rows`, `damaged.rows`, the file of the worked image made flat, the worked file as no
engine writes it, and the names of what may be left of it. Nothing is run. The texts of devices that fail are those of the rules of
docs/FORMAT.md and docs/ARCHITECTURE.md, cut where the write that fails stands. What damaged files must give is read by
`xcf_reading.py`, which knows nothing of the engine.
"""

import argparse
import hashlib
import itertools
import os

from case_parts import ONE, one
from stored_rows import NAME, part, put_rows, row
from xcf_reading import read
from xcf_reference import output
from xcf_written import written

SELECT, LOADS, SYNC, SWAP, SETTLE, ONE_SAVE, TWO_SAVES = 0, (1, 2), 5, 6, 7, 8, 13
PAM = "P7\nWIDTH 1\nHEIGHT 1\nDEPTH 4\nMAXVAL 255\nTUPLTYPE RGB_ALPHA\nENDHDR\n".encode() + bytes((200, 100, 50, 255))
SHELF_FAULT = (6, "old", "shelf fault\n")
EDIT, RENDER, VIEW, AUDIT = "edit " + NAME, "render " + NAME, "view %s --cols 2 --rows 2" % NAME, "audit " + NAME
SAVE, SAVES, FILL_BETWEEN = "0 save", "0 save\n0 save", "0 save\n0 fill 1 0 0 1 1 00000000\n0 save"
# The version that was printed is wrong.
PRINTED = "script 6\n0 top\n0.0 top none 1\norder 0.0\n"
# The last byte of the length word behind the image's properties, which is ignored where a file is read.
OLD = ONE[:42] + b"\x07" + ONE[43:]


def failing(name, words, outcome, script="", step=None, **calls):
    """A row of the old file. The calls that fail are named by their kinds, with their numbers from 0."""
    status, left, text = outcome
    fails = [part("failing-" + kind.replace("_", ""), str(number)) for kind, number in calls.items()]
    cut = [] if step is None else [part("step", str(step))]
    what = "".join(", %s %d" % (kind.replace("from_", "all from"), number) for kind, number in calls.items())
    return row(name + what, part("run", "in-memory " + words), part("file", "old.xcf"), *fails, *cut, part("status", str(status)),
               part("leaves", left), part("source", "", script), part("text", "", text))


def saves(*replies):
    """The text of a script of saves with a fill between them."""
    lines = ["0.0 %s 0\n" % replies[0]]
    if len(replies) == 1:
        return lines[0] + "order 0.0 0.0e\n"
    return lines[0] + "0.1 changed 1 1 2\n0.2 %s 1\norder 0.0 0.0e 0.1 0.2 0.2e\n" % replies[1]


def undos(count):
    """The text of so many undos of nothing."""
    lines = "".join("0.%d nothing to undo\n" % i for i in range(count))
    return lines, "order %s\n" % " ".join("0.%d" % i for i in range(count))


def left_at(call, new):
    """What a crash may leave where this call of a save failed, and first what a read gives."""
    return "old" if call < SWAP else "old " + new if call == SWAP else new + " old"


def failed_call(call):
    """A script of one save, of which a call fails: the status, what a crash may leave, and the text."""
    return SHELF_FAULT if call < 3 else (6, left_at(call, "one"), saves("save fault"))


def stopped_at(call):
    """Two saves, where all calls from one on fail."""
    if call < 3:
        return SHELF_FAULT
    if call < ONE_SAVE:
        return 6, "old" if call < SETTLE else "one old", saves("save fault", "save fault")
    if call < TWO_SAVES:
        return 6, "one" if call < TWO_SAVES - 1 else "filled one", saves("saved", "save fault")
    return 0, "filled", saves("saved", "saved")


def cut(text, step, write):
    """What is written before the write that fails."""
    return text[:step * write]


def rows_of_saves():
    yield failing("one save", EDIT, (0, "one", saves("saved")), SAVE)
    for call in range(ONE_SAVE):
        yield failing("one save", EDIT, failed_call(call), SAVE, call=call)
    again = (6, "one", "0.0 save fault 0\n0.1 saved 0\norder 0.0 0.0e 0.1 0.1e\n")
    yield failing("a save behind one that failed", EDIT, again, SAVES, call=SYNC)
    other = (6, "one", "0.0 saved 0\n0.1 save fault 0\norder 0.0 0.0e 0.1 0.1e\n")
    yield failing("a save of the version that was saved", EDIT, other, SAVES, call=ONE_SAVE)
    for call in range(TWO_SAVES + 1):
        yield failing("two saves", EDIT, stopped_at(call), FILL_BETWEEN, from_=call)


def rows_of_reads():
    # 21 bytes in pieces of seven, and then the end
    for read_number in range(4):
        yield failing("three lines", EDIT, (5, "old", "source fault\n"), "0 undo\n" * 3, read=read_number)
    # No read comes behind the end.
    yield failing("three lines", EDIT, (0, "old", "".join(undos(3))), "0 undo\n" * 3, read=4)
    # six bytes, and then the end
    for read_number in range(2):
        yield failing("one save", EDIT, (5, "old", "source fault\n"), SAVE, read=read_number)


def rows_of_writes():
    two = "".join(undos(2))
    for write in range(3):
        yield failing("an edit", EDIT, (7, "old", cut(two, 10, write)), "0 undo\n0 undo", 10, write=write)
        yield failing("a picture", RENDER, (7, "old", cut(PAM, 10, write).decode()), step=10, write=write)
        yield failing("a bad line", EDIT, (3, "old", cut("bad line 1\n", 5, write)), "0 blur", 5, write=write)
        yield failing("no command", "render -", (2, "old", cut("usage\n", 3, write)), step=3, write=write)
    for write in range(4):
        yield failing("one save", EDIT, (7, "one", cut(saves("saved"), 7, write)), SAVE, 7, write=write)
    for call in range(SELECT + 3, ONE_SAVE):
        status, left, text = failed_call(call)
        yield failing("one save", EDIT, (7, left, cut(text, 7, 1)), SAVE, 7, call=call, write=1)


def rows_of_loads():
    yield failing("no file of that name", "edit g", SHELF_FAULT, "0 undo")
    yield failing("no file of that name", "render g", SHELF_FAULT)
    for call in (SELECT, *LOADS):
        yield failing("a picture", RENDER, SHELF_FAULT, call=call)


def rows_of_one_save(command, new, text):
    """A command that makes one save before it writes."""
    words = "%s %s" % (command, NAME)
    yield failing(command, words, (0, new, text))
    for call in range(ONE_SAVE):
        yield failing(command, words, (6, left_at(call, new), "shelf fault\n"), call=call)
    yield failing(command, words, (7, new, cut(text, 7, 1)), step=7, write=1)


def rows_of_plans():
    """The save is done before the first line is written."""
    yield failing("plans", "pack %s --plan" % NAME, (7, "packed", ""), write=0)


def rows_of_reading(name, words, script, reads, outcome):
    """A command that reads the source and saves nothing, of which a read, a load or a write fails."""
    for read_number in range(reads):
        yield failing(name, words, (5, "old", "source fault\n"), script, read=read_number)
    for call in (SELECT, *LOADS):
        yield failing(name, words, SHELF_FAULT, script, call=call)
    yield failing(name, words, (7, "old", cut(outcome[2], 7, 1)), script, 7, write=1)
    yield failing(name, words, outcome, script)


def failures():
    yield from rows_of_saves()
    yield from rows_of_reads()
    yield from rows_of_writes()
    yield from rows_of_loads()
    yield from rows_of_one_save("flatten", "flat", "flattened 1\n")
    yield from rows_of_one_save("pack", "packed", "packed 193 197 planes 4\n")
    yield from rows_of_plans()
    yield from rows_of_reading("a view", VIEW, "0 undo\n" * 3, 4, (0, "old", undos(3)[0]))
    # 40 bytes in pieces of seven, and then the end
    yield from rows_of_reading("an audit", AUDIT, PRINTED, 7, (10, "old", "rejected 2 0.0\n"))


# Words that the worked file may have at an offset in place of its own: a pointer to its layer outside the file, to the file's last
# byte, and none; a second pointer to the layer; the length of a name; a pointer to a mask that is none; pointers to a tile at no
# place and at another one; and the length word behind the end of the image's properties.
CHANGES = ((43, 2**32 - 1), (43, 192), (43, 0), (47, 55), (67, 2**32 - 1), (149, 55), (181, 0), (181, 14), (39, 7))


def damaged(name, change, data):
    status, pieces = output(data)
    wrote = b"".join(pieces)
    text = part("text", "", wrote.decode()) if status else part("digest", hashlib.sha256(wrote).hexdigest())
    return row(name, part("run", "in-memory " + RENDER), part("file", "one.xcf"), change, part("status", str(status)), text)


def damages():
    for end in range(len(ONE) + 1):
        yield damaged("the first %d bytes" % end, part("first", str(end)), ONE[:end])
    for at, word in CHANGES:
        yield damaged("word %d at %d" % (word, at), part("word", "%d at %d" % (word, at)), one({at: word}))


def packed_files(doc):
    """The smallest files of the worked image. They end with the spellings of four planes of one byte, and such a plane has two
    shortest ones: a run, with the code 0, and a literal byte, with the code 255."""
    data = written(doc, 1)
    for codes in itertools.product((0, 255), repeat=4):
        spelled = bytearray(data)
        spelled[-8::2] = bytes(codes)
        yield bytes(spelled)


def put_contents(folder):
    """The files that are read, and the digests and names of those that may be left."""
    doc = read(ONE)
    names = [(OLD, "old"), (ONE, "one"), (ONE[:-4] + bytes(4), "filled"), *((data, "packed") for data in packed_files(doc))]
    doc.nodes[0].name = b""
    flat = written(doc, 0)
    for name, data in (("old.xcf", OLD), ("flat.xcf", flat)):
        with open(os.path.join(folder, name), "wb") as file:
            file.write(data)
    with open(os.path.join(folder, "contents"), "w", encoding="ascii") as out:
        out.writelines("%s %s\n" % (hashlib.sha256(data).hexdigest(), name) for data, name in (*names, (flat, "flat")))


def main():
    parser = argparse.ArgumentParser(description=__doc__, formatter_class=argparse.RawDescriptionHelpFormatter)
    parser.add_argument("folder", metavar="FOLDER")
    given = parser.parse_args()
    put_contents(given.folder)
    for name, rows in (("failures.rows", failures()), ("damaged.rows", damages())):
        put_rows(os.path.join(given.folder, name), "Written by bench/make_failing_rows.py.", rows)


if __name__ == "__main__":
    main()
