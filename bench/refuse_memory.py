#!/usr/bin/env python3
"""Refuses each allocation of some runs of `xcfedit` in turn, and looks at how they end.

    refuse_memory.py --binary BIN [--all]

The runs are scripts over small files: five calls on the worked file, without a thread and beside two workers; its save, likewise;
and calls and a save on a file of four tiles in a group, beside one worker. Each is made once with ample memory, which tells how
many allocations it makes, and then once for each of these, which is refused. With --all that one and all behind it are refused.
`refused.c` stands before the C library for this; `cc` compiles it.

A run has to end with status 0 and the text of the model (xcf_edits.py), or with status 8 and no text. Where a device itself finds
no memory, which counts as its fault, its status may stand in place of 8: 5 or 6 with the line of a fault, 6 with a failed save,
7 with the front of the text. At status 2 words could not be read. The file has to be the old one or that of the save, and after
status 0 the latter. Where a thread cannot be started the work is done without it.
A line tells for each run how often each status came, and how often a save that had ended was told by no text. The exit status
is 1 where a run ended otherwise.
"""

import argparse
import os
import subprocess
import sys
import tempfile
from collections import Counter

from case_parts import ONE, one
from check_edits import put_file
from xcf_edits import run as model
from xcf_writing import Drawable, Pixels, flat, image, word_property

NAME = "f.xcf"
FIVE_CALLS = b"0 visible 1 0\n0 tile 0 0 0\n0 undo\n0 undo\n0 top\n"
IN_A_GROUP = b"0 fill 2 60 60 8 8 01020304\n0 tile 0 0 0\n0 tile 1 1 1\n0 opacity 1 100\n0 tile 0 1 0\n0 undo\n0 tile 0 0 1\n0 save\n"
# A run may take so long; the status of one that takes longer.
SECONDS, ENDLESS = 20, 256


def four_tiles():
    """A layer of 128 by 128 in a group, which is the canvas, stored as it is."""
    group = Drawable(b"g", Pixels(1, 1, [flat(1, 0)] * 4), [(29, b"")], kind=1)
    pixels = Pixels(128, 128, [flat(128, value) for value in (200, 100, 50, 255)])
    layer = Drawable(b"l", pixels, [word_property(6, 255), word_property(30, 0, 0)], kind=1)
    return bytes(image(3, 128, 128, 0, [], [group, layer], compression=0).file())


def cases():
    """Each run: what it is, its file, its script, and the words behind the file's name."""
    # another length behind the image's properties, so that the file that a save writes is not the old one
    saved = one({39: 7})
    for workers in ("0", "2"):
        yield "five calls, %s workers" % workers, ONE, FIVE_CALLS, ["--workers", workers]
        yield "a save, %s workers" % workers, saved, b"0 save\n", ["--workers", workers]
    yield "four tiles in a group, 1 worker", four_tiles(), IN_A_GROUP, ["--workers", "1"]


class Program:
    """The program with the library before it, in a folder of its own."""

    def __init__(self, binary, folder, refuse_all):
        self.binary, self.folder, self.refuse_all = os.path.abspath(binary), folder, refuse_all
        self.library = os.path.join(folder, "refused.so")
        source = os.path.join(os.path.dirname(os.path.abspath(__file__)), "refused.c")
        subprocess.run(["cc", "-O2", "-shared", "-fPIC", "-o", self.library, source], check=True)

    def run(self, data, script, words, refuse=None):
        """The status, the text, the file afterwards, and how many allocations were made."""
        work = tempfile.mkdtemp(dir=self.folder)
        put_file(work, NAME, data)
        count = os.path.join(work, "count")
        put_file(count, bytes(8))
        env = {"LD_PRELOAD": self.library, "REFUSE_COUNT": count}
        if refuse is not None:
            env["REFUSE"] = "%d%s" % (refuse, ".." if self.refuse_all else "")
        try:
            ended = subprocess.run([self.binary, "edit", NAME] + words, input=script, stdout=subprocess.PIPE,
                                   stderr=subprocess.DEVNULL, cwd=work, env=env, timeout=SECONDS)
            status, text = ended.returncode, ended.stdout
        except subprocess.TimeoutExpired:
            status, text = ENDLESS, b""
        with open(os.path.join(work, NAME), "rb") as file:
            left = file.read()
        with open(count, "rb") as file:
            made = int.from_bytes(file.read(), sys.byteorder)
        for name in os.listdir(work):
            os.remove(os.path.join(work, name))
        os.rmdir(work)
        return status, text, left, made


def wrong(data, script, status, text, left):
    """Why a run may not end so, or none."""
    _, wanted, saved = model(data, script)
    wanted, files = wanted.encode(), [data] + ([] if saved is None else [saved])
    if status == ENDLESS:
        return "it does not end"
    if left not in files:
        return "another file is left"
    if status == 0:
        return None if text == wanted and left == files[-1] else "another text or file at status 0"
    if status == 8:
        return None if text == b"" else "text at status 8"
    faults = {2: b"usage\n", 5: b"source fault\n", 6: b"shelf fault\n"}
    if text == faults.get(status):
        return None
    if status == 6 and text == wanted.replace(b"saved", b"save fault"):
        return None
    if status == 7 and wanted.startswith(text):
        return None
    return "status %d with another text" % status


def refuse_each(program, name, data, script, words):
    """Makes a run once for each of its allocations. Answers whether each ended well."""
    status, text, left, made = program.run(data, script, words)
    why = wrong(data, script, status, text, left)
    if status != 0 or why is not None:
        print("%s: with ample memory status %d, %s" % (name, status, why))
        return False
    statuses, unsaid, well = Counter(), 0, True
    for number in range(1, made + 1):
        status, text, left, _ = program.run(data, script, words, number)
        statuses[status] += 1
        unsaid += status == 8 and left != data
        why = wrong(data, script, status, text, left)
        if why is not None:
            print("%s, allocation %d: %s: %r" % (name, number, why, text))
            well = False
    told = ", ".join("%d of status %d" % (statuses[status], status) for status in sorted(statuses))
    print("%s: %d allocations: %s; %d saves told by no text" % (name, made, told, unsaid))
    return well


def main():
    parser = argparse.ArgumentParser(description=__doc__, formatter_class=argparse.RawDescriptionHelpFormatter)
    parser.add_argument("--binary", required=True, metavar="BIN")
    parser.add_argument("--all", action="store_true")
    given = parser.parse_args()
    with tempfile.TemporaryDirectory() as folder:
        program = Program(given.binary, folder, given.all)
        well = [refuse_each(program, *case) for case in cases()]
    return 0 if all(well) else 1


if __name__ == "__main__":
    sys.exit(main())
