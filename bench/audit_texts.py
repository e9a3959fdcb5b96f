#!/usr/bin/env python3
"""Asks the program's audit of texts that are nearly those of a run, and of sources at the limit of their length.

    audit_texts.py --binary BIN [--jobs J]

One run of two sessions is printed and then changed: cut at each of its bytes, with each of its digits another one, with each two
lines exchanged, with each word said twice, and with a zero before each number. The answer and the status must be those of
xcf_verdicts.py, which judges the same texts. Then a source of 2^28 bytes is asked of, and one of one byte more, whose head is
refused. The exit status is 1 where an answer is another one; each such text is told.
"""

import argparse
import functools
import multiprocessing
import os
import re
import subprocess
import sys
import tempfile

from audit_runs import by_program, judged
from xcf_reading import read
from xcf_verdicts import verdict_of

HERE = os.path.dirname(os.path.abspath(__file__))
FILE = os.path.join(HERE, "..", "crates", "stored_runs", "data", "one.xcf")
SCRIPT = b"0 opacity 1 128\n0 tile 0 0 0\n0 save\n1 peek 0 0 0\n1 undo\n1 top\n1 tile 0 0 0\n"
MOST = 1 << 28


def texts_near(text):
    """The text cut at each byte, with one digit changed, two lines exchanged, a word doubled, or a number with a zero before it."""
    for at in range(len(text)):
        yield text[:at]
    for at, letter in enumerate(text):
        if letter.isdigit():
            yield text[:at] + str((int(letter) + 1) % 10) + text[at + 1:]
    lines = text.split("\n")[:-1]
    for one in range(len(lines)):
        for other in range(one + 1, len(lines)):
            turned = list(lines)
            turned[one], turned[other] = turned[other], turned[one]
            yield "".join(line + "\n" for line in turned)
    for found in re.finditer(r"[^ \n]+", text):
        yield text[:found.end()] + " " + found[0] + text[found.end():]
    for found in re.finditer(r"[0-9]+", text):
        yield text[:found.start()] + "0" + text[found.start():]


def differs(program, data, text):
    """What both answer, where that is not the same."""
    plain = verdict_of(read(data), SCRIPT, text)
    said, status = judged(program, data, SCRIPT, text)
    if (said, status) == (plain + "\n", 0 if plain == "accepted" else 10):
        return None
    return "%r: the program %r (status %d), the rules %r" % (text, said, status, plain)


def of_length(program, data, length):
    """The answer to a source of so many bytes, of which the first say that the script is empty."""
    head = b"script 0\norder\n"
    return judged_source(program, data, head + b"\n" * (length - len(head)))


def judged_source(program, data, source):
    with tempfile.TemporaryDirectory() as folder:
        with open(os.path.join(folder, "f.xcf"), "wb") as file:
            file.write(data)
        done = subprocess.run([program, "audit", "f.xcf"], input=source, stdout=subprocess.PIPE, stderr=subprocess.DEVNULL, cwd=folder,
                              check=False)
        return done.stdout, done.returncode


def main():
    options = argparse.ArgumentParser(description=__doc__)
    options.add_argument("--binary", required=True, type=os.path.abspath)
    options.add_argument("--jobs", type=int, default=1)
    given = options.parse_args()
    with open(FILE, "rb") as file:
        data = file.read()
    text = by_program(given.binary, data, SCRIPT, 2)[1].decode("latin-1")
    texts = [text, *dict.fromkeys(texts_near(text))]
    with multiprocessing.Pool(given.jobs) as pool:
        wrong = [why for why in pool.map(functools.partial(differs, given.binary, data), texts, 8) if why]
    for length, wanted in ((MOST, (b"rejected 1\n", 10)), (MOST + 1, (b"bad head\n", 3))):
        found = of_length(given.binary, data, length)
        if found != wanted:
            wrong.append("a source of %d bytes: %r" % (length, found))
    print("\n".join(wrong + ["%d texts and 2 lengths, %d wrong" % (len(texts), len(wrong))]))
    sys.exit(1 if wrong else 0)


if __name__ == "__main__":
    main()
