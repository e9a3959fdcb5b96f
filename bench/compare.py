#!/usr/bin/env python3
"""Compares `xcfedit render` and `xcfedit info --all` with what files must give.

    compare.py BIN CORPUS [--mutants N] [--seed S]

BIN is the program, or `-` for the reference reader alone. CORPUS is a folder with files of XCF, in it or in its
folder `files`. Where it has an EXPECTED.tsv, that says what each file must give; where it has none, the reference
reader does, as it always does what `info --all` must print. With --mutants, N damaged copies of the smaller files are
tried as well, against the reference reader.

EXPECTED.tsv has a head line, and then for each file, between tabs: its name, the exit status, the SHA-256 and the
length of what `render` prints, and the file's structure as `xcf_reference.py --tree` prints it, or the refusal, or `-`
where it is not told.
The exit status is 1 where something disagrees.
"""

import argparse
import csv
import hashlib
import os
import random
import subprocess
import sys
import tempfile

from xcf_reference import output, tree_line, whole_line

SMALL = 60_000


def digest(data):
    return hashlib.sha256(data).hexdigest()


def by_reference(data, line=None):
    status, pieces = output(data, line)
    return status, b"".join(pieces)


def by_program(program, path, words=("render",)):
    done = subprocess.run([program, *words, path], stdout=subprocess.PIPE, check=False)
    return done.returncode, done.stdout


def shown(status, printed):
    text = printed.decode("ascii", "replace").strip() if len(printed) < 60 else "%s of %d bytes" % (
        digest(printed), len(printed))
    return "status %d, %s" % (status, text)


def read_file(path):
    with open(path, "rb") as file:
        return file.read()


def files_of(corpus):
    inner = os.path.join(corpus, "files")
    folder = inner if os.path.isdir(inner) else corpus
    return {name: os.path.join(folder, name) for name in sorted(os.listdir(folder)) if name.endswith(".xcf")}


def expected_rows(corpus):
    path = os.path.join(corpus, "EXPECTED.tsv")
    if not os.path.exists(path):
        return None
    with open(path, newline="", encoding="utf-8") as file:
        rows = list(csv.reader(file, delimiter="\t", quoting=csv.QUOTE_NONE))
    return {row[0]: row for row in rows[1:]}


class Tally:
    """How many comparisons agreed, and a line for each that did not."""

    def __init__(self):
        self.agreed, self.differ = 0, 0

    def compare(self, name, what, wanted, got):
        if wanted == got:
            self.agreed += 1
        else:
            self.differ += 1
            print("DIFFERS %s, %s\n  wanted %s\n  got    %s" % (name, what, wanted, got))


def compare_lines(tally, name, path, data, program):
    tally.compare(name, "line", by_reference(data, whole_line), by_program(program, path, ("info", "--all")))


def compare_row(tally, name, path, row, program):
    data = read_file(path)
    wanted = "status %s, %s of %s bytes" % tuple(row[1:4])

    def told(status, printed):
        return "status %d, %s of %d bytes" % (status, digest(printed), len(printed))
    tally.compare(name, "reference", wanted, told(*by_reference(data)))
    if row[4] != "-":
        tree = b"".join(output(data, tree_line)[1]).decode("ascii").strip()
        tally.compare(name, "structure", row[4], tree)
    if program != "-":
        tally.compare(name, "program", wanted, told(*by_program(program, path)))
        compare_lines(tally, name, path, data, program)


def compare_with_reference(tally, name, path, program):
    if program != "-":
        data = read_file(path)
        tally.compare(name, "program", shown(*by_reference(data)), shown(*by_program(program, path)))
        compare_lines(tally, name, path, data, program)


def damaged(data, draw):
    """A copy of a file with a few bytes changed, a word replaced, or its end cut off."""
    copy = bytearray(data)
    for _ in range(draw.randint(1, 3)):
        how = draw.randint(0, 3)
        at = draw.randrange(min(len(copy), draw.choice((64, 600, len(copy)))))
        if how == 0:
            copy[at] = draw.randrange(256)
        elif how == 1:
            copy[at:at + 4] = draw.choice((0, 1, 2, 5, 24, 255, 2**24, 2**31, 2**32 - 1, len(data))).to_bytes(4, "big")
        elif how == 2:
            copy[at:at + 4] = draw.randrange(len(data)).to_bytes(4, "big")
        elif draw.random() < 0.3:
            del copy[max(1, at):]
    return bytes(copy)


def compare_mutants(tally, paths, program, count, draw):
    """Damaged copies of small files; one that disagrees is kept and its path is told."""
    sources = [read_file(path) for path in paths if 0 < os.path.getsize(path) <= SMALL]
    if not sources:
        sys.exit("no file of at most %d bytes to damage" % SMALL)
    statuses = {}
    for number in range(count):
        data = damaged(draw.choice(sources), draw)
        wanted = by_reference(data)
        key = wanted[1].split()[2] if wanted[0] == 4 else b"accepted"
        statuses[key] = statuses.get(key, 0) + 1
        if program == "-":
            continue
        with tempfile.NamedTemporaryFile(suffix=".xcf", delete=False) as file:
            file.write(data)
        got = by_program(program, file.name)
        tally.compare(file.name, "mutant %d" % number, shown(*wanted), shown(*got))
        if got == wanted:
            os.unlink(file.name)
    print("mutants by the reference: " + ", ".join(
        "%s %d" % (key.decode(), statuses[key]) for key in sorted(statuses, key=lambda k: (len(k), k))))


def main():
    parser = argparse.ArgumentParser(description=__doc__, formatter_class=argparse.RawDescriptionHelpFormatter)
    parser.add_argument("program", metavar="BIN")
    parser.add_argument("corpus", metavar="CORPUS")
    parser.add_argument("--mutants", type=int, default=0, metavar="N")
    parser.add_argument("--seed", type=int, default=1, metavar="S")
    given = parser.parse_args()
    tally, paths, rows = Tally(), files_of(given.corpus), expected_rows(given.corpus)
    for name, path in paths.items():
        if rows is not None and name in rows:
            compare_row(tally, name, path, rows[name], given.program)
        else:
            compare_with_reference(tally, name, path, given.program)
    if given.mutants:
        compare_mutants(tally, list(paths.values()), given.program, given.mutants, random.Random(given.seed))
    print("%d comparisons agree, %d differ" % (tally.agreed, tally.differ))
    return 1 if tally.differ else 0


if __name__ == "__main__":
    sys.exit(main())
