#!/usr/bin/env python3
"""Runs random scripts of several sessions beside each other, and audits each printed run by a model that keeps nothing.

    audit_runs.py --binary BIN [--corpus FOLDER] [--runs N] [--lines N] [--seed S] [--first K] [--jobs J]
    audit_runs.py --binary BIN --beside [--changes N] [the same]
    audit_runs.py --audit FILE SCRIPT TEXT [--left FILE] [--status N]

BIN is the program. Files of at most 60,000 bytes of the corpus, else those of crates/written_files, are edited, each by a script
of one to eight sessions of up to N lines (24), with 0 to 4 workers. The printed order is replayed as xcf_audit.py says, and the
file afterwards has to be that of the last acknowledged save, with no draft beside it. J processes run scripts at a time (1).
The scripts of runs K to K + N - 1 (from 0, 100 of them) of a seed are always the same; what the sessions make of one is not.
With --beside the program's own audit is asked too, of what it printed and of that text with one thing changed, N times (8): a
digit of a digest, a number or a word of the order. Where its answer is not that of xcf_verdicts.py, both are told.
With --audit one run is audited that was made before: the file, the script and the printed text, with --left the file afterwards
and with --status the exit status.
The exit status is 1 where a run is refused. What the first of them was made of is kept, and its path is told.
"""

import argparse
import functools
import multiprocessing
import os
import random
import subprocess
import sys
import tempfile
from collections import Counter

import xcf_picture
from check_edits import Author, merged, put_file, sources_of
from xcf_audit import Refused, audited, refusal_of
from xcf_edits import History
from xcf_reading import read
from xcf_script import SESSIONS
from xcf_verdicts import changed, verdict_of

HERE = os.path.dirname(os.path.abspath(__file__))
CORPUS = os.path.join(HERE, "..", "crates", "written_files", "data")
SECONDS = 60
# How often a session makes a call of a kind.
PARTS = {"edit": 30, "group": 8, "undo": 9, "redo": 6, "forget": 2, "tile": 14, "peek": 22, "top": 3, "save": 6}
# Random pixels are seldom met again: fewer kept ones save memory in long runs.
xcf_picture.MOST_KEPT = 50_000


class Fellow(Author):
    """An author of one of several sessions. All of them write on one history, and peek at tiles that any of them asked for."""

    def __init__(self, draw, history, asked):
        super().__init__(draw, history, True)
        self.asked = asked

    def call(self):
        what = self.draw.choices(list(PARTS), list(PARTS.values()))[0]
        if what == "forget" and not self.slots:
            what = "top"
        lines = what if what in ("redo", "top", "save") else getattr(self, what)()
        return lines if what == "group" else [lines]


def random_script(draw, doc, most, sessions=None):
    """Lines of one to eight sessions, or of so many, of up to so many calls each, in any order. They were written on one history,
    call by call in turn, so that most calls of a session fit what others do meanwhile."""
    history, asked, lists = History(doc), [], {}
    numbers = draw.sample(range(SESSIONS), sessions or draw.randint(1, SESSIONS))
    turns = [number for number in numbers for _ in range(draw.randint(1, most))]
    draw.shuffle(turns)
    fellows = {number: Fellow(draw, history, asked) for number in numbers}
    for number in turns:
        lists.setdefault(number, []).extend(fellows[number].lines(1, number))
    return ("\n".join(merged(draw, list(lists.values()))) + "\n").encode()


@functools.lru_cache(maxsize=None)
def documents_of(corpus):
    """The files of a corpus with their documents, which no replay changes."""
    return [(data, read(data)) for data in sources_of(corpus)]


def by_program(program, data, script, workers):
    """What a run leaves: its status, the text and what it said of errors, the file, and the names beside it."""
    with tempfile.TemporaryDirectory() as folder:
        put_file(folder, "f.xcf", data)
        words = [program, "edit", "f.xcf", "--workers", str(workers)]
        try:
            done = subprocess.run(words, input=script, stdout=subprocess.PIPE, stderr=subprocess.PIPE, cwd=folder, check=False,
                                  timeout=SECONDS)
            status, text, errors = done.returncode, done.stdout, done.stderr
        except subprocess.TimeoutExpired as late:
            status, text, errors = "none within %d seconds" % SECONDS, late.stdout or b"", late.stderr or b""
        names = sorted(os.listdir(folder))
        return status, text, errors, content(os.path.join(folder, "f.xcf")) if "f.xcf" in names else b"", names


def one_run(given, number):
    """The number of a run, what there was in it, and where it is refused why, and what it was made of."""
    draw = random.Random("%d %d" % (given.seed, number))
    data, doc = draw.choice(documents_of(given.corpus))
    script, workers = random_script(draw, doc, given.lines), draw.randint(0, 4)
    status, text, errors, left, names = by_program(given.binary, data, script, workers)
    try:
        counts = audited(data, doc, script, text.decode("latin-1"), left, status)
        if names != ["f.xcf"]:
            raise Refused("in the folder there is left: %s" % " ".join(names))
        return number, counts, None, None
    except Refused as refused:
        why = "%s, with %d workers" % (refused, workers)
    made_of = {"f.xcf": data, "script": script, "text": text, "left.xcf": left, "errors": errors, "why": why.encode()}
    return number, Counter(), why, made_of


def judged(program, data, script, text):
    """What the program's audit answers, and its status."""
    with tempfile.TemporaryDirectory() as folder:
        put_file(folder, "f.xcf", data)
        source = b"script %d\n" % len(script) + script + text.encode("latin-1")
        done = subprocess.run([program, "audit", "f.xcf"], input=source, stdout=subprocess.PIPE, stderr=subprocess.DEVNULL, cwd=folder,
                              check=False, timeout=SECONDS)
        return done.stdout.decode("latin-1"), done.returncode


def other_verdict(given, data, doc, script, text):
    """What the program's audit and the replay answer to a text, and where they differ a sentence on it."""
    plain = verdict_of(doc, script, text)
    said, status = judged(given.binary, data, script, text)
    held = (said, status) == (plain + "\n", 0 if plain == "accepted" else 10)
    return plain, None if held else "the program: %s (status %d), the replay: %s" % (said.strip(), status, plain)


def one_beside(given, number):
    """The same of a run whose text and changed texts are judged by both."""
    draw = random.Random("%d %d" % (given.seed, number))
    data, doc = draw.choice(documents_of(given.corpus))
    script, workers = random_script(draw, doc, given.lines), draw.randint(0, 4)
    printed = by_program(given.binary, data, script, workers)[1].decode("latin-1")
    counts = Counter()
    for text in [printed] + [changed(draw, printed) for _ in range(given.changes)]:
        plain, why = other_verdict(given, data, doc, script, text)
        counts[" ".join(plain.split(" ")[:2])] += 1
        if why is not None:
            return number, counts, why, {"f.xcf": data, "script": script, "text": text.encode("latin-1"), "why": why.encode()}
    return number, counts, None, None


def all_runs(given):
    """The runs in their order."""
    numbers, run = range(given.first, given.first + given.runs), functools.partial(one_beside if given.beside else one_run, given)
    if given.jobs == 1:
        yield from map(run, numbers)
        return
    with multiprocessing.Pool(given.jobs) as pool:
        yield from pool.imap(run, numbers, 8)


def keep(made_of):
    folder = tempfile.mkdtemp(prefix="audit_")
    for name, data in made_of.items():
        put_file(folder, name, data)
    return folder


def audit_random(given):
    total, refused = Counter(), 0
    for number, counts, why, made_of in all_runs(given):
        total += counts
        if why is not None:
            refused += 1
            print("REFUSED run %d, %s%s" % (number, why, "" if refused > 1 else "; kept in " + keep(made_of)), flush=True)
        done = number - given.first + 1
        if done % 1000 == 0:
            print("%d runs, %d refused" % (done, refused), file=sys.stderr, flush=True)
    if given.beside:
        print("%d runs judged by both, %d otherwise; %d texts accepted, %d rejected by their shape, %d at a reply"
              % tuple([given.runs, refused] + [total[each] for each in ("accepted", "rejected 1", "rejected 2")]))
        return refused
    print("%d runs audited, %d refused; in %d the sessions' calls were interleaved" % (given.runs, refused, total["merged"]))
    print("%d calls; %d peeks, of which %d showed a later version than had to be kept, and %d were stale; "
          "%d saves, of which %d had calls of other sessions between start and end"
          % tuple(total[each] for each in ("calls", "peeks", "later peeks", "stale peeks", "saves", "saves beside calls")))
    return refused


def content(path):
    with open(path, "rb") as file:
        return file.read()


def audit_one(given):
    file, script, text = (content(path) for path in given.audit)
    left = None if given.left is None else content(given.left)
    why = refusal_of(file, read(file), script, text.decode("latin-1"), left, given.status)
    print("accepted" if why is None else "refused: " + why)
    return why is not None


def arguments():
    parser = argparse.ArgumentParser(description=__doc__, formatter_class=argparse.RawDescriptionHelpFormatter)
    parser.add_argument("--binary", metavar="BIN")
    parser.add_argument("--corpus", default=CORPUS, metavar="FOLDER")
    for name, plain, letter in (("runs", 100, "N"), ("lines", 24, "N"), ("seed", 1, "S"), ("first", 0, "K"), ("jobs", 1, "J")):
        parser.add_argument("--" + name, type=int, default=plain, metavar=letter)
    parser.add_argument("--beside", action="store_true")
    parser.add_argument("--changes", type=int, default=8, metavar="N")
    parser.add_argument("--audit", nargs=3, metavar=("FILE", "SCRIPT", "TEXT"))
    parser.add_argument("--left", metavar="FILE")
    parser.add_argument("--status", type=int, metavar="N")
    given = parser.parse_args()
    if (given.binary is None) == (given.audit is None):
        parser.error("either --binary or --audit")
    if given.binary is not None:
        given.binary = os.path.abspath(given.binary)
        if not os.access(given.binary, os.X_OK):
            parser.error("no program: " + given.binary)
    return given


def main():
    given = arguments()
    return 1 if (audit_one if given.audit else audit_random)(given) else 0


if __name__ == "__main__":
    sys.exit(main())
