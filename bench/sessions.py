#!/usr/bin/env python3
"""Times eight sessions beside each other on the file of make_layers.py, and the same calls made by one session.

    sessions.py --binary BIN [--folder FOLDER] [--runs N] [--workers N ..] [--fills N] [--peeks N] [--size WIDTH HEIGHT]

FOLDER takes the file, about 170 MB, and the scripts, and keeps the file for the next time; without it a temporary one is used and
removed. Each of eight sessions makes 250 fills of a layer of its own, with 25 tiles of the image between; then each peeks 2000
times at a tile that no edit touches. All is done with 0, 2 and 4 workers, or with those that are given, and once more with all
lines in session 0. What is printed is the seconds from start to end, the best of three runs (`--runs`), less those of an empty
script with the same workers, which loads the file: these stand in the column `load`.
"""

import argparse
import os
import subprocess
import sys
import tempfile
import time

from make_sessions import SIZE, fills, peeks, script

HERE = os.path.dirname(os.path.abspath(__file__))


def made_file(folder, size):
    path = os.path.join(folder, "layers_%d_%d.xcf" % tuple(size))
    if not os.path.exists(path):
        print("making %s" % os.path.basename(path), file=sys.stderr)
        words = [sys.executable, os.path.join(HERE, "make_layers.py"), path, "--size", str(size[0]), str(size[1])]
        subprocess.run(words, check=True)
    return path


class Timed:
    """A script, and the best seconds of its runs by their workers."""

    def __init__(self, folder, name, text):
        self.path, self.calls, self.best = os.path.join(folder, name), text.count("\n"), {}
        with open(self.path, "w") as file:
            file.write(text)

    def run(self, program, file, workers):
        with open(self.path, "rb") as source, open(self.path + ".text", "w+b") as text:
            start = time.perf_counter()
            done = subprocess.run([program, "edit", file, "--workers", str(workers)], stdin=source, stdout=text, check=False)
            seconds = time.perf_counter() - start
            text.seek(0)
            if done.returncode != 0 or text.read().count(b"\n") != self.calls + 1:
                raise SystemExit("%s: status %d, or not a line for each call" % (os.path.basename(self.path), done.returncode))
        self.best[workers] = min(seconds, self.best.get(workers, seconds))


def row(what, workers, load, eight, one):
    beside, alone = eight - load, one - load
    ratio = "%.2f" % (alone / beside) if min(beside, alone) > 0 else "-"
    print("%-32s %7d %8.2f s %8.2f s %8.2f s %9s" % (what, workers, load, beside, alone, ratio))


def timed_all(given, folder):
    file, load = made_file(folder, given.size), Timed(folder, "empty", "")
    kinds = {"%d fills and %d tiles each" % (given.fills, given.fills // 10):
             lambda session: fills(session, given.size, given.fills),
             "%d peeks each" % given.peeks: lambda session: peeks(session, given.peeks)}
    pairs = {what: [Timed(folder, "%s_%d" % (name, place), script(lines_of, name == "one")) for name in ("eight", "one")]
             for place, (what, lines_of) in enumerate(kinds.items())}
    for _ in range(given.runs):
        for workers in given.workers:
            for each in [load, *(timed for pair in pairs.values() for timed in pair)]:
                each.run(given.binary, file, workers)
    print("%d processors, the best of %d runs" % (os.cpu_count(), given.runs))
    print("%-32s %7s %10s %10s %10s %9s" % ("", "workers", "load", "eight", "one", "one/eight"))
    for what, (eight, one) in pairs.items():
        for workers in given.workers:
            row(what, workers, load.best[workers], eight.best[workers], one.best[workers])


def arguments():
    parser = argparse.ArgumentParser(description=__doc__, formatter_class=argparse.RawDescriptionHelpFormatter)
    parser.add_argument("--binary", required=True, metavar="BIN")
    parser.add_argument("--folder", metavar="FOLDER")
    parser.add_argument("--workers", nargs="+", type=int, default=[0, 2, 4], metavar="N")
    for name, plain in (("runs", 3), ("fills", 250), ("peeks", 2000)):
        parser.add_argument("--" + name, type=int, default=plain, metavar="N")
    parser.add_argument("--size", nargs=2, type=int, default=SIZE, metavar=("WIDTH", "HEIGHT"))
    given = parser.parse_args()
    given.binary = os.path.abspath(given.binary)
    return given


def main():
    given = arguments()
    if given.folder is None:
        with tempfile.TemporaryDirectory() as folder:
            timed_all(given, folder)
    else:
        os.makedirs(given.folder, exist_ok=True)
        timed_all(given, given.folder)


if __name__ == "__main__":
    main()
