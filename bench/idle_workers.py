#!/usr/bin/env python3
"""Compares the processor time of a long save beside workers that have nothing to do with that of the same save without them.

    idle_workers.py --binary BIN [--folder FOLDER] [--runs N] [--workers N] [--size WIDTH HEIGHT]

The file has the ten layers of make_layers.py over a canvas of one tile, so workers soon have composed all that is marked, and the
save is long. FOLDER takes the file and a copy that is saved, about 340 MB, and keeps the first for the next time; without it a
temporary one is used and removed. Session 0 saves once. What is printed is the processor seconds of a run, user and system, and
its seconds from start to end, without workers and with eight (`--workers`): the least of three runs each (`--runs`), taken in turn.
The exit status is 1 where the processor seconds with workers are more than 1.25 times those without.
"""

import argparse
import os
import shutil
import subprocess
import sys
import tempfile
import time

from make_layers import image_properties, nodes
from make_sessions import SIZE, TILE
from xcf_writing import image

MOST = 1.25


def made_file(folder, size):
    path = os.path.join(folder, "one_tile_%d_%d.xcf" % tuple(size))
    if not os.path.exists(path):
        print("making %s" % os.path.basename(path), file=sys.stderr)
        layers = nodes(*size, normal=False)
        with open(path, "wb") as file:
            file.write(image(3, TILE, TILE, 0, image_properties(), layers, compression=1).file())
    return path


def timed(program, file, workers):
    """The processor seconds and the seconds of one run."""
    start = time.perf_counter()
    run = subprocess.Popen([program, "edit", file, "--workers", str(workers)], stdin=subprocess.PIPE, stdout=subprocess.PIPE)
    run.stdin.write(b"0 save\n")
    run.stdin.close()
    text = run.stdout.read()
    _, status, used = os.wait4(run.pid, 0)
    run.returncode = os.WEXITSTATUS(status) if os.WIFEXITED(status) else -os.WTERMSIG(status)
    if run.returncode != 0 or text.count(b"\n") != 2:
        raise SystemExit("with %d workers: status %d, %r" % (workers, run.returncode, text))
    return used.ru_utime + used.ru_stime, time.perf_counter() - start


def compared(given, folder):
    copy = os.path.join(folder, "saved.xcf")
    shutil.copyfile(made_file(folder, given.size), copy)
    least = {}
    for _ in range(given.runs):
        for workers in (0, given.workers):
            both = timed(given.binary, copy, workers)
            least[workers] = tuple(map(min, both, least.get(workers, both)))
    os.remove(copy)
    print("%d processors, the least of %d runs" % (os.cpu_count(), given.runs))
    for workers, (used, seconds) in least.items():
        print("%2d workers %8.2f s of processors %8.2f s from start to end" % (workers, used, seconds))
    ratio = least[given.workers][0] / least[0][0]
    print("ratio %.2f, at most %.2f" % (ratio, MOST))
    return ratio <= MOST


def arguments():
    parser = argparse.ArgumentParser(description=__doc__, formatter_class=argparse.RawDescriptionHelpFormatter)
    parser.add_argument("--binary", required=True, metavar="BIN")
    parser.add_argument("--folder", metavar="FOLDER")
    parser.add_argument("--runs", type=int, default=3, metavar="N")
    parser.add_argument("--workers", type=int, default=8, metavar="N")
    parser.add_argument("--size", nargs=2, type=int, default=SIZE, metavar=("WIDTH", "HEIGHT"))
    given = parser.parse_args()
    given.binary = os.path.abspath(given.binary)
    return given


def main():
    given = arguments()
    if given.folder is None:
        with tempfile.TemporaryDirectory() as folder:
            sys.exit(0 if compared(given, folder) else 1)
    os.makedirs(given.folder, exist_ok=True)
    sys.exit(0 if compared(given, given.folder) else 1)


if __name__ == "__main__":
    main()
