#!/usr/bin/env python3
"""How fast `xcfedit serve` answers, told as times: no test has a clock.

    time_serve.py BIN FILE LAYER [--floor] [--part P]

FILE is copied into a folder that is removed; LAYER is the id of one of its layers, of 64 by 64 pixels at least. Each line is sent
when the answer to the one before has come, by the client of clients/python; the last rows send on. With --floor the same is asked of
floor.c, a server that answers constants. With --part 10 each row has a tenth of the lines.
"""

import argparse
import os
import shutil
import statistics
import subprocess
import sys
import tempfile
import time

HERE = os.path.dirname(os.path.abspath(__file__))
sys.path.insert(0, os.path.join(HERE, "..", "clients", "python"))
from xcfserve import Refused, Talk  # noqa: E402


def timed(count, work):
    """The microseconds that each of so many took."""
    times = []
    for n in range(count):
        start = time.perf_counter()
        work(n)
        times.append(1e6 * (time.perf_counter() - start))
    return sorted(times)


def told(what, times):
    print("%-26s %9.1f us in the middle %9.1f us for 99 in 100 %9.1f us at most"
          % (what, statistics.median(times), times[len(times) * 99 // 100], times[-1]), flush=True)


def bytes_of_pixel(talk, layer):
    """How many bytes a pixel of the layer has."""
    for count in (4, 3, 2):
        try:
            talk.edit("fill", layer, 0, 0, 1, 1, bytes(count))
            return count
        except Refused:
            pass
    return 1


def rows(talk, layer, part):
    count_of_bytes = bytes_of_pixel(talk, layer)

    def row(what, count, work):
        told(what, timed(max(1, count // part), work))

    def fill(side):
        return lambda n: talk.edit("fill", layer, 0, 0, side, side, (n * 7919 % 2**32).to_bytes(4, "little")[:count_of_bytes])

    def painted(n):
        fill(16)(n)
        talk.pixels(0, 0)

    def shown(n):
        talk.edit("opacity %d %d" % (layer, n % 256))
        talk.pixels(0, 0, 16, 16)

    row("top", 5000, lambda n: talk.top())
    row("opacity", 5000, lambda n: talk.edit("opacity %d %d" % (layer, n % 256)))
    row("fill of 1 by 1", 5000, fill(1))
    row("fill of 64 by 64", 2000, fill(64))
    row("a tile, kept", 2000, lambda n: talk.pixels(0, 0))
    row("fill of 16 by 16, its tile", 2000, painted)
    row("16 by 16 tiles, kept", 50, lambda n: talk.pixels(0, 0, 16, 16))
    row("opacity, 16 by 16 tiles", 20, shown)
    row("a save to its start", 5, lambda n: talk.save())
    row("wait", 5, lambda n: talk.wait())


def sent_on(talk, what, lines):
    start = time.perf_counter()
    talk.many(lines)
    print("%-26s %9.0f a second" % (what, len(lines) / (time.perf_counter() - start)), flush=True)


def measure(words, name, given):
    start = time.perf_counter()
    with Talk(name, words) as talk:
        told("until ready", [1e6 * (time.perf_counter() - start)])
        rows(talk, given.layer, given.part)
        pixel = "00" * bytes_of_pixel(talk, given.layer)
        sent_on(talk, "fills of 1 by 1, sent on", ["0 fill %d 0 0 1 1 %s" % (given.layer, pixel)] * (50000 // given.part))
        sent_on(talk, "opacity, sent on", ["0 opacity %d %d" % (given.layer, n % 256) for n in range(50000 // given.part)])


def main():
    parser = argparse.ArgumentParser(description=__doc__, formatter_class=argparse.RawDescriptionHelpFormatter)
    parser.add_argument("program", metavar="BIN")
    parser.add_argument("file", metavar="FILE")
    parser.add_argument("layer", type=int, metavar="LAYER")
    parser.add_argument("--floor", action="store_true")
    parser.add_argument("--part", type=int, default=1, metavar="P")
    given = parser.parse_args()
    folder = tempfile.mkdtemp(prefix="serve-")
    try:
        name = os.path.join(folder, "photo.xcf")
        shutil.copy(given.file, name)
        measure([os.path.abspath(given.program)], name, given)
        if given.floor:
            print("floor.c:")
            subprocess.run(["cc", "-O2", os.path.join(HERE, "floor.c"), "-o", os.path.join(folder, "floor")], check=True)
            measure([os.path.join(folder, "floor")], name, given)
    finally:
        shutil.rmtree(folder)


if __name__ == "__main__":
    main()
