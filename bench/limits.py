#!/usr/bin/env python3
"""Times and memory at the limits: many groups of edits, the largest canvas, and paint under a lock of alpha.

    limits.py --binary BIN [--before OLD] [--folder FOLDER] [--runs N]

FOLDER takes the files, 2 MB, and keeps them; without it a temporary one is used. Each number is the median of N runs (5), which take
turns with those beside which it is read; times are those of all processors. OLD is another build of the program, whose times of
painting stand beside.
"""

import argparse
import os
import random
import statistics
import subprocess
import sys
import tempfile

import make_flat
from xcf_writing import image

PAINTED = (1024, 1024)
SIDE = 256


def made(folder, name, sides):
    """A file of one layer of one colour, run-length coded."""
    path = os.path.join(folder, name)
    if not os.path.exists(path):
        with open(path, "wb") as file:
            file.write(image(0, *sides, 0, [], make_flat.layers(*sides, 1), compression=1).file())
    return path


def measured(words, script=b""):
    """The seconds of a run on all processors together, which other work beside it does not change much, and its peak memory in MB."""
    process = subprocess.Popen(words, stdin=subprocess.PIPE, stdout=subprocess.DEVNULL)
    try:
        process.stdin.write(script)
    finally:
        process.stdin.close()
    _, status, used = os.wait4(process.pid, 0)
    process.returncode = os.waitstatus_to_exitcode(status)
    if process.returncode != 0:
        sys.exit("%s: status %d" % (" ".join(words), process.returncode))
    return used.ru_utime + used.ru_stime, used.ru_maxrss / 1024


def medians(runs, cases):
    """The medians of the seconds and of the MB of some cases, which take turns."""
    found = [[measured(*case) for case in cases] for _ in range(runs)]
    return [tuple(statistics.median(turn[place][part] for turn in found) for part in (0, 1)) for place in range(len(cases))]


def fills(count, side, sides, more=""):
    """Fills of squares all over layer 1, behind another line."""
    draw = random.Random(5).randrange
    lines = [more] if more else []
    for _ in range(count):
        x, y = draw(sides[0] - side + 1), draw(sides[1] - side + 1)
        lines.append("0 fill 1 %d %d %d %d %08x" % (x, y, side, side, draw(2**32)))
    return "\n".join(lines).encode()


def writes(count, side, sides, more=""):
    """Writes of squares all over layer 1, behind another line."""
    draw = random.Random(6)
    lines = [more] if more else []
    for _ in range(count):
        x, y = draw.randrange(sides[0] - side + 1), draw.randrange(sides[1] - side + 1)
        pixels = draw.getrandbits(32 * side * side).to_bytes(4 * side * side, "big")
        lines.append("0 write 1 %d %d %d %d %s" % (x, y, side, side, pixels.hex()))
    return "\n".join(lines).encode()


def edit(binary, path):
    return [binary, "edit", path, "--workers", "0"]


def many_groups(given, folder):
    sides = (512, 512)
    path = made(folder, "many.xcf", sides)
    few, many = medians(given.runs, [(edit(given.binary, path), fills(count, 64, sides)) for count in (2000, 20000)])
    print("fills of 64 by 64: 2000 hold %.1f MB, 20000 hold %.1f MB, %.2f times" % (few[1], many[1], many[1] / few[1]))


def largest_canvas(given, folder):
    sizes = ((4000, 3000), (16384, 16384))
    paths = [made(folder, "canvas-%d.xcf" % width, (width, height)) for width, height in sizes]
    pixels = [width * height for width, height in sizes]
    found = medians(given.runs, [([given.binary, "render", path],) for path in paths])
    times = [1e9 * seconds / count for (seconds, _), count in zip(found, pixels)]
    room = os.path.getsize(paths[1]) / 2**20 + 64 + 2 * 64 * 4 * sizes[1][0] / 2**20
    print("a canvas of 4000 by 3000: %.2f ns a pixel; of 16384 by 16384: %.2f ns, %.2f times, %.1f MB where %.1f are allowed" % (
        *times, times[1] / times[0], found[1][1], room))


def paint(given, folder):
    path = made(folder, "painted.xcf", PAINTED)
    for name, script, count in (("fills", fills, 1000), ("writes", writes, 30)):
        binaries = [given.binary] + ([given.before] if given.before else [])
        cases = [(edit(given.binary, path), script(count, SIDE, PAINTED, "0 lockalpha 1 1"))]
        cases += [(edit(binary, path), script(count, SIDE, PAINTED)) for binary in binaries]
        empty, locked, free, *before = medians(given.runs, [(edit(given.binary, path),)] + cases)
        base = empty[0]
        print("%d %s of %d by %d: %.3f s, with a lock of alpha %.3f s, %.2f times%s" % (
            count, name, SIDE, SIDE, free[0] - base, locked[0] - base, (locked[0] - base) / (free[0] - base),
            "".join("; before %.3f s, now %.2f times" % (old[0] - base, (free[0] - base) / (old[0] - base)) for old in before)))


def main():
    parser = argparse.ArgumentParser(description=__doc__, formatter_class=argparse.RawDescriptionHelpFormatter)
    parser.add_argument("--binary", required=True, metavar="BIN")
    parser.add_argument("--before", metavar="OLD")
    parser.add_argument("--folder", metavar="FOLDER")
    parser.add_argument("--runs", type=int, default=5, metavar="N")
    given = parser.parse_args()
    with tempfile.TemporaryDirectory() as other:
        folder = given.folder or other
        os.makedirs(folder, exist_ok=True)
        for part in (many_groups, largest_canvas, paint):
            part(given, folder)


if __name__ == "__main__":
    main()
