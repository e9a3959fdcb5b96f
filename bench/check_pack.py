#!/usr/bin/env python3
"""Packs random byte planes, and compares the plans with the least that a search over all codes finds.

    check_pack.py BIN [--planes N] [--seed S]

Each layer of a grey image without alpha is one tile of one byte plane, in the file with or without run-length codes; every
tenth has a mask, which is a plane of its own behind it. Each plan has to make up its plane, as cheaply as can be; the line
behind the plans has to tell the lengths and the number of planes; and the file has to have the length that the plans tell and
to show what it showed. The exit status is 1 where something disagrees.
"""

import argparse
import os
import random
import re
import subprocess
import sys
import tempfile

from xcf_reading import read
from xcf_reference import output
from xcf_writing import Drawable, Pixels, encoded, image
from xcf_written import written

MOST_LAYERS, LONGEST = 900, 64
PACKED = re.compile(rb"packed (\d+) (\d+) planes (\d+)")
CUT = re.compile(rb"([rRlL])([1-9]\d*)")


def least(plane):
    """The least bytes that spell a plane: the shortest way through it, each code of each length being a step."""
    best = [0] + [None] * len(plane)
    for at in range(len(plane)):
        for end in range(at + 1, len(plane) + 1):
            count = end - at
            steps = [count + 3] + [count + 1] * (count <= 127)
            if plane[at:end] == plane[at:at + 1] * count:
                steps += [4] + [2] * (count <= 127)
            cheapest = best[at] + min(steps)
            if best[end] is None or cheapest < best[end]:
                best[end] = cheapest
    return best[-1]


def cost(line, plane):
    """The bytes of a plan's codes, or None where it is no plan of the plane."""
    at, bytes_ = 0, 0
    for word in line.split(b" "):
        found = CUT.fullmatch(word)
        if not found:
            return None
        form, count = found[1], int(found[2])
        piece = plane[at:at + count]
        if len(piece) < count or (form in b"rl" and count > 127) or (form in b"rR" and piece != piece[:1] * count):
            return None
        at += count
        bytes_ += (3 if form in b"RL" else 1) + (1 if form in b"rR" else count)
    return bytes_ if at == len(plane) else None


def drawn(draw):
    """A plane of 1 to 64 bytes, few of which differ from the one before in some, and most in others."""
    change, values = draw.choice((0.05, 0.2, 0.5, 0.8, 1)), draw.choice((2, 3, 256))
    plane = [draw.randrange(values)]
    for _ in range(draw.randrange(LONGEST)):
        plane.append(draw.randrange(values) if draw.random() < change else plane[-1])
    return bytes(plane)


def pixels(plane):
    return Pixels(len(plane), 1, [lambda y, plane=plane: plane])


def layer(number, planes):
    mask = Drawable(b"mask", pixels(planes[1]), []) if len(planes) > 1 else None
    return Drawable(b"%d" % number, pixels(planes[0]), [], 2, mask)


def made(draw, count):
    """The planes of each layer, with its mask's."""
    layers = []
    while count > 0:
        planes = [drawn(draw)]
        if count > 1 and draw.randrange(10) == 0:
            planes.append(bytes(draw.choice(planes[0] + b"\0") for _ in planes[0]))
        layers.append(planes)
        count -= len(planes)
    return layers


def shown(data):
    status, pieces = output(data)
    return status, b"".join(pieces)


def faults(program, layers, compression):
    """What is wrong with a packed file, each in a line."""
    data = bytes(image(0, LONGEST, 1, 1, [], [layer(*numbered) for numbered in enumerate(layers)],
                       compression=compression).file())
    planes = [plane for own in layers for plane in own]
    with tempfile.TemporaryDirectory() as folder:
        path = os.path.join(folder, "planes.xcf")
        with open(path, "wb") as file:
            file.write(data)
        done = subprocess.run([program, "pack", path, "--plan"], stdout=subprocess.PIPE, check=False)
        with open(path, "rb") as file:
            packed = file.read()
    lines = done.stdout.split(b"\n")
    if done.returncode != 0 or lines[-1] or len(lines) != len(planes) + 2:
        return ["status %d, %d lines for %d planes" % (done.returncode, len(lines) - 1, len(planes))]
    told = PACKED.fullmatch(lines[-2])
    found = []
    if not told or [int(word) for word in told.groups()] != [len(data), len(packed), len(planes)]:
        found.append("%r of %d, %d, %d" % (lines[-2], len(data), len(packed), len(planes)))
    costs = [cost(line, plane) for line, plane in zip(lines, planes)]
    found += ["%s %r: %s, least %d" % (plane.hex(), line, own, least(plane))
              for line, plane, own in zip(lines, planes, costs) if own != least(plane)]
    if shown(packed) != shown(data):
        found.append("another picture")
    if not found and len(packed) != len(written(read(data), 1)) + sum(costs) - sum(len(encoded(plane)) for plane in planes):
        found.append("%d bytes" % len(packed))
    return found


def main():
    parser = argparse.ArgumentParser(description=__doc__, formatter_class=argparse.RawDescriptionHelpFormatter)
    parser.add_argument("program")
    parser.add_argument("--planes", type=int, default=10_000)
    parser.add_argument("--seed", type=int, default=1)
    given = parser.parse_args()
    draw, left, wrong = random.Random(given.seed), given.planes, 0
    while left > 0:
        count = min(left, MOST_LAYERS)
        for line in faults(os.path.abspath(given.program), made(draw, count), draw.randrange(2)):
            print(line)
            wrong += 1
        left -= count
    print("%d planes, %d wrong" % (given.planes, wrong))
    sys.exit(wrong > 0)


if __name__ == "__main__":
    main()
