#!/usr/bin/env python3
"""Makes files at the limits of the format, which `crates/written_files` reads and writes again.

    make_limits.py FOLDER

FOLDER gets `wide.xcf` and `tall.xcf`, of 16384 pixels along, and `nodes.xcf`, of 1024 nodes in 8 levels.
"""

import os
import sys

from xcf_writing import Drawable, Pixels, flat, image, word_property

MAX_SIDE, MAX_NODES, MAX_DEPTH = 16384, 1024, 8
TILE = 64


def stripes(width, first):
    """A row whose tiles have a colour each."""
    row = b"".join(bytes([(first + 7 * tile) % 256]) * TILE for tile in range(width // TILE))
    return lambda y: row


def steps(first):
    """Rows of one pixel whose tiles have a colour each."""
    return lambda y: bytes([(first + 7 * (y // TILE)) % 256])


def wide():
    rows = Pixels(MAX_SIDE, 1, [stripes(MAX_SIDE, first) for first in (0, 50, 100)] + [flat(MAX_SIDE, 200)])
    return image(0, MAX_SIDE, 1, 0, [], [Drawable(b"wide", rows, [], kind=1)], compression=1)


def tall():
    rows = Pixels(1, MAX_SIDE, [steps(first) for first in (0, 50, 100)] + [flat(1, 200)])
    return image(0, 1, MAX_SIDE, 0, [], [Drawable(b"tall", rows, [], kind=1)], compression=1)


def group(path):
    return Drawable(b"", Pixels(1, 1, [flat(1, 0)] * 4), [(29, b""), word_property(30, *path), word_property(6, 250)], kind=1)


def leaf(path, count):
    """A pixel of a colour of its own, somewhere on a canvas of 4 by 4."""
    pixels = Pixels(1, 1, [flat(1, value % 256) for value in (count, 3 * count, 7 * count, 100 + count)])
    return Drawable(b"", pixels, [word_property(30, *path), word_property(15, count % 4, count // 4 % 4)], kind=1)


def levels():
    """The paths of two groups at the top, of two in each, and so on, down to the deepest level, which has six layers in each group."""
    found, above = [], [[]]
    for depth in range(1, MAX_DEPTH + 1):
        count = 6 if depth == MAX_DEPTH else 2
        above = [path + [place] for path in above for place in range(count)]
        found += above
    return sorted(found)


def nodes():
    """The levels, and layers at the top for what is left."""
    paths = levels()
    made = [leaf(path, count) if len(path) == MAX_DEPTH else group(path) for count, path in enumerate(paths)]
    made += [leaf([2 + place], place) for place in range(MAX_NODES - len(paths))]
    return image(3, 4, 4, 0, [], made, compression=1)


def main(words):
    if len(words) != 1:
        sys.exit(__doc__)
    for name, made in (("wide", wide()), ("tall", tall()), ("nodes", nodes())):
        with open(os.path.join(words[0], name + ".xcf"), "wb") as file:
            file.write(made.file())


if __name__ == "__main__":
    main(sys.argv[1:])
