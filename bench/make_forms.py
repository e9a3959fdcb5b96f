#!/usr/bin/env python3
"""Makes a small file with all that a document can have: groups in groups, an empty group, one off the canvas, a mask,
channels, a selection, late modes, and properties of each owner that are kept.

    make_forms.py OUT
"""

import sys

from xcf_writing import Drawable, Pixels, across, diagonal, down, flat, image, number, word_property


def group(name, path, opacity, properties=()):
    pixels = Pixels(7, 5, [flat(7, 0)] * 4)
    own = [(29, b""), word_property(30, *path), word_property(6, opacity), word_property(7, 3)]
    return Drawable(name, pixels, own + list(properties), kind=1)


def layer(name, path, width, height, x, y, mode, alpha=True, mask=None, properties=()):
    own = [word_property(30, *path), word_property(6, 200), word_property(7, mode), word_property(15, x, y)]
    rows = [across(width, 0, 255, 2), down(width, height, 200, 10), flat(width, 77), diagonal(width, height, 90, 255, 3)]
    return Drawable(name, Pixels(width, height, rows if alpha else rows[:3]), own + list(properties),
                    kind=1 if alpha else 0, mask=mask)


def mask(width, height):
    return Drawable(b"a mask", Pixels(width, height, [diagonal(width, height, 0, 255, 2)]), [word_property(20, 31)])


def channel(name, first, properties):
    return Drawable(name, Pixels(90, 70, [across(90, first, 255, 3)]), properties)


def layers():
    return [
        group(b"outer", [0], 230, [word_property(20, 11), (31, number(1))]),
        layer(b"over the edge", [0, 0], 80, 66, 40, -20, 19, properties=[word_property(20, 12)]),
        group(b"inner", [0, 1], 128),
        layer(b"masked", [0, 1, 0], 65, 3, 10, 30, 4, mask=mask(65, 3)),
        layer(b"opaque", [0, 1, 1], 20, 64, 0, 2, 0, alpha=False),
        group(b"empty", [0, 2], 255),
        group(b"off the canvas", [1], 255),
        layer(b"far", [1, 0], 4, 4, -100, -100, 5),
        layer(b"", [2], 90, 70, 0, 0, 0, alpha=False, properties=[word_property(11, 0), (8, number(0))]),
        layer(b"bottom", [3], 30, 30, 5, 5, 7, properties=[word_property(9, 1), word_property(10, 1)]),
    ]


def main(words):
    if len(words) != 1:
        sys.exit(__doc__)
    channels = [channel(b"first", 3, [(16, b"\1\2\3"), word_property(20, 21)]), channel(b"", 90, []),
                channel(b"chosen", 0, [(4, b""), word_property(14, 1)])]
    properties = [word_property(20, 40), word_property(22, 1), (21, b"kept bytes")]
    with open(words[0], "wb") as file:
        file.write(image(3, 90, 70, 0, properties, layers(), channels, compression=1).file())


if __name__ == "__main__":
    main(sys.argv[1:])
