#!/usr/bin/env python3
"""Makes a large file as GIMP writes one: 4000 by 3000, version 3, run-length coded, ten layers in two groups, a mask.

    make_layers.py OUT [--size WIDTH HEIGHT] [--normal]

All layers have the canvas's size. With --normal each has the normal mode, else four of them have others. The pictures
are smooth, so that their codes are runs and literals in turn. The image has guides, a resolution, a tattoo, a unit and
parasites; each hierarchy has the unused levels that GIMP writes.
"""

import argparse
import struct

from xcf_writing import (
    Drawable, Pixels, across, diagonal, down, flat, image, number, product, string, word_property)


def parasite(name, text):
    return string(name) + number(1) + number(len(text)) + text


def image_properties():
    guides = b"".join(number(place) + bytes([way]) for place, way in ((100, 1), (2000, 2), (1500, 1)))
    parasites = parasite(b"gimp-comment", b"Made by a script\0") + parasite(b"gimp-image-grid", b"(style solid)\n\0")
    return [(18, guides), (19, struct.pack(">ff", 300.0, 300.0)), word_property(20, 40), word_property(22, 1),
            (21, parasites)]


def node_properties(path, opacity, mode, tattoo, group=False):
    first = [(29, b"")] if group else []
    return first + [word_property(30, *path), word_property(6, opacity), word_property(8, 1), word_property(9, 0),
                    word_property(10, 0), word_property(11, 1), word_property(12, 0), word_property(13, 0),
                    word_property(15, 0, 0), word_property(7, mode), word_property(20, tattoo)]


def group(name, width, height, path, opacity, tattoo):
    """A group. Its own pixels are clear: a reader that knows groups takes those of its layers."""
    pixels = Pixels(width, height, [flat(width, 0)] * 4)
    return Drawable(name, pixels, node_properties(path, opacity, 0, tattoo, group=True), kind=1)


def alphas(width, height):
    """The alpha of each of five layers, the topmost first: the lowest is opaque."""
    return [
        product(width, height, across(width, 255, 0), 255, 120),
        across(width, 0, 255, 8),
        down(width, height, 255, 0, 2),
        diagonal(width, height, 255, 90, 5),
        flat(width, 255),
    ]


def colours(width, height, k):
    """The colours of layer k: slow ramps, which make runs, and quick ones, which make literals."""
    quick = diagonal(width, height, 10 * k, 255, 4 + k)
    return [across(width, 255 - 20 * k, 20 * k, 1 + k), quick if k % 2 == 0 else down(width, height, 255, 0, 1 + k),
            product(width, height, across(width, 0, 255, 2 + k), 40 + 10 * k, 255)]


def mask(width, height):
    properties = [word_property(6, 255), word_property(8, 1), word_property(9, 0), word_property(14, 0),
                  (16, bytes(3)), word_property(20, 30)]
    return Drawable(b"mask", Pixels(width, height, [diagonal(width, height, 0, 255, 3)]), properties)


MODES = (0, 3, 0, 4, 0, 0, 5, 0, 19, 0)
OPACITIES = (255, 200, 128, 255, 255, 90, 255, 180, 220, 255)


def nodes(width, height, normal):
    """Two groups of five layers each, a group before its layers."""
    found = []
    for g in range(2):
        found.append(group(b"group %d" % g, width, height, [g], (230, 255)[g], 10 + g))
        for k, alpha in enumerate(alphas(width, height)):
            which = 5 * g + k
            mode = 0 if normal else MODES[which]
            pixels = Pixels(width, height, colours(width, height, which) + [alpha])
            properties = node_properties([g, k], OPACITIES[which], mode, 20 + which)
            found.append(Drawable(b"layer %d" % which, pixels, properties, kind=1,
                                  mask=mask(width, height) if which == 2 else None))
    return found


def main():
    parser = argparse.ArgumentParser(description=__doc__, formatter_class=argparse.RawDescriptionHelpFormatter)
    parser.add_argument("out", metavar="OUT")
    parser.add_argument("--size", nargs=2, type=int, default=(4000, 3000), metavar=("WIDTH", "HEIGHT"))
    parser.add_argument("--normal", action="store_true")
    given = parser.parse_args()
    width, height = given.size
    layers = nodes(width, height, given.normal)
    with open(given.out, "wb") as file:
        file.write(image(3, width, height, 0, image_properties(), layers, compression=1).file())


if __name__ == "__main__":
    main()
