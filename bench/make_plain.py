#!/usr/bin/env python3
"""Makes a large plain file: 4000 by 3000, version 0, three layers of RGB with alpha, stored as they are.

    make_plain.py OUT [--size WIDTH HEIGHT]
"""

import argparse

from xcf_writing import Drawable, Pixels, across, diagonal, down, flat, image, product, word_property


def layer(name, width, height, channels, opacity):
    properties = [word_property(6, opacity), word_property(7, 0), word_property(8, 1), word_property(11, 1),
                  word_property(15, 0, 0)]
    return Drawable(name, Pixels(width, height, channels), properties, kind=1)


def layers(width, height):
    """The topmost first: one that fades from side to side, one that fades downwards, and an opaque one below."""
    return [
        layer(b"top", width, height, [
            across(width, 255, 0, 3), diagonal(width, height, 0, 255, 9), down(width, height, 10, 250),
            across(width, 0, 255)], 180),
        layer(b"middle", width, height, [
            diagonal(width, height, 200, 40, 30), flat(width, 128), across(width, 0, 255, 40),
            product(width, height, across(width, 255, 60, 2), 255, 0)], 255),
        layer(b"bottom", width, height, [
            across(width, 0, 255), down(width, height, 0, 255), diagonal(width, height, 255, 0),
            flat(width, 255)], 255),
    ]


def main():
    parser = argparse.ArgumentParser(description=__doc__, formatter_class=argparse.RawDescriptionHelpFormatter)
    parser.add_argument("out", metavar="OUT")
    parser.add_argument("--size", nargs=2, type=int, default=(4000, 3000), metavar=("WIDTH", "HEIGHT"))
    given = parser.parse_args()
    width, height = given.size
    with open(given.out, "wb") as file:
        file.write(image(0, width, height, 0, [], layers(width, height)).file())


if __name__ == "__main__":
    main()
