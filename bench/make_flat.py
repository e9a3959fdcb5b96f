#!/usr/bin/env python3
"""Makes a large file whose layers are of one colour each: 4000 by 3000, version 0, run-length coded, ten layers.

    make_flat.py OUT [--size WIDTH HEIGHT] [--layers N]

The lowest layer is opaque, the others let half of what is below them through. N is from 1 to 10.
"""

import argparse

from xcf_writing import Drawable, Pixels, flat, image, word_property


def layers(width, height, count):
    """The topmost first."""
    found = []
    for k in range(10 - count, 10):
        channels = [flat(width, value) for value in (25 * k, 255 - 20 * k, 7 * k, 255 if k == 9 else 128)]
        properties = [word_property(6, 255), word_property(8, 1), word_property(11, 0), word_property(15, 0, 0),
                      word_property(7, 0)]
        found.append(Drawable(b"layer %d" % k, Pixels(width, height, channels), properties, kind=1))
    return found


def main():
    parser = argparse.ArgumentParser(description=__doc__, formatter_class=argparse.RawDescriptionHelpFormatter)
    parser.add_argument("out", metavar="OUT")
    parser.add_argument("--size", nargs=2, type=int, default=(4000, 3000), metavar=("WIDTH", "HEIGHT"))
    parser.add_argument("--layers", type=int, default=10, metavar="N")
    given = parser.parse_args()
    width, height = given.size
    with open(given.out, "wb") as file:
        file.write(image(0, width, height, 0, [], layers(width, height, given.layers), compression=1).file())


if __name__ == "__main__":
    main()
