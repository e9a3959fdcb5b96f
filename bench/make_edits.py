#!/usr/bin/env python3
"""Makes a script: fills of 32 by 32 pixels all over a layer, and a tile of the image after each ten of them.

    make_edits.py OUT [--size WIDTH HEIGHT] [--fills N] [--up-to SIDE] [--layer ID]

With --up-to the sides of each fill are any from 1 to this one. The layer is 1, unless another is named.

The layer is RGB with alpha, of these sides, as the layers of make_plain.py are.
"""

import argparse
import random

SIDE = 32
TILE = 64


def lines(width, height, fills, most, layer):
    draw = random.Random(7).randrange
    for done in range(1, fills + 1):
        pixel = bytes(draw(256) for _ in range(4)).hex()
        w, h = (draw(most) + 1, draw(most) + 1) if most else (SIDE, SIDE)
        yield f"0 fill {layer} {draw(width - w + 1)} {draw(height - h + 1)} {w} {h} {pixel}"
        if done % 10 == 0:
            yield f"0 tile 0 {draw(-(-width // TILE))} {draw(-(-height // TILE))}"


def main():
    parser = argparse.ArgumentParser(description=__doc__, formatter_class=argparse.RawDescriptionHelpFormatter)
    parser.add_argument("out", metavar="OUT")
    parser.add_argument("--size", nargs=2, type=int, default=(512, 512), metavar=("WIDTH", "HEIGHT"))
    parser.add_argument("--fills", type=int, default=200)
    parser.add_argument("--up-to", type=int, default=0, metavar="SIDE")
    parser.add_argument("--layer", type=int, default=1, metavar="ID")
    given = parser.parse_args()
    with open(given.out, "w") as file:
        file.writelines(line + "\n" for line in lines(*given.size, given.fills, given.up_to, given.layer))


if __name__ == "__main__":
    main()
