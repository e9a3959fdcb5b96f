#!/usr/bin/env python3
"""Makes a script of eight sessions on the file of make_layers.py: fills of a layer of its own each, with tiles between.

    make_sessions.py OUT [--size WIDTH HEIGHT] [--fills N] [--up-to SIDE] [--one]
    make_sessions.py OUT --peeks N [--one]

Each session makes 250 fills of up to 64 by 64 pixels of its layer, and asks for a tile of the image after each ten. With
--peeks it asks for one tile and then peeks at it so many times. With --one all lines are of session 0.
"""

import argparse
import random

SESSIONS = 8
TILE = 64
SIZE = (4000, 3000)
# The layers of make_layers.py are numbered behind their groups, of which it has two.
LAYERS = (2, 3, 4, 5, 8, 9, 10, 11)


def fills(session, size, count, most=64):
    """The lines of a session that fills, without its digit."""
    draw, (width, height) = random.Random(session).randrange, size
    for done in range(1, count + 1):
        w, h = draw(most) + 1, draw(most) + 1
        place, pixel = (draw(width - w + 1), draw(height - h + 1)), bytes(draw(256) for _ in range(4)).hex()
        yield "fill %d %d %d %d %d %s" % (LAYERS[session], *place, w, h, pixel)
        if done % 10 == 0:
            yield "tile 0 %d %d" % (draw(-(-width // TILE)), draw(-(-height // TILE)))


def peeks(session, count):
    yield "tile 0 %d 0" % session
    for _ in range(count):
        yield "peek 0 %d 0" % session


def script(lines_of, is_one):
    """The lines of all sessions, or the same lines by session 0."""
    return "".join("%d %s\n" % (0 if is_one else session, line) for session in range(SESSIONS) for line in lines_of(session))


def main():
    parser = argparse.ArgumentParser(description=__doc__, formatter_class=argparse.RawDescriptionHelpFormatter)
    parser.add_argument("out", metavar="OUT")
    parser.add_argument("--size", nargs=2, type=int, default=SIZE, metavar=("WIDTH", "HEIGHT"))
    parser.add_argument("--fills", type=int, default=250, metavar="N")
    parser.add_argument("--up-to", type=int, default=64, metavar="SIDE")
    parser.add_argument("--peeks", type=int, metavar="N")
    parser.add_argument("--one", action="store_true")
    given = parser.parse_args()
    with open(given.out, "w") as file:
        if given.peeks is None:
            file.write(script(lambda session: fills(session, given.size, given.fills, given.up_to), given.one))
        else:
            file.write(script(lambda session: peeks(session, given.peeks), given.one))


if __name__ == "__main__":
    main()
