#!/usr/bin/env python3
"""The document and the script of a seed, by the rules of docs/SCRIPTS.md, apart from the engine.

    xcf_generated.py SEED [--opened OUT] [--script OUT] [--saved OUT]

Prints the summary that `make` writes. --opened takes the file before the script, --script the script, and --saved the file that
the last save leaves.
"""

import argparse
import hashlib

from xcf_picture import picture_rows
from xcf_reading import Document, Node, Plane, Properties
from xcf_written import written

WIDTH, HEIGHT, LAYER_WIDTH, LAYER_HEIGHT = 1024, 768, 512, 384
MODES = (0, 3, 4, 7, 19)
FILLS, TILES, SESSIONS = 96, 3, 8


class Draws:
    def __init__(self, seed):
        self.state = seed

    def below(self, count):
        self.state = (1664525 * self.state + 1013904223) % 2**32
        return self.state // 65536 % count

    def pixel(self):
        return bytes([self.below(256) for _ in range(4)])


def node(number):
    return Node(number, b"", Properties("layer"))


def layer(number, draws):
    new = node(number)
    new.x, new.y, new.kind = draws.below(512), draws.below(384), 1
    new.mode, new.opacity = MODES[draws.below(5)], 128 + draws.below(128)
    new.plane = Plane(LAYER_WIDTH, LAYER_HEIGHT, 4)
    new.plane.data[:] = draws.pixel() * (LAYER_WIDTH * LAYER_HEIGHT)
    return new


def group(number, draws):
    new = node(number)
    new.children = [layer(number + place, draws) for place in range(1, 5)]
    return new


def opened(draws):
    doc = Document()
    doc.width, doc.height, doc.base, doc.compression, doc.colours, doc.kept_list = WIDTH, HEIGHT, 0, 1, [], []
    doc.nodes, doc.count, doc.has_groups = [group(1, draws), group(6, draws)], 10, True
    return doc


def fill(number, draws):
    """The words of a fill."""
    x, y, w, h = draws.below(448), draws.below(320), 1 + draws.below(64), 1 + draws.below(64)
    return number, x, y, w, h, draws.pixel()


def calls(draws):
    """The calls of all sessions, one session after another: the session, the keyword and the words."""
    for session in range(SESSIONS):
        number = session + (2 if session <= 3 else 3)
        for count in range(1, FILLS + 1):
            yield session, "fill", fill(number, draws)
            if count % (FILLS // TILES) == 0:
                yield session, "tile", (0, draws.below(16), draws.below(12))
        yield session, "save", ()


def line(session, keyword, words):
    texts = [word.hex() if isinstance(word, bytes) else str(word) for word in words]
    return " ".join([str(session), keyword, *texts]) + "\n"


def make(doc, made):
    """Fills the layers of a document that nothing is selected in."""
    layers = {each.id: each for stack in doc.nodes for each in stack.children}
    for _, keyword, words in made:
        if keyword == "fill":
            number, x, y, w, h, pixel = words
            layers[number].plane.put(x, y, w, pixel * (w * h))


def summary(doc, made):
    versions, saves = (sum(keyword == wanted for _, keyword, _ in made) for wanted in ("fill", "save"))
    digest = hashlib.sha256(b"".join(picture_rows(doc))).hexdigest()
    return "made %d %d nodes %d sessions %d calls %d entries %d version %d digest %s\n" % (
        doc.width, doc.height, doc.count, SESSIONS, len(made), len(made) + saves, versions, digest)


def put(path, data):
    if path:
        with open(path, "wb") as out:
            out.write(data() if callable(data) else data)


def main():
    parser = argparse.ArgumentParser(description=__doc__, formatter_class=argparse.RawDescriptionHelpFormatter)
    parser.add_argument("seed", type=int, metavar="SEED")
    for name in ("--opened", "--script", "--saved"):
        parser.add_argument(name, metavar="OUT")
    given = parser.parse_args()
    draws = Draws(given.seed)
    doc = opened(draws)
    put(given.opened, lambda: written(doc, 1))
    made = list(calls(draws))
    put(given.script, "".join(line(*call) for call in made).encode())
    make(doc, made)
    print(summary(doc, made), end="")
    put(given.saved, lambda: written(doc, 1))


if __name__ == "__main__":
    main()
