#!/usr/bin/env python3
"""What `xcfedit` writes for the commands pack, flatten and view, by the rules of docs/SCRIPTS.md, apart from the engine.

    xcf_commands.py pack FILE OUT [--plan]
    xcf_commands.py flatten FILE OUT
    xcf_commands.py view FILE SCRIPT --cols W --rows H

OUT is the file that is left. Of several smallest plans of a plane this prints one, and the engine may print another.
"""

import argparse
import hashlib
import sys

import xcf_written
from xcf_edits import History, group_children, play, run
from xcf_picture import bytes_of, stack_row
from xcf_reading import Refused, read
from xcf_script import BadLine, parse

SHORT = 127
MOST_TOP_NODES = 1022
MOST_AREA = 2**28


# ---- pack

def runs_from(plane):
    """How many equal bytes begin at each place."""
    counts = [1] * len(plane)
    for at in range(len(plane) - 2, -1, -1):
        if plane[at] == plane[at + 1]:
            counts[at] = counts[at + 1] + 1
    return counts


def plan(plane):
    """The fewest bytes that spell the plane, and its pieces: a letter and a length each.

    From each place on, all short literals are tried, the long literals by the least of their ends, and runs, whole and cut
    at the short form's end: what is behind a longer run never costs more.
    """
    size, runs = len(plane), runs_from(plane)
    cost, piece = [0] * (size + 1), [None] * size
    far = size
    for at in range(size - 1, -1, -1):
        short = min(SHORT, runs[at])
        tries = [(2 + cost[at + short], "r", short), (4 + cost[at + runs[at]], "R", runs[at])]
        tries += [(1 + k + cost[at + k], "l", k) for k in range(1, min(SHORT, size - at) + 1)]
        if far + cost[far] >= at + 1 + cost[at + 1]:
            far = at + 1
        tries.append((3 + far - at + cost[far], "L", far - at))
        cost[at], *piece[at] = min(tries, key=lambda one: one[0])
    pieces, at = [], 0
    while at < size:
        pieces.append(piece[at])
        at += piece[at][1]
    return cost[0], pieces


def spelled(plane, pieces):
    out, at = bytearray(), 0
    for letter, count in pieces:
        if letter in "rl":
            out.append(count - 1 if letter == "r" else 256 - count)
        else:
            out += (b"\x7f" if letter == "R" else b"\x80") + count.to_bytes(2, "big")
        out += plane[at:at + (1 if letter in "rR" else count)]
        at += count
    return bytes(out)


def pack(data):
    """The text without plans, the plans' lines, and the file."""
    plans = []

    def shortest(plane):
        size, pieces = plan(plane)
        plans.append(" ".join("%s%d" % (letter, count) for letter, count in pieces) + "\n")
        out = spelled(plane, pieces)
        assert len(out) == size
        return out

    doc = read(data)
    xcf_written.encoded = shortest
    file = xcf_written.written(doc, 1)
    return "packed %d %d planes %d\n" % (len(data), len(file), len(plans)), "".join(plans), file


# ---- flatten

def flat_refusal(doc):
    canvas = doc.width * doc.height
    if doc.selection is not None:
        return 1
    if doc.base == 2:
        return 2
    if len(doc.nodes) > MOST_TOP_NODES:
        return 3
    return 4 if canvas * (1 + len(doc.channels)) > MOST_AREA else 0


def flat_script(doc):
    """The group of edits as a script: each node at the top goes, a layer comes, and it gets the picture."""
    rgba = b"".join(bytes_of(stack_row(doc, doc.nodes, y)) for y in range(doc.height))
    grey = doc.base == 1
    pixels = bytes(b for at in range(0, len(rgba), 4) for b in (rgba[at], rgba[at + 3])) if grey else rgba
    lines = ["begin"] + ["delete %d" % node.id for node in doc.nodes]
    lines.append("newlayer 0 0 0 0 %d %d %d -" % (doc.width, doc.height, 3 if grey else 1))
    lines.append("write %d 0 0 %d %d %s" % (doc.count + 1, doc.width, doc.height, pixels.hex()))
    return "".join("0 %s\n" % line for line in lines + ["end", "save"]).encode()


def flatten(data):
    """The status, the text, and the file, or none."""
    doc = read(data)
    refused = flat_refusal(doc)
    if refused:
        return 9, "flatten refused %d\n" % refused, None
    status, text, file = run(data, flat_script(doc))
    assert status == 0 and text.startswith("0.0 changed 1 1 "), text
    return 0, "flattened 1\n", file


# ---- view

def tile(doc, nodes, column, row):
    rows = range(64 * row, min(64 * row + 64, doc.height))
    return b"".join(bytes_of(stack_row(doc, nodes, y)[64 * column:64 * column + 64]) for y in rows)


class Windows(History):
    """A history whose tiles are windows."""

    def __init__(self, doc, cols, rows):
        super().__init__(doc)
        self.cols, self.rows = cols, rows

    def shows(self, version, node, column, row):
        doc = self.docs[version]
        nodes = group_children(doc, node)
        columns = range(column, min(column + self.cols, (doc.width + 63) // 64))
        pixels = b"".join(tile(doc, nodes, at, down) for down in range(row, min(row + self.rows, (doc.height + 63) // 64))
                          for at in columns)
        return "tile %d %s" % (version, hashlib.sha256(pixels).hexdigest())


def viewed(script):
    """The script with an unknown word on each line that may not be viewed."""
    lines = script.split(b"\n")
    for at, line in enumerate(lines):
        words = line.split(b" ")
        if line and not line.startswith(b"#") and (words[0] != b"0" or words[1:2] in ([b"save"], [b"peek"])):
            lines[at] = b"0 blur"
    return b"\n".join(lines)


def view(data, script, cols, rows):
    try:
        items = parse(viewed(script) if len(script) <= 2**24 else script)[0]
    except BadLine as bad:
        return 3, bad.text()
    return 0, "".join(play(Windows(read(data), cols, rows), 0, items)[0])


def main():
    parser = argparse.ArgumentParser(description=__doc__, formatter_class=argparse.RawDescriptionHelpFormatter)
    parser.add_argument("command", choices=["pack", "flatten", "view"])
    parser.add_argument("file", metavar="FILE")
    parser.add_argument("other", metavar="OUT|SCRIPT")
    parser.add_argument("--plan", action="store_true")
    parser.add_argument("--cols", type=int)
    parser.add_argument("--rows", type=int)
    given = parser.parse_args()
    with open(given.file, "rb") as file:
        data = file.read()
    status, text, left = 0, "", None
    try:
        if given.command == "pack":
            text, plans, left = pack(data)
            text = plans + text if given.plan else text
        elif given.command == "flatten":
            status, text, left = flatten(data)
        else:
            with open(given.other, "rb") as script:
                status, text = view(data, script.read(), given.cols, given.rows)
    except Refused as refused:
        status, text = 4, refused.line() + "\n"
    sys.stdout.write(text)
    if left is not None:
        with open(given.other, "wb") as file:
            file.write(left)
    return status


if __name__ == "__main__":
    sys.exit(main())
