#!/usr/bin/env python3
"""What the example `crates/thumbs` does with FILE, by the rules of docs/FORMAT.md, apart from the engine.

    xcf_thumbs.py FILE OUT

The layers are listed on standard error. A name that is no UTF-8 stands there in hexadecimal digits; one with characters
that are escaped in quotes is told otherwise than by the program. Layers whose name begins with tmp are hidden, a quarter
of the first tile is written as a PAM, and the image is saved as OUT.
"""

import sys

from xcf_drafts import all_nodes
from xcf_edits import file_of
from xcf_picture import bytes_of, stack_row
from xcf_reading import read

HEAD = b"P7\nWIDTH %d\nHEIGHT %d\nDEPTH 4\nMAXVAL 255\nTUPLTYPE RGB_ALPHA\nENDHDR\n"


def name_of(node):
    try:
        return '"%s"' % node.name.decode()
    except UnicodeDecodeError:
        return node.name.hex()


def average(rows, x, y):
    """The bytes of the pixel that a block of 4 by 4 pixels becomes; at an edge the block has fewer."""
    block = [row[4 * u:4 * u + 4] for row in rows[y:y + 4] for u in range(x, min(x + 4, len(row) // 4))]
    return bytes(sum(pixel[k] for pixel in block) // len(block) for k in range(4))


def quarter(rows):
    """The PAM of a picture that is given as rows of RGBA bytes."""
    columns, lines = range(0, len(rows[0]) // 4, 4), range(0, len(rows), 4)
    return HEAD % (len(columns), len(lines)) + b"".join(average(rows, x, y) for y in lines for x in columns)


def main(file, out):
    with open(file, "rb") as data:
        doc = read(data.read())
    for node in all_nodes(doc.nodes):
        if node.children is None:
            shown = (name_of(node), node.plane.width, node.plane.height, node.opacity)
            print("%s %d x %d, opacity %d" % shown, file=sys.stderr)
            node.visible = node.visible and not node.name.startswith(b"tmp")
    rows = [bytes_of(stack_row(doc, doc.nodes, y)[:64]) for y in range(min(64, doc.height))]
    sys.stdout.buffer.write(quarter(rows))
    with open(out, "wb") as data:
        data.write(file_of(doc))


if __name__ == "__main__":
    main(*sys.argv[1:])
