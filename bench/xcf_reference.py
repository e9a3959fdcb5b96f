#!/usr/bin/env python3
"""A plain reader and compositor of XCF files by the rules of docs/FORMAT.md, apart from the engine.

    xcf_reference.py FILE           the picture as a PAM, or the line of the refusal (status 4)
    xcf_reference.py --tree FILE    one JSON line that tells the document's structure
    xcf_reference.py --all FILE     the same with locks, colours, parasites, the compression and texts of names

Everything is in whole numbers, so its bytes can be compared with the engine's, byte for byte.
It is slow: some 10 million pixels of a layer a minute.
"""

import json
import sys

from xcf_picture import pam
from xcf_reading import Refused, name, read, word


def node_tree(node):
    told = {"id": node.id, "mode": node.mode, "name": node.name.hex(), "opacity": node.opacity,
            "visible": node.visible}
    if node.children is not None:
        return dict(told, children=[node_tree(child) for child in node.children])
    return dict(told, height=node.plane.height, mask=node.mask is not None, offset=[node.x, node.y], type=node.kind,
                width=node.plane.width)


def tree_line(doc):
    version = 3 if doc.has_groups else 2 if doc.modes & {19, 20, 21} else 1 if doc.base == 2 else 0
    told = {"base": doc.base, "channels": [channel.name.hex() for channel in doc.channels], "height": doc.height,
            "layers": [node_tree(node) for node in doc.nodes], "selection": doc.selection is not None,
            "version": version, "width": doc.width}
    return json.dumps(told, sort_keys=True, separators=(",", ":")) + "\n"


def text_of(name_bytes):
    try:
        return name_bytes.decode()
    except UnicodeDecodeError:
        return None


def payload_names(payload):
    """The names in a list of parasites, none where it is no such list."""
    names, at = [], 0
    try:
        while at < len(payload):
            found, at = name(payload, at)
            word(payload, at)
            at += 8 + word(payload, at + 4)
            names.append(found)
    except Refused:
        return []
    return names if at == len(payload) else []


def parasites(kept):
    return [{"name": found.hex(), "text": text_of(found)} for kind, payload in kept if kind == 21
            for found in payload_names(payload)]


def label(owner):
    return {"name": owner.name.hex(), "parasites": parasites(owner.kept), "text": text_of(owner.name)}


def whole_node(node):
    told = dict(node_tree(node), lock_alpha=node.lock_alpha, lock_content=node.lock_content)
    told.update(label(node))
    if node.children is not None:
        return dict(told, children=[whole_node(child) for child in node.children])
    return dict(told, apply_mask=node.apply_mask)


def whole_line(doc):
    told = dict(json.loads(tree_line(doc)), channels=[label(channel) for channel in doc.channels],
                colours=[bytes(colour).hex() for colour in doc.colours], compression=doc.compression,
                layers=[whole_node(node) for node in doc.nodes], parasites=parasites(doc.kept_list))
    return json.dumps(told, sort_keys=True, separators=(",", ":"), ensure_ascii=False) + "\n"


def output(data, line=None):
    """The status and the pieces that are to be written: the picture, or the line that is asked for."""
    try:
        doc = read(data)
    except Refused as refused:
        return 4, [(refused.line() + "\n").encode()]
    return 0, [line(doc).encode()] if line else pam(doc)


LINES = {"--tree": tree_line, "--all": whole_line}


def main(words):
    line = LINES.get(words[0]) if words else None
    if len(words) != (2 if line else 1):
        sys.exit(__doc__)
    with open(words[-1], "rb") as file:
        status, pieces = output(file.read(), line)
    for piece in pieces:
        sys.stdout.buffer.write(piece)
    return status


if __name__ == "__main__":
    sys.exit(main(sys.argv[1:]))
