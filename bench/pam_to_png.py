#!/usr/bin/env python3
"""Writes the picture that `xcfedit render` gives as a PNG.

    xcfedit render FILE | pam_to_png.py > OUT.png
"""

import struct
import sys
import zlib


def picture_of(pam):
    """The width, the height and the RGBA bytes of a PAM."""
    head, _, pixels = pam.partition(b"ENDHDR\n")
    if not head.startswith(b"P7\n"):
        sys.exit("pam_to_png: standard input is no PAM")
    fields = dict(line.split(b" ", 1) for line in head.splitlines() if b" " in line)
    width, height = int(fields[b"WIDTH"]), int(fields[b"HEIGHT"])
    if fields[b"TUPLTYPE"] != b"RGB_ALPHA" or len(pixels) != 4 * width * height:
        sys.exit("pam_to_png: standard input is no whole picture of xcfedit")
    return width, height, pixels


def chunk(kind, data):
    return struct.pack(">I", len(data)) + kind + data + struct.pack(">I", zlib.crc32(kind + data))


# How far a byte is from 0, counted round.
FAR = bytes(min(b, 256 - b) for b in range(256))


def less(row, other):
    """Each byte of a row less that of another one."""
    high = int.from_bytes(b"\x80" * len(row), "big")
    a, b = int.from_bytes(row, "big"), int.from_bytes(other, "big")
    return (((a | high) - (b & ~high)) ^ ((a ^ ~b) & high)).to_bytes(len(row), "big")


def filtered(row, above):
    """A row as it is, less the pixels before or less the row above: the one of PNG's filters that leaves the least."""
    left = (bytes(4) + row)[:len(row)]
    kinds = b"\0" + row, b"\1" + less(row, left), b"\2" + less(row, above)
    return min(kinds, key=lambda one: sum(one[1:].translate(FAR)))


def png(width, height, pixels):
    rows = [bytes(4 * width)] + [pixels[y * 4 * width:(y + 1) * 4 * width] for y in range(height)]
    body = b"".join(filtered(row, above) for above, row in zip(rows, rows[1:]))
    head = struct.pack(">IIBBBBB", width, height, 8, 6, 0, 0, 0)
    return b"\x89PNG\r\n\x1a\n" + chunk(b"IHDR", head) + chunk(b"IDAT", zlib.compress(body, 9)) + chunk(b"IEND", b"")


if __name__ == "__main__":
    sys.stdout.buffer.write(png(*picture_of(sys.stdin.buffer.read())))
