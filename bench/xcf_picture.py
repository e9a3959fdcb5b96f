"""The picture of a document, in whole numbers, by the rules of docs/FORMAT.md.

A pixel is one number: red, then green, blue and alpha from the lowest byte up. A row is a list of them.
"""

import functools
import sys
from array import array


def mul(a, b):
    return (2 * a * b + 255) // 510


MUL = bytes(mul(a, b) for a in range(256) for b in range(256))


def screen(i, m):
    return 255 - mul(255 - i, 255 - m)


def hard_light(i, m):
    if m > 128:
        return 255 - ((255 - i) * (255 - 2 * (m - 128))) // 256
    return (2 * i * m) // 256


# The value of each mode for the colour byte below and the one above, before it is cut to 0 to 255.
VALUES = {
    0: lambda i, m: m,
    3: mul,
    4: screen,
    5: lambda i, m: mul(i, i + mul(2 * m, 255 - i)),
    6: lambda i, m: abs(i - m),
    7: lambda i, m: i + m,
    8: lambda i, m: i - m,
    9: min,
    10: max,
    15: lambda i, m: (256 * i) // (m + 1),
    16: lambda i, m: (256 * i) // (256 - m),
    17: lambda i, m: 255 - (256 * (255 - i)) // (m + 1),
    18: hard_light,
    19: lambda i, m: mul(255 - i, mul(i, m)) + mul(i, screen(i, m)),
    20: lambda i, m: i - m + 128,
    21: lambda i, m: i + m - 128,
}


def blend(mode, i, m):
    return min(255, max(0, VALUES[mode](i, m)))


@functools.lru_cache(maxsize=None)
def blended(mode):
    """The values of a mode for all pairs of bytes, the one below first."""
    return bytes(blend(mode, i, m) for i in range(256) for m in range(256))


def over(mode, below, above):
    """One pixel laid over another."""
    if mode == 0:
        return over_normal(below, above)
    part, alpha = above >> 24, below >> 24
    if alpha < part:
        part = alpha
    if part == 0:
        return below
    whole, table = alpha + MUL[256 * (255 - alpha) + part], blended(mode)
    rest, twice, result = whole - part, 2 * whole, alpha << 24
    for shift in (0, 8, 16):
        lower = below >> shift & 255
        upper = table[lower << 8 | above >> shift & 255]
        result |= (2 * (upper * part + lower * rest) + whole) // twice << shift
    return result


def over_normal(below, above):
    part = above >> 24
    alpha = part + MUL[256 * (below >> 24) + 255 - part]
    if alpha == 0:
        return 0
    rest, twice, result = alpha - part, 2 * alpha, alpha << 24
    for shift in (0, 8, 16):
        upper, lower = above >> shift & 255, below >> shift & 255
        result |= (2 * (upper * part + lower * rest) + alpha) // twice << shift
    return result


# How many results of a mode are kept.
MOST_KEPT = 2_000_000


class Over(dict):
    """The results of `over` for one mode, kept by their pair of pixels so that each is computed once."""

    def __init__(self, mode):
        super().__init__()
        self.mode = mode

    def __missing__(self, pair):
        if len(self) > MOST_KEPT:
            self.clear()
        self[pair] = result = over(self.mode, *pair)
        return result

    def row(self, below, above):
        return [self[pair] for pair in zip(below, above)]


OVER = {mode: Over(mode) for mode in VALUES}


def pixels_of(data):
    """The pixels of RGBA bytes, side by side."""
    row = array("I")
    assert row.itemsize == 4
    row.frombytes(bytes(data))
    if sys.byteorder == "big":
        row.byteswap()
    return row


def bytes_of(row):
    data = array("I", row)
    if sys.byteorder == "big":
        data.byteswap()
    return data.tobytes()


def faded(alpha, part):
    """A row of alpha bytes times one byte."""
    return bytes(alpha).translate(MUL[256 * part:256 * part + 256])


@functools.lru_cache(maxsize=64)
def colour_tables(colours):
    """For red, green and blue what each index stands for."""
    return [bytes(colours[i][c] if i < len(colours) else 0 for i in range(256)) for c in range(3)]


def colour_planes(doc, layer, row):
    """The red, green and blue bytes of a row of a layer's own pixels."""
    bpp = layer.plane.bpp
    if layer.kind // 2 == 0:
        return [row[c::bpp] for c in range(3)]
    if layer.kind // 2 == 1:
        return [row[0::bpp]] * 3
    return [row[0::bpp].translate(table) for table in colour_tables(tuple(doc.colours))]


def layer_row(doc, layer, v):
    """Row v of a layer, with its opacity and its mask."""
    row, width = layer.plane.row(v), layer.plane.width
    alpha = row[layer.plane.bpp - 1::layer.plane.bpp] if layer.kind % 2 == 1 else b"\xff" * width
    alpha = faded(alpha, layer.opacity)
    if layer.mask is not None and layer.apply_mask:
        alpha = bytes(MUL[256 * a + m] for a, m in zip(alpha, layer.mask.plane.row(v)))
    out = bytearray(4 * width)
    out[0::4], out[1::4], out[2::4] = colour_planes(doc, layer, row)
    out[3::4] = alpha
    return pixels_of(out)


def lay_layer(doc, layer, mode, row, y):
    """Lays a layer over row y of the canvas. Outside the layer the source is clear, which leaves each pixel as it is."""
    v = y - layer.y
    left, right = max(0, layer.x), min(doc.width, layer.x + layer.plane.width)
    if not 0 <= v < layer.plane.height or left >= right:
        return
    above = layer_row(doc, layer, v)[left - layer.x:right - layer.x]
    row[left:right] = OVER[mode].row(row[left:right], above)


def group_row(doc, group, y):
    out = bytearray(bytes_of(stack_row(doc, group.children, y)))
    out[3::4] = faded(out[3::4], group.opacity)
    return pixels_of(out)


def stack_row(doc, nodes, y):
    """Row y of the picture of a stack: its visible nodes from the bottom, the bottommost one as normal."""
    row, something_below = [0] * doc.width, False
    for node in reversed(nodes):
        if not node.visible:
            continue
        mode = node.mode if something_below else 0
        something_below = True
        if node.children is None:
            lay_layer(doc, node, mode, row, y)
        else:
            row = OVER[mode].row(row, group_row(doc, node, y))
    return row


def picture_rows(doc):
    for y in range(doc.height):
        yield bytes_of(stack_row(doc, doc.nodes, y))


def pam(doc):
    """The pieces of the PAM: its head, and then a row each."""
    yield (b"P7\nWIDTH %d\nHEIGHT %d\nDEPTH 4\nMAXVAL 255\nTUPLTYPE RGB_ALPHA\nENDHDR\n" % (doc.width, doc.height))
    yield from picture_rows(doc)
