"""Writes XCF files for the benchmark and the tests, in the layout that GIMP gives them."""

import functools
import re

REPEATS = re.compile(rb"\0\0+")


def number(value):
    return (value % 2**32).to_bytes(4, "big")


def string(text):
    return number(len(text) + 1) + text + b"\0" if text else number(0)


class Assembly:
    """Bytes with pointers to places that are marked later."""

    def __init__(self):
        self.data, self.marks, self.pointers = bytearray(), {}, []

    def put(self, piece):
        self.data += piece

    def word(self, value):
        self.data += number(value)

    def pointer(self, mark):
        self.pointers.append((len(self.data), mark))
        self.word(0)

    def mark(self, mark):
        self.marks[mark] = len(self.data)

    def file(self):
        for at, mark in self.pointers:
            self.data[at:at + 4] = number(self.marks[mark])
        return self.data


def property_bytes(kind, payload):
    return number(kind) + number(len(payload)) + payload


def word_property(kind, *values):
    return kind, b"".join(number(value) for value in values)


def changes(plane):
    """For each byte of a plane zero where the byte before is the same."""
    whole = int.from_bytes(plane, "big")
    return b"\1" + (whole ^ whole >> 8).to_bytes(len(plane), "big")[1:]


@functools.lru_cache(maxsize=4096)
def encoded(plane):
    """The plane in run-length codes: each run of three bytes or more as a run, and literals between.

    Smooth pictures have many equal tiles, so the last ones are kept.
    """
    out, at = bytearray(), 0
    for repeats in REPEATS.finditer(changes(plane)):
        start = repeats.start() - 1
        put_literals(out, plane[at:start])
        count, at = repeats.end() - start, repeats.end()
        out += bytes([count - 1]) if count <= 127 else b"\x7f" + count.to_bytes(2, "big")
        out.append(plane[start])
    put_literals(out, plane[at:])
    return bytes(out)


def put_literals(out, literals):
    if literals:
        count = len(literals)
        out += bytes([256 - count]) if count <= 127 else b"\x80" + count.to_bytes(2, "big")
        out += literals


def interleaved(planes):
    out = bytearray(len(planes) * len(planes[0]))
    for c, plane in enumerate(planes):
        out[c::len(planes)] = plane
    return out


class Pixels:
    """A plane's pixels: for each byte of a pixel a function from a row's number to the bytes of that row."""

    def __init__(self, width, height, channels):
        self.width, self.height, self.channels = width, height, channels

    def tiles(self):
        """The byte planes of each tile, row by row of tiles."""
        for top in range(0, self.height, 64):
            rows = [[channel(y) for y in range(top, min(top + 64, self.height))] for channel in self.channels]
            for left in range(0, self.width, 64):
                right = min(left + 64, self.width)
                yield [b"".join(row[left:right] for row in channel) for channel in rows]


class Drawable:
    """A layer or a group, which have a type (`kind`), or a mask or a channel, which have none."""

    def __init__(self, name, pixels, properties, kind=None, mask=None):
        self.name, self.pixels, self.properties, self.kind, self.mask = name, pixels, properties, kind, mask


def put_hierarchy(out, key, pixels, compression):
    width, height, bpp = pixels.width, pixels.height, len(pixels.channels)
    sides = [(width, height)]
    while sides[-1][0] > 64 or sides[-1][1] > 64:
        sides.append((sides[-1][0] // 2, sides[-1][1] // 2))
    out.mark((key, "hierarchy"))
    out.put(number(width) + number(height) + number(bpp))
    for level in range(len(sides)):
        out.pointer((key, "level", level))
    out.word(0)
    put_level(out, key, pixels, compression)
    for level, (wide, high) in list(enumerate(sides))[1:]:
        out.mark((key, "level", level))
        out.put(number(wide) + number(high) + number(0))


def put_level(out, key, pixels, compression):
    out.mark((key, "level", 0))
    out.put(number(pixels.width) + number(pixels.height))
    count = ((pixels.width + 63) // 64) * ((pixels.height + 63) // 64)
    for tile in range(count):
        out.pointer((key, "tile", tile))
    out.word(0)
    for tile, planes in enumerate(pixels.tiles()):
        out.mark((key, "tile", tile))
        if compression == 0:
            out.put(interleaved(planes))
        else:
            for plane in planes:
                out.put(encoded(plane))


def put_properties(out, key, properties):
    for index, (kind, payload) in enumerate(properties):
        out.mark((key, "property", index))
        out.put(property_bytes(kind, payload))
    out.mark((key, "end"))
    out.put(property_bytes(0, b""))


def put_drawable(out, key, drawable, compression):
    out.mark(key)
    out.put(number(drawable.pixels.width) + number(drawable.pixels.height))
    if drawable.kind is not None:
        out.word(drawable.kind)
    out.mark((key, "name"))
    out.put(string(drawable.name))
    put_properties(out, key, drawable.properties)
    out.mark((key, "pointers"))
    out.pointer((key, "hierarchy"))
    if drawable.kind is not None:
        if drawable.mask is None:
            out.word(0)
        else:
            out.pointer((key, "mask"))
    put_hierarchy(out, key, drawable.pixels, compression)
    if drawable.mask is not None:
        put_drawable(out, (key, "mask"), drawable.mask, compression)


def image(version, width, height, base, properties, layers, channels=(), compression=0):
    """A file with its marks. `properties` are the image's but for the compression, which is put first."""
    out = Assembly()
    out.put(b"gimp xcf " + (b"file\0", b"v001\0", b"v002\0", b"v003\0")[version])
    out.put(number(width) + number(height) + number(base))
    put_properties(out, "image", [(17, bytes([compression]))] + list(properties))
    out.mark("layers")
    for index in range(len(layers)):
        out.pointer(("layer", index))
    out.word(0)
    out.mark("channels")
    for index in range(len(channels)):
        out.pointer(("channel", index))
    out.word(0)
    for index, layer in enumerate(layers):
        put_drawable(out, ("layer", index), layer, compression)
    for index, channel in enumerate(channels):
        put_drawable(out, ("channel", index), channel, compression)
    return out


# Rows of bytes that make smooth pictures: no noise, so that runs and literals both come.

def flat(width, value):
    row = bytes([value]) * width
    return lambda y: row


def across(width, first, last, turns=1):
    """From the first value to the last, from left to right, so many times there and back."""
    row = bytes(ramp(x, width, first, last, turns) for x in range(width))
    return lambda y: row


def down(width, height, first, last, turns=1):
    rows = [bytes([ramp(y, height, first, last, turns)]) * width for y in range(height)]
    return lambda y: rows[y]


def diagonal(width, height, first, last, turns=1):
    line = bytes(ramp(k, width + height, first, last, turns) for k in range(width + height))
    return lambda y: line[y:y + width]


def product(width, height, channel, first, last):
    """A channel times a ramp from the top to the bottom, in parts of 255."""
    tables = [bytes(value * part // 255 for value in range(256)) for part in range(256)]
    return lambda y: channel(y).translate(tables[ramp(y, height, first, last, 1)])


def ramp(k, length, first, last, turns):
    """A number between first and last for place k of a length that holds so many ways between them."""
    way, place = divmod(k * turns, length)
    start, end = (first, last) if way % 2 == 0 else (last, first)
    return start + (end - start) * place // length
