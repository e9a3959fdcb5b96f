"""Parts of the small files of make_cases.py: a worked file and its changes, and images of few pixels."""

from xcf_writing import Assembly, Drawable, Pixels, flat, image, number, property_bytes, word_property

# the worked file of docs/FORMAT.md, of one pixel
ONE = bytes.fromhex("""
    67696d7020786366 20 66696c65 00 00000001 00000001 00000000
    00000011 00000001 00 00000000 00000000 00000037 00000000 00000000
    00000001 00000001 00000001 00000002 4100
    00000006 00000004 000000ff 00000007 00000004 00000000 00000008 00000004 00000001 0000000b 00000004 00000001
    0000000f 00000008 00000000 00000000 00000000 00000000 00000099 00000000
    00000001 00000001 00000004 000000ad 00000000 00000001 00000001 000000bd 00000000 c86432ff""")


def one(words):
    """The worked file with other words at some offsets."""
    data = bytearray(ONE)
    for at, value in words.items():
        data[at:at + 4] = number(value)
    return bytes(data)


def smallest(properties=b""):
    """An image of 1 by 1 pixel with nothing but these properties."""
    return ONE[:26] + properties + property_bytes(0, b"") + number(0) + number(0)


class Changed(Assembly):
    """An assembly whose words can be changed once its pointers stand."""

    def __init__(self, made):
        super().__init__()
        self.data, self.marks = made.file(), made.marks
        self.pointers = []

    def changed(self, place, value):
        at = place if isinstance(place, int) else self.marks[place]
        self.data[at:at + 4] = number(value)
        return self


def build(layers, channels=(), base=0, version=0, properties=(), repeats=1, sides=(1, 1)):
    """An image of these layers; the pointer to its one layer may stand several times."""
    width, height = sides
    made = image(version, width, height, base, properties, layers, channels, compression=1)
    if repeats > 1:
        made = repeated(made, repeats)
    return Changed(made)


def repeated(made, repeats):
    """The same with its one layer pointer so many times: all that stands behind moves."""
    at, more = made.marks["layers"], 4 * (repeats - 1)
    out = Assembly()
    out.data = made.data[:at] + bytes(4 * repeats) + made.data[at + 4:]
    out.marks = {mark: place + more if place > at else place for mark, place in made.marks.items()}
    out.pointers = [(place + more, mark) for place, mark in made.pointers if place > at]
    out.pointers += [(at + 4 * k, ("layer", 0)) for k in range(repeats)]
    return out


def shown(found):
    """Opacity, mode, visible, apply mask and offsets as GIMP writes them, and then further ones."""
    return [word_property(6, 255), word_property(7, 0), word_property(8, 1), word_property(11, 1),
            word_property(15, 0, 0)] + list(found)


def leaf(*found, name=b"", pixel=(1, 2, 3, 255), mask=None, sides=(1, 1)):
    """A layer of one colour."""
    width, height = sides
    pixels = Pixels(width, height, [flat(width, value) for value in pixel])
    masked = None if mask is None else Drawable(b"m", Pixels(width, height, [flat(width, mask)]), [])
    return Drawable(name, pixels, shown(found), kind=1, mask=masked)


def group(*found, kind=1):
    return Drawable(b"g", Pixels(1, 1, [flat(1, 0)] * 4), [(29, b"")] + list(found), kind=kind)


def chan(*found):
    return Drawable(b"c", Pixels(1, 1, [flat(1, 77)]), list(found))


def rgba(mode, above, below):
    """A grey of some alpha laid over another by a mode."""
    return build([leaf(word_property(7, mode), pixel=(above[0],) * 3 + above[1:]),
                  leaf(pixel=(below[0],) * 3 + below[1:])]).file()


def indexed(colour_map, index):
    """An indexed image of one pixel; the colour map's bytes stand first among its properties."""
    made = image(1, 1, 1, 2, [], [Drawable(b"", Pixels(1, 1, [flat(1, index)]), shown([]), kind=4)])
    data, more = made.data, len(colour_map)
    out = Assembly()
    out.data = data[:26] + colour_map + data[26:]
    out.marks = {mark: place + more for mark, place in made.marks.items()}
    out.pointers = [(place + more, mark) for place, mark in made.pointers]
    return out.file()


def grey(width, tiles):
    """A grey image of one row, whose tiles have these codes; the last one's end the file."""
    return grey_image((width, 1), (width, 1), range(len(tiles)), tiles).file()


def grey_image(canvas, sides, places, codes, repeats=1):
    """A grey image with a layer, to which so many pointers lead; its tiles have the codes at these places."""
    made = Assembly()
    made.put(ONE[:14] + number(canvas[0]) + number(canvas[1]) + number(1) + property_bytes(17, b"\1") + property_bytes(0, b""))
    for _ in range(repeats):
        made.pointer("layer")
    made.put(number(0) + number(0))
    made.mark("layer")
    made.put(number(sides[0]) + number(sides[1]) + number(2) + number(0) + property_bytes(0, b""))
    made.pointer("hierarchy")
    made.word(0)
    made.mark("hierarchy")
    made.put(number(sides[0]) + number(sides[1]) + number(1))
    made.pointer("level")
    made.word(0)
    made.mark("level")
    made.put(number(sides[0]) + number(sides[1]))
    for place in places:
        made.pointer(place)
    made.word(0)
    for place, tile in enumerate(codes):
        made.mark(place)
        made.put(tile)
    return made
