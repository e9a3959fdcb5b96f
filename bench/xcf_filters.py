"""Filters and their tables of 256 bytes, in whole numbers, by the rules of docs/SCRIPTS.md."""

from xcf_picture import mul

MOST_USES = 2**32 - 1


def posterized(levels, byte):
    """The nearest of so many levels, of which the first is 0 and the last 255."""
    return (510 * mul(byte, levels - 1) + levels - 1) // (2 * (levels - 1))


# What a filter with an amount makes of a byte after so many uses.
BYTES = {
    "invert": lambda amount, uses, byte: 255 - byte,
    "threshold": lambda amount, uses, byte: 255 if byte >= amount else 0,
    "posterize": lambda amount, uses, byte: posterized(max(2, amount), byte),
    "fade": lambda amount, uses, byte: mul(byte, 255 - min(255, uses * amount)),
}
# What the program gives each session.
SHIPPED = (("invert", 0), ("threshold", 128), ("posterize", 4), ("fade", 100))


class Filter:
    def __init__(self, kind, amount):
        self.kind, self.amount, self.uses = kind, amount, 0

    def table(self):
        """The table of the state before, which is one use more then."""
        found = bytes(BYTES[self.kind](self.amount, self.uses, byte) for byte in range(256))
        self.uses = min(self.uses + 1, MOST_USES)
        return found


class Chest:
    """The filters of a session by their slots."""

    def __init__(self, kinds=SHIPPED):
        self.slots = {slot: Filter(*kind) for slot, kind in enumerate(kinds)}

    def table(self, slot):
        return self.slots[slot].table()

    def forget(self, slot):
        del self.slots[slot]
