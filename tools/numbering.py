"""Numbers what comes again and again, in some 19 bytes for each thing that is new: a tenth of what a dict takes. Plain Python, NOT PROVED; it
trusts that no two things have one sum of 96 bits."""

import hashlib
import mmap

BITS, LOW = 96, 64
MASK = (1 << LOW) - 1
# At first there is this number of slots.
FIRST = 1024
SIZES = {"I": 4, "Q": 8}


def sum_of(data):
    """A sum of 96 bits by which some bytes are known."""
    return int.from_bytes(hashlib.blake2b(data, digest_size=BITS // 8).digest(), "little")


class Row:
    """A row of numbers, 0 at first, in pages of its own: no page is taken before something is written to it, and none is left behind by growth."""

    def __init__(self, kind, many):
        self.kind, self.pages = kind, mmap.mmap(-1, SIZES[kind] * many, flags=mmap.MAP_PRIVATE | mmap.MAP_ANONYMOUS)
        self.numbers = memoryview(self.pages).cast(kind)

    def grow(self, many):
        """Makes it longer."""
        self.numbers.release()
        self.pages.resize(SIZES[self.kind] * many)
        self.numbers = memoryview(self.pages).cast(self.kind)

    def close(self):
        """Gives its pages back."""
        self.numbers.release()
        self.pages.close()


class Numbering:
    """Numbers from 0, in the order in which the sums came first. A sum's slot is the first free one from the slot on that its bits name."""

    def __init__(self):
        # (the two parts of each sum; and for each slot one more than the number of its sum, or 0)
        self.low, self.high, self.slots, self.many = Row("Q", FIRST), Row("I", FIRST), Row("I", FIRST), 0

    def __len__(self):
        return self.many

    def number(self, key):
        """The number of a sum, a new one if it didn't come before."""
        low, high, lows, highs, slots = key & MASK, key >> LOW, self.low.numbers, self.high.numbers, self.slots.numbers
        at, end = low % len(slots), len(slots)
        while slots[at]:
            number = slots[at] - 1
            if lows[number] == low and highs[number] == high:
                return number
            at = (at + 1) % end
        lows[self.many], highs[self.many] = low, high
        self.many += 1
        slots[at] = self.many
        if 5 * self.many > 4 * end:
            self.grow(end * 4 // 3)
        return self.many - 1

    def grow(self, end):
        """Makes it this number of slots, of which two fifths are free then. The old ones go first, since the sums say all."""
        self.slots.close()
        self.low.grow(end)
        self.high.grow(end)
        self.slots = Row("I", end)
        slots, lows = self.slots.numbers, self.low.numbers
        for number in range(self.many):
            at = lows[number] % end
            while slots[at]:
                at = (at + 1) % end
            slots[at] = number + 1
