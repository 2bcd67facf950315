"""Document 01's "Matching and references", with document 02's W-202, W-208 and W-209, written from its text and apart from the Rust: where the segments
match in an image, which symbols they place there, which names their references note; and these as rows of numbers."""
from dataclasses import dataclass

from model.collection import DOCUMENTED, INBLOCK, RELATIVE, WORD

# Numbers in a row of placed symbols and of noted names.
PLACED, NOTED = 8, 6
# Buckets of keys, and of keys and names together.
KEYS, NAMES = 65536, 65536
SUMS = 2 ** 64
# Why a reference fails (document 02, W-208; and W-209: a match that does not hold at a depth less).
PAST, WITHHELD, UNMATCHED, UNHELD = 1, 2, 3, 4
# Addresses that the processor's counter can hold (document 02, W-202).
COUNTER = 2 ** 16
LONGEST_IMAGE = 65536


@dataclass
class Asked:
    rules: int
    # To what depth references are checked; at 0 they are not.
    depth: int
    minimum: int
    # What is withheld of the image: from where on, and how many bytes; and further stretches.
    stretch: tuple = (0, 0)
    more: tuple = ()


@dataclass
class Placed:
    position: int
    # A Part of the library.
    name: object
    valid: bool
    # The number of the segment whose match placed it, and where that match is.
    segment: int
    found: int


@dataclass
class Noted:
    target: int
    name: object
    valid: bool


class Search:
    """One image and what is asked of it, the library's bytes, and its segments."""

    def __init__(self, image, asked, library, segments):
        self.image, self.asked, self.library, self.segments = image, asked, library, segments
        # Both by place and name, in the order of coming.
        self.placed, self.noted = {}, {}
        # Of each match, in their order, the first reference that fails at the depth that is asked, and why; None where the match holds.
        self.failed = []
        self.found = [list(self.matches(s)) for s in segments]
        # What was told of a match at a depth; chains that meet ask for it again.
        self.told = {}
        for number, s in enumerate(segments):
            for at in self.found[number]:
                self.visit(number, s, at)

    def is_withheld(self, at, count):
        """Whether one of so many bytes is in a stretch."""
        stretches = (self.asked.stretch, *self.asked.more)
        return any(max(at, start) < min(at + count, start + length) for start, length in stretches)

    def places(self, s):
        """Where a pattern is looked for: anywhere, or at its address."""
        return range(len(self.image) + 1) if s.address is None else [s.address]

    def matches(self, s):
        """Where all of a pattern fits, shares no byte with a stretch, and agrees with the image on all mask bits."""
        for at in self.places(s):
            window = self.image[at:at + len(s.bytes)]
            if at + len(s.bytes) <= len(self.image) and not self.is_withheld(at, len(s.bytes)):
                if all((x ^ byte) & mask == 0 for x, byte, mask in zip(window, s.bytes, s.masks)):
                    yield at

    def unread(self, r, pos):
        """Why the bytes of a reference can't be read: past the image's end goes before withheld; None where they can."""
        size = 1 if r.kind == RELATIVE else 2
        if pos + size > len(self.image):
            return PAST
        return WITHHELD if self.is_withheld(pos, size) else None

    def target(self, r, pos):
        """Where the bytes at a place lead, less the fixup's offset; None where they can't be read. As documented, the program counter wraps."""
        size = 1 if r.kind == RELATIVE else 2
        if self.unread(r, pos):
            return None
        first, second = self.image[pos], self.image[pos + size - 1]
        if r.kind == WORD:
            led = 256 * first + second
        elif r.kind == INBLOCK:
            top = first >> 5 if self.asked.rules == DOCUMENTED else 0
            led = (pos + 2 & ~0x7FF) + 256 * top + second & 0xFFFF
        else:
            led = pos + 1 + (first - 256 if first > 127 else first)
        return (led - r.offset) % (COUNTER if self.asked.rules == DOCUMENTED else SUMS)

    def is_valid(self, s):
        return sum(mask != 0 for mask in s.masks) >= self.asked.minimum

    def failure(self, r, at, depth):
        """Why a reference of a match fails at a depth from 1 on; None where it does not. A name that has a target asks no more; a segment must match there, and
        that match hold at a depth less."""
        pos = at + r.place
        if self.unread(r, pos):
            return self.unread(r, pos)
        if not isinstance(r.goal, int):
            return None
        target = self.target(r, pos)
        if r.goal >= len(self.found) or target not in self.found[r.goal]:
            return UNMATCHED
        return UNHELD if self.first_failed(r.goal, target, depth - 1) else None

    def first_failed(self, number, at, depth):
        """The first reference of a match that fails at a depth, and why; None where the match holds, as each does at depth 0."""
        if depth == 0:
            return None
        if (number, at, depth) not in self.told:
            reasons = enumerate(self.failure(r, at, depth) for r in self.segments[number].references)
            self.told[number, at, depth] = next(((n, why) for n, why in reasons if why), None)
        return self.told[number, at, depth]

    def visit(self, number, s, at):
        """A match: the names that its references note, in order, and then its symbols, unless one that fails keeps them out."""
        for r in s.references:
            target = self.target(r, at + r.place)
            if target is not None and not isinstance(r.goal, int):
                self.note(Noted(target, r.goal, self.is_valid(s)))
        self.failed.append(self.first_failed(number, at, self.asked.depth))
        if not self.failed[-1]:
            for name, offset in s.symbols:
                self.place(Placed(at + offset, name, self.is_valid(s), number, at))

    def spelled(self, name):
        """A name's bytes, by which names are compared."""
        return self.library[name.at:name.at + name.len]

    def note(self, new):
        """Once for a target and name; valid if any match that noted it was."""
        self.noted.setdefault((new.target, self.spelled(new.name)), new).valid |= new.valid

    def place(self, new):
        """The first of a name at a position stays; none stands at the image's end or past it."""
        if new.position < len(self.image):
            self.placed.setdefault((new.position, self.spelled(new.name)), new)


def bucket(key, name):
    """The bucket that a key and a name's bytes share with some others: the key's low 16 bits, moved on by a number made of the name's
    length and of the bytes at its ends, eight at each; all bytes of a name of up to 16."""
    h = len(name) % NAMES
    for byte in name if len(name) <= 16 else name[:8] + name[-8:]:
        h = (h + byte) * 2654435761 % 2**32
    return (key + h // NAMES) % NAMES


def with_links(made):
    """Rows that have their two links still to come: to the newest earlier one whose key has the same low 16 bits, and to the newest of the
    same bucket; each is one more than a row's number, or 0."""
    by_key, by_name, out = {}, {}, []
    for i, (row, key, name) in enumerate(made):
        low, shared = key % KEYS, bucket(key, name)
        out += row + [by_key.get(low, 0), by_name.get(shared, 0)]
        by_key[low] = by_name[shared] = i + 1
    return out


def placed_numbers(s):
    return with_links([([p.position, p.name.at, p.name.len, int(p.valid), p.segment, p.found], *key) for key, p in s.placed.items()])


def noted_numbers(s):
    return with_links([([n.target, n.name.at, n.name.len, int(n.valid)], *key) for key, n in s.noted.items()])
