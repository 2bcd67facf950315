"""Document 01's whole run, with the editions of change request W-205 and the depths of W-209, put together from reader.py, collection.py,
search.py and listing.py: an image, a library, settings and lent memory become a list, or a number."""
from dataclasses import dataclass

from model import collection, listing, reader, search

LONGEST_LIBRARY = 1 << 20
MOST_STRETCHES = 16
GREATEST_DEPTH = 4
LISTS = ("segments", "references", "symbols", "bytes", "masks", "placed", "noted", "lines")
# How wide the rows of the eight lent lists are.
WIDTHS = (*collection.WIDTHS, search.PLACED, search.NOTED, listing.LINE)
# What stands in each of them before a run.
BEFORE = tuple(0xA5 if width == 1 else 0xA5A5A5A5A5A5A5A5 for width in WIDTHS)
# The refusals that set all lent lists to zero; the others write nothing.
ZEROING = range(9, 14)


@dataclass
class Run:
    kind: str
    image: bytes
    library: bytes
    # To what depth references are checked: 0 is checking off, 1 on.
    depth: int = 1
    minimum: int = 1
    skip: int = None
    rules: int = collection.FOUND
    # What is withheld of the image: from where on, and how many bytes; and further stretches.
    stretch: tuple = (0, 0)
    more: tuple = ()
    # The library that the Rust is asked about, where it cannot answer for `library` itself.
    asked: bytes = None
    # Bytes of names that stand for others in `asked`: (in asked, in library).
    renamed: tuple = None
    # The numbers of which one must come, as far as the making tells.
    must: tuple = None
    edition: int = reader.FIRST

    def settings(self):
        return self.rules, self.edition, self.depth, self.minimum, self.skip, self.stretch, self.more

    def shown(self):
        """The run as plain values: hexadecimal for bytes, nothing for what is not given."""
        given = {k: v for k, v in vars(self).items() if v is not None}
        if self.renamed:
            given["renamed"] = [b.hex() for b in self.renamed]
        return {k: v.hex() if isinstance(v, bytes) else v for k, v in given.items()}


@dataclass
class Outcome:
    number: int
    # Rows of each list, the masks left out; zeros with a refusal.
    counts: tuple
    # The eight lent lists afterwards.
    lists: list
    # What is printed; nothing with a refusal.
    text: bytes


class Watched(search.Search):
    """A search that tells whether a symbol was placed at the image's end or past it."""

    def __init__(self, *given):
        self.omits = False
        super().__init__(*given)

    def place(self, new):
        self.omits |= new.position >= len(self.image)
        super().place(new)


def too_long(image):
    """2, or 0."""
    return 2 if len(image) > search.LONGEST_IMAGE else 0


def at_once(run, of_image=too_long):
    """The first of 1, 30, 17, what is due for the image's length, 3, 16 and 4 that is due, or 0."""
    if run.rules not in (collection.FOUND, collection.DOCUMENTED):
        return 1
    if run.edition not in (reader.FIRST, reader.SECOND):
        return 30
    if run.depth > GREATEST_DEPTH:
        return 17
    if of_image(run.image):
        return of_image(run.image)
    if len(run.library) > LONGEST_LIBRARY:
        return 3
    if 1 + len(run.more) > MOST_STRETCHES:
        return 16
    return 4 if any(sum(stretch) > len(run.image) for stretch in (run.stretch, *run.more)) else 0


class Stages:
    """What the stages of a run yield, whatever is lent for it."""
    # How an image is searched.
    searched_by = Watched

    def __init__(self, run):
        self.listing = None
        self.collect(run, at_once(run))
        if self.final() == 0:
            asked = search.Asked(run.rules, run.depth, run.minimum, run.stretch, run.more)
            found = self.searched_by(run.image, asked, run.library, self.segments)
            self.listing = listing.Listing(found, run.skip)
        self.rows = self.yielded()
        self.needed = tuple(map(len, self.rows))

    def collect(self, run, number):
        """Reads and collects, unless a number is due before."""
        self.run, self.modules, self.segments, self.fault = run, [], [], 0
        # The first of 1 to 8, 14 to 18 and 30, and of 10 to 13.
        self.number = number
        if self.number == 0:
            try:
                self.modules = reader.read(run.library, run.edition)
            except reader.Refused as why:
                self.number = why.args[0]
        if self.number == 0:
            self.segments, self.fault = collection.collected(self.modules, run.rules)

    def final(self):
        """The number where enough is lent."""
        return self.number or self.fault

    def yielded(self):
        """The rows of each list; those of a stage that is not reached are none."""
        if self.number:
            return ([],) * 8
        stored = collection.rows(self.segments)
        if self.listing is None:
            return (*stored, [], [], [])
        found = self.listing.found
        lines = listing.line_numbers(self.listing.lines())
        return (*stored, search.placed_numbers(found), search.noted_numbers(found), lines)

    def lines(self):
        """Address, grade and name of each line."""
        if self.listing is None:
            return []
        return [(line.address, line.grade, self.listing.spelled(line)) for line in self.listing.lines()]

    def text(self):
        """What is printed; nothing with a refusal."""
        return listing.printed(self.listing, self.listing.lines()) if self.listing else b""

    def names(self):
        """All names of the modules, as far as they are read."""
        parts = [d.name for m in self.modules for d in m.segments + m.publics + m.externals]
        return [self.run.library[p.at:p.at + p.len] for p in parts]

    def number_with(self, lent):
        """The number with lists of these lengths: 9 comes before 10 to 13 for the collection, and after them for search
        and list."""
        short = [n > length for n, length in zip(self.needed, lent)]
        if self.number or any(short[:5]):
            return self.number or 9
        return self.fault or (9 if any(short) else 0)

    def outcome(self, lent):
        """With lists of these lengths."""
        number = self.number_with(lent)
        if number:
            left = (0,) * 8 if number in ZEROING else BEFORE
            return Outcome(number, (0,) * 7, [[each] * n for each, n in zip(left, lent)], b"")
        lists = [rows + [0] * (n - len(rows)) for rows, n in zip(self.rows, lent)]
        counts = [len(rows) // width for rows, width in zip(self.rows, WIDTHS)]
        return Outcome(0, (*counts[:4], *counts[5:]), lists, self.text())
