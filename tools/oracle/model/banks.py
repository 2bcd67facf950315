"""Change request W-210 once more, in Python: the file of a board with switched banks, what the view of each bank shows of it, and a whole
run on it, put together from what a single run is made of. What is withheld is taken out of the file, byte by byte, before a view is
taken from that: no stretch is ever cut here, as the code does it."""
import re
from dataclasses import dataclass, replace

from model import collection, listing, search
from model.run import LISTS, Outcome, Stages, Watched, at_once

# How long the common part is, and each bank.
PART = 32768
MOST_BANKS = 16
PLACED, NOTED, LINES = map(LISTS.index, ("placed", "noted", "lines"))


@dataclass
class Left(Outcome):
    """What a run leaves, and beside it how many banks there are and how many lines each has; zeros with a refusal."""
    banks: int = 0
    each: tuple = (0,) * MOST_BANKS


def banks_in(file):
    """How many banks a file has; 0 if it is not the common part and 1 to 16 of them."""
    parts, left = divmod(len(file), PART)
    return parts - 1 if left == 0 and 1 <= parts - 1 <= MOST_BANKS else 0


def not_banked(file):
    """18, or 0."""
    return 0 if banks_in(file) else 18


def seen(file, stretches):
    """The bytes of a file, and None in the place of each that is withheld."""
    cells = list(file)
    for start, length in stretches:
        for at in range(start, start + length):
            cells[at] = None
    return cells


def view_of(cells, k):
    """What bank k's view shows of a file: the common part, and then that bank. Banks are numbered from 0."""
    first = PART * (k + 1)
    return cells[:PART] + cells[first:first + PART]


def compared_whole(s):
    """The longest part of a pattern of which all bits are compared, and where in the pattern it begins."""
    longest = max(re.finditer(b"\xff*", bytes(s.masks)), key=lambda part: len(part.group()))
    return bytes(s.bytes[longest.start():longest.end()]), longest.start()


def occurrences(image, part):
    """Where a part stands, over itself too."""
    at = image.find(part)
    while at >= 0:
        yield at
        at = image.find(part, at + 1)


class Quick(Watched):
    """A search that looks for a pattern only where such a part of it stands: a view has many places."""

    def places(self, s):
        part, before = compared_whole(s)
        if s.address is not None or not part:
            return super().places(s)
        return [at - before for at in occurrences(self.image, part) if at >= before]


class Seen(Quick):
    """A search of cells, of which those that are withheld are None."""

    def __init__(self, cells, *given):
        self.hidden = bytes(cell is None for cell in cells)
        super().__init__(bytes(cell or 0 for cell in cells), *given)

    def is_withheld(self, at, count):
        return 1 in self.hidden[at:at + count]


class View(Stages):
    """What search and list yield on a view; reading and collecting were done once, for all views."""

    def __init__(self, whole, cells):
        asked = search.Asked(whole.run.rules, whole.run.depth, whole.run.minimum)
        found = Seen(cells, asked, whole.run.library, whole.segments)
        # The single run that this is, where nothing is withheld.
        self.run = replace(whole.run, image=found.image, stretch=(0, 0), more=())
        self.number, self.modules, self.segments, self.fault = 0, whole.modules, whole.segments, 0
        self.listing = listing.Listing(found, whole.run.skip)
        self.rows = self.yielded()
        self.needed = tuple(map(len, self.rows))


class Banked(Stages):
    """What the stages of a run on a file with banks yield, whatever is lent for it."""

    def __init__(self, run):
        self.views = []
        self.collect(run, at_once(run, not_banked))
        if self.final() == 0:
            cells = seen(run.image, (run.stretch, *run.more))
            self.views = [View(self, view_of(cells, k)) for k in range(banks_in(run.image))]
        self.rows = self.yielded()
        self.needed = self.most()

    def yielded(self):
        """The rows that are left: of placed and noted ones those of the last view, and the lines of all views, one list after another."""
        stored = ([],) * 5 if self.number else collection.rows(self.segments)
        if not self.views:
            return (*stored, [], [], [])
        last = self.views[-1].rows
        return (*stored, last[PLACED], last[NOTED], [n for view in self.views for n in view.rows[LINES]])

    def most(self):
        """What must be lent: rows of placed and noted ones for one view at a time, lines for all views together."""
        needed = list(map(len, self.rows))
        for i in (PLACED, NOTED):
            needed[i] = max((view.needed[i] for view in self.views), default=0)
        return tuple(needed)

    def lines(self):
        """The lines of each view."""
        return [view.lines() for view in self.views]

    def text(self):
        """Nothing is printed here."""
        return b""

    def outcome(self, lent):
        left = Left(**vars(super().outcome(lent)))
        if left.number == 0:
            counts = [view.needed[LINES] // listing.LINE for view in self.views]
            left.banks, left.each = len(counts), (*counts, *(0,) * (MOST_BANKS - len(counts)))
        return left
