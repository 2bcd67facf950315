"""Document 01's "Grades and listing", written from its text and apart from the Rust: which names are listed at which
addresses and with which grade, of what a search left; how that is printed; and the lines as rows of numbers."""
from dataclasses import dataclass

# Numbers in a row of lines.
LINE = 4
REFERENCED_ONLY, NOT_BORNE_OUT, BORNE_OUT, BORNE_OUT_AND_NOTED = range(4)
HEADING = b"Address | Name                 | Description\n"
BRACKETS = {REFERENCED_ONLY: (b"(", b")"), NOT_BORNE_OUT: (b"[", b"]")}

# What the parts of a described name say; at each part the first word that the rest of the name starts with is taken.
FRONT = {b"?C?": b""}
SIGNS = {b"S": b"signed ", b"U": b"unsigned "}
TYPES = {b"C": b"char (8-bit) ", b"I": b"int (16-bit) ", b"P": b"general pointer ", b"L0": b"long (r3-r0) ", b"L": b"long (32-bit) ",
         b"FP": b"float "}
OPERATIONS = {b"ADD": b"addition", b"SUB": b"subtraction", b"MUL": b"multiply", b"DIV": b"division", b"CMP": b"compare", b"AND": b"bitwise and",
              b"OR": b"bitwise or", b"XOR": b"bitwise xor", b"NEG": b"negation", b"NOT": b"logical not", b"SHL": b"shift left",
              b"SHR": b"shift right"}
MOVES = {b"LD": b"load from ", b"LDI": b"post-increment load from ", b"ILD": b"pre-increment load from ", b"STK": b"constant store to ",
         b"ST": b"store to "}
MEMORIES = {b"XDATA": b"xdata", b"PDATA": b"pdata (external ram)", b"IDATA": b"idata (indirect ram access)", b"CODE": b"code space",
            b"OPTR": b"general pointer with offset", b"PTR": b"general pointer"}
INTO = {b"0": b" into r3-r0"}


@dataclass
class Line:
    address: int
    grade: int
    # A Part of the library.
    name: object


def grouped(found, key):
    """The values of a dictionary by what `key` makes of each, in their order."""
    groups = {}
    for each in found.values():
        groups.setdefault(key(each), []).append(each)
    return groups


class Listing:
    """What a search left, and the skip amount, or None."""

    def __init__(self, found, skip):
        self.found, self.skip = found, skip
        self.placed = grouped(found.placed, lambda p: p.position)
        self.noted = grouped(found.noted, lambda n: n.target)

    def spelled(self, line):
        return self.found.spelled(line.name)

    def is_borne_out(self, p):
        """Whether each public reference that the symbol's match noted names a symbol placed at the target."""
        for r in self.found.segments[p.segment].references:
            target = self.found.target(r, p.found + r.place)
            if not isinstance(r.goal, int) and target is not None and (target, self.found.spelled(r.goal)) not in self.found.placed:
                return False
        return True

    def is_noted(self, p):
        return (p.position, self.found.spelled(p.name)) in self.found.noted

    def grade(self, p):
        if not self.is_borne_out(p):
            return NOT_BORNE_OUT
        return BORNE_OUT_AND_NOTED if self.is_noted(p) else BORNE_OUT

    def graded(self, at):
        """All names at a position, but for symbols that are neither valid nor noted there, and noted names that are not valid."""
        symbols = [Line(at, self.grade(p), p.name) for p in self.placed.get(at, []) if p.valid or self.is_noted(p)]
        return symbols + [Line(at, REFERENCED_ONLY, n.name) for n in self.noted.get(at, []) if n.valid]

    def is_crowded(self, names):
        return self.skip is not None and names > self.skip

    def best(self, at):
        """The names of the best grade at a position, in byte order."""
        lines = self.graded(at)
        top = max((line.grade for line in lines), default=REFERENCED_ONLY)
        return sorted((line for line in lines if line.grade == top), key=self.spelled)

    def inside(self):
        """The positions of the image that have names, ascending."""
        return sorted(at for at in self.placed.keys() | self.noted.keys() if at < len(self.found.image))

    def past(self):
        """The targets at the image's end or past it, ascending."""
        return sorted(target for target in self.noted if target >= len(self.found.image))

    def lines(self):
        found = []
        for at in self.inside():
            lines = self.best(at)
            found += [] if self.is_crowded(len(lines)) else lines
        for target in self.past():
            names = self.noted[target]
            found += [] if self.is_crowded(len(names)) else [Line(target, REFERENCED_ONLY, n.name) for n in names if n.valid]
        return found


def taken(words, name):
    """What the first of the words says that the name starts with, and the rest of the name; or None."""
    return next(((says, name[len(word):]) for word, says in words.items() if name.startswith(word)), None)


def in_turn(parts, name):
    """What one word of each part says, and the rest of the name; or None."""
    says = b""
    for words in parts:
        found = taken(words, name)
        if found is None:
            return None
        says, name = says + found[0], found[1]
    return says, name


def described(name):
    """What a name says, or None. What was taken is never reconsidered, and the rest is ignored."""
    front = taken(FRONT, name)
    if front is None:
        return None
    sign, rest = taken(SIGNS, front[1]) or (b"", front[1])
    for parts in ((TYPES, OPERATIONS), (TYPES, MOVES, MEMORIES, INTO), (TYPES, MOVES, MEMORIES)):
        found = in_turn(parts, rest)
        if found is not None:
            return sign + found[0]
    return None


def printed_line(line, name):
    first, last = BRACKETS.get(line.grade, (b" ", b" "))
    says = described(name)
    return (b"0x%04x" % line.address).ljust(7) + b"  " + (first + name + last).ljust(22) + b" " + (b"" if says is None else b" " + says) + b"\n"


def printed(listing, lines):
    return HEADING + b"".join(printed_line(line, listing.spelled(line)) for line in lines)


def line_numbers(lines):
    return [n for line in lines for n in (line.address, line.grade, line.name.at, line.name.len)]
