"""What is searched, gone through one by one: patterns over one another, hollow ones, edges of the image, absolute contents, targets of every kind,
references between segments, names placed or noted twice, links, omissions."""
from itertools import product

from cases.records import INBLOCK, RELATIVE, WORD, TO_NAME, TO_SEGMENT, Content, External, Fixup, Public, Segment
from cases.searching.scenes import BOTH_CHECKS, BOTH_RULES, asked, code, found_only, scene


def repeats(rng):
    """Matches again and again and over one another, of one segment and of several."""
    found = []
    for image, data in product((b"a", b"aaaaa", b"ababababab", b"aabaabaabaab", b"a" * 40 + b"b"), (b"a", b"aa", b"aba", b"aab", b"ba")):
        parts = [code(1, data, [(0, b"ONE"), (1, b"TWO")]), code(2, b"a", [(0, b"ONE"), (0, b"A")])]
        found.append(scene("repeats", image, parts, found_only(2)))
    return found


def hollow(rng):
    """Empty patterns, ones that no content fills or only a part of, and masks of 1Fh; images from 0 bytes on."""
    found = []
    for n, size in product((0, 1, 2, 5), (0, 1, 2, 3)):
        parts = [code(1, b"", [(0, b"P"), (1, b"Q")], size=size), code(2, b"\1", [(0, b"P")])]
        found.append(scene("hollow", bytes(range(n)), parts, asked((0,), BOTH_CHECKS, (0, 1))))
    for offset, size in product((0, 1, 2), (3, 4, 6)):
        definitions = [Segment(1, size), Public(1, 0, b"P"), External(1, b"E")]
        part = (definitions, [Content(1, offset, b"\1", [Fixup(1, RELATIVE, TO_NAME, 1)])])
        found.append(scene("hollow", b"\0\1\2\3\1\1\4\1", [part], asked((0, 1), (1,), (1, 2))))
    for first, block in product((0x01, 0xE1, 0x11, 0x21), (0, 2)):
        part = code(1, b"\x61\x07\x33", [(0, b"P")], [Fixup(0, INBLOCK, block, 1)])
        found.append(scene("hollow", bytes((first, 7, 0x33, first ^ 0x20, 9, 0x33, first, 7)), [part], asked(minimums=(2, 3)), [b"E"]))
    return found


def edges(rng):
    """A pattern at the image's very start and end, and one that is longer than the image."""
    found = []
    for n, at in product((2, 3, 4, 5, 9), (0, 1, 2, 6)):
        image = bytearray(b"\xee" * n)
        image[at:at + 3] = b"abc"[:max(0, n - at)]
        parts = [code(1, b"abc", [(0, b"P"), (2, b"Q")]), code(2, b"bc", [(1, b"Q")]), code(3, b"c", [(0, b"Q")])]
        found.append(scene("edges", image, parts, asked((0,), (1,), (0, 2, 3, 4))))
    return found


def absolutes(rng):
    """Contents with an address: found there, not found, at the image's end, past it; empty ones. Their symbols differ by the rule set."""
    found = []
    image = b"abcdefabcdef"
    for at, data in product((0, 1, 3, 6, 9, 10, 11, 12, 13, 300, 0xFFFF), (b"abc", b"def", b"bcd", b"f", b"")):
        publics = [Public(0, at + i, b"P%d" % i) for i in range(len(data)) if at + i < 0x10000] + [Public(1, 1, b"P1")]
        part = ([Segment(1, 2)] + publics, [Content(0, at, data, [Fixup(1, RELATIVE, TO_NAME, 1)]), Content(1, 0, b"de")])
        found.append(scene("absolutes", image, [part], asked((0, 1), (int(rng.random() < 0.5),), (rng.choice((0, 2)),)), [b"E"]))
    return found


def relatives(rng):
    """The byte as a signed number, from places near both ends; targets before 0, at the end and past it; offsets."""
    found = []
    for byte, offset in product((0, 1, 5, 0x7F, 0x80, 0xF0, 0xFE, 0xFF), (0, 1, 7, 0xFFFF)):
        part = code(1, b"\x80\0", [(0, b"P")], [Fixup(1, RELATIVE, TO_NAME, 1, offset)])
        image = bytes((0x80, byte, 1, 2, 3, 4, 0x80, byte, 5, 0x80, byte))
        found.append(scene("targets", image, [part], asked((0,), (1,), (rng.randrange(3),)), [b"E"]))
    return found


def words(rng):
    """High byte first; inside, at the end, past it, and less an offset."""
    found = []
    for value, offset in product((0, 1, 7, 8, 9, 0x100, 0x7FFF, 0xFFFF), (0, 1, 8, 0xFFFF)):
        part = code(1, b"\x12\0\0", [(0, b"P")], [Fixup(1, WORD, TO_NAME, 1, offset)])
        image = bytes((9, 0x12, value >> 8, value & 0xFF, 9, 0x12, value & 0xFF, value >> 8))
        found.append(scene("targets", image, [part], asked((0,), (0,), (rng.randrange(3),)), [b"E"]))
    return found


def inblocks(rng):
    """Three bits that count in rule set 1 alone; pages of 2,048 bytes, and the last of 65,536; offsets."""
    found = []
    for first, offset in product((0x01, 0x21, 0x61, 0xE1), (0, 5, 0x800)):
        part = code(1, b"\1\0", [(0, b"P")], [Fixup(0, INBLOCK, TO_NAME, 1, offset)])
        image = bytes((first, 0, first, 7, first, 0xFF, first))
        found.append(scene("targets", image, [part], asked(BOTH_RULES, (1,), (rng.randrange(3),)), [b"E"]))
    for size, places in ((4096, (0x7FC, 0x7FD, 0x7FE, 0x7FF, 0xFFD, 0xFFE)), (65536, (0xF7FD, 0xF7FE, 0xFFFD, 0xFFFE))):
        image = bytearray(size)
        for at in places:
            image[at:at + 2] = (rng.choice((0x21, 0xE1)), 0x34)
        part = code(1, b"\1\0", [(1, b"P")], [Fixup(0, INBLOCK, TO_NAME, 1, 0x35)])
        found.append(scene("targets", image, [part], asked(BOTH_RULES, (1,), (1,)), [b"E"]))
    return found


def tails(rng):
    """References of each kind that stand at the image's last bytes, at its end, and past it; checking decides about the symbols."""
    found = []
    for kind, place, n in product((RELATIVE, WORD, INBLOCK), (0, 1, 2, 3, 0xFFFF), (2, 3, 4)):
        part = code(1, b"ab", [(0, b"P")], [Fixup(place, kind, TO_NAME, 1), Fixup(0, RELATIVE, 0, 0)], size=2)
        found.append(scene("tails", b"abbbbb"[:n], [part], found_only(), [b"E"]))
    return found


def calls(rng):
    """References between three segments: to oneself, to earlier and later ones, by every kind, to where they match and beside it. The one called
    may fail its own check."""
    found = []
    for kind, own, callee, off in product((RELATIVE, WORD, INBLOCK), (1, 2, 3), (1, 2, 3), (0, 1)):
        starts = {1: 2, 2: 6, 3: 10}
        image = bytearray(b"\xee\xee\1abc\2abc\3abc\xee")
        pos, aim = starts[own] + 1, starts[callee] + off
        cells = {RELATIVE: [(aim - pos - 1) & 0xFF], WORD: [0, aim], INBLOCK: [0x20 * own + 1, aim]}[kind]
        image[pos:pos + len(cells)] = cells
        fixups = {own: [Fixup(1, kind, TO_SEGMENT, callee)], own % 3 + 1: [Fixup(2, RELATIVE, TO_SEGMENT, own)]}
        parts = [code(i, bytes((i,)) + b"abc", [(0, b"S%d" % i)], fixups.get(i, ())) for i in (1, 2, 3)]
        found.append(scene("calls", image, parts, asked((rng.randrange(2),))))
    return found


def offset_calls(rng):
    """The fixup's offset is taken off before the other segment is looked for; a negative target is no match, whatever its low bits."""
    found = []
    for value, offset in product((0, 3, 5, 8, 0xFFFF), (0, 3, 5, 0xFFFF)):
        image = bytes((0x12, value >> 8, value & 0xFF, 7, 7, 0x22, 7, 7))
        parts = [code(1, b"\x12\0\0", [(0, b"P")], [Fixup(1, WORD, TO_SEGMENT, 2, offset)]), code(2, b"\7", [(0, b"Q")])]
        found.append(scene("calls", image, parts, found_only()))
    return found


def kept_notes(rng):
    """A failed match keeps what its references noted, before and after the one that failed."""
    found = []
    for order, image in product(((0, 1, 2), (1, 0, 2), (2, 1, 0), (1, 1, 0)), (b"\1\2\3\4\5", b"\1\2\3\4\1\2\3\4", b"\4\1\2\3")):
        fixups = [Fixup(1, RELATIVE, TO_NAME, 1), Fixup(2, RELATIVE, TO_SEGMENT, 2), Fixup(3, RELATIVE, TO_NAME, 2)]
        part = code(1, b"\1\2\3\4"[:3], [(0, b"P"), (1, b"E")], [fixups[i] for i in order])
        found.append(scene("kept notes", image, [part, code(2, b"\x77", [(0, b"Q")])], asked((0,), BOTH_CHECKS, (0, 2)), [b"E", b"F"]))
    return found


def twins(rng):
    """Symbols of one name at one position, of different validity and by different matches, in each order; two of a name in one segment."""
    found = []
    image = b"abcdabcdxabc"
    for first, second in product((1, 2, 3, 4), repeat=2):
        parts = [code(1, b"abcd"[:first], [(0, b"P"), (1, b"Q"), (0, b"P")]), code(2, b"abcd"[:second], [(1, b"Q"), (0, b"P")])]
        found.append(scene("twins", image, parts, asked((0,), (1,), (2, 3))))
    for a, b in product((0, 1, 2), repeat=2):
        parts = [code(1, b"ab", [(a, b"P"), (b, b"P")]), code(2, b"bc", [(b, b"P"), (a, b"PP"), (a, b"")]), code(3, b"c", [(a, b"P")])]
        found.append(scene("twins", image, parts, asked((0,), (1,), (2,))))
    return found


def renoted(rng):
    """A name noted twice at one target: by an invalid match and then by a valid one, the other way, and twice by one match."""
    found = []
    for sizes in product((2, 3, 4), repeat=3):
        image = b"\1\5\x66\x67\2\1\x66\x67\3\xfd\x66\x67"
        parts = [code(i + 1, bytes((i + 1, 0, 0x66, 0x67))[:n], [(0, b"S%d" % i)], [Fixup(1, RELATIVE, TO_NAME, 1 + (i == 2))] * (1 + i % 2))
                 for i, n in enumerate(sizes)]
        found.append(scene("renoted", image, parts, asked((0,), (1,), (2, 3)), [b"E", b"E"]))
    return found


def crowds(rng):
    """Many names at one target and at one position; targets that share their low 16 bits; names that share a bucket, at one place and at several."""
    found = []
    alike = [b"Aa", b"BB", b"AaAa", b"BBBB", b"AaBB", b"BBAa", b"C#", b"", b"A", b"AA"]
    for count in (1, 2, 5, 10, 30):
        names = (alike + [b"N%d" % i for i in range(30)])[:count]
        fixups = [Fixup(1, WORD, TO_NAME, i + 1) for i in range(count)]
        part = code(1, b"\x12\0\0", [(i % 2, name) for i, name in enumerate(names)] + [(0, name) for name in names], fixups)
        found.append(scene("crowds", b"\x12\0\1\x12\0\7\x12\0\1", [part], asked((0,), BOTH_CHECKS, (1, 2)), names))
    for offsets in ((0, 1), (1, 0), (1, 2, 0), (0xFFFF, 0, 1), (2, 1, 2)):
        fixups = [Fixup(1, WORD, TO_NAME, 1 + i % 2, offset) for i, offset in enumerate(offsets)]
        image = b"\x12\0\0\x12\xff\xff\x12\xff\xfe\x12\0\1"
        found.append(scene("crowds", image, [code(1, b"\x12\0\0", [(0, b"P")], fixups)], asked((0,), (1,), (1,)), [b"E", b"F"]))
    for gap in (1, 2, 3):
        # a byte less by 31 at the next position: one bucket
        parts = [code(1, b"\0" * gap, [(i * gap, bytes((124 - 31 * i * gap % 124,))) for i in range(4)]), code(2, b"\0", [(0, b"|")])]
        found.append(scene("crowds", bytes(12), parts, asked((0,), (1,), (1,))))
    return found


def omissions(rng):
    """Symbols one before the image's end, at it, and past it; from the last match and from earlier ones."""
    found = []
    for n, offset in product((1, 2, 5, 8), (0, 1, 4, 5, 7, 8, 0xFFFF)):
        parts = [code(1, b"a", [(offset, b"P"), (0, b"Q"), (offset, b"Q"), (n - 1, b"R")]), code(2, b"", [(offset, b"P"), (0, b"Z")])]
        found.append(scene("omissions", b"a" * n, parts, asked((0,), (1,), (rng.randrange(2),))))
    return found


SWEEPS = (repeats, hollow, edges, absolutes, relatives, words, inblocks, tails, calls, offset_calls, kept_notes, twins, renoted, crowds, omissions)
