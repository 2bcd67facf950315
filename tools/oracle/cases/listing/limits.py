"""What is listed, at its limits: large images, rule set 1, the withheld stretch, names of any bytes, symbols past the
image's end."""
from itertools import product

from cases.listing.scenes import MINIMUM, Stage, at, exactly, found, past
from cases.records import INBLOCK, RELATIVE, TO_NAME, WORD, Content, Fixup, Public
from cases.searching.scenes import BOTH_CHECKS, BOTH_RULES, Scene, asked, code, scene

FEW = (None, 0, 1, 2)


def large(rng):
    """Images of 4,096 bytes and of 65,536 or nearly so: addresses of every number of digits, targets about 65,536."""
    scenes = []
    for size in (4096, 65500, 65536):
        image = bytearray(size)
        names = [b"E%d" % i for i in range(6)]
        for i, distance in enumerate((0x7F, 0x05, 0x02, 0x7F, 0x80, 0xFF)):
            image[size - 24 + 4 * i:size - 22 + 4 * i] = (0x80 + i, distance)
        image[0:6] = (0x12, *((size - 1) % 65536).to_bytes(2, "big"), 0x13, 0xFF, 0xFF)
        fixups = [[Fixup(1, RELATIVE, TO_NAME, 1 + (i + j) % 6) for j in range(1 + i % 3)] + [Fixup(1, RELATIVE, TO_NAME, 6 - i, 1)] for i in range(6)]
        parts = [code(i + 1, bytes((0x80 + i, 0)), [(0, b"P%d" % i)], fixups[i]) for i in range(6)]
        positions = (0, 1, 0xF, 0x10, 0xFF, 0x100, 0xFFF) + ((0x1000, 0xF000, size - 1) if size > 4096 else ())
        far = [Fixup(1, WORD, TO_NAME, 2), Fixup(4, WORD, TO_NAME, 3), Fixup(4, WORD, TO_NAME, 4, 0xFFFF)]
        parts.append(code(7, b"\x12\0\0", [(k, b"Q%x" % k) for k in positions], far))
        scenes.append(scene("large", image, parts, found((0, 2), BOTH_CHECKS), names, (None, 1, 2, 3)))
    return scenes


def many_places(rng):
    """Hundreds of positions with one name or several each."""
    parts = [code(1, b"\0", [(0, b"P"), (0, b"A")], [Fixup(0, RELATIVE, TO_NAME, 1)]), code(2, b"\0\0", [(1, b"E")], [Fixup(1, RELATIVE, TO_NAME, 2, 0xFFFF)])]
    return [scene("large", bytes(300), parts, found((1, 2, 3)), [b"E", b"A"], FEW)]


def documented(rng):
    """Both rule sets: where an addr11 leads, and where the symbols of an absolute content stand, decide about grades."""
    scenes = []
    for first, second, start in product((0x01, 0x21, 0xE1), (0x00, 0x04, 0x09), (0, 2, 3, 5)):
        image = bytes((9, 9)) + bytes((first, second, 9, 0x55, 0x56, 9)) + bytes(300)
        absolute = ([Public(0, start + i, b"A%d" % i) for i in range(2)], [Content(0, start, image[start:start + 3])])
        fixups = [Fixup(0, INBLOCK, TO_NAME, 1), Fixup(0, INBLOCK, TO_NAME, 2)]
        parts = [code(1, b"\1\0\x09", [(0, b"P"), (3, b"A0")], fixups), code(2, b"\x55\x56", [(0, b"A1"), (1, b"P")]), absolute]
        asks = asked(BOTH_RULES, (int(rng.random() < 0.5),), (2,))
        scenes.append(scene("rule sets", image, parts, asks, [b"A0", b"P"], (rng.choice((None, 1)),)))
    return scenes


def stretches(rng):
    """The stretch at every place of an image with names of every grade, of 1 and of several bytes."""
    stage = Stage()
    stage.routine([(at(0), b"P"), (at(1), b"Q")], [(at(1), b"Q"), (at(2), b"N")])
    stage.routine([(at(0), b"O"), (at(1), b"R")], [(past(0), b"Z"), (past(0), b"A")])
    stage.routine([(at(1), b"Q")], [(exactly(-1), b"Z")], False)
    image, library = stage.made(4)
    places = [(start, length) for start in range(len(image)) for length in (1, 5, len(image)) if start + length <= len(image)]
    return [Scene("stretches", image, library, asked((rules,), (int(rules == 0),), (MINIMUM,), places), (None,)) for rules in BOTH_RULES]


def raw(rng):
    """Names of any bytes: those above 7Fh come last, and count by bytes in the printed form."""
    families = ((b"\x80", b"\x7f", b"\xff", b""), (b"\xc3\xa9", b"\xc3", b"z", b"\xc3\xa9\xa9"), (b"\0", b"", b"\0\0", b"\1"),
                ("\u00e9".encode() * 10, b"z" * 20, b"\xff" * 21, b"\n"))
    scenes = []
    for family, grade in product(families, range(4)):
        names = list(family)
        rng.shuffle(names)
        stage = Stage(rng.random() < 0.5)
        symbols = [(at(0), name) for name in names]
        notes = [(at(0), name) for name in names if grade in (0, 3)] + [(past(0), name) for name in names[:2] if grade < 2]
        stage.routine(symbols if grade else [], notes)
        scenes.append(stage.scene("raw names", 4, found(), (None, 3)))
    return scenes


def omissions(rng):
    """Symbols one before the image's end, at it and past it: those that are omitted bear nothing out, and stand in no line."""
    scenes = []
    for distance, room in product((-1, 0, 1, 300), (1, 4)):
        stage = Stage()
        stage.routine([(past(distance), b"P"), (at(0), b"Q")], [(past(distance), b"P")])
        stage.routine([(at(0), b"R")], [(past(distance), b"P"), (past(0), b"A")], rng.random() < 0.5)
        scenes.append(stage.scene("omissions", room, found((MINIMUM,), (int(rng.random() < 0.5),)), FEW))
    return scenes


LIMITS = (large, many_places, documented, stretches, raw, omissions)
