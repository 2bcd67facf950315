"""What is searched, at its limits: minimums, the withheld stretch, large images."""
from cases.records import INBLOCK, RELATIVE, TO_NAME, TO_SEGMENT, WORD, Content, Fixup, Public
from cases.searching.scenes import BOTH_CHECKS, LARGE, asked, code, found_only, scene


def minimums(rng):
    """0, the count of nonzero masks, one less and one more, and very many; 1Fh is nonzero."""
    fixups = [Fixup(2, WORD, TO_NAME, 1), Fixup(4, INBLOCK, TO_NAME, 1)]
    parts = [code(1, b"\1\2\3\4\5\6\7\x08", [(0, b"P")], fixups), code(2, b"\1", [(0, b"P"), (1, b"Q")])]
    image = b"\1\2\0\7\x25\6\7\x08\1\2\3\4\5\6\7\x08"
    return [scene("minimums", image, parts, asked(minimums=(0, 1, 2, 4, 5, 6, 7, 8, 9, 0x100, 0x10001, 2 ** 32, 2 ** 32 + 5, LARGE)), [b"E"])]


def stretches(rng):
    """Every place and several lengths: before, in, over and behind windows and references, touching them by a byte; the whole image."""
    fixups = [Fixup(2, WORD, TO_NAME, 1), Fixup(6, RELATIVE, TO_SEGMENT, 2)]
    parts = [code(1, b"\1\2\0\0\5", [(0, b"P"), (4, b"Q")], fixups), code(2, b"\3", [(0, b"R")]), code(3, b"", [(0, b"H")])]
    image = b"\1\2\0\3\5\3\xfe\1\2\0\3\5\3\xfe\3"
    places = [(start, length) for start in range(len(image) + 1) for length in (0, 1, 2, 4, len(image)) if start + length <= len(image)]
    found = [scene("stretches", image, parts, asked((0,), (1,), (1,), places), [b"E"])]
    absolute = ([Public(0, 3, b"A"), Public(0, 5, b"B")], [Content(0, 3, b"\3\5\3", [Fixup(2, INBLOCK, TO_NAME, 1)])])
    found.append(scene("stretches", image, [absolute], asked((1,), BOTH_CHECKS, (1,), places[::2]), [b"E"]))
    return found


def large(rng):
    """Images of 4,096 and 65,536 bytes: keys far apart, targets about 65,536, more rows than are lent."""
    found = []
    fixups = [Fixup(1, WORD, TO_NAME, 1), Fixup(3, RELATIVE, TO_SEGMENT, 2)]
    parts = [code(1, b"\x12\0\0", [(0, b"P"), (2, b"Q")], fixups), code(2, b"\x99\x98", [(0, b"P"), (1, b"Q")])]
    for size in (4096, 65536):
        image = bytearray(size)
        for k in range(64):
            at = rng.randrange(size - 5)
            image[at:at + 4] = (0x12, rng.choice((0, 1, at >> 8, 0xFF)), k // 2, rng.choice((0, 1, 0xFF)))
        for at in (0, 5, 16384, 32768, 49152, size - 5, size - 2):
            if at < size:
                cells = b"\x12\0\5\0\x99\x98"[:size - at]
                image[at:at + len(cells)] = cells
        found.append(scene("large", image, parts, asked((0, 1), BOTH_CHECKS, (1, 2), ((0, 0), (5, size // 2))), [b"E"]))
    tail = bytearray(65536)
    tail[3:5], tail[65530:] = b"\x80\xfb", b"\x80\4\x80\x7f\x80\xff"
    fixups = [Fixup(1, RELATIVE, TO_NAME, 1), Fixup(1, RELATIVE, TO_NAME, 2, 0xFFFF)]
    found.append(scene("large", tail, [code(1, b"\x80\0", [(0, b"P")], fixups)], found_only(), [b"E", b"F"]))
    many = [code(1, b"", [(0, b"P")]), code(2, b"\0", [(0, b"Q")], [Fixup(0, RELATIVE, TO_NAME, 1)])]
    found.append(scene("large", bytes(4096), many, asked((0,), (1,), (0, 1)), [b"E"]))
    found.append(scene("large", bytes(400), many, asked((0,), (1,), (0, 1)), [b"E"]))
    return found


LIMITS = (minimums, stretches, large)
