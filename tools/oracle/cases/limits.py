"""Cases at the edges of the rules, each made by hand."""
from model.run import Run
from cases.records import (Content, External, Fixup, INBLOCK, Module, Public, RELATIVE, Segment, TO_NAME,
                     TO_SEGMENT, WORD, as_library, content, end, entries, header, plain, record)

A = Public(1, 0, b"A")


def one(definitions, contents):
    """A library of one module."""
    return b"".join(plain(Module(definitions, contents)))


def case(image, library, **settings):
    return Run("limit", bytes(image), library, **settings)


def referring(kind, data, offset=0, size=None, location=0, name=b"X"):
    """Segment 1 with the symbol A, whose data refers to an external name."""
    fixup = Fixup(location, kind, TO_NAME, 1, offset)
    return one([Segment(1, size or len(data)), A, External(1, name)], [Content(1, 0, data, [fixup])])


def sizes():
    """Empty files, and patterns as long as the image, one longer, and empty."""
    three = one([Segment(1, 3), A], [Content(1, 0, b"abc")])
    empty = [Segment(1, 5, info=0x80)]
    to_empty = [Content(2, 0, b"\0\0", [Fixup(0, WORD, TO_SEGMENT, 1)])]
    return [
        case(b"", b""),
        case(b"", three),
        case(b"abc", b""),
        case(b"abc", three),
        case(b"ab", three),
        case(b"abcabc", three, minimum=3),
        case(b"abcabc", three, minimum=4),
        case(b"\0\3", one(empty + [Segment(2, 2), Public(2, 0, b"B")], to_empty), minimum=0),
        case(b"\0\2", one(empty + [Segment(2, 2), Public(2, 0, b"B")], to_empty), minimum=0),
        case(b"ab", one(empty + [External(1, b"X")], [])),
        case(b"abc", one([Segment(1, 2), Public(1, 1, b"A")], [])),
        case(b"abc", one([Segment(1, 2), Public(1, 1, b"A")], []), minimum=0),
    ]


def ends():
    """A content that ends exactly at the segment's size, one past it, and empty ones there."""
    def filling(offset, data, **more):
        return one([Segment(1, 3, **more), A], [Content(1, offset, data)])

    return [
        case(b"\0ab", filling(1, b"ab"), minimum=2),
        case(b"\0ab", filling(2, b"ab")),
        case(b"\0ab", filling(3, b""), minimum=0),
        case(b"\0ab", filling(4, b"")),
        case(b"\0ab", filling(0, b"a", info=0x80)),
        case(b"\0ab", one([Segment(1, 2), Segment(1, 4), A], [Content(1, 0, b"abc")])),
        case(b"\0ab", one([Segment(1, 2, relocation=0), Segment(1, 4), A], [Content(1, 0, b"abcd")])),
        # a stored size of 0 means 65,536
        case(b"ab", one([Segment(1, 0), A], [Content(1, 0xFFFE, b"ab")])),
        case(b"ab", one([Segment(1, 0), A], [Content(1, 0xFFFF, b"ab")])),
        case(b"ab", one([Segment(1, 0xFFFF), A], [Content(1, 0xFFFE, b"ab")])),
    ]


def fixups():
    """The last kind and block with a meaning, the first without, and both at once."""
    def one_fixup(kind, block, id_=1):
        return one([Segment(1, 2), A, External(1, b"X")], [Content(1, 0, b"ab", [Fixup(0, kind, block, id_)])])

    return [case(b"ab", one_fixup(kind, block)) for kind, block in
            ((7, 2), (8, 2), (8, 3), (0, 3), (4, 4), (8, 4), (255, 255), (7, 0), (2, 1), (4, 1), (5, 1), (6, 1))]


def masks():
    """Overlapping contents are ORed, and fixups change masks in file order and only inside the content."""
    both = [Content(1, 0, b"\x0f\1"), Content(1, 0, b"\xf0\2")]
    again = [Fixup(0, 0, 0, 0), Fixup(0, INBLOCK, 0, 0)]
    return [
        case(b"\xff\3", one([Segment(1, 2), A], both), minimum=2),
        case(b"\xf0\2", one([Segment(1, 2), A], both), minimum=2),
        case(b"\xe1\7", one([Segment(1, 2), A], [Content(1, 0, b"\1\0", again)])),
        case(b"\xe1\7", one([Segment(1, 2), A], [Content(1, 0, b"\1\0", again[::-1])])),
        case(b"ab\7", one([Segment(1, 3), A], [Content(1, 0, b"abc", [Fixup(2, WORD, 0, 0)])]), minimum=2),
        case(b"abc", one([Segment(1, 3), A], [Content(1, 0, b"abc", [Fixup(0xFFFF, WORD, 0, 0)])]), minimum=3),
        # a second segment of one id gets no content, so it matches everywhere
        case(b"abcd", one([Segment(1, 2), Segment(1, 2), A], [Content(1, 0, b"ab")]), minimum=0),
        case(b"abcd", one([Segment(1, 2), Segment(1, 2), A], [Content(1, 0, b"ab")]), minimum=1),
    ]


def targets():
    """References at the image's end, below 0, and with offsets that wrap."""
    return [
        case(b"\xfe", referring(RELATIVE, b"\0"), minimum=0),
        case(b"a\x80", referring(RELATIVE, b"a\0", location=1)),
        case(b"\x7f", referring(RELATIVE, b"\0"), minimum=0),
        case(b"a\0\0", referring(WORD, b"a\0\0", 1, location=1)),
        case(b"a\0\3", referring(WORD, b"a\0\0", location=1)),
        case(b"a\0\2", referring(WORD, b"a\0\0", location=1)),
        case(b"a\xff\xff", referring(WORD, b"a\0\0", 0xFFFF, location=1, name=b"A")),
        case(b"a\xe1\1", referring(INBLOCK, b"a\1\0", location=1, name=b"A")),
        case(b"a\xe1\1", referring(INBLOCK, b"a\1\0", 2, location=1)),
        case(b"ab", referring(WORD, b"ab", location=1)),
        case(b"ab", referring(WORD, b"ab", location=1), depth=0),
        case(b"ab\0", referring(WORD, b"ab", location=1), depth=0),
        case(b"ab\0\0", referring(WORD, b"ab", location=2)),
        case(b"ab", referring(RELATIVE, b"ab", location=2)),
    ]


def validity():
    """A noted name is valid if any match that noted it was, be it the first, the second or one that fails its
    check; a symbol that is not valid stays if it is noted where it stands."""
    def noting(first, second, target, extra=()):
        named = [Fixup(0, WORD, TO_NAME, 1)]
        contents = [Content(1, 0, b"\0\0" + first, named + list(extra)), Content(2, 0, b"\0\0" + second, named)]
        sizes_ = [Segment(1, 2 + len(first)), Segment(2, 2 + len(second)), External(1, b"A")]
        return case(target + b"abcab", one(sizes_ + [Public(1, 2, b"A"), Public(2, 3, b"B")], contents), minimum=2)

    def alike(first, second):
        """Two symbols of one name at one position, of which the first stays, valid or not."""
        twice = [Segment(1, len(first)), Segment(2, len(second)), A, Public(2, 0, b"A")]
        return case(b"ab", one(twice, [Content(1, 0, first), Content(2, 0, second)]), minimum=2)

    astray = Fixup(0, RELATIVE, TO_SEGMENT, 2)
    pairs = ((b"a", b"ab"), (b"ab", b"a"), (b"a", b"a"))
    found = [noting(first, second, target, extra) for first, second in pairs
             for target in (b"\0\2", b"\0\3", b"\1\0") for extra in ((), (astray,))]
    return found + [alike(first, second) for first, second in pairs[:2]]


def skips():
    """Skip amounts with several names at a position, and past the end, where invalid names count too."""
    two = one([Segment(1, 2), A, Public(1, 0, b"B"), Public(1, 0, b"A")], [Content(1, 0, b"ab")])
    far = [Fixup(0, WORD, TO_NAME, i) for i in (2, 1, 2)]
    past = one([Segment(1, 2), External(1, b"X"), External(2, b"Y")], [Content(1, 0, b"ab", far)])
    weak = one([Segment(1, 2), Segment(2, 3), External(1, b"X"), External(2, b"Y")],
               [Content(1, 0, b"ab", far[:1]), Content(2, 0, b"abc", far[1:2])])
    found = [case(b"ab", lib, skip=amount, minimum=0) for lib in (two, past) for amount in (None, 0, 1, 2)]
    return found + [case(b"\1\2c", weak, skip=amount, minimum=1) for amount in (None, 1, 2)]


def absolutes():
    """Absolute contents: at their address alone, symbols of id 0 inside them, at start + offset."""
    def absolute(start, data, *offsets):
        return one([Public(0, o, b"A%d" % o, info=4) for o in offsets], [Content(0, start, data)])

    return [
        case(b"abab", absolute(0, b"ab", 0, 1)),
        case(b"ababab", absolute(2, b"ab", 1, 2, 3, 4)),
        case(b"abab", absolute(3, b"ab", 3)),
        case(b"abab", absolute(4, b"", 4)),
        case(b"abab", absolute(5, b"")),
    ] + [referring_absolute(start, kind) for start in (0, 1, 2) for kind in (RELATIVE, WORD, INBLOCK)]


def referring_absolute(start, kind):
    """A reference in an absolute content: its place is the fixup's location in the content."""
    fixups_ = [Fixup(1, kind, TO_NAME, 1)]
    definitions = [Public(0, start, b"A"), External(1, b"X")]
    return case(bytes(range(1, 12)), one(definitions, [Content(0, start, bytes(range(start + 1, start + 4)), fixups_)]))


def omissions():
    """A symbol at the image's end or one past it is omitted, and bears no reference out. The Rust is asked
    about a library that places the same symbols but for that one."""
    def case_at(past, depth):
        segment, there, named = Segment(1, 3), Public(1, 3 + past, b"X"), External(1, b"X")
        contents = [Content(1, 0, b"a\0\0", [Fixup(1, WORD, TO_NAME, 1)])]
        without = one([segment, A, named], contents)
        return case(b"a\0" + bytes((3 + past,)), one([segment, A, there, named], contents), asked=without, depth=depth)

    empty, single = one([Segment(1, 5, info=0x80), A], []), one([Segment(1, 1), A], [])
    short, longer = (one([Segment(1, size), Public(1, 2, b"A")], []) for size in (2, 3))
    return [case_at(past, depth) for past in (0, 1) for depth in (1, 0)] + [
        case(b"ab", empty, asked=single, minimum=0),
        case(b"abc", short, asked=longer, minimum=0),
    ]


def files():
    """Bare modules followed by something else, and 2Ch libraries that lack a closing record."""
    module = plain(Module([Segment(1, 2), A], [Content(1, 0, b"ab")]))
    whole = as_library(module)
    late = [header(b"M"), entries([Segment(1, 2), A][:1]), record(0x10, b""), entries([A]), end(b"M")]
    closed = [b"".join(p) for p in (whole, whole[:-1], whole[:-2], whole[:-3] + whole[-2:], whole[:1] + whole[-3:])]
    bare = b"".join(module)
    after = (b"\2", b"\2\1\0\0", b"\2\5\0\1M\0\0\0\4\1\0\0", b"\2\xff\0", b"\3\xff\0", b"junk", b"\2\2\0\0")
    idle = content(Content(1, 0, b"ab")) + record(0x12, b"") + entries([Fixup(0, 0, 0, 0)])
    return ([case(b"ab", lib) for lib in closed] + [case(b"ab", bare + a) for a in after]
            + [case(b"ab", closed[0] + b"junk"), case(b"ab", b"".join(late)), case(b"ab", bare[:-1]), case(b"ab", bare[:-2])]
            + [case(b"ab", header(b"M") + idle + end(b"M")), case(b"ab", bare[:-10] + idle + end(b"M"))])


def types():
    """Records of known and unknown types among the definitions and among the contents."""
    segment, public, data = entries([Segment(1, 2)]), entries([A]), content(Content(1, 0, b"ab"))
    found = []
    for type_ in (0x10, 0x11, 0x12, 0x13, 0x14, 0x26, 0xFF):
        between = record(type_, b"x")
        found.append(header(b"M") + segment + between + public + data + end(b"M"))
        found.append(header(b"M") + segment + public + data + between + data + end(b"M"))
    return [case(b"ab", library) for library in found]


def names():
    """A name that is UTF-8 and not ASCII, one that is too long for its column, and descriptions."""
    words = (b"\xc3\xa9", b"L" * 30, b"?C?CLDIDATA", b"?C?FPMUL", b"?C?PSTKPDATA0", b"?C?SIDIVX", b"?C?L0NEG", b"?C?X", b"")
    return [case(b"ab", one([Segment(1, 2), Public(1, 0, w)], [Content(1, 0, b"ab")])) for w in words]


def limits():
    groups = (sizes, ends, fixups, masks, targets, validity, skips, absolutes, omissions, files, types,
              names)
    return [each for group in groups for each in group()]
