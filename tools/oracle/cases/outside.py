"""Cases outside the domain of equality whose answer document 01 gives all the same."""
from dataclasses import replace

from cases.records import Content, External, Fixup, Module, Public, Segment, TO_NAME, TO_SEGMENT, WORD, plain, varied

# The last name in byte order that is ASCII, and one that is no UTF-8 and last as well.
STAND_IN, RAW = b"~", b"\xfe"


def zero_length(rng, case, parts):
    """Refusal 7: any record of a library that can be read is expected where it stands."""
    i = rng.randrange(len(parts))
    changed = parts[:i] + [parts[i][:1] + b"\0\0" + parts[i][3:]] + parts[i + 1:]
    return replace(case, kind="outside", library=b"".join(changed), must=(7,))


def names_differ(rng, case, modules):
    """Refusal 8, in any of the modules."""
    i = rng.randrange(len(modules))
    other = replace(modules[i], last_name=modules[i].name + b"X")
    changed = modules[:i] + [other] + modules[i + 1:]
    return replace(case, kind="outside", library=joined(rng, changed), must=(8,))


def no_kept_segment(rng, case, modules):
    """Refusal 13: the very first fixup names a code segment that is not kept, as it is absolute or has id 0."""
    segment = rng.choice((Segment(9, 2, relocation=0), Segment(0, 2)))
    fixup = Fixup(0, rng.randrange(8), TO_SEGMENT, segment.id)
    first = Content(rng.choice((0, 1, 77)), 0, b"\0", [fixup])
    m = modules[0]
    changed = Module([segment] + m.definitions, [first] + m.contents, m.name)
    return replace(case, kind="outside", library=joined(rng, [changed] + modules[1:]), must=(13,))


def joined(rng, modules):
    return b"".join(r for m in modules for r in varied(rng, m))


def omitted_symbol(rng, case, modules):
    """A symbol placed at or past the image's end wherever its segment matches: the list must be that
    of the library without it. A reference to it, if there is one, is not borne out by it."""
    m = modules[0]
    size = len(case.image)
    fixups = [Fixup(1, WORD, TO_NAME, 9)] if rng.random() < 0.5 else []
    offset = size + rng.choice((0, 0, 1))
    places = (case.image + b"\0" * 4)[:1] + bytes((offset >> 8, offset & 0xFF))
    image = places + case.image[3:]
    offset = max(offset, len(image))
    name = rng.choice((b"A", b"B", b"ZZ"))
    extra = [Segment(8, 3), Public(8, 0, b"C"), Public(8, offset, name), External(9, name)]
    changed = Module(extra + m.definitions, [Content(8, 0, places, fixups)] + m.contents, m.name)
    rest = modules[1:]
    with_it, without = joined(rng, [changed] + rest), joined(rng, [changed.without(extra[2])] + rest)
    return replace(case, kind="outside", image=image, library=with_it, asked=without)


def omitted_absolute(rng, case, modules):
    """As found, a symbol of an absolute content is placed at content start + offset."""
    size = max(4, len(case.image))
    start = (size + 1) // 2
    image = case.image + b"\0" * (size - len(case.image))
    inside, past = Public(0, start, b"C"), Public(0, size - 1, b"D")
    m = Module([inside, past], [Content(0, start, image[start:])], b"P")
    # both stand at twice the start or later, which is at or past the end
    keep = Module([], m.contents, m.name)
    with_it, without = joined(rng, [m] + modules), joined(rng, [keep] + modules)
    return replace(case, kind="outside", image=image, library=with_it, asked=without)


def raw_names(rng, case, modules):
    """Names that are no UTF-8 are kept as they are: the Rust is asked with a byte that sorts the same."""
    def named(d, byte):
        return replace(d, name=d.name + byte) if isinstance(d, (Public, External)) else d

    def library(byte):
        changed = [replace(m, definitions=[named(d, byte) for d in m.definitions]) for m in modules]
        return b"".join(r for m in changed for r in plain(m))

    return replace(case, kind="outside", library=library(RAW), asked=library(STAND_IN), renamed=(STAND_IN, RAW))
