"""Damaged libraries, and bytes or records in no order at all."""
from cases.records import (External, Fixup, Content, IDLE_TYPES, Public, Segment, UNKNOWN_TYPES,
                     content, end, entries, header, record)

ALL_TYPES = (0x02, 0x04, 0x06, 0x07, 0x08, 0x09, 0x0E, 0x0F, 0x10, 0x11, 0x12, 0x13, 0x16, 0x17, 0x18,
             0x19, 0x26, 0x28, 0x2A, 0x2C) + UNKNOWN_TYPES


def truncated(rng, parts):
    whole = b"".join(parts)
    return [whole[:rng.randrange(len(whole))]]


def flipped(rng, parts):
    whole = bytearray(b"".join(parts))
    at = rng.randrange(len(whole))
    whole[at] = rng.choice((whole[at] ^ 1 << rng.randrange(8), rng.randrange(256)))
    return [bytes(whole)]


def with_record(rng, parts, change):
    i = rng.randrange(len(parts))
    if not parts[i]:
        return parts
    return parts[:i] + change(parts[i]) + parts[i + 1:]


def other_length(rng, parts):
    """One more or less, or anything: the record then ends inside another, or past the file's end."""
    def change(r):
        n = int.from_bytes(r[1:3], "little")
        new = rng.choice((n + 1, n - 1, n + 4, 1, 2, rng.randrange(40), rng.randrange(65536))) & 0xFFFF
        return [r[:1] + new.to_bytes(2, "little") + r[3:]]
    return with_record(rng, parts, change)


def other_type(rng, parts):
    return with_record(rng, parts, lambda r: [bytes((rng.choice((r[0] ^ 1, rng.choice(ALL_TYPES)))),) + r[1:]])


def other_name(rng, parts):
    """Another last byte in a header's or an end's name: the names then differ."""
    spots = [i for i, r in enumerate(parts) if len(r) > 4 and r[0] in (2, 4) and r[3]]
    if not spots:
        return parts
    i = rng.choice(spots)
    at = 3 + parts[i][3]
    return parts[:i] + [parts[i][:at] + b"Z" + parts[i][at + 1:]] + parts[i + 1:]


def dropped(rng, parts):
    return with_record(rng, parts, lambda r: [])


def doubled(rng, parts):
    return with_record(rng, parts, lambda r: [r, r])


def swapped(rng, parts):
    i, j = rng.randrange(len(parts)), rng.randrange(len(parts))
    out = list(parts)
    out[i], out[j] = out[j], out[i]
    return out


CHANGES = (truncated, flipped, other_length, other_type, other_name, dropped, doubled, swapped)


def damaged(rng, parts):
    """The records after one or two changes; those that cut into bytes come last."""
    first = rng.choice(CHANGES)
    parts = first(rng, parts) or [b"\2"]
    if rng.random() < 0.25 and len(parts) > 1:
        parts = rng.choice(CHANGES)(rng, parts)
    return b"".join(parts)


def small(rng):
    return rng.choice((0, 1, 1, 2, 3))


def some_record(rng):
    """A record of right form and random fields, or one with a random body."""
    name = rng.choice((b"", b"A", b"B"))
    made = (
        lambda: entries([Segment(small(rng), rng.randrange(1, 4), rng.choice((0, 0, 1)), small(rng))]),
        lambda: entries([Public(small(rng), small(rng), name)], True),
        lambda: entries([External(small(rng), name)]),
        lambda: content(Content(small(rng), small(rng), rng.randbytes(rng.randrange(3)))),
        lambda: entries([Fixup(small(rng), rng.randrange(9), rng.randrange(5), small(rng))]),
        lambda: record(rng.choice(ALL_TYPES), rng.randbytes(rng.randrange(6))),
        lambda: record(rng.choice(IDLE_TYPES), b""),
    )
    return rng.choice(made)()


def soup(rng):
    """Records in a random order, mostly after a header and with an end, or mere bytes."""
    if rng.random() < 0.2:
        return bytes((rng.choice(ALL_TYPES),)) + rng.randbytes(rng.randrange(30))
    middle = [some_record(rng) for _ in range(rng.randrange(7))]
    start = [header(b"M")] if rng.random() < 0.9 else []
    last = [end(b"M")] if rng.random() < 0.9 else []
    parts = start + middle + last
    if rng.random() < 0.2:
        parts = [record(0x2C, b"\1")] + parts + [record(t, b"") for t in (0x28, 0x26, 0x2A)]
    return b"".join(parts) + rng.randbytes(rng.choice((0, 0, 3)))
