"""HEX texts and images: those gone through one by one, at the edges of the rules, and random ones. The same seed gives the
same."""
from model.hex import record_line

END = b":00000001FF\n"


def data(address, *bytes_):
    return record_line(0, address, bytes(bytes_))


def with_sum(bytes_, wrong=0):
    """A line of these bytes and their check byte, which may be wrong."""
    return b":%s\n" % bytes([*bytes_, (-sum(bytes_) + wrong) & 255]).hex().upper().encode()


def endings():
    """Lines with every ending, at every place, and text behind the end record."""
    one, two = data(0, 1, 2), data(2, 3)
    for a in (b"\n", b"\r\n", b"\r", b"", b"\n\n", b"\r\r\n", b" \n", b"\n\r\n", b"\n\r"):
        yield one[:-1] + a + END
        yield one + two[:-1] + a + END
        yield one + END[:-1] + a
        yield one[:-1] + a
        yield a
        yield a + END
        yield one + END + a
        yield one + END[:-1] + a + b"what is this"
    for tail in (b"x", b":", b":0", b":0000000000\n", one, b":00000001FE\n", b"\x00\xFF"):
        yield one + END + tail
        yield one + END[:-1] + b"\r\n" + tail
        yield one + END[:-1] + tail


def cuts(rng):
    """A text cut at every byte, and with every byte changed, left out, or doubled."""
    text = data(0x10, 0xAB, 0xFF) + data(0, 0x7C) + END
    for i in range(len(text) + 1):
        yield text[:i]
        yield text[i:]
    for i in range(len(text)):
        yield text[:i] + text[i + 1:]
        yield text[:i] + text[i:i + 1] + text[i:]
        for c in (0, 9, 10, 13, 32, 0x2F, 0x3A, 0x40, 0x47, 0x60, 0x67, 0x80, 0xB0, 0xFF, rng.randrange(256)):
            yield text[:i] + bytes([c]) + text[i + 1:]


def characters():
    """Each character as a digit, and before, between and behind records."""
    for c in range(256):
        yield b":0" + bytes([c]) + b"00000000\n" + END
        yield b":0100000000" + bytes([c]) + b"0\n" + END
        yield bytes([c]) + END


def faults():
    """Each fault by itself and each pair of faults in one record, and in two records either way round."""
    good = data(0, 5, 6, 7)
    each = {20: b"?\n", 21: with_sum([1, 0, 9, 0, 4], 3), 22: with_sum([0, 0, 0, 4]), 23: data(0xFFFF, 1, 2), 24: data(2, 7)}
    for fault in each.values():
        yield good + fault + END
        yield good + fault
        yield fault + good + END
        for other in each.values():
            yield good + fault + other + END
            yield fault + good + other
    for kind in range(256):
        yield good + with_sum([0, 0, 0, kind]) + END
        yield good + with_sum([0, 0, 0, kind], 1) + END
        yield with_sum([1, 0xFF, 0xFF, kind, 9]) + END
        yield with_sum([2, 0xFF, 0xFF, kind, 9, 9], kind % 3) + END
    for wrong in range(256):
        yield good + with_sum([1, 0, 8, 0, 0x40], wrong) + END
        yield good + with_sum([0, 0x12, 0x34, 1], wrong)


def addresses():
    """Data at the last addresses, records without bytes, and bytes given twice or beside one another."""
    for address in (0, 1, 0xFF, 0x100, 0x7FFF, 0xFFEF, 0xFFF0, 0xFFFE, 0xFFFF):
        for size in (0, 1, 2, 15, 16, 17, 255):
            yield record_line(0, address, bytes(range(size))) + END
            yield record_line(0, address, bytes(size)) + record_line(0, 0, b"\x01") + END
    for first in range(6):
        for size in range(4):
            yield data(2, 8, 8) + record_line(0, first, bytes(size)) + END
            yield record_line(0, first, b"\xFF" * size) + data(4, 9) + END
    for address in (0, 7, 0xFFFF):
        yield with_sum([0, address >> 8, address & 255, 1])
    yield b"".join(data(a, a) for a in range(40, 0, -1)) + END
    yield b"".join(data(a * 300, a) for a in range(40)) + END
    yield b"".join(data(a * 300, a) for a in range(40)) + data(300, 1) + END


def varied(rng, text):
    """The same records in other letter cases, line endings and order."""
    found = text.splitlines()
    rest, end = found[:-1], found[-1:]
    if rng.random() < 0.5:
        rng.shuffle(rest)
    out = b""
    for line in rest + end:
        if rng.random() < 0.5:
            line = line.lower() if rng.random() < 0.5 else bytes(rng.choice((c, ord(chr(c).lower()))) for c in line)
        out += line + rng.choice((b"\n", b"\n", b"\r\n"))
    return out if rng.random() < 0.7 else out.rstrip(b"\r\n")


def pieces(rng, image, gaps):
    """An image in records of any lengths, some bytes left out if there are to be gaps."""
    at, out = 0, b""
    while at < len(image):
        size = min(rng.choice((1, 2, 3, 8, 16, 16, 32, 255)), len(image) - at)
        if not gaps or rng.random() < 0.7:
            out += record_line(0, at, image[at:at + size])
        at += size
    return out + END


def damaged(rng, text):
    """One to three bytes of a text changed."""
    out = bytearray(text)
    for _ in range(rng.randrange(1, 4)):
        if out:
            i = rng.randrange(len(out))
            out[i] = rng.choice(b"0123456789ABCDEFabcdef:\n\r") if rng.random() < 0.9 else rng.randrange(256)
    return bytes(out)


def some_image(rng, most=400):
    size = rng.choice((rng.randrange(0, 40), rng.randrange(most)))
    return bytes(rng.choice((0xFF, 0, rng.randrange(256), rng.randrange(256))) for _ in range(size))


def random_texts(rng, n):
    for _ in range(n):
        text = varied(rng, pieces(rng, some_image(rng, 160), rng.random() < 0.4))
        if rng.random() < 0.1:
            text = text[:text.rfind(b":")]
        yield damaged(rng, text) if rng.random() < 0.6 else text


def texts(rng, n):
    for each in (endings(), cuts(rng), characters(), faults(), addresses(), random_texts(rng, n)):
        yield from each


def images(rng, n):
    """Every length about the limits of a record, long ones, all bytes, and random ones."""
    for size in (*range(0, 67), 255, 256, 257, 4095, 4096):
        yield bytes((i * 7 + size) & 255 for i in range(size))
        yield b"\xFF" * size
    for byte in range(256):
        yield bytes([byte])
    yield bytes(0x10000)
    yield bytes(0x10001)
    for _ in range(n):
        yield some_image(rng)

