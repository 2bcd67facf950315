"""Walks to be recorded: an image, stretches, a start. Every reason to stop, every refusal alone and before the later ones,
every opcode whole, cut, with withheld bytes and at the end of a page."""
from model.walk import INSTRUCTIONS, length

MOST = 2 ** 64 - 1
RET, RETI, RESERVED = 0x22, 0x32, 0xA5
PLAIN = [op for op in INSTRUCTIONS if op not in (RET, RETI)]


def some_bytes(rng, n):
    return bytes(rng.randrange(256) for _ in range(n))


def code(rng, n):
    """n instructions without a return, with random operands."""
    return b"".join(bytes([op]) + some_bytes(rng, length(op) - 1) for op in rng.choices(PLAIN, k=n))


def single(rng):
    """Each opcode by itself: whole, before a return; cut at each byte; each of its bytes withheld, and withheld and cut; at
    the edges of a page, where the address after it is on the next one."""
    for op in range(256):
        n = length(op) if op in INSTRUCTIONS else 1
        whole = bytes([op]) + some_bytes(rng, n - 1)
        for _ in range(2):
            yield bytes([op]) + some_bytes(rng, 2) + b"\x00\x00\x22", [], 0
        for size in range(1, n):
            yield whole[:size], [], 0
            yield whole[:size], [(size - 1, 1)], 0
        for at in range(n):
            yield whole + b"\x22", [(at, 1)], 0
            yield whole + b"\x22", [(at, 0), (n, 1)], 0
        for at in range(2048 - 3, 2048 + 1) if op % 16 == 1 else ():
            yield bytes(at) + whole + b"\x22", [], at
    for op in (0x01, 0xF1, 0x80, 0x10, 0x02, 0x12, 0xDF, 0xB4):
        for at in range(0x10000 - 4, 0x10000):
            yield (bytes(at) + bytes([op]) + some_bytes(rng, 3))[:0x10000], [], at


def limits(rng):
    """Around 256 instructions, and what stands behind the last one."""
    for n in (0, 1, 254, 255, 256, 257):
        for last in (b"", b"\x22", b"\x32", b"\xA5", b"\x02\x00", b"\x00"):
            image = bytes(n) + last
            yield image, [], 0
            yield image + b"\x00", [(len(image), 1)], 0
    for n in (100, 255, 256):
        yield code(rng, n) + b"\x22", [], 0
        yield code(rng, n) + b"\xA5", [], 0


def refusals(rng):
    """Each refusal alone, and with all that come later."""
    image = code(rng, 5) + b"\x22"
    n = len(image)
    many = [(0, 0)] * 17
    past = [(n, 1), (0, n + 1), (MOST, 1), (1, MOST), (MOST, MOST), (n + 1, 0)]
    for start in (0, n - 1, n, n + 1, MOST):
        yield image, [], start
        yield image, [(n, 0)], start
        yield image, [(0, n)], start
        yield image, many, start
        yield image, many[:16], start
        yield image, [*many[:16], past[0]], start
        for one in past:
            yield image, [one], start
            yield image, [(0, 1), one, (1, 1)], start
    for start in (0, 1, MOST):
        yield b"", [], start
        yield b"", [(0, 0)], start
        yield b"", [(0, 1)], start
    long = bytes(0x10000) + b"\x22"
    yield long, [], 0
    yield long, [*many[:16], past[4]], MOST
    yield long[1:], [], 0xFFFF
    yield long[1:], [(0xFFFE, 1)], 0xFFF0


def stretches_in(rng, n, count):
    """Short ones, anywhere in the image; some empty, some overlapping."""
    found = []
    for _ in range(count):
        size = rng.choice((0, 1, 1, 2, 5))
        first = rng.randrange(n + 1)
        found.append((first, min(size, n - first)))
    return found


def random_walks(rng, n):
    for _ in range(n):
        image = b"".join(code(rng, rng.randrange(1, 40)) + rng.choice((b"\x22", b"\x32", b"\x22", b"\xA5", b"")) for _ in range(rng.choice((1, 1, 3))))
        if rng.random() < 0.2:
            image = some_bytes(rng, rng.randrange(1, 200))
        if rng.random() < 0.2:
            image = image[:rng.randrange(1, len(image) + 1)]
        start = 0 if rng.random() < 0.5 else rng.randrange(len(image))
        yield image, stretches_in(rng, len(image), rng.choice((0, 0, 0, 1, 1, 3, 16, 17))), start


def walks(rng, n):
    for make in (single, limits, refusals):
        yield from make(rng)
    yield from random_walks(rng, n)
