"""Change request W-201 in Python: what a HEX text imports as, and what an image exports as. It was written from the
request's words, line by line, and shares nothing with the definition or the code."""

TOO_LONG, NO_ROOM, BAD_TEXT, WRONG_SUM, OTHER_TYPE, PAST_END, GIVEN_TWICE, NO_END = 2, 9, 20, 21, 22, 23, 24, 25
DIGITS = b"0123456789ABCDEFabcdef"
ADDRESSES = 0x10000


def lines(text):
    """The lines without their endings. A CR belongs to the ending only where LF follows; behind a last LF no line comes."""
    parts = text.split(b"\n")
    for part in parts[:-1]:
        yield part[:-1] if part.endswith(b"\r") else part
    if parts[-1]:
        yield parts[-1]


def record(line):
    """The bytes of a record: length, address, type, data, check byte. None if the line is bad text."""
    digits = line[1:]
    if line[:1] != b":" or len(digits) % 2 or any(c not in DIGITS for c in digits):
        return None
    bytes_ = bytes.fromhex(digits.decode("ascii"))
    if len(bytes_) < 5 or len(bytes_) != 5 + bytes_[0]:
        return None
    if bytes_[3] == 1 and bytes_[0]:
        return None
    return bytes_


def imported(text):
    """(0, the image), or (the number of the refusal, None)."""
    given = {}
    for line in lines(text):
        found = record(line)
        if found is None:
            return BAD_TEXT, None
        if sum(found) % 256:
            return WRONG_SUM, None
        kind, address, data = found[3], found[1] << 8 | found[2], found[4:-1]
        if kind > 1:
            return OTHER_TYPE, None
        if kind == 1:
            return 0, bytes(given.get(a, 0xFF) for a in range(max(given, default=-1) + 1))
        if address + len(data) > ADDRESSES:
            return PAST_END, None
        if any(a in given for a in range(address, address + len(data))):
            return GIVEN_TWICE, None
        given.update(enumerate(data, address))
    return NO_END, None


def record_line(kind, address, data):
    """A record as a line, its check byte made so that all bytes sum to 0 modulo 256."""
    bytes_ = [len(data), address >> 8, address & 255, kind, *data]
    return b":%s\n" % bytes([*bytes_, -sum(bytes_) & 255]).hex().upper().encode()


def exported(image):
    if len(image) > ADDRESSES:
        return TOO_LONG, None
    starts = range(0, len(image), 16)
    return 0, b"".join(record_line(0, a, image[a:a + 16]) for a in starts) + b":00000001FF\n"


def stored(outcome, room):
    """What comes of it with a buffer: the number, how many bytes were written, and the buffer (A5h before)."""
    number, made = outcome
    if number == 0 and len(made) > room:
        number = NO_ROOM
    if number:
        return number, 0, b"\xA5" * room
    return 0, len(made), made + b"\xA5" * (room - len(made))
