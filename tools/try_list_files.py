#!/usr/bin/env python3
"""try_list_files.py FOLDER: writes the images, libraries and lists that try-list.sh runs the program on and compares with."""
import importlib.util
import pathlib
import sys

ROOT = pathlib.Path(__file__).resolve().parent.parent
spec = importlib.util.spec_from_file_location("make", ROOT / "examples" / "make.py")
make = importlib.util.module_from_spec(spec)
spec.loader.exec_module(make)

HEADING = "Address | Name                 | Description\n"
RETURNS = b"\x22\x22\x22"
KEPT, NOT_KEPT = 1, 0
RELATIVE = 2


def line(address, name, brackets="  ", says=""):
    return f"0x{address:04x}".ljust(7) + "  " + (brackets[0] + name + brackets[1]).ljust(23) + (says and " " + says) + "\n"


def segment(number, stored_size, relocation=KEPT):
    return make.record(0x0E, bytes([number, make.CODE, relocation, 0]) + make.word(0) + make.word(stored_size) + make.name("S"))


def fixed(*entries):
    """A module with one segment of three bytes, and a fixup record of these entries behind its content."""
    return make.module("M", segment(1, 3), make.content(1, 0, RETURNS), make.record(0x08, b"".join(entries)))


def stepping(count):
    """A module of segments of five bytes: each begins with its number twice and jumps to the next, the last to the first."""
    numbers = range(1, count + 1)
    jumps = (make.content(n, 0, bytes([n, n, 2, 0, 0])) + make.record(0x08, make.fixup(3, make.WORD, make.SEGMENT, n % count + 1)) for n in numbers)
    return make.module("M", *(segment(n, 5) for n in numbers), *(make.public(n, 0, f"step{n}") for n in numbers), *jumps)


def libraries():
    whole = make.routine("LADD", "?C?LADD", make.ADD)
    header = make.record(0x02, make.name("M") + b"\0\0")
    routines = make.library()
    entry = make.public(1, 0, "?C?LADD")[3:-1]
    return {
        "full": whole + bytes(65536 - len(whole)),
        "long": whole + bytes(65537 - len(whole)),
        "none": b"",
        "unclosed": make.record(0x2C, bytes(6)) + whole,
        "cut": header + b"\x0E\xFF\xFF\x01",
        "zero": header + b"\x0E\x00\x00",
        "named": make.record(0x02, make.name("M") + b"\0\0") + make.record(0x04, make.name("N") + bytes(4)),
        # what edition 2 refuses: a wrong sum, a byte behind the file's last record, half an entry, and a byte left over in an end record of another name
        "sum": routines[:-1] + bytes([routines[-1] ^ 1]),
        "over": routines + b"\x1A",
        "half": make.module("LADD", segment(1, len(make.ADD)), make.record(0x16, entry + entry[:-1]), make.content(1, 0, make.ADD)),
        "left": header + make.record(0x04, make.name("N") + bytes(5)),
        "rows": make.module("M", *(segment(n, 0) for n in (1, 2, 3))),
        "kind": fixed(make.fixup(0, 8, make.EXTERNAL, 1)),
        "block": fixed(make.fixup(0, make.WORD, 4, 1)),
        "past": make.module("M", segment(1, 2), make.content(1, 0, RETURNS)),
        "kept": make.module("M", segment(1, 3), segment(2, 3, NOT_KEPT), make.content(1, 0, RETURNS), make.record(0x08, make.fixup(0, make.WORD, make.SEGMENT, 2))),
        "many": make.routine("MANY", "many", RETURNS),
        "both": make.module("M", segment(1, 3), make.public(1, 0, "one"), make.public(1, 0, "other"), make.content(1, 0, RETURNS)),
        "short": make.routine("SHORT", "short", b"\x22"),
        # a call of the segment behind it, which does not stand there
        "unmet": make.module("M", segment(1, 3), segment(2, 3), make.public(1, 0, "unmet"), make.content(1, 0, b"\x02\0\0"), make.record(0x08, make.fixup(1, make.WORD, make.SEGMENT, 2)), make.content(2, 0, RETURNS)),
        # f calls the segment behind it, which stands there in chain.img but jumps past the image's end; the f of the second module has one byte, and refers to g
        "chain": make.module("M", segment(1, 3), segment(2, 3), make.public(1, 0, "f"), make.content(1, 0, b"\x12\0\0"), make.record(0x08, make.fixup(1, make.WORD, make.SEGMENT, 2)),
                             make.content(2, 0, b"\x02\0\0"), make.record(0x08, make.fixup(1, make.WORD, make.SEGMENT, 1)))
        + make.module("N", segment(1, 1), make.public(1, 0, "f"), make.external(1, "g"), make.content(1, 0, b"\x12"), make.record(0x08, make.fixup(4, RELATIVE, make.EXTERNAL, 1))),
        # in steps.img the last of them jumps past the image's end
        "steps": stepping(5),
        # a short jump back, to a name that stands before address 0
        "back": make.module("M", segment(1, 2), make.public(1, 0, "back"), make.external(0, "before"), make.content(1, 0, b"\x80\0"), make.record(0x08, make.fixup(1, RELATIVE, make.EXTERNAL, 0))),
        "printed": bytes.fromhex(
            "02 05 00 01 4D 00 00 AB 0E 0B 00 01 00 01 00 00 00 03 00 01 53 8E 16 0E 00 01 00 00 00 00 07 3F 43 3F 4C 41 44 44 FE"
            "06 07 00 01 00 00 E5 25 22 C6 04 07 00 01 4D 00 00 00 00 A7"
        ),
    }


def images():
    aid = make.image()
    other = bytearray(aid)
    other[0x1204:0x120C] = bytes(8)
    return {
        "other": bytes(other),
        "long": bytes(65537),
        "full": make.ADD + bytes(65536 - len(make.ADD)),
        "many": b"\x22" * 5002,
        "one": b"\x22",
        "three": RETURNS,
        "call": b"\x02\x12\x34",
        "back": b"\x80\x80",
        "steps": b"".join(bytes([n, n, 2, 0, 5 * n]) for n in range(1, 5)) + b"\x05\x05\x02\xFF\xFF",
        "chain": bytes.fromhex("12 00 03 02 00 FF 00"),
        "empty": b"",
        "printed": bytes.fromhex("00 E5 25 22"),
    }


def steps(depth):
    """Each depth more takes the last step that is left."""
    return HEADING + "".join(line(5 * n, f"step{n + 1}") for n in range(5 - depth))


def lists():
    gain, add, multiply = "apply_gain", "?C?LADD", "?C?IMUL"
    added, multiplied = "long (32-bit) addition", "int (16-bit) multiply"
    rest = line(0x0200, multiply, says=multiplied) + line(0x0780, add, says=added)
    return {
        "documented": HEADING + line(0x0140, gain) + rest + line(0x1200, "FITTING_TABLE"),
        "found": HEADING + line(0x0080, add, "()", added) + line(0x0140, gain, "[]") + rest + line(0x2400, "FITTING_TABLE"),
        "withheld-table": HEADING + line(0x0140, gain) + rest,
        "withheld-add": HEADING + line(0x0140, gain, "[]") + line(0x0200, multiply, says=multiplied) + line(0x0780, add, "()", added) + line(0x1200, "FITTING_TABLE"),
        "withheld-both": HEADING + line(0x0140, gain, "[]") + line(0x0200, multiply, says=multiplied) + line(0x0780, add, "()", added),
        "heading": HEADING,
        "printed": HEADING + line(1, add, says=added),
        "full": HEADING + line(0, add, says=added),
        "many": HEADING + "".join(line(n, "many") for n in range(5000)),
        "both": HEADING + line(0, "one") + line(0, "other"),
        "short": HEADING + line(0, "short"),
        "unmet": HEADING + line(0, "unmet"),
        **{f"steps-{depth}": steps(depth) for depth in range(5)},
        "chain": HEADING + line(0, "f") + line(5, "g", "()"),
        "chain-deep": HEADING + line(0, "f", "[]") + line(5, "g", "()"),
        "back": HEADING + line(0, "back", "[]") + line(2 - 128 + 2**16, "before", "()"),
        "back-found": HEADING + line(0, "back", "[]") + line(2 - 128 + 2**64, "before", "()"),
    }


def main():
    folder = pathlib.Path(sys.argv[1])
    for name, data in libraries().items():
        (folder / f"{name}.lib").write_bytes(data)
    for name, data in images().items():
        (folder / f"{name}.img").write_bytes(data)
    for name, text in lists().items():
        (folder / f"{name}.list").write_text(text, encoding="ascii")
    (folder / "aid.img").write_bytes(make.image())
    (folder / "routines.lib").write_bytes(make.library())


if __name__ == "__main__":
    main()
