#!/usr/bin/env python3
"""Writes aid.img, board.img and routines.lib beside this script, and again where the gate runs the programs on them: to crates/list/data and
crates/bank_lists/data.

The images and the library are made up: a hearing aid's code with a start, a routine that multiplies and adds, and two fitting tables; on the board the
multiplication stands in one of two banks. Every byte is told here.
"""
import pathlib

HERE = pathlib.Path(__file__).resolve().parent
CRATES = HERE.parent / "crates"

WORD, INBLOCK = 4, 5
SEGMENT, EXTERNAL = 1, 2
CODE = 0

# What the routines are: MOV, MUL and ADD on registers, and RET at the end.
MULTIPLY = bytes.fromhex("EF 8D F0 A4 A8 F0 CF 8C F0 A4 28 CE 8D F0 A4 2E FE 22")
ADD = bytes.fromhex("EF 2B FF EE 3A FE ED 39 FD EC 38 FC 22")
SUBTRACT = bytes.fromhex("C3 EF 9B FF EE 9A FE ED 99 FD EC 98 FC 22")
# MOV R5,#40h; LCALL ?C?IMUL; AJMP ?C?LADD, with nothing yet in the places of the two addresses.
GAIN = bytes.fromhex("7D 40 12 00 00 01 00")
# Gains by frequency. The first table is this wearer's, as it was fitted, the second a stranger's.
OWN = bytes(20 + 3 * (n % 8) + n // 8 for n in range(32))
STRANGE = bytes(44 - 2 * (n % 8) + n // 8 for n in range(32))

AT_GAIN, AT_MULTIPLY, AT_ADD, AT_TABLE, AT_STRANGE, LENGTH = 0x0140, 0x0200, 0x0780, 0x1200, 0x2400, 0x2800
# The size of the board's common part and of a bank, which is seen from that address on; where the two routines of the banks stand.
BANK, AT_BANKED_MULTIPLY, AT_BANKED_SUBTRACT = 0x8000, 0x8200, 0x8300


def word(n):
    return n.to_bytes(2, "little")


def name(text):
    return bytes([len(text)]) + text.encode("ascii")


def record(kind, body):
    """Type, length, body and a checksum with which all bytes sum to 0."""
    start = bytes([kind]) + word(len(body) + 1) + body
    return start + bytes([-sum(start) % 256])


def segment(number, size, text):
    return record(0x0E, bytes([number, CODE, 1, 0]) + word(0) + word(size) + name(text))


def public(number, offset, text):
    return record(0x16, bytes([number, CODE]) + word(offset) + b"\0" + name(text))


def external(number, text):
    return record(0x18, bytes([EXTERNAL, number, CODE, 0]) + name(text))


def content(number, offset, data):
    return record(0x06, bytes([number]) + word(offset) + data)


def fixup(place, kind, block, number):
    return word(place) + bytes([kind, block, number]) + word(0)


def module(text, *records):
    return record(0x02, name(text) + b"\0\0") + b"".join(records) + record(0x04, name(text) + b"\0\0\0\0")


def routine(text, public_name, code):
    """A module with one code segment that begins with its public name."""
    return module(text, segment(1, len(code), "?PR?" + text), public(1, 0, public_name), content(1, 0, code))


def modules():
    gain = module(
        "GAIN",
        segment(1, len(GAIN), "?PR?GAIN"),
        public(1, 0, "apply_gain"),
        external(0, "?C?IMUL"),
        external(1, "?C?LADD"),
        content(1, 0, GAIN),
        record(0x08, fixup(3, WORD, EXTERNAL, 0) + fixup(5, INBLOCK, EXTERNAL, 1)),
    )
    # a table in an absolute segment: the content has no segment (id 0) and stands at its own address, as its public name does
    fitting = module("FITTING", public(0, AT_TABLE, "FITTING_TABLE"), content(0, AT_TABLE, OWN))
    return [
        gain,
        routine("IMUL", "?C?IMUL", MULTIPLY),
        routine("LADD", "?C?LADD", ADD),
        routine("LSUB", "?C?LSUB", SUBTRACT),
        fitting,
    ]


def library():
    """A 2Ch library: its modules, then their names, their places and the public names (whose bodies are read by none)."""
    parts = modules()
    before = record(0x2C, word(len(parts)) + bytes(4))
    names = record(0x28, b"".join(name(n) for n in ["GAIN", "IMUL", "LADD", "LSUB", "FITTING"]))
    at = [len(before) + sum(map(len, parts[:n])) for n in range(len(parts))]
    places = record(0x26, b"".join(word(a // 128) + word(a % 128) for a in at))
    publics = ["apply_gain", "?C?IMUL", "?C?LADD", "?C?LSUB", "FITTING_TABLE"]
    return before + b"".join(parts) + names + places + record(0x2A, b"".join(name(n) + b"\0" for n in publics))


def filled(length, *parts):
    """So many bytes: what stands at some addresses, and FFh elsewhere."""
    cells = bytearray(b"\xFF" * length)
    for at, data in parts:
        cells[at : at + len(data)] = data
    return bytes(cells)


def code(multiply):
    """What stands in the image, and in the board's common part, but for the multiplication, which is called where it stands."""
    return [
        (0x0000, bytes.fromhex("02 01 00")),  # LJMP 0100h
        (0x0100, bytes.fromhex("75 81 7F 12 01 40 80 FE")),  # MOV SP,#7Fh; LCALL 0140h; SJMP to itself
        # MOV R5,#40h; LCALL of the multiplication; AJMP 0780h, of which the opcode has the top three bits, 111
        (AT_GAIN, bytes.fromhex("7D 40 12") + multiply.to_bytes(2, "big") + bytes.fromhex("E1 80")),
        (AT_ADD, ADD),
        (AT_TABLE, OWN),
        (AT_STRANGE, STRANGE),
    ]


def image():
    return filled(LENGTH, *code(AT_MULTIPLY), (AT_MULTIPLY, MULTIPLY))


def board():
    """A common part and two banks: the multiplication that the common part calls stands in bank 0, and bank 1 has a subtraction elsewhere."""
    common = filled(BANK, *code(AT_BANKED_MULTIPLY))
    return common + filled(BANK, (AT_BANKED_MULTIPLY - BANK, MULTIPLY)) + filled(BANK, (AT_BANKED_SUBTRACT - BANK, SUBTRACT))


def write(folder, files):
    folder.mkdir(exist_ok=True)
    for file, data in files.items():
        (folder / file).write_bytes(data)


def main():
    aid, two_banks, routines = {"aid.img": image()}, {"board.img": board()}, {"routines.lib": library()}
    write(HERE, aid | two_banks | routines)
    write(CRATES / "list" / "data", aid | routines)
    write(CRATES / "bank_lists" / "data", two_banks | routines)


if __name__ == "__main__":
    main()
