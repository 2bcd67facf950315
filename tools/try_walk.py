#!/usr/bin/env python3
"""try_walk.py: runs `./sillmarble walk` on every outcome that it has, and holds status, standard output and standard error
against what they must be, as tools/oracle/model/walk.py computes it. The last line is 'N passed, 0 failed', and then the
status is 0. Another program than ./sillmarble is tried by SILLMARBLE=PATH."""
import random
import sys

from trial import ROOT, TELLS, main, put, try_ as try_command, try_full, try_help

sys.path.insert(0, str(ROOT / "tools" / "oracle"))
from model.hex import exported  # noqa: E402
from model.walk import INSTRUCTIONS, length, outcome  # noqa: E402

HEADING = "Address | Bytes     | Instruction       | Target\n"
STOPS = ("return", "limit of 256 instructions", "reserved opcode A5", "the image's end", "withheld bytes")
WORDS = {2: "image too long (more than 65536 bytes)", 16: "more than 16 stretches are withheld",
         4: "a stretch that is withheld passes the image's end", 19: "the address is at or past the image's end"}


def try_(status, out, err, *words):
    try_command(status, out, err, "walk", *words)


def line(image, address, what, target):
    opcode = image[address]
    bytes_ = image[address:address + length(opcode)].hex(" ").upper()
    form = INSTRUCTIONS[opcode][2]
    text = f"0x{address:04X}    {bytes_:<9}   {form:<18}"
    return (text + f"  {('', 'call', 'jump')[what]} 0x{target:04X}" if what else text.rstrip()) + "\n"


def walked(image, stretches, start):
    """What is to be printed, or said."""
    number, steps, why, rows = outcome(image, stretches, start, 768)
    if number:
        return 1, "", f"refused ({number}): {WORDS[number]}"
    lines = "".join(line(image, *rows[3 * i:3 * i + 3]) for i in range(steps))
    return 0, f"{HEADING}{lines}stops: {STOPS[why]}\n", ""


def tried(folder, image, stretches, start, *words):
    """One walk, with its address in both forms."""
    path = put(folder / "image", image)
    withheld = [w for first, size in stretches for w in ("--withhold", f"{first}:{size:#x}")]
    try_(*walked(image, stretches, start), path, start, *withheld, *words)
    try_(*walked(image, stretches, start), *withheld, path, f"{start:#x}", *words)


def outcomes(folder):
    """Every reason to stop, no step at all, every form of instruction, and every refusal."""
    rng = random.Random(1)
    every = b"".join(bytes([op, *(rng.randrange(256) for _ in range(length(op) - 1))]) for op in sorted(INSTRUCTIONS) if op not in (0x22, 0x32))
    routine = bytes.fromhex("E582B40503120024DFF8700301 3073 22".replace(" ", ""))
    for image, start in ((every, 0), (every, len(every) // 2), (routine, 0), (routine, 2), (bytes(300), 0), (bytes(300), 44), (bytes(300), 45), (b"\x32", 0), (b"\x00\xA5", 0),
                         (b"\xA5", 0), (b"\x00\x12\x00", 0), (b"\x12\x00", 0), (bytes(0x10000), 0xFFFF), (bytes(0xFFFD) + b"\x02\x00\x10", 0xFFFD)):
        tried(folder, image, [], start)
    for stretches in ([(0, 1)], [(3, 1)], [(6, 2)], [(5, 0), (9, 1)], [(len(routine) - 1, 1)], [(20, 0)] * 3, [(i, 1) for i in range(16)], [(0, 0)] * 16):
        tried(folder, routine + bytes(10), stretches, 0)
    tried(folder, b"\x02\x00", [(1, 1)], 0)
    tried(folder, routine, [(0, 1)] * 17, 0)
    tried(folder, routine, [(0, len(routine) + 1)], 99)
    tried(folder, routine, [(2 ** 64 - 1, 2 ** 64 - 1)], 0)
    for start in (len(routine), len(routine) + 1, 2 ** 64 - 1):
        tried(folder, routine, [], start)
    tried(folder, b"", [], 0)
    tried(folder, bytes(0x10001), [(0, 1)] * 17, 2 ** 64 - 1)


def as_hex(folder):
    routine = bytes.fromhex("12002422")
    text = put(folder / "text", exported(routine)[1])
    try_(*walked(routine, [], 0), text, 0, "--hex")
    try_(*walked(routine, [(3, 1)], 0), "--withhold", "3:1", "--hex", text, 0)
    try_(1, "", "refused (20): bad text: a line is not a colon, as many digits as its length says and the line's ending, or is an end record with data",
         "--hex", put(folder / "bad", b"x"), 0)
    try_(2, "", "usage: the option '--hex' is given twice" + TELLS, "--hex", text, 0, "--hex")


def usage(folder):
    path = put(folder / "image", b"\x22")
    for words, said in (
            ((), "an image and an address are to be named"), ((path,), "an address is to be named behind the image"),
            ((path, 0, "x"), "only an image and an address are taken, and there is also 'x'"),
            ((path, "1x"), "a number is decimal, or hexadecimal behind 0x, and not '1x'"), ((path, ""), "a number is decimal, or hexadecimal behind 0x, and not ''"),
            ((path, 2 ** 64), f"a number is at most 18446744073709551615, and not '{2 ** 64}'"),
            ((path, 0, "--withhold"), "the option '--withhold' lacks its value"), ((path, 0, "--withhold", "3"), "what is withheld is START:LENGTH, and not '3'"),
            ((path, 0, "--rules", "found"), "there is no option '--rules'"), ((path, "--no-check", 0), "there is no option '--no-check'"),
            ((path, 0, "--edition", "1"), "there is no option '--edition'"), ((path, 0, "--depth", "1"), "there is no option '--depth'"),
            ((path, 0, "--other"), "there is no option '--other'")):
        try_(2, "", f"usage: {said}{TELLS}", *words)
    missing = folder / "missing"
    try_(2, "", f"unreadable: {missing}: No such file or directory", missing, 0)
    try_help("walk", "./sillmarble walk IMAGE ADDRESS")
    try_full("walk", path, 0)


if __name__ == "__main__":
    sys.exit(main(__doc__, [("walk", ROOT / "examples" / "aid.img", 0), ("hex", ROOT / "examples" / "aid.img")], outcomes, as_hex, usage))
