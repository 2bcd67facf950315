#!/usr/bin/env python3
"""Holds the model of a walk (model/walk.py) against dis51 (Debian's package dis51), instruction by instruction, and its calls
and jumps against s51 (package sdcc-ucsim), which executes them. Both must be on the path, and sdcc for the firmware. s51 is
asked where it goes and not what it prints: of an AJMP or ACALL at the end of a page its text names the page before.

dis51 is asked about random images, about images of single instructions at the ends of pages, and about the firmware of
cases/firmware.c, built by sdcc in its three memory models. It follows the code from the entry points that it is given and
puts labels for targets, so that a target in the middle of another instruction has no address there; such an instruction is
left out. With --out each instruction that it told is written to the file `told` of the program crate `replay_walk`. The
status is 1 if one differs."""
import argparse
import random
import re
import struct
import subprocess
import sys
import tempfile
from pathlib import Path

from model import hex as intel
from model import walk as model

HERE = Path(__file__).resolve().parent
# Calls and jumps that are not on a condition.
ALWAYS = ("ACALL", "AJMP", "LCALL", "LJMP", "SJMP")
LABEL = re.compile(r"^(L\d+):")
LINE = re.compile(r"^  ([0-9A-F]{4}) ([0-9A-F]+)\s+(\w+)\s*(.*)$")


def listing(image, entries):
    """What dis51 tells: by address, the bytes, the name and the target (None without a label, -1 where it has no address)."""
    text = intel.exported(image)[1]
    words = ["dis51", "-l", *(f"{e:#x}" for e in entries)]
    lines = subprocess.run(words, input=text, stdout=subprocess.PIPE, stderr=subprocess.DEVNULL, check=True).stdout.decode("latin-1").split("\n")
    labels, waiting, found = {}, [], []
    for line in lines:
        label, told = LABEL.match(line), LINE.match(line)
        if label:
            waiting.append(label[1])
        elif told:
            at = int(told[1], 16)
            labels.update((name, at) for name in waiting)
            waiting = []
            if told[3] != "DB":
                found.append((at, bytes.fromhex(told[2]), told[3], told[4]))
    for at, bytes_, name, operands in found:
        named = re.search(r"\bL\d+\b", operands)
        yield at, bytes_, name, labels.get(named[0], -1) if named else None


class Comparison:
    def __init__(self):
        self.told, self.left_out, self.differing, self.executed, self.opcodes = {}, 0, 0, 0, set()

    def differ(self, *words):
        self.differing += 1
        print("differs:", *words)

    def image(self, image, entries):
        for at, bytes_, name, target in listing(image, entries):
            if target == -1:
                self.left_out += 1
                continue
            what = model.NOTHING if target is None else model.CALL if name.endswith("CALL") else model.JUMP
            self.instruction(at, bytes_, name, (at, what, target or 0))

    def steps(self, image, entries):
        """Calls and jumps as s51 executes them; a jump on a condition may go to the next instruction."""
        rows = [(at, row) for at in entries if (row := model.row(image, at))[1]]
        stops = executed(image, [at for at, _ in rows])
        if len(stops) != len(rows):
            self.differ(len(stops), "steps of s51 for", len(rows))
        for (at, row), stop in zip(rows, stops):
            passed_over = at + model.length(image[at]) if model.INSTRUCTIONS[image[at]][0] not in ALWAYS else None
            if stop not in (row[2], passed_over):
                self.differ(f"{at:04X}", image[at:at + 3].hex(), "s51 goes to", f"{stop:04X}", row)
        self.executed += len(rows)

    def instruction(self, at, bytes_, name, row):
        opcode = bytes_[0]
        own = model.row(dict(enumerate(bytes_, at)), at) if len(bytes_) == model.length(opcode) else None
        if own != row or name != model.INSTRUCTIONS[opcode][0]:
            self.differ(f"{at:04X}", bytes_.hex(), name, row, own)
        self.opcodes.add(opcode)
        self.told[at, bytes_] = row


def at_page_ends(rng):
    """AJMP and ACALL around the end of every page, one opcode an image, in an image of returns."""
    for opcode in range(0x01, 0x100, 0x10):
        image, entries = bytearray(b"\x22" * 0x10000), []
        for page in range(0x800, 0x10000, 0x800):
            at = page - rng.randrange(4)
            image[at:at + 2] = bytes([opcode, rng.randrange(256)])
            entries.append(at)
        yield bytes(image), entries


def single(rng):
    """Every opcode, every eight bytes, in an image of returns."""
    image, entries = bytearray(b"\x22" * 0x10000), []
    for n, at in enumerate(range(0, 0x10000 - 8, 8)):
        opcode = (n * 7 + 3) % 256
        if opcode != 0xA5:
            image[at:at + model.length(opcode)] = bytes([opcode, *(rng.randrange(256) for _ in range(model.length(opcode) - 1))])
            entries.append(at)
    return bytes(image), entries


def firmware(folder, memory):
    """The image that sdcc makes of cases/firmware.c in one of its memory models."""
    out = folder / f"{memory}.ihx"
    subprocess.run(["sdcc", "-mmcs51", f"--model-{memory}", "-o", out, HERE / "cases" / "firmware.c"], check=True, stdout=subprocess.DEVNULL, stderr=subprocess.DEVNULL)
    number, image = intel.imported(out.read_bytes())
    assert number == 0, number
    return image


def executed(image, entries):
    """Where s51 is after it executes the instruction at each of some places."""
    with tempfile.NamedTemporaryFile(suffix=".hex") as file:
        file.write(intel.exported(image)[1])
        file.flush()
        asked = "".join(f"pc {at:#x}\nstep\n" for at in entries) + "quit\n"
        told = subprocess.run(["s51", "-t", "8052", file.name], input=asked.encode(), stdout=subprocess.PIPE, stderr=subprocess.DEVNULL, timeout=120).stdout
    return [int(at, 16) for at in re.findall(rb"^Stop at (0x[0-9a-f]+)", told, re.M)]


def main():
    words = argparse.ArgumentParser(description=__doc__, formatter_class=argparse.RawDescriptionHelpFormatter)
    words.add_argument("--seed", type=int, default=1)
    words.add_argument("--images", type=int, default=1, help="random images")
    words.add_argument("--out", type=Path, help="the crate's folder: data/told is written")
    asked = words.parse_args()
    rng = random.Random(asked.seed)
    comparison = Comparison()
    for image, entries in (*at_page_ends(rng), single(rng)):
        comparison.image(image, entries)
        comparison.steps(image, entries)
    with tempfile.TemporaryDirectory() as folder:
        for memory in ("small", "medium", "large"):
            comparison.image(firmware(Path(folder), memory), [0])
    for _ in range(asked.images):
        comparison.image(bytes(rng.randrange(256) for _ in range(0x4000)), [0])
    if asked.out:
        entries = (struct.pack("<H3sBBH", at, bytes_, len(bytes_), what, target) for (at, bytes_), (_, what, target) in sorted(comparison.told.items()))
        (asked.out / "data" / "told").write_bytes(b"tld\x01" + b"".join(entries))
    print(len(comparison.told), "instructions of", len(comparison.opcodes), "opcodes compared,", comparison.left_out, "left out,", comparison.executed, "executed,", comparison.differing, "differ")
    return comparison.differing != 0


if __name__ == "__main__":
    sys.exit(main())
