#!/usr/bin/env python3
"""walkloads.py OUT: writes the images of which docs/BENCHMARKS.md counts walks, from seed 5: 256 instructions each, without a
return among the first 255."""
import pathlib
import random
import sys

ROOT = pathlib.Path(__file__).resolve().parent.parent
sys.path.insert(0, str(ROOT / "tools" / "oracle"))
from model.walk import INSTRUCTIONS, length  # noqa: E402


def code(rng, opcodes):
    return b"".join(bytes([op, *(rng.randrange(256) for _ in range(length(op) - 1))]) for op in rng.choices(opcodes, k=256))


def main():
    out = pathlib.Path(sys.argv[1])
    out.mkdir(parents=True, exist_ok=True)
    rng = random.Random(5)
    plain = [op for op in INSTRUCTIONS if op not in (0x22, 0x32)]
    targets = [op for op in plain if INSTRUCTIONS[op][1][-1] in ("addr11", "addr16", "rel")]
    loads = {"nops": [0x00], "every-opcode": plain, "every-target": targets, "calls": [0x12], "page-jumps": [0x01], "short-jumps": [0x80]}
    for name, opcodes in loads.items():
        (out / name).write_bytes(code(rng, opcodes))


if __name__ == "__main__":
    main()
