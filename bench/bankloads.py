#!/usr/bin/env python3
"""bankloads.py LOADS OUT: writes boards with switched banks, of the load goal in LOADS, which wholeloads.py wrote: the first half of its
image is the common part, and each bank has the second half, moved on by 257 bytes from bank to bank. OUT/board-N has N banks."""
import pathlib
import sys

BANK = 32768


def board(image, banks):
    common, second = image[:BANK], image[BANK:].ljust(BANK, b"\xff")
    return common + b"".join(second[257 * k:] + second[:257 * k] for k in range(banks))


def main():
    image = (pathlib.Path(sys.argv[1]) / "goal" / "image").read_bytes()
    out = pathlib.Path(sys.argv[2])
    out.mkdir(parents=True, exist_ok=True)
    for banks in (1, 4, 16):
        (out / f"board-{banks}").write_bytes(board(image, banks))


if __name__ == "__main__":
    main()
