#!/usr/bin/env python3
"""rightsums.py LIBRARY OUT: the library with a checksum in each record that makes its bytes sum to 0, so that edition 2 reads it. What stands
behind the last whole record stays as it is."""
import pathlib
import sys


def summed(library):
    made, at = bytearray(library), 0
    while at + 3 <= len(made):
        end = at + 3 + int.from_bytes(made[at + 1:at + 3], "little")
        if end == at + 3 or end > len(made):
            break
        made[end - 1] = -sum(made[at:end - 1]) % 256
        at = end
    return bytes(made)


def main():
    pathlib.Path(sys.argv[2]).write_bytes(summed(pathlib.Path(sys.argv[1]).read_bytes()))


if __name__ == "__main__":
    main()
