#!/usr/bin/env python3
"""try_hex.py: runs `./sillmarble hex`, `unhex` and `list --hex` on every outcome that they have, and holds status, standard
output and standard error against what they must be, as tools/oracle/model/hex.py computes it. The last line is
'N passed, 0 failed', and then the status is 0. Another program than ./sillmarble is tried by SILLMARBLE=PATH."""
import os
import random
import sys

from trial import ROOT, TELLS, count, main, put, run, try_, try_full, try_help

sys.path.insert(0, str(ROOT / "tools" / "oracle"))
from model.hex import exported, imported, record_line  # noqa: E402

END = b":00000001FF\n"
WORDS = {
    20: "bad text: a line is not a colon, as many digits as its length says and the line's ending, or is an end record with data",
    21: "wrong sum: a record's bytes do not sum to 0 modulo 256", 22: "a record of another type than 00 and 01",
    23: "data past FFFFh", 24: "a byte is given twice", 25: "no end record"}


def both_ways(folder):
    """Images there and back, among them the shortest and the longest."""
    rng = random.Random(1)
    for size in (0, 1, 15, 16, 17, 255, 4096, 0xFFFF, 0x10000):
        image = bytes(rng.randrange(256) for _ in range(size))
        text = exported(image)[1]
        try_(0, text, "", "hex", put(folder / "image", image))
        try_(0, image, "", "unhex", put(folder / "text", text))
        try_(0, image, "", "unhex", put(folder / "text", text.lower().replace(b"\n", b"\r\n")[:-2]))
    ones = b"".join(record_line(0, a, image[a:a + 1])[:-1] + b"\r\n" for a in range(0x10000)) + END
    try_(0, image, "", "unhex", put(folder / "text", ones))
    try_(1, b"", "refused (2): image too long (more than 65536 bytes)", "hex", put(folder / "image", image + b"x"))
    full = END + b"x" * (0x100000 - len(END))
    try_(0, b"", "", "unhex", put(folder / "text", full))
    try_(1, b"", "refused (2): text too long (more than 1048576 bytes)", "unhex", put(folder / "text", full + b"x"))


def refusals(folder):
    good = record_line(0, 0, b"\x05\x06")
    for text in (b"\n" + END, b":0100000100FE\n", good + b":0000000001\n", b":00000004FC\n", record_line(0, 0xFFFF, b"ab") + END,
                 good + record_line(0, 1, b"\x06") + END, good, b""):
        number = imported(text)[0]
        try_(1, b"", f"refused ({number}): {WORDS[number]}", "unhex", put(folder / "text", text))
        try_(1, b"", f"refused ({number}): {WORDS[number]}", "list", folder / "text", ROOT / "examples" / "routines.lib", "--hex")


def usage(folder):
    for job in ("hex", "unhex"):
        for words in ((), ("a", "b")):
            try_(2, b"", "usage: one file is to be named" + TELLS, job, *words)
        try_(2, b"", "usage: there is no option '--x'" + TELLS, job, "--x")
        try_(2, b"", "unreadable: absent: No such file or directory", job, "absent")
        try_(2, b"", f"unreadable: {folder}: Is a directory", job, folder)
        try_help(job, f"./sillmarble {job}", "refused (", "Intel HEX")
    try_full("hex", put(folder / "text", END))
    try_full("unhex", put(folder / "text", exported(b"x")[1]))


def listing(folder):
    """`list --hex` prints what `list` does of the image, wherever the option stands, and leaves no file behind."""
    image, library = ROOT / "examples" / "aid.img", ROOT / "examples" / "routines.lib"
    (folder / "empty").mkdir()
    text = put(folder / "aid.hex", exported(image.read_bytes())[1])
    for options in ((), ("--rules", "found"), ("--depth", "2"), ("--withhold", "0x1204:8")):
        wanted = run("list", image, library, *options)[1]
        os.environ["TMPDIR"] = str(folder / "empty")
        for words in ((text, library, *options, "--hex"), ("--hex", *options, text, library), (*options, text, "--hex", library)):
            try_(0, wanted, "", "list", *words)
    try_(2, b"", "usage: the option '--hex' is given twice" + TELLS, "list", "--hex", text, library, "--hex")
    try_(2, b"", "usage: an image and a library are to be named" + TELLS, "list", "--hex")
    try_(2, b"", "usage: a library is to be named behind the image" + TELLS, "list", "--hex", text)
    try_(2, b"", "unreadable: absent: No such file or directory", "list", "--hex", "absent", library)
    try_(2, b"", "usage: the option '--rules' lacks its value" + TELLS, "list", text, library, "--hex", "--rules")
    refusals(folder)
    count(not list((folder / "empty").iterdir()), "a temporary file was left")


if __name__ == "__main__":
    example = ROOT / "examples" / "aid.img", ROOT / "examples" / "routines.lib"
    sys.exit(main(__doc__, [("hex", example[0]), ("list", *example)], both_ways, usage, listing))
