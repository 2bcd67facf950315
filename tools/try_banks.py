#!/usr/bin/env python3
"""try_banks.py: runs `./sillmarble banks` on every outcome that it has, and holds status, standard output and standard error
against what they must be. The list of each bank must be what `./sillmarble list` prints of that bank's view, which is made
here byte by byte, and so is what is withheld of it; some lists are told by hand. The last line is 'N passed, 0 failed', and
then the status is 0. Another program than ./sillmarble is tried by SILLMARBLE=PATH."""
import functools
import re
import sys

from trial import ROOT, TELLS, count, main, put, run, try_ as try_command, try_full, try_help
from try_list_files import HEADING, libraries, line, make

BANK = 0x8000
LARGEST = 2**64 - 1
LENT = "9362 segments, 9362 references, 10922 symbols, 131072 pattern bytes, 4096 symbols placed, 4096 names noted, 12288 lines"
WORDS = {
    3: "library too long (more than 65536 bytes)",
    4: "withheld start + length passes the image's end",
    5: "no first module can be read, or a 2Ch library lacks its 28h, 26h, 2Ah records in that order after its modules",
    6: "the body (length - 1 bytes) of a record expected here passes the file's end",
    7: "a record expected here has length 0",
    8: "a whole module's header and end names differ",
    9: "a stage's definition yields more rows or pattern bytes than were lent for it: image and library need more than the program lends, which is " + LENT,
    10: "a fixup kind above 7, block not 3",
    11: "a fixup block above 3",
    12: "content end passes the size of the kept segment it goes to",
    13: "a block-1 fixup names a code segment and no kept segment has its id",
    14: "a record's bytes do not sum to 0 (--edition 1 does not look at sums)",
    15: "bytes are left over behind a record's entries, or behind the file's last record (--edition 1 passes them over)",
    16: "more than 16 stretches are withheld",
    17: "references are checked to depth 4 at most",
    18: "file not 32 KiB and 1 to 16 banks of 32 KiB",
    30: "edition not 1 or 2",
}


def try_(status, out, err, *words):
    try_command(status, out, err, "banks", *words)


def refused(number, *words):
    try_(1, "", f"refused ({number}): {WORDS[number]}", *words)


def wrong(said, *words):
    try_(2, "", f"usage: {said}{TELLS}", *words)


def withholding(stretches):
    return [word for start, size in stretches for word in ("--withhold", f"{start:#x}:{size}")]


def runs_of(marks):
    """Where bytes that are marked stand side by side: the start and length of each run."""
    return [(found.start(), len(found[0])) for found in re.finditer(b"\1+", marks)]


def view(board, k):
    return board[:BANK] + board[BANK * (k + 1):BANK * (k + 2)]


def printed(lists):
    return "\n".join(f"Bank {k}\n{text}" for k, text in enumerate(lists))


@functools.cache
def list_of(folder, seen, library, *words):
    """What `list` prints of a view."""
    came = run("list", put(folder / "view", seen), library, *words)
    assert came[0] == 0 and not came[2], came
    return came[1].decode()


def listed(folder, board, library, options, stretches):
    """What is to be printed, by a list of each view."""
    marks = bytearray(len(board))
    for start, size in stretches:
        marks[start:start + size] = b"\1" * size
    return printed([list_of(folder, view(board, k), library, *options, *withholding(runs_of(view(marks, k)))) for k in range(len(board) // BANK - 1)])


def tried(folder, board, library, *options, stretches=()):
    words = (put(folder / "board", board), library, *options, *withholding(stretches))
    try_(0, listed(folder, board, library, options, stretches), "", *words)


def banked(*parts):
    """A board of a common part and banks, each told by what stands at which addresses of a view."""
    return b"".join(make.filled(BANK, *((at % BANK, data) for at, data in part)) for part in parts)


def boards():
    aid = make.image()
    # an addition that begins in the common part and ends in bank 1
    over = len(make.ADD) // 2
    return {
        1: banked([(0, aid)], [(0x8100, make.SUBTRACT)]),
        2: make.board(),
        3: banked([*make.code(0x8200), (BANK - over, make.ADD[:over])], [(0x8200, make.MULTIPLY)], [(0x8000, make.ADD[over:]), (0x8300, make.MULTIPLY)], [(0x9000, aid)]),
        16: banked([(0, aid)], *([(0x8000 + 0x123 * k, (make.MULTIPLY, make.ADD, make.SUBTRACT)[k % 3])] for k in range(16))),
    }


OPTIONS = (
    (), ("--rules", "documented"), ("--rules", "found"), ("--edition", "1"), ("--edition", "2"), ("--no-check",), ("--min-fn-length", "14"), ("--min-fn-length", "0xff"),
    ("--skip-multiple", "0"), ("--skip-multiple", "1"), *(("--depth", depth) for depth in range(5)), ("--rules", "found", "--edition", "2", "--depth", "0x2", "--min-fn-length", "0"),
)


def options(folder):
    """Every option on boards of 1, 2, 3 and 16 banks; what the files of `list` tell; and the words in another order."""
    library = put(folder / "routines.lib", make.library())
    for banks, board in boards().items():
        for words in OPTIONS if banks < 16 else OPTIONS[:1]:
            tried(folder, board, library, *words)
    board = put(folder / "board", boards()[3])
    for name in ("both", "short", "unmet", "chain", "steps", "back", "half", "full"):
        tried(folder, boards()[3], put(folder / f"{name}.lib", libraries()[name]), "--min-fn-length", 1)
    said = listed(folder, boards()[3], library, ("--rules", "found", "--depth", 0), ())
    try_(0, said, "", "--rules", "found", board, "--no-check", library)
    try_(0, said, "", "--no-check", board, library, "--rules", "found")


def told(folder):
    """The example, by hand, and with the multiplication of bank 0 withheld; its files are what examples/make.py makes."""
    gain, add, multiply = "apply_gain", "?C?LADD", "?C?IMUL"
    rest = line(0x0780, add, says="long (32-bit) addition") + line(0x1200, "FITTING_TABLE")
    with_it = HEADING + line(0x0140, gain) + rest + line(0x8200, multiply, says="int (16-bit) multiply")
    without = HEADING + line(0x0140, gain, "[]") + rest + line(0x8200, multiply, "()", "int (16-bit) multiply")
    other = without + line(0x8300, "?C?LSUB", says="long (32-bit) subtraction")
    board, library = ROOT / "examples" / "board.img", ROOT / "examples" / "routines.lib"
    try_(0, printed([with_it, other]), "", board, library)
    try_(0, printed([without, other]), "", board, library, "--withhold", "0x8205:1")
    again = ROOT / "crates" / "bank_lists"
    count(board.read_bytes() == (again / "data" / "board.img").read_bytes() == make.board() and library.read_bytes() == (again / "data" / "routines.lib").read_bytes()
          and (again / "stdout").read_text() == printed([with_it, other]) and printed([with_it, other]) in (ROOT / "examples" / "README.md").read_text(), "the example's files")


def stretches(folder):
    """What is withheld of the common part, over its border, of a bank, of several, and of all."""
    library = put(folder / "routines.lib", make.library())
    board = boards()[3]
    size = len(board)
    for each in (
            [(0x784, 1)], [(0, BANK)], [(BANK - 1, 1)], [(BANK, 1)], [(BANK - 4, 8)], [(BANK - 4, 4)], [(BANK, 0x200)], [(0x8205, 1)], [(0x10003, 1)], [(0x10305, 1)], [(BANK, BANK)],
            [(2 * BANK, BANK)], [(0x9000, BANK)], [(0xFFFF, 2)], [(0x8100, 2 * BANK)], [(0x7000, 0x9300)], [(0x7FFF, 0x11000)], [(0, size)], [(size, 0)], [(size - 1, 1)], [(0x8200, 0)],
            [(0x784, 1), (0x8205, 1)], [(0x8205, 1), (0x10305, 1)], [(0x10305, 1), (0x8000, 0x300), (0x7FFC, 8)], [(0x8200, 4), (0x8202, 4), (0x8202, 4)],
            [(at, 1) for at in range(0x7FF8, 0x8008)], [(0x1000 * n, 0x100) for n in range(8, 24)]):
        tried(folder, board, library, stretches=each)
    tried(folder, board, library, "--rules", "found", "--depth", 2, stretches=[(0x10305, 1), (0x784, 1)])
    tried(folder, boards()[16], library, stretches=[(BANK * 9 + 0x123 * 8, 1), (BANK * 2, BANK * 3)])
    # bytes that are withheld tell nothing
    other = bytearray(board)
    other[0x10300:0x10310] = bytes(16)
    said = listed(folder, board, library, (), [(0x10300, 16)])
    try_(0, said, "", put(folder / "other", bytes(other)), library, "--withhold", "0x10300:16")


def lengths(folder):
    """18 for every length that is no board's, and for none that is one."""
    library = put(folder / "routines.lib", make.library())
    for size in (0, 1, 32767, 32768, 32769, 65535, 65537, 98303, 98305, 557055, 557057, 589824, 2**21):
        refused(18, put(folder / "board", bytes(size)), library)
    for banks in (1, 2, 3, 15, 16):
        try_(0, printed([HEADING] * banks), "", put(folder / "board", bytes(BANK * (banks + 1))), library)


def memory(folder):
    """9: as many rows as are lent for one bank, and one more; as many lines as are lent for all, and one more; a library of its own."""
    library = put(folder / "many.lib", libraries()["many"])

    def board(*matches):
        """So many matches in each bank, and none in the common part."""
        return banked([], *([(0x9000, b"\x22" * (n + 2))] if n else [] for n in matches))

    def lists(*matches):
        return printed([HEADING + "".join(line(0x9000 + i, "many") for i in range(n)) for n in matches])

    for matches in ((4096,), (0, 4096), (4096, 0), (4096, 4096, 4096), (0, 4096, 4096, 0, 4095, 1)):
        try_(0, lists(*matches), "", put(folder / "board", board(*matches)), library)
    for matches in ((4097,), (4097, 0), (0, 4097, 0), (1, 4096, 4096, 4096), (4096, 4096, 4096, 1), (*[1000] * 12, 289)):
        refused(9, put(folder / "board", board(*matches)), library)
    refused(9, put(folder / "board", board(0)), put(folder / "rows.lib", libraries()["rows"]))


def refusals(folder):
    """Each number by itself, and each before those that are due later."""
    board = put(folder / "board", boards()[3])
    end = len(boards()[3])
    path = {name: put(folder / f"{name}.lib", data) for name, data in libraries().items()}
    routines = put(folder / "routines.lib", make.library())
    short = put(folder / "short", bytes(BANK))
    many = withholding([(n, 1) for n in range(17)])
    for number, library, words in (
            (3, "long", ()), (5, "none", ()), (5, "unclosed", ()), (6, "cut", ()), (7, "zero", ()), (8, "named", ()), (10, "kind", ()), (11, "block", ()), (12, "past", ()),
            (13, "kept", ()), (14, "sum", ("--edition", 2)), (15, "over", ("--edition", 2)), (15, "left", ("--edition", 2)), (8, "left", ())):
        refused(number, board, path[library], *words)
    for stretch in (f"{end}:1", f"{end + 1}:0", f"0:{end + 1}", "1:0xffffffffffffffff", f"{LARGEST}:{LARGEST}"):
        refused(4, board, routines, "--withhold", stretch)
        refused(4, board, path["none"], "--withhold", "0:1", "--withhold", stretch)
    refused(16, board, routines, *many)
    refused(16, board, path["none"], "--withhold", f"{end}:1", *many)
    for value in (5, 256, LARGEST):
        refused(17, board, routines, "--depth", value)
    for value in (0, 3, LARGEST):
        refused(30, board, routines, "--edition", value)
    last = ("--withhold", f"{end}:1", *many)
    refused(30, short, path["long"], "--edition", 3, "--depth", 5, *last)
    refused(17, short, path["long"], "--depth", 5, *last)
    refused(18, short, path["long"], "--depth", 4, *last)
    refused(18, short, path["none"])
    refused(3, board, path["long"], *last)
    refused(3, board, path["long"], "--edition", 2, "--withhold", f"{end}:1")
    refused(30, board, path["long"], "--edition", 0)
    refused(17, board, path["long"], "--depth", 5)


def usage(folder):
    board = put(folder / "board", boards()[1])
    library = put(folder / "routines.lib", make.library())
    for said, words in (
            ("an image and a library are to be named", ()), ("a library is to be named behind the image", (board,)),
            ("only an image and a library are taken, and there is also 'third'", (board, library, "third")),
            ("there is no option '--hex'", (board, library, "--hex")), ("there is no option '--hex'", ("--hex", board, library, "--other")),
            ("there is no option '--bank'", (board, library, "--bank", 1)), ("the option '--depth' lacks its value", (board, library, "--depth")),
            ("the option '--rules' is given twice", (board, library, "--rules", "found", "--rules", "found")),
            ("--no-check is --depth 0, and only one of the two is taken", (board, library, "--no-check", "--depth", 0)),
            ("the rules are found or documented, and not 'old'", (board, library, "--rules", "old")),
            ("a number is decimal, or hexadecimal behind 0x, and not '3x'", (board, library, "--min-fn-length", "3x")),
            (f"a number is at most {LARGEST}, and not '{LARGEST + 1}'", (board, library, "--skip-multiple", LARGEST + 1)),
            ("what is withheld is START:LENGTH, and not '5'", (board, library, "--withhold", 5))):
        wrong(said, *words)
    absent = folder / "absent"
    try_(2, "", f"unreadable: {absent}: No such file or directory", absent, library)
    try_(2, "", f"unreadable: {absent}: No such file or directory", board, absent)
    try_(2, "", f"unreadable: {folder}: Is a directory", folder, library)
    try_help("banks", "./sillmarble banks IMAGE LIBRARY", "counted from 0", "--withhold START:LENGTH", "--depth N", "Bank 1", "   18 ", "usage:")
    count(b"--hex" not in run("banks", "--help")[1], "no --hex in the help of boards")
    count(run("banks", board, "--help", "--rules") == run("banks", "--help"), "--help among other words")
    count(b"./sillmarble banks IMAGE LIBRARY" in run("help")[1], "help")
    try_full("banks", board, library)


if __name__ == "__main__":
    example = ROOT / "examples" / "board.img", ROOT / "examples" / "routines.lib"
    sys.exit(main(__doc__, [("banks", *example), ("list", *example)], told, options, stretches, lengths, memory, refusals, usage))
