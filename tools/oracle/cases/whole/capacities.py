"""How much is lent for a run: the lengths of the eight lists, around what it needs; and scenes for which every such amount is
tried."""
from itertools import product

from model.run import WIDTHS
from cases.listing.scenes import MINIMUM, Stage, at, exactly, past
from cases.records import RELATIVE, TO_NAME, TO_SEGMENT, WORD, Fixup
from cases.searching.scenes import BOTH_CHECKS, BOTH_RULES, asked, code, scene

# What the program that replays the runs has room for: the lengths of the eight lists, and of the printed form.
ROOMS = (4096, 8192, 2048, 65792, 65792, 8192, 4096, 4096)
TEXT_ROOM = 32768


def within_rooms(lent):
    return tuple(map(min, lent, ROOMS))


def with_one(needed, i, length):
    return tuple(length if i == j else n for j, n in enumerate(needed))


def around(needed):
    """Each list in turn one number short and one longer, the others exact; and all exact."""
    found = [needed]
    for i, n in enumerate(needed):
        found += [with_one(needed, i, length) for length in (n - 1, n + 1) if length >= 0]
    return list(dict.fromkeys(map(within_rooms, found)))


def every(needed):
    """The same, and each list with nothing, a row short and a row longer; nothing at all; each list short, each longer."""
    found = around(needed)
    for i, n in enumerate(needed):
        found += [with_one(needed, i, length) for length in (0, n - WIDTHS[i], n + WIDTHS[i]) if length >= 0]
    found += [(0,) * 8, tuple(max(0, n - 1) for n in needed), tuple(n + 7 for n in needed)]
    return list(dict.fromkeys(map(within_rooms, found)))


def enough(rng, stages):
    """Exact or more; anything where nothing is looked at."""
    if stages.number:
        return tuple(rng.choice((0, 1, width, 20)) for width in WIDTHS)
    return within_rooms(n + rng.choice((0, 0, 0, 1, width, 20)) for n, width in zip(stages.needed, WIDTHS))


def too_little(rng, needed):
    """Memory of which one list, or each, is too short by a number or a row, or has nothing; something must be needed."""
    used = [i for i, n in enumerate(needed) if n]
    short = rng.choice(([rng.choice(used)], [rng.choice(used)], used))
    less = [rng.choice((1, WIDTHS[i], needed[i])) if i in short else 0 for i in range(8)]
    return within_rooms(n - min(n, by) for n, by in zip(needed, less))


def searched():
    """Symbols placed and names noted, notes alone, a symbol alone, and neither."""
    fixups = [Fixup(1, WORD, TO_NAME, 1), Fixup(1, WORD, TO_NAME, 2), Fixup(3, RELATIVE, TO_SEGMENT, 2)]
    both = [code(1, b"\x12\0\0", [(0, b"P"), (1, b"Q")], fixups), code(2, b"\2", [(0, b"R")])]
    notes_only = [code(1, b"\x12\0\0", [], fixups[:2])]
    made = ((b"\x12\0\7\1\2\x12\0\x08\2\x12\1\1", both), (b"\x12\0\7", notes_only), (b"ab", [code(1, b"b", [(0, b"P")])]), (b"ab", both))
    return [scene("capacities", image, parts, asked((0,), BOTH_CHECKS, (1,)), [b"E", b"F"], (None,)) for image, parts in made]


def listed(rng):
    """Lines of every grade, in the image and past its end; several names at one place; no line at all."""
    scenes = []
    for rules, kind in product(BOTH_RULES, range(5)):
        stage = Stage()
        if kind in (0, 1):
            stage.routine([(at(0), b"P"), (at(1), b"Q")], [(at(1), b"Q"), (past(1), b"N")])
        if kind in (0, 2):
            stage.routine([], [(at(0), b"P"), (exactly(-1), b"N"), (past(1), b"M")])
        if kind == 3:
            stage.routine([(at(0), name) for name in (b"C", b"B", b"A", b"?C?ULDIV")])
        stage.routine([(at(2), b"T")], [], False)
        scenes.append(stage.scene("capacities", 4, asked((rules,), (1,), (MINIMUM,)), (rng.choice((None, 1)),)))
    return scenes
