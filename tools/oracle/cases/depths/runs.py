"""Whole runs at depths 0 to 4, and at depths that are none: what was gone through one by one, random libraries whose segments refer to one another, and what
17 refuses. Runs of one scene stand beside one another, by their depth."""
from dataclasses import replace

from model.reader import FIRST, SECOND
from model.run import GREATEST_DEPTH, LISTS, MOST_STRETCHES, Run, Stages
from cases.depths.sweeps import SWEEPS, Deep
from cases.editions.libraries import joined, rich
from cases.editions.runs import due
from cases.limits import one
from cases.modules import image_for
from cases.records import (INBLOCK, RELATIVE, TO_NAME, TO_SEGMENT, WORD, Content, External, Fixup, Module, Public, Segment, as_library, plain)
from cases.searching.scenes import few_values, some_stretch
from cases.whole.outside import past_end, some
from cases.whole.runs import some_skip
from cases.whole.staged import image_with

DEEP = (2, 3, 4)
ALL = (0, 1) + DEEP
# The least that is refused; some whose low bits are those of a depth; the greatest.
NO_DEPTHS = (5, 6, 7, 8, 255, 256, 258, (1 << 16) + 1, 1 << 32, (1 << 32) + 1, (1 << 32) + 4, 1 << 63, (1 << 63) + 2, (1 << 64) - 1)
NAMES = (b"f", b"g", b"h", b"?C?LADD")
# The example of the request's page: at depth 2 another f comes in, of grade 1. By hand: the first f's segment, at 0, refers to one at 3, which leads to 255,
# where nothing matches; the other f's refers to a name g at 5, which is noted at every depth, and nothing bears it out.
PAGE_IMAGE = "1200030200ff00"
PAGE_LIBRARY = ("020500014d0000ab0e150001000100000003000153020001000000030001532a160800010000000001667a060700010000120000e008080001000401020000e8060700020000"
                "020000ef08080001000401010000e9040700014d00000000a7020500014e0000aa0e0b000100010000000100015390160800010000000001667a18070002010000016776"
                "06050001000012e208080004000202010000e7040700014e00000000a6")
PAGE_GRADES = {0: 2, 1: 2, 2: 1, 3: 1, 4: 1}


def told():
    """The page's example, at all depths."""
    found = [Run("depths, told", bytes.fromhex(PAGE_IMAGE), bytes.fromhex(PAGE_LIBRARY), depth, must=(0,)) for depth in ALL]
    for run in found:
        lines = Stages(run).lines()
        assert lines == [(0, PAGE_GRADES[run.depth], b"f"), (5, 0, b"g")], (run.depth, lines)
    return found


def at_depths(rng, deep, plain_too=0.35):
    """A scene at depths 2 to 4, under some settings; at times at all, by the rules that the Rust has."""
    own = rng.random() < plain_too
    stretches = deep.stretches or (() if own or rng.random() < 0.9 else (some_stretch(rng, len(deep.image)),))
    if stretches and rng.random() < 0.3:
        stretches += ((rng.randrange(len(deep.image) + 1), 0), stretches[0])
    first, *more = stretches or [(0, 0)]
    library = b"".join(as_library([deep.library])) if rng.random() < 0.2 else deep.library
    run = Run(f"depths, {deep.kind}", deep.image, library, minimum=rng.choice((0, 1, 1, 1, 2, 3)), skip=some_skip(rng) if rng.random() < 0.2 else None,
              rules=0 if own else rng.randrange(2), stretch=first, more=tuple(more), edition=FIRST if own else rng.choice((FIRST, FIRST, SECOND)))
    return [replace(run, depth=depth) for depth in (ALL if own else DEEP)]


def some_linked(rng, count):
    """A module whose segments mostly refer to one another, with few names, so that symbols meet."""
    segments, contents, publics = [], [], []
    for i in range(1, count + 1):
        size = rng.choice((2, 3, 3, 4, 5))
        fixups = []
        for _ in range(rng.choice((0, 1, 1, 2, 3))):
            kind = rng.choice((WORD, RELATIVE, RELATIVE, INBLOCK))
            block, id_ = (TO_SEGMENT, rng.randrange(1, count + 1)) if rng.random() < 0.75 else (TO_NAME, rng.randrange(1, 3))
            fixups.append(Fixup(rng.randrange(size), kind, block, id_, rng.choices((0, 1), (9, 1))[0]))
        segments.append(Segment(i, size))
        contents.append(Content(i, 0, rng.randbytes(size), fixups))
        publics += [Public(i, rng.choice((0, 0, 1)), rng.choice(NAMES)) for _ in range(rng.choice((0, 1, 1, 2)))]
    if rng.random() < 0.3:
        contents.append(Content(0, rng.randrange(6), rng.randbytes(2), [Fixup(1, RELATIVE, TO_SEGMENT, rng.randrange(1, count + 1))]))
        publics.append(Public(0, contents[-1].offset, rng.choice(NAMES)))
    return Module(segments + publics + [External(1, rng.choice(NAMES)), External(2, rng.choice(NAMES))], contents)


def fitted(rng):
    """An image that was made for such modules, with their references filled in, now and then twice."""
    modules = [some_linked(rng, rng.randrange(1, 6)) for _ in range(rng.choice((1, 1, 2)))]
    image = b"".join(image_for(rng, modules) for _ in range(rng.choice((1, 1, 2))))
    return Deep("random", image, b"".join(record for m in modules for record in plain(m)))


def repeated(rng):
    """One of few byte values, in which such modules match again and again."""
    modules = [some_linked(rng, rng.randrange(1, 4))]
    values = rng.sample(range(5), rng.choice((1, 2, 3)))
    for c in modules[0].contents:
        c.data = bytes(rng.choice(values) for _ in c.data)
    return Deep("random", bytes(rng.choice(values) for _ in range(rng.choice((5, 12, 30)))), b"".join(plain(modules[0])))


def others(rng):
    """As the other kinds make them."""
    made = rng.choice((some, few_values))(rng)
    return Deep("random", made.image, made.library)


def placed(run, depth):
    return Stages(replace(run, depth=depth)).rows[LISTS.index("placed")]


def tells(run):
    """Whether the greatest depth drops a symbol that depth 1 places, or lets another in."""
    return placed(run, 1) != placed(run, GREATEST_DEPTH)


def random_runs(rng):
    """So many of each sort; of the first two each has symbols that are placed by depth 1 and not by 4."""
    found = []
    for make, count, must_tell in ((fitted, 45, True), (repeated, 25, True), (fitted, 15, False), (others, 25, False)):
        while count:
            runs = at_depths(rng, make(rng))
            if not must_tell or tells(runs[0]):
                found += runs
                count -= 1
    return found


def lent(rng):
    """At all depths with as much lent as the greatest one needs."""
    found = []
    while len(found) < 8 * len(ALL):
        run = replace(at_depths(rng, rng.choice((fitted, repeated))(rng))[0], kind="depths, lent")
        if tells(run):
            found += [replace(run, depth=depth) for depth in ALL]
    return found


def faulty():
    """Libraries that are due for 10 to 13."""
    def with_fixup(*fixups, data=b"ab"):
        return one([Segment(1, 2), Segment(2, 2, relocation=0), Public(1, 0, b"A"), External(1, b"X")], [Content(1, 0, data, list(fixups))])

    return {10: with_fixup(Fixup(0, 8, 2, 1)), 11: with_fixup(Fixup(0, WORD, 4, 1)), 12: with_fixup(data=b"abc"), 13: with_fixup(Fixup(0, WORD, 1, 2))}


def refused(rng):
    """17 alone, and with what is due for another number; the same at a depth that is one beside it. 17 follows 1 and 30, and comes before all others."""
    library = joined(rich(b"M"))
    run = Run("depths, refused", image_with(rng, library), library, minimum=2, must=(17,))
    found = [replace(run, depth=4, must=(0,))] + [replace(run, depth=depth) for depth in NO_DEPTHS]
    found += [replace(run, depth=depth, edition=SECOND, rules=1) for depth in NO_DEPTHS[:3]]
    many = ((0, 0),) * MOST_STRETCHES
    both = {number: due(rng, run, number) for number in (1, 2, 3, 4, 5, 6, 7, 8, 14, 15)}
    both.update({number: replace(run, library=data) for number, data in faulty().items()})
    both.update({30: replace(run, edition=rng.choice((0, 3))), 16: replace(run, more=many)})
    for number, other in both.items():
        found.append(replace(other, depth=rng.choice(ALL), must=(number,)))
        found += [replace(other, depth=depth, must=(number if number in (1, 30) else 17,)) for depth in (5, (1 << 32) + 1, (1 << 64) - 1)]
    pairs = ((both[1], {"edition": 0}, 1), (both[2], {"more": many, "stretch": past_end(rng, 3)}, 17), (both[4], {"more": many}, 17), (both[30], {"more": many}, 30),
             (both[3], {"more": many}, 17), (both[2], {"edition": 7}, 30))
    return found + [replace(other, depth=depth, must=(number,), **changes) for other, changes, number in pairs for depth in (5, 1 << 32)]


def swept(rng):
    return [run for sweep in SWEEPS for deep in sweep(rng) for run in at_depths(rng, deep)]


def made(rng):
    return told() + swept(rng) + random_runs(rng) + lent(rng) + refused(rng)
