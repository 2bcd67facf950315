"""Whole runs for both editions: what was gone through one by one, random libraries, and editions that are none. Where the edition decides, a run stands
beside the same run of edition 1."""
from collections import Counter
from dataclasses import replace

from model.reader import FIRST, SECOND
from model.run import LONGEST_LIBRARY, Run, Stages
from model.search import LONGEST_IMAGE
from cases.collecting import libraries as collecting
from cases.editions.libraries import joined, off, rich, short, summed
from cases.editions.sweeps import SWEEPS
from cases.reading import libraries as reading
from cases.records import as_library, header, record
from cases.searching.scenes import some_stretch
from cases.whole.outside import longer, past_end
from cases.whole.runs import damaged, faulty, fitted, graded, overrun, soup, unclosed, valid
from cases.whole.staged import image_with, run_of

NO_EDITIONS = (0, 3, 4, 255, 256, 257, 258, 1 << 32, (1 << 32) + 1, (1 << 32) + 2, 1 << 63, (1 << 63) + 2, (1 << 64) - 2, (1 << 64) - 1)
LONGEST = 400
# How many random libraries come to each number by edition 2.
SHARES = {0: 130, 5: 20, 6: 20, 7: 15, 8: 15, 10: 20, 11: 20, 12: 20, 13: 10, 14: 30, 15: 50}


def both(run, second=None):
    """A run by either edition; `second` are the numbers of which one must come by edition 2."""
    return [replace(run, edition=FIRST), replace(run, edition=SECOND, must=second)]


def swept(rng):
    found = []
    for lib in (lib for sweep in SWEEPS for lib in sweep()):
        image = image_with(rng, lib.data)
        run = Run(f"editions, {lib.kind}", image, lib.data, int(rng.random() < 0.5), rng.choice((0, 1, 1, 2)), rules=rng.randrange(2), must=lib.first)
        found += both(run, lib.second)
    return found


def some_run(rng):
    """Whole and damaged libraries of every sort, with their sums as they are or set right."""
    of_libraries = (collecting.sound, collecting.spoilt, reading.whole, reading.zero_length, reading.names_differ, reading.second_damaged, reading.lengths)
    make = rng.choice((valid, graded, fitted, faulty, overrun, damaged, unclosed, soup) + of_libraries)
    run = run_of(rng, "", make(rng)) if make in of_libraries else rng.choice(make(rng))
    return replace(run, library=summed(run.library) if rng.random() < 0.7 else run.library)


def with_settings(rng, run):
    stretch = some_stretch(rng, len(run.image)) if rng.random() < 0.2 else (0, 0)
    return Run("editions, random", run.image, run.library, run.depth, run.minimum, run.skip, rng.choice((0, 0, 1)), stretch)


def random_runs(rng):
    """So many of each number, by either edition."""
    found, turn = [], Counter()
    while turn != Counter(SHARES):
        run = with_settings(rng, some_run(rng))
        second = both(run)[1]
        number = Stages(second).final()
        if len(run.library) <= LONGEST and turn[number] < SHARES.get(number, 0):
            turn[number] += 1
            found += both(run)
    return found


def due(rng, run, number):
    """A run that is due for a number besides what its edition is due for."""
    changes = {1: {"rules": rng.choice((2, 3, (1 << 64) - 1))}, 2: {"image": longer(run.image, LONGEST_IMAGE + 1)},
               3: {"library": longer(run.library, LONGEST_LIBRARY + 1)}, 4: {"stretch": past_end(rng, len(run.image))}, 5: {"library": b""},
               6: {"library": b"\2\7\0"}, 7: {"library": b"\2\0\0"}, 8: {"library": joined([header(b"A")], short(b"M")[1:])},
               14: {"library": off(run.library)}, 15: {"library": run.library + b"\0"}}
    return replace(run, must=(number,), edition=SECOND, **changes[number])


def settings(rng):
    """Editions that are none, with what is read by an edition and what is due for another number: 30 follows 1 and comes before all others. What edition 2 is
    due for stands beside it. And a library as long as one may be."""
    whole = [joined(parts) for parts in (rich(b"M"), as_library(rich(b"M")), short(b"M") + short(b"N"))]
    plain = [Run("editions, settings", image_with(rng, data), data, minimum=2, must=(0,)) for data in whole]
    found = [each for run in plain for each in both(run, (0,))]
    found += [replace(rng.choice(plain), edition=edition, must=(30,)) for edition in NO_EDITIONS]
    for number in (1, 2, 3, 4, 5, 6, 7, 8, 14, 15):
        for edition in (0, 3, (1 << 64) - 1):
            run = due(rng, rng.choice(plain), number)
            found += [run, replace(run, edition=edition, must=(1,) if number == 1 else (30,))]
    for one, two in ((1, 4), (2, 4), (3, 4), (2, 3), (4, 14), (4, 15), (2, 14), (2, 15)):
        run = due(rng, due(rng, plain[-1], two), one)
        found += [run, replace(run, edition=3, must=(1,) if one == 1 else (30,))]
    return found + both(replace(plain[0], library=longer(whole[0], LONGEST_LIBRARY)), (15,))


def made(rng):
    return swept(rng) + random_runs(rng) + settings(rng)
