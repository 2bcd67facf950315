"""Small runs for the Rust and the definition: rule set 0, nothing withheld. The same seed gives the same."""
import random
from dataclasses import replace

from model.run import Run
from cases import damage, outside
from cases.limits import limits
from cases.modules import NAMES, image_for, some_module
from cases.records import Fixup, as_library, varied

LONGEST_LIBRARY = 250


def some_settings(rng):
    return {"depth": int(rng.random() < 0.6), "minimum": rng.choice((0, 0, 1, 1, 2, 3)),
            "skip": rng.choice((None, None, None, None, 0, 1, 1, 2))}


def some_modules(rng):
    names = rng.sample(NAMES, rng.randrange(1, 4))
    return [some_module(rng, names, most=rng.choice((1, 2, 3))) for _ in range(rng.choice((1, 1, 2)))]


def small_enough(make, rng):
    """The first case of a maker that is short enough to be computed in about a second."""
    while True:
        case = make(rng)
        if len(case.library) <= LONGEST_LIBRARY:
            return case


def records_of(rng, modules):
    parts = [r for m in modules for r in varied(rng, m)]
    return as_library(parts) if rng.random() < 0.3 else parts


def basis(rng):
    """Modules, their records, and a case over them whose image holds their patterns."""
    modules = some_modules(rng)
    parts = records_of(rng, modules)
    return modules, parts, Run("valid", image_for(rng, modules), b"".join(parts), **some_settings(rng))


def valid(rng):
    return basis(rng)[2]


def refused(rng):
    """A library that can be read, with a fixup of a kind or block above the last, or a content too long."""
    modules, _, case = basis(rng)
    contents = [c for m in modules for c in m.contents]
    if contents:
        c = rng.choice(contents)
        c.data += b"\0" * rng.choice((0, 0, 1, 7))
        kind, block = rng.choice(((8, 1), (rng.randrange(256), 2), (4, 4), (7, rng.randrange(256)), (9, 3), (9, 9)))
        c.fixups.insert(rng.randrange(len(c.fixups) + 1), Fixup(0, kind, block, 1))
    return replace(case, kind="refused", library=b"".join(records_of(rng, modules)))


def damaged(rng):
    _, parts, case = basis(rng)
    return replace(case, kind="damaged", library=damage.damaged(rng, parts))


def soup(rng):
    image = bytes(rng.choice((0, 1, 2, 255)) for _ in range(rng.randrange(12)))
    return Run("soup", image, damage.soup(rng), **some_settings(rng))


def beyond(rng):
    """A case outside the domain of equality, of each sort in turn by chance."""
    modules, parts, case = basis(rng)
    make = rng.choice((outside.zero_length, outside.names_differ, outside.no_kept_segment, outside.omitted_symbol,
                       outside.omitted_absolute, outside.raw_names))
    return make(rng, case, parts if make is outside.zero_length else modules)


TURNS = (valid, damaged, valid, beyond, valid, refused, damaged, valid, soup, beyond)


def generate(seed, count):
    """The limits first, then each kind in turn."""
    found = limits()[:count]
    rng = random.Random(seed)
    while len(found) < count:
        found.append(small_enough(TURNS[len(found) % len(TURNS)], rng))
    return found
