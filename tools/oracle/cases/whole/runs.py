"""Random whole runs: images, library files of both sorts, whole and damaged, and settings of every sort."""
from dataclasses import replace

from model.listing import Listing, line_numbers
from model.run import Run, Stages
from model.search import Search
from cases import damage, small
from cases.listing.scenes import planned
from cases.modules import kept
from cases.reading.libraries import CLOSING, with_length
from cases.records import as_library, record
from cases.searching import scenes
from cases.searching.scenes import LARGE

def some_minimum(rng):
    return rng.choices((0, 1, 2, 3, 4, 6, 256, 1 << 32, LARGE), (22, 24, 14, 20, 8, 5, 2, 3, 3))[0]


def some_skip(rng):
    return rng.choices((None, 0, 1, 2, 3, 1 << 32, LARGE), (44, 12, 20, 12, 8, 2, 3))[0]


def some_runs(rng, kind, image, library, count):
    """One image and library under some settings, rule set 0 and nothing withheld."""
    return [Run(kind, image, library, int(rng.random() < 0.6), some_minimum(rng), some_skip(rng)) for _ in range(count)]


def records_in(library):
    """The records of a whole library, cut by their lengths."""
    found, at = [], 0
    while at < len(library):
        end = at + 3 + int.from_bytes(library[at + 1:at + 3], "little")
        found.append(library[at:end])
        at = end
    return found


def closed(rng, library):
    """The modules of a bare library as a 2Ch one, at times with bytes behind its last record."""
    behind = rng.choice((b"", b"", b"\2", rng.randbytes(3)))
    return b"".join(as_library([library])) + behind


def either(rng, library):
    """As it is, or as a 2Ch library, if it is none."""
    return closed(rng, library) if library[:1] != b"\x2c" and rng.random() < 0.4 else library


def with_lines(rng, make):
    """One of which a list has lines, mostly: the first of three, or the last of them."""
    for _ in range(3):
        found = make(rng)
        if any(Stages(run).lines() for run in found):
            break
    return found


def some_skips(rng, found):
    """None, and of the amounts that give the same list the least or the greatest, for some lists."""
    listing = Listing(found, None)
    crowds = {len(listing.best(at)) for at in listing.inside()} | {len(listing.noted[target]) for target in listing.past()}
    alike = {}
    for amount in range(max(crowds, default=0) + 2):
        alike.setdefault(tuple(line_numbers(Listing(found, amount).lines())), []).append(amount)
    chosen = [amounts[rng.choice((0, -1))] for amounts in alike.values()]
    return [None] + sorted(rng.sample(chosen, min(3, len(chosen))))


def asked_of(rng, scene):
    """All that is asked of a scene, with each of its skip amounts."""
    found = []
    for asked in scene.asked or [scenes.some_asked(rng, scene) for _ in range(2)]:
        skips = scene.skips or some_skips(rng, Search(scene.image, asked, scene.library, scene.segments(asked.rules)))
        found += [Run(scene.kind, scene.image, scene.library, asked.depth, asked.minimum, skip, asked.rules, asked.stretch)
                  for skip in dict.fromkeys(skips)]
    return found


def some_valid(rng):
    case = small.valid(rng)
    return [replace(case, kind="valid")] + some_runs(rng, "valid", case.image, case.library, 1)


def valid(rng):
    """Modules with references, and an image that holds their patterns with these filled in."""
    return with_lines(rng, some_valid)


def some_graded(rng):
    scene = planned(rng)
    runs = asked_of(rng, scene)
    library = either(rng, scene.library)
    return [replace(run, kind="graded", library=library) for run in rng.sample(runs, min(2, len(runs)))]


def graded(rng):
    """Names of every grade at chosen places."""
    return with_lines(rng, some_graded)


def some_fitted(rng):
    scene = rng.choice((scenes.fitted, scenes.fitted, scenes.few_values))(rng)
    return some_runs(rng, "fitted", scene.image, either(rng, scene.library), 2)


def fitted(rng):
    """Longer images, of several modules; or of few byte values, so that short patterns match again and again."""
    return with_lines(rng, some_fitted)


def faulty(rng):
    """A library that can be read, with a fixup or a content due for 10 to 12."""
    return [replace(small.refused(rng), kind="faulty")]


def overrun(rng):
    """A content of which the end passes its segment, or does not, by a byte or some."""
    modules, _, case = small.basis(rng)
    contents = [c for m in modules for c in m.contents if c.id in kept(m)]
    if contents:
        c = rng.choice(contents)
        c.data += rng.randbytes(rng.choice((1, 1, 2, 7)))
        c.offset += rng.choice((0, 0, 0, 1, 300))
    return some_runs(rng, "overrun", case.image, b"".join(small.records_of(rng, modules)), 1)


def damaged(rng):
    """A library whose list has lines, with one or two records or bytes changed; of two modules at times the second alone."""
    scene = rng.choice((planned, scenes.fitted))(rng)
    parts = records_in(either(rng, scene.library) if rng.random() < 0.7 else scene.library)
    keep = 0
    if rng.random() < 0.4:
        ends = [i for i, part in enumerate(parts) if part[0] == 0x04]
        keep = ends[0] + 1 if len(ends) > 1 else 0
    library = b"".join(parts[:keep]) + damage.damaged(rng, parts[keep:])
    return some_runs(rng, "damaged", scene.image, library, 1)


def unclosed(rng):
    """A 2Ch library that lacks one of its closing records, has them in another order, or has one that is damaged; and two bare modules of which the
    second has no end."""
    scene = planned(rng)
    closing = [record(type_, rng.randbytes(rng.randrange(3))) for type_ in CLOSING]
    i = rng.randrange(3)
    passing = with_length(closing[i], sum(map(len, closing[i:])) - 3 + rng.choice((0, 1, 2, 9)))
    changed = rng.choice((closing[:i] + closing[i + 1:], closing[:i] + [passing] + closing[i + 1:], rng.sample(closing, 3),
                          closing[:i] + [record(0x14, b"")] + closing[i:], closing[:i] + [closing[i][:-1]]))
    if rng.random() < 0.25:
        library = scene.library + b"".join(records_in(scene.library)[:-1])
    else:
        library = record(0x2C, b"\1") + scene.library + b"".join(changed)
    return some_runs(rng, "unclosed", scene.image, library, 1)


def soup(rng):
    return [replace(small.soup(rng), kind="soup")]


# How many times each is called for a file.
MAKERS = ((valid, 260), (graded, 230), (fitted, 170), (damaged, 460), (faulty, 220), (overrun, 140), (unclosed, 150), (soup, 90))


def made(rng, share=1.0):
    """The makers' runs, a share of them."""
    return [run for make, count in MAKERS for _ in range(round(count * share)) for run in make(rng)]
