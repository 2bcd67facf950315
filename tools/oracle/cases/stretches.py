"""Whole runs with several withheld stretches: 0 to 17 of them, meeting, overlapping, equal, empty, at the image's ends, and with gaps between them; and what
16 and 4 refuse. Runs of one cover stand beside one another, the one with a single stretch first."""
from dataclasses import replace

from model.reader import SECOND
from model.search import LONGEST_IMAGE
from cases.searching.scenes import some_stretch
from cases.whole.outside import longer, past_end, some

COUNTS = (0, 1, 2, 3, 15, 16, 17)


def with_stretches(run, stretches, **changes):
    first, *more = stretches or [(0, 0)]
    return replace(run, stretch=first, more=tuple(more), **changes)


def few_bytes(rng, size):
    start = rng.randrange(size + 1)
    return start, rng.randrange(min(3, size - start) + 1)


def counted(rng):
    """So many stretches of a few bytes each, empty ones among them."""
    found = []
    for count in COUNTS * 8:
        run = some(rng)
        must = (16,) if count > 16 else None
        found.append(with_stretches(run, [few_bytes(rng, len(run.image)) for _ in range(count)], kind="stretches, counted", rules=rng.randrange(2), must=must))
    return found


def one_cover(rng):
    """A stretch, and then the same bytes by two that meet, two that overlap, itself twice, parts in another order, and with empty ones between."""
    found = []
    for _ in range(24):
        run = replace(some(rng), kind="stretches, one cover", rules=rng.randrange(2))
        size = len(run.image)
        start, length = some_stretch(rng, size)
        cut = rng.randrange(length + 1)
        before, behind, whole = (start, cut), (start + cut, length - cut), (start, length)
        empties = [(rng.randrange(size + 1), 0) for _ in range(3)]
        overlapping = [(start, cut + (cut < length)), behind]
        ways = [[whole], [before, behind], overlapping, [whole, whole], [behind, before], [empties[0], before, empties[1], behind, empties[2]], [whole, before, behind] * 5]
        found += [with_stretches(run, way) for way in ways]
    return found


def gaps(rng):
    """All but some bytes, on both sides of them: a pattern that lies in the gap is found. And single bytes at both ends."""
    found = []
    for _ in range(24):
        run = replace(some(rng), kind="stretches, gaps", rules=rng.randrange(2))
        size = len(run.image)
        at = rng.randrange(size + 1)
        end = min(size, at + rng.choice((1, 2, 4, 8, 40, size)))
        found += [with_stretches(run, [(0, at), (end, size - end)]), with_stretches(run, [(0, min(1, size)), (size - min(1, size), min(1, size)), (size, 0)])]
    return found


def refused(rng):
    """16 before 4, and both behind 1, 30 and 2; 4 for any of the stretches, an empty one past the end too."""
    found = []
    for _ in range(8):
        run = replace(some(rng), kind="stretches, refused")
        size = len(run.image)
        fine = [few_bytes(rng, size) for _ in range(16)]
        past = past_end(rng, size)
        some_past = fine[:15] + [past]
        rng.shuffle(some_past)
        found += [with_stretches(run, stretches, must=(number,)) for stretches, number in
                  ((some_past, 4), ([past] + fine[:3], 4), (fine[:2] + [(size + 1, 0)], 4), (fine + [(0, 0)], 16), (fine + [past], 16), ([past] * 17, 16))]
        many = with_stretches(run, fine + [past])
        found += [replace(many, rules=2, must=(1,)), replace(many, edition=0, must=(30,)), replace(many, image=longer(run.image, LONGEST_IMAGE + 1), must=(2,)),
                  replace(many, edition=SECOND, library=b"", must=(16,))]
    return found


def made(rng):
    return counted(rng) + one_cover(rng) + gaps(rng) + refused(rng)
