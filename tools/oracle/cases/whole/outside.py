"""Whole runs of which document 01 alone tells what comes: the refusals that are not the Rust's, rule set 1, a withheld
stretch; and some at the limits of what is accepted, which the Rust tells."""
from dataclasses import replace

from model.run import Run
from model.search import LONGEST_IMAGE
from cases import small
from cases.reading import libraries
from cases.records import Content, Module, Public, Segment, plain
from cases.searching.scenes import some_stretch
from cases.whole.runs import either, fitted, graded, some_runs, valid
from cases.whole.staged import image_with

NO_RULE_SETS = (2, 3, 255, 256, 1 << 32, (1 << 32) + 1, (1 << 63) - 1, (1 << 64) - 1)


def some(rng):
    """A run whose list mostly has lines."""
    return rng.choice(rng.choice((valid, graded, fitted))(rng))


def longer(data, size):
    """With zeros behind it."""
    return data + bytes(size - len(data))


def past_end(rng, size):
    """Stretches that pass the end of an image, some of them with a sum that 64 bits do not hold."""
    return rng.choice(((0, size + 1), (size, 1), (size + 1, 0), (1, size), (rng.randrange(size + 1), size + 1), (1 << 63, 1 << 63), ((1 << 64) - 1, 1),
                       (1, (1 << 64) - 1), ((1 << 64) - 1, (1 << 64) - 1), (0, 1 << 32), (1 << 32, 0)))


def refused_settings(rng):
    """1 and 4, at times with others that come after them."""
    found = []
    for i in range(48):
        run = some(rng)
        changed = replace(run, kind="settings", stretch=past_end(rng, len(run.image)))
        if i % 2:
            changed = replace(changed, rules=rng.choice(NO_RULE_SETS), stretch=rng.choice((run.stretch, changed.stretch)))
        if i % 4 > 1:
            changed = replace(changed, library=rng.choice((b"", libraries.names_differ(rng).data, libraries.zero_length(rng).data)))
        found.append(changed)
    return found


def accepted_stretches(rng):
    """A stretch that ends at the image's end, and the empty one at it."""
    runs = [some(rng) for _ in range(16)]
    return [replace(run, kind="stretch", stretch=stretch) for run in runs for stretch in ((len(run.image), 0), (0, len(run.image)))]


def sizes(rng):
    """Images about 65,536 bytes and libraries about 64 KiB, with zeros behind what was made. A library above 1 MiB is not
    among them: on its 8 MiB of stack the program has no room for it beside the tables."""
    found = []
    for size in (LONGEST_IMAGE - 1, LONGEST_IMAGE, LONGEST_IMAGE + 1, LONGEST_IMAGE + 2, LONGEST_IMAGE + 200):
        for _ in range(3):
            run = rng.choice(graded(rng))
            found.append(replace(run, kind="sizes", image=longer(run.image, size)))
            found.append(replace(found[-1], rules=rng.choice((0, 1, 2)), library=rng.choice((b"", run.library, run.library[:-1]))))
    for size in (65535, 65536, 65537, 65538):
        run = rng.choice(graded(rng))
        found += [replace(run, kind="sizes", library=longer(data, size)) for data in (run.library, either(rng, run.library))]
        spoilt = (b"", libraries.names_differ(rng).data, libraries.zero_length(rng).data, b"\2\xff\xff", b"\2\xff\xff\1M\0\0")
        found += [replace(run, kind="sizes", library=longer(data, size)) for data in spoilt]
    return found


def large_patterns(rng):
    """Patterns of up to 65,536 bytes, in images of as many: all that is lent for bytes and masks is used."""
    found = []
    for size in (0, 0xFFFF, 0x8000):
        module = Module([Segment(1, size), Public(1, 3, b"FAR"), Public(1, 0, b"NEAR")], [Content(1, 0, b"\1\2\3"), Content(1, 7, bytes(40))])
        library = b"".join(plain(module))
        image = longer(b"\1\2\3", size or LONGEST_IMAGE)
        found += [Run("sizes", data, library, 1, minimum) for data in (image, image[:-1]) for minimum in (43, 44)]
    return found


def beyond(rng):
    """7, 8 and 13, symbols at or past the image's end, names that are no UTF-8."""
    found = [replace(small.beyond(rng), kind="beyond") for _ in range(230)]
    for make in (libraries.zero_length, libraries.names_differ, libraries.seven_and_eight):
        for _ in range(14):
            library = make(rng).data
            found += some_runs(rng, "beyond", image_with(rng, library), library, 1)
    return found


def ruled(rng):
    """Rule set 1, and stretches of any length, with libraries of both sorts."""
    found = []
    for _ in range(130):
        run = some(rng)
        rules = rng.randrange(2)
        stretch = some_stretch(rng, len(run.image)) if rules == 0 or rng.random() < 0.3 else (0, 0)
        found.append(replace(run, kind="ruled", rules=rules, stretch=stretch))
    return found


MAKERS = (refused_settings, accepted_stretches, sizes, large_patterns, beyond, ruled)


def made(rng):
    return [run for make in MAKERS for run in make(rng)]
