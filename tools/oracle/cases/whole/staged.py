"""What was made for one stage, as whole runs: libraries for the reading and the collection, each with an image of its
patterns; and scenes for the search and the list, with what is asked of them."""
from dataclasses import replace

from model import collection, reader
from model.run import Run
from cases.collecting import libraries as collecting
from cases.collecting.sweeps import SWEEPS as COLLECTING_SWEEPS
from cases.listing.limits import LIMITS as LISTING_LIMITS
from cases.listing.scenes import planned
from cases.listing.sweeps import SWEEPS as LISTING_SWEEPS
from cases.reading import libraries as reading
from cases.reading.sweeps import SWEEPS as READING_SWEEPS
from cases.searching.limits import LIMITS as SEARCHING_LIMITS
from cases.searching.scenes import few_values, fitted
from cases.searching.sweeps import SWEEPS as SEARCHING_SWEEPS
from cases.whole.runs import asked_of, either

LONGEST_PATTERN = 40
# Of a library that was made at random.
LONGEST = 420
READING = ((reading.whole, 150), (reading.damaged, 200), (reading.zero_length, 60), (reading.lengths, 160), (reading.names_differ, 70),
           (reading.seven_and_eight, 100), (reading.second_damaged, 150), (reading.soup, 150))
COLLECTING = ((collecting.sound, 200), (collecting.spoilt, 170))
# Of a scene so many of the runs that are asked of it.
ASKED = 3


def image_with(rng, library):
    """An image of what patterns a library has: one after another, with any bits where nothing is compared, and absolute
    ones at their address."""
    try:
        segments = collection.collected(reader.read(library), collection.FOUND)[0]
    except reader.Refused:
        return rng.randbytes(rng.randrange(20))
    image = bytearray(rng.randrange(4))
    for s in rng.sample(segments, min(6, len(segments))):
        data = bytes(byte | rng.randrange(256) & ~mask & 0xFF for byte, mask in zip(s.bytes, s.masks))[:LONGEST_PATTERN]
        if s.address is not None and s.address < 64:
            image += bytes(max(0, s.address + len(data) - len(image)))
            image[s.address:s.address + len(data)] = data
        else:
            image += data + rng.randbytes(rng.choice((0, 0, 1, 5)))
    return bytes(image)


def run_of(rng, kind, lib, rules=collection.FOUND):
    """One image and library, mostly checked and with a low minimum."""
    image = image_with(rng, lib.data)
    return Run(kind, image, lib.data, int(rng.random() < 0.7), rng.choice((0, 1, 1, 2, 3)), rng.choice((None, None, 1)), rules, must=lib.numbers)


def made(rng, makers):
    """The libraries of makers that are not too long, in their shares."""
    found = []
    for make, share in makers:
        while share:
            lib = make(rng)
            if len(lib.data) <= LONGEST:
                found.append(lib)
                share -= 1
    return found


def read(rng):
    """Libraries for the reading: the sweeps, and random ones."""
    swept = [lib for sweep in READING_SWEEPS for lib in sweep(rng)]
    return [run_of(rng, "reading swept", lib) for lib in swept] + [run_of(rng, "reading random", lib) for lib in made(rng, READING)]


def collected(rng):
    """Libraries for the collection, each under both rule sets."""
    swept = [lib for sweep in COLLECTING_SWEEPS for lib in sweep(rng)]
    found = [(f"collecting {kind}", lib) for kind, some in (("swept", swept), ("random", made(rng, COLLECTING))) for lib in some]
    runs = [run_of(rng, kind, lib) for kind, lib in found]
    return [each for run in runs for each in (run, replace(run, rules=collection.DOCUMENTED))]


def some_asked(rng, kind, scene):
    """Some of what is asked of a scene, now and then of a 2Ch library."""
    runs, library = asked_of(rng, scene), either(rng, scene.library)
    most = len(runs) if scene.kind == "stretches" else min(ASKED, len(runs))
    return [replace(run, kind=kind, library=library) for run in rng.sample(runs, most)]


def searched(rng):
    scenes = [scene for sweep in SEARCHING_SWEEPS + SEARCHING_LIMITS for scene in sweep(rng)]
    scenes += [make(rng) for make, count in ((fitted, 50), (few_values, 30)) for _ in range(count)]
    return [run for scene in scenes for run in some_asked(rng, "searching", scene)]


def listed(rng):
    scenes = [scene for sweep in LISTING_SWEEPS + LISTING_LIMITS for scene in sweep(rng)] + [planned(rng) for _ in range(50)]
    return [run for scene in scenes for run in some_asked(rng, "listing", scene)]


STAGES = (read, collected, searched, listed)
