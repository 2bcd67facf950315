"""Whole runs on files with banks: each scene under settings of every sort, with stretches, and with what is lent; and what is
refused. Runs of one file and library stand beside one another."""
from dataclasses import replace

from model.banks import MOST_BANKS, PART, Banked
from model.reader import FIRST, SECOND
from model.run import LONGEST_LIBRARY, MOST_STRETCHES, Run
from model.search import LONGEST_IMAGE
from cases.banks import scenes
from cases.banks.scenes import Scene
from cases.banks.stretches import covers
from cases.depths.runs import NO_DEPTHS, faulty
from cases.editions.libraries import joined, off, rich, short
from cases.editions.runs import NO_EDITIONS, some_run
from cases.records import header
from cases.searching.scenes import LARGE
from cases.stretches import with_stretches
from cases.whole.outside import NO_RULE_SETS, longer, past_end
from cases.whole.runs import some_skip

# Lengths of files that have no banks, or no whole ones, or too many; and of those that have.
NO_LENGTHS = (0, 1, PART - 1, PART, PART + 1, 2 * PART - 1, 2 * PART + 1, 2 * PART + 2, 3 * PART - 1, 3 * PART + 1, 4 * PART - 1, 9 * PART - 1,
              16 * PART - 1, 16 * PART + 1, 17 * PART - 1, 17 * PART + 1, 17 * PART + 2, 18 * PART - 1, 18 * PART)
LENGTHS = (2 * PART, 3 * PART, 4 * PART, 9 * PART, 16 * PART, 17 * PART)
# The lists of the scene that is told, by hand: `main` at 100h calls `work` at 8010h, which stands there in bank 0 and at 8020h in bank 1.
# And what is left of them where some bytes of the file are withheld.
HERE = [(0x100, 2, b"main"), (0x8010, 3, b"work")]
ELSEWHERE = [(0x100, 1, b"main"), (0x8010, 0, b"work"), (0x8020, 2, b"work")]
NOWHERE = [(0x100, 1, b"main"), (0x8010, 0, b"work")]
TOLD = {(): [HERE, ELSEWHERE, NOWHERE], ((0x8010, 1),): [NOWHERE, ELSEWHERE, NOWHERE], ((0x8011, 1), (0x10020, 2)): [NOWHERE] * 3,
        ((0x102, 1),): [[(0x8010, 2, b"work")], [(0x8020, 2, b"work")], []], ((0x10010, 1),): [HERE, ELSEWHERE, NOWHERE],
        ((0x101, 0x7F10),): [[], [(0x8020, 2, b"work")], []], ((0x101, 0xFF20),): [[], [], []], ((0, 0x20000),): [[], [], []],
        ((0x104, 0x1FEFC),): [NOWHERE] * 3}


def told():
    """The scene that is told, with what its lists must be."""
    scene, found = scenes.told(), []
    for stretches, lists in TOLD.items():
        run = with_stretches(Run("told", scene.file, scene.library, must=(0,)), list(stretches))
        assert Banked(run).lines() == lists, (stretches, Banked(run).lines())
        found.append(run)
    return found


def minimum_of(rng):
    return rng.choices((0, 1, 2, 3, 4, 256, LARGE), (12, 40, 24, 12, 6, 2, 4))[0]


def run_of(rng, scene):
    """As the Rust has it: rule set 0, edition 1, checking on or off, nothing withheld."""
    return Run(scene.kind, scene.file, scene.library, int(rng.random() < 0.65), minimum_of(rng), some_skip(rng) if rng.random() < 0.5 else None)


def changed(rng, run):
    """By any rule set, edition and depth."""
    return replace(run, rules=rng.randrange(2), edition=rng.choice((FIRST, FIRST, SECOND)), depth=rng.choice((0, 1, 2, 3, 4)))


def asked(rng, scene, own, others):
    """So many runs that the Rust can be asked about, and so many of the others."""
    return [run_of(rng, scene) for _ in range(own)] + [changed(rng, run_of(rng, scene)) for _ in range(others)]


def withheld(rng, scene):
    """Of each sort, by any settings; mostly with a low minimum, so that lists have lines."""
    found = []
    for stretches in covers(rng, scene):
        run = replace(run_of(rng, scene), kind="withheld", minimum=rng.choice((0, 1, 1, 2)), skip=None)
        found.append(with_stretches(changed(rng, run) if rng.random() < 0.7 else run, stretches))
    return found


def depths(rng, scene):
    """At all depths, by either rule set."""
    run = Run(scene.kind, scene.file, scene.library)
    both = [replace(run, rules=0), replace(run, rules=1, edition=rng.choice((FIRST, SECOND)))]
    return [replace(each, depth=depth) for each in both for depth in range(5)]


def lent(rng, scene, kind):
    """What is lent for them is in record_banks.py."""
    run = Run(kind, scene.file, scene.library)
    return [run, with_stretches(replace(run, rules=1, depth=2), covers(rng, scene)[4])]


def by_hand(rng):
    """The scenes that were made for something."""
    found = told() + lent(rng, scenes.told(), "lent, all amounts")
    scene = scenes.border()
    found += asked(rng, scene, 10, 8) + withheld(rng, scene) + withheld(rng, scene)
    for scene in scenes.chains() + [scenes.page(), scenes.ends()]:
        found += depths(rng, scene) + asked(rng, scene, 6, 6) + withheld(rng, scene)
        found += lent(rng, scene, "lent, about") if scene.kind == "chain" else []
    scene = scenes.middle()
    found += asked(rng, scene, 8, 6) + withheld(rng, scene) + lent(rng, scene, "lent, all amounts")
    for banks, with_bank in ((1, True), (1, False), (2, True), (2, False), (3, True), (3, False), (MOST_BANKS, True)):
        scene = scenes.bare(banks, with_bank)
        found += asked(rng, scene, 6, 6) + withheld(rng, scene) + (lent(rng, scene, "lent, about") if banks == 3 else [])
    return found


def of_sixteen(rng):
    found = []
    for scene in (scenes.sixteen_full(), scenes.sixteen_front()):
        found += asked(rng, scene, 8, 8) + depths(rng, scene)[::3] + withheld(rng, scene) + lent(rng, scene, "lent, lines")
    return found


# Random scenes: how many banks a file has, in how many of them something stands, and how many there are.
RANDOM = ((1, 1, 16), (2, 1, 5), (3, 1, 4), (2, 2, 6), (3, 3, 5), (3, 2, 2))


def at_random(rng, own=7, others=7, covered=6):
    found = []
    for banks, filled, count in RANDOM:
        for _ in range(count):
            scene = scenes.random_scene(rng, banks, filled)
            found += asked(rng, scene, own, others) + rng.sample(withheld(rng, scene), covered)
    return found


def of_single_runs(rng, count=110):
    """What the other generators make, at the start of a file."""
    found = []
    for i in range(count):
        scene = scenes.single(rng, rng.choice((1, 1, 1, 2, 2, 3)) if i % 20 else MOST_BANKS)
        found += asked(rng, scene, 1, 1) + rng.sample(withheld(rng, scene), 1)
    return found


def of_libraries(rng, count=150):
    """Whole and damaged libraries of every sort."""
    found = []
    while len(found) < count:
        run = some_run(rng)
        if len(run.library) > 400 or scenes.is_everywhere(run.library):
            continue
        scene = Scene("libraries", longer(run.image, PART * (1 + rng.choice((1, 2, 3)))), run.library, [])
        found.append(run_of(rng, scene) if rng.random() < 0.6 else changed(rng, run_of(rng, scene)))
    return found


def due(rng, run, number):
    """A run that is due for a number besides what it is due for already."""
    few = [(rng.randrange(PART), rng.randrange(4)) for _ in range(MOST_STRETCHES)]
    size, library = rng.choice(NO_LENGTHS), run.library
    changes = {1: {"rules": rng.choice(NO_RULE_SETS)}, 30: {"edition": rng.choice(NO_EDITIONS)}, 17: {"depth": rng.choice(NO_DEPTHS)},
               18: {"image": longer(run.image[:size], size)}, 3: {"library": longer(library[:LONGEST_LIBRARY], LONGEST_LIBRARY + 1)},
               16: {"more": tuple(few)}, 4: {"stretch": past_end(rng, len(run.image))}, 5: {"library": b""}, 6: {"library": b"\2\7\0"},
               7: {"library": b"\2\0\0"}, 8: {"library": joined([header(b"A")], short(b"M")[1:])}, 14: {"library": library and off(library)},
               15: {"library": library + b"\0"}, **{fault: {"library": data} for fault, data in faulty().items()}}
    return replace(run, must=(number,), **changes[number])


# In the order in which they come; of what is due for the library only one thing can be.
EARLY, LATE = (1, 30, 17, 18, 3, 16, 4), (5, 6, 7, 8, 14, 15, 10, 11, 12, 13)


def plain_runs():
    """Of one library on files of 1, 2, 3 and 16 banks, edition 2, so that 14 and 15 can come."""
    library = joined(rich(b"M"))
    return [Run("refused", longer(b"\x12\0\7\x80\1", PART * (1 + banks)), library, minimum=2, edition=SECOND, must=(0,))
            for banks in (1, 2, 3, MOST_BANKS)]


def due_for(rng, run, numbers):
    """A run that is due for all of some numbers, of which the first must come. The file gets its length first, which 4 looks at, and
    the library its own last."""
    for number in sorted(reversed(numbers), key=lambda number: (number == 3) - (number == 18)):
        run = due(rng, run, number)
    return replace(run, must=numbers[:1])


def refused(rng):
    """Each number alone, and every two of which one comes before the other."""
    plain = plain_runs()
    found = list(plain)
    for number in EARLY + LATE:
        found += [due(rng, run, number) for run in plain[:3]]
        found += [replace(due(rng, run, number), edition=FIRST) for run in plain[:2] if number not in (30, 14, 15)]
    for i, number in enumerate(EARLY):
        found += [due_for(rng, rng.choice(plain), (number, later)) for later in EARLY[i + 1:] + LATE]
    return found


def all_at_once(rng):
    """All that can be due together, and then without the first, and so on."""
    return [due_for(rng, run, EARLY[first:]) for run in plain_runs() for first in range(len(EARLY))]


def ends(rng):
    """Stretches that end at the file's end, and one past it; what passes a view's end and not the file's is no refusal."""
    found = []
    for run in plain_runs():
        size = len(run.image)
        behind = size - LONGEST_IMAGE
        fine = [(size, 0), (size - 1, 1), (0, size), (LONGEST_IMAGE, behind), (LONGEST_IMAGE - 1, behind + 1), (PART, size - PART)]
        past = [(size, 1), (size + 1, 0), (size - 1, 2), (0, size + 1), (1, size), (LONGEST_IMAGE, behind + 1)]
        past += [(LARGE, 1), (1, LARGE), (LARGE, LARGE)]
        found += [replace(run, stretch=each, must=(0,)) for each in fine]
        found += [replace(run, stretch=each, must=(4,)) for each in past]
        found += [with_stretches(run, fine[:k % 6] + [each] + fine[:9], must=(4,)) for k, each in enumerate(past[:4])]
        found += [with_stretches(run, fine * 2 + fine[:4], must=(0,)), with_stretches(run, fine * 2 + fine[:5], must=(16,)),
                  with_stretches(run, [(0, 0)] * 17, must=(16,)), with_stretches(run, past[:1] + fine * 3, must=(16,))]
    return [replace(run, kind="file's end") for run in found if len(run.more) <= MOST_STRETCHES]


def lengths(rng):
    """Files of every length about those that have banks, of zeros, and with something at their start."""
    found, run = [], plain_runs()[0]
    for size in NO_LENGTHS + LENGTHS:
        must = (0,) if size in LENGTHS else (18,)
        for image in (bytes(size), longer(run.image[:size], size)):
            made = replace(run, kind="lengths", image=image, must=must)
            found += [replace(made, edition=FIRST), replace(made, rules=1, depth=3)]
    return found


def different(found):
    """No one twice, and those of one file and library together."""
    scenes_, kept = {}, {}
    for run in found:
        kept.setdefault((run.image, run.library, run.settings(), run.kind.startswith("lent")), run)
    for run in kept.values():
        scenes_.setdefault((run.image, run.library), []).append(run)
    return [run for some in scenes_.values() for run in some]


def made(rng):
    makers = by_hand, of_sixteen, at_random, of_single_runs, of_libraries, refused, all_at_once, ends, lengths
    return different([run for make in makers for run in make(rng)])


def made_to_compare(rng):
    """More of the random ones that the Rust can be asked about."""
    return different(at_random(rng, 16, 0, 0) + of_single_runs(rng, 60) + of_libraries(rng, 100))
