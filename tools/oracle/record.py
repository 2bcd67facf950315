#!/usr/bin/env python3
"""Records what whole runs come to, from an image, a library file, settings and lent memory to the list: the file of cases
of the program crate `replay`. crates/replay/README.md describes it; the same seed gives the same.

On document 01's domain of equality the answer is the Rust's own: its list and the very text that it prints, or the number of
its error. The model computes the same from document 01, and must agree (confirm.py), on all that is recorded and on `--more`
times as many random runs; outside the domain the answer is the model's. The status is 1, and nothing is written, if one
differs, if what is withheld is seen, if a run of edition 2 that is not refused with 14 or 15 differs from the same run of edition 1, or if the depths
of a scene do not go together (steady.py)."""
import argparse
import random
import struct
import sys
from collections import Counter
from dataclasses import dataclass, replace
from pathlib import Path

from cases.depths import runs as depths
from cases.editions import runs as editions
from cases import stretches
from cases.limits import limits
from cases.whole import capacities, outside, runs, staged
from confirm import differing, is_own
from model.reader import FIRST
from model.run import GREATEST_DEPTH, Outcome, Stages
from steady import unsteady

VERSION = 3
MODULUS = 4294967291
# Of a library that was made at random, but for those that are long on purpose.
LONGEST = 700
# How many runs get every list one short, exact and one longer; and how many more are lent too little: of the first ones, of those for the editions, of those
# with several stretches, and of those at a depth.
AROUND, SHORT = 45, 260
EDITIONS_AROUND, EDITIONS_SHORT = 4, 60
SEVERAL_AROUND, SEVERAL_SHORT = 4, 20
DEPTHS_AROUND, DEPTHS_SHORT = 5, 80
CHECK, SKIP, SCENE, OWN, DEPTH = 1, 2, 4, 8, 16


@dataclass
class Recorded:
    stages: Stages
    lent: tuple
    outcome: Outcome

    @property
    def run(self):
        return self.stages.run

    @property
    def own(self):
        """Whether the answer is the Rust's: it knows nothing of lent memory."""
        return is_own(self.stages) and self.outcome.number == self.stages.final()


def digest(numbers):
    h = 0
    for x in numbers:
        h = (h * 65599 + x + 1) % MODULUS
    return h


def different(found):
    """No one twice."""
    kept = {}
    for run in found:
        kept.setdefault((run.image, run.library, run.settings()), run)
    return list(kept.values())


def generate(rng):
    """Those made by hand, what was made for each stage, random ones, those made for the outside, and those for lent memory."""
    found = limits() + [run for stage in staged.STAGES for run in stage(rng)]
    found += [run for run in runs.made(rng) if len(run.library) <= LONGEST]
    lent = [run for scene in capacities.searched() + capacities.listed(rng) for run in runs.asked_of(rng, scene)]
    return different(found + outside.made(rng) + lent)


def has_room(stages):
    """Whether the program has room for the printed form, if it comes to that."""
    return stages.number_with(capacities.ROOMS) == 9 or len(stages.text()) <= capacities.TEXT_ROOM


def amounts(rng, stages, around):
    """What is lent for a run, one amount or several."""
    if stages.run.kind == "capacities":
        return capacities.every(stages.needed)
    if stages.run.kind == "depths, lent":
        return [Stages(replace(stages.run, depth=GREATEST_DEPTH)).needed]
    if id(stages) in around:
        return capacities.around(stages.needed)
    found = [capacities.enough(rng, stages)]
    if any(stages.needed) and stages.run.kind.startswith("collecting") and stages.run.rules:
        found.append(capacities.too_little(rng, stages.needed))
    return found


def recorded(rng, found, around=AROUND, short=SHORT):
    """Each run with what is lent for it; those that share image and library stay together."""
    small = [stages for stages in found if any(stages.needed) and len(stages.run.image) < 400]
    around = {id(stages) for stages in rng.sample(small, around)}
    too_little = {id(stages) for stages in rng.sample(small, short)}
    cases = []
    for stages in found:
        lent = amounts(rng, stages, around)
        lent += [capacities.too_little(rng, stages.needed)] if id(stages) in too_little else []
        cases += [Recorded(stages, each, stages.outcome(each)) for each in dict.fromkeys(lent)]
    return cases


def hides(rng, stages):
    """Whether a run is the same on another image that differs within the stretches alone."""
    run, image = stages.run, stages.run.image
    stretches = [each for each in (run.stretch, *run.more) if each[1]]
    if not stretches or stages.number:
        return True
    for start, length in stretches:
        image = image[:start] + rng.randbytes(length) + image[start + length:]
    other = Stages(replace(run, image=image))
    return (other.rows, other.text()) == (stages.rows, stages.text())


def is_kept_to(stages):
    """Whether a run comes to what it was made for; and, unless it is refused with 14, 15 or 30, to what it comes to by edition 1."""
    number, run = stages.final(), stages.run
    if run.must is not None and number not in run.must:
        return False
    if run.edition == FIRST or number in (14, 15, 30):
        return True
    first = Stages(replace(run, edition=FIRST))
    return (first.final(), first.rows, first.text()) == (number, stages.rows, stages.text())


def stored(data):
    """Without the zeros at its end."""
    return data.rstrip(b"\0")


def as_settings(run):
    """How many there are, and each. Where there is one stretch at most, the edition is left out if it is 1, and then zeros at the end of the others."""
    numbers = [run.rules, run.minimum, run.skip or 0, *run.stretch, run.edition, *(n for stretch in run.more for n in stretch)]
    if not run.more and numbers[-1] == FIRST:
        numbers.pop()
        while numbers and numbers[-1] == 0:
            numbers.pop()
    return struct.pack(f"<B{len(numbers)}Q", len(numbers), *numbers) + as_depth(run)


def as_depth(run):
    """A flag tells 0 from 1; a greater one follows the settings."""
    return struct.pack("<Q", run.depth) if run.depth > 1 else b""


def as_scene(run):
    """Image and library, after the lengths of what is stored of them and of all of them."""
    sizes = [n for data in (run.image, run.library) for n in (len(stored(data)), len(data))]
    return struct.pack("<4I", *sizes) + stored(run.image) + stored(run.library)


def of_text(result):
    """The last two numbers of an answer: the length of the printed form, and its digest."""
    return len(result.text), digest(result.text)


def as_case(c, has_scene, last=of_text):
    run, result = c.run, c.outcome
    flags = CHECK * (run.depth > 0) | DEPTH * (run.depth > 1) | SKIP * (run.skip is not None) | SCENE * has_scene | OWN * c.own
    answer = (result.number, *result.counts, *map(digest, result.lists), *last(result))
    scene = as_scene(run) if has_scene else b""
    return bytes((flags,)) + as_settings(run) + struct.pack("<8I", *c.lent) + struct.pack("<18I", *answer) + scene


def as_bytes(cases, last=of_text):
    """Image and library stand behind the first of the cases that share them. `last` gives the last two numbers of an answer."""
    out, before = [struct.pack("<4sI", b"runs", VERSION)], None
    for c in cases:
        scene = c.run.image, c.run.library
        out.append(as_case(c, scene != before, last))
        before = scene
    return b"".join(out)


def table(cases):
    """Totals by kind and number."""
    numbers = sorted({c.outcome.number for c in cases})
    print(f"{'kind':20}" + "".join(f"{n:6}" for n in numbers) + " cases")
    for kind in list(dict.fromkeys(c.run.kind for c in cases)) + ["all"]:
        some = Counter(c.outcome.number for c in cases if kind in (c.run.kind, "all"))
        print(f"{kind:20}" + "".join(f"{some[n]:6}" for n in numbers) + f"{sum(some.values()):6}")


def report(cases):
    for own, words in ((True, "the Rust's own"), (False, "computed")):
        some = [c for c in cases if c.own == own]
        print(f"\n{words}: {len(some)} cases")
        table(some)
        done = [c.stages.lines() for c in some if c.outcome.number == 0]
        grades = Counter(line[1] for lines in done for line in lines)
        print(f"lists with lines {sum(map(bool, done))} of {len(done)}, most lines {max(map(len, done))}, by grade {[grades[g] for g in range(4)]}; "
              f"by depth {dict(sorted(Counter(c.run.depth for c in some).items()))}, rule set 1 {sum(c.run.rules == 1 for c in some)}, "
              f"edition 2 {sum(c.run.edition == 2 for c in some)}, a stretch {sum(c.run.stretch[1] > 0 for c in some)}, "
              f"several {sum(bool(c.run.more) for c in some)}, 2Ch libraries {sum(c.run.library[:1] == b',' for c in some)}")
        print("minimums", dict(sorted(Counter(c.run.minimum for c in some).items())), "skip amounts", dict(Counter(c.run.skip for c in some)))
    print("\nmost lent", [max(column) for column in zip(*(c.lent for c in cases))], "longest text", max(len(c.outcome.text) for c in cases))


def options():
    read = argparse.ArgumentParser(description=__doc__)
    read.add_argument("--rust", required=True, help="the folder OUT that build.sh was given")
    read.add_argument("--seed", type=int, default=1)
    read.add_argument("--more", type=float, default=1.0, help="how many times as many random runs are compared and not recorded")
    read.add_argument("--out", type=Path, required=True, help="the file to write")
    return read.parse_args()


def main():
    given = options()
    rng = random.Random(given.seed)
    found = [Stages(run) for run in generate(rng)]
    apart = random.Random(given.seed)
    by_edition = [Stages(run) for run in different(editions.made(apart))]
    beside = random.Random(given.seed)
    several = [Stages(run) for run in different(stretches.made(beside))]
    below = random.Random(given.seed)
    deep = [Stages(run) for run in different(depths.made(below))]
    others = [Stages(run) for run in runs.made(random.Random(~given.seed), given.more)]
    wrong, asked, shown = differing(given.rust, found + by_edition + several + deep + others)
    wrong += [stages for stages in found if not hides(rng, stages)]
    wrong += [stages for stages in by_edition if not (is_kept_to(stages) and hides(apart, stages))]
    wrong += [stages for stages in several if not (is_kept_to(stages) and hides(beside, stages))]
    wrong += [stages for stages in deep if not (is_kept_to(stages) and hides(below, stages))] + unsteady(deep)
    for stages in wrong:
        print(f"computed {stages.final()} {stages.lines()}, and something else must come: {stages.run.shown()}")
    if wrong:
        return 1
    cases = recorded(rng, [stages for stages in found if has_room(stages)])
    cases += recorded(apart, [stages for stages in by_edition if has_room(stages)], EDITIONS_AROUND, EDITIONS_SHORT)
    cases += recorded(beside, [stages for stages in several if has_room(stages)], SEVERAL_AROUND, SEVERAL_SHORT)
    cases += recorded(below, [stages for stages in deep if has_room(stages)], DEPTHS_AROUND, DEPTHS_SHORT)
    data = as_bytes(cases)
    given.out.parent.mkdir(parents=True, exist_ok=True)
    given.out.write_bytes(data)
    report(cases)
    scenes = len({(c.run.image, c.run.library) for c in cases})
    print(f"seed {given.seed}: {len(cases)} cases, {scenes} scenes, {len(data)} bytes; {asked} runs compared with the Rust, {shown} of them stage by stage")
    return 0


if __name__ == "__main__":
    sys.exit(main())
