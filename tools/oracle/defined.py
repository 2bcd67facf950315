#!/usr/bin/env python3
"""Holds what the model computes against the written definition: the checker computes the number, the counts and all eight
lists of some of the runs that record.py makes of a seed, rule set 1, withheld stretches and too little lent included, a third of them made for
the editions and a third for the depths (or all of one sort); and, where they come to a search, of each match the first reference that fails at the
depth that is asked, and why. Each is a theorem that holds by computation alone.

The status is 0 if all are proved, 1 if one is not, and 2 if the checker fails for another reason."""
import argparse
import random
import sys
import tempfile
from collections import Counter

from cases.depths import runs as depths
from cases.editions import runs as editions
from definition import checker, template
from model.run import BEFORE, Stages
from record import DEPTHS_AROUND, DEPTHS_SHORT, EDITIONS_AROUND, EDITIONS_SHORT, different, generate, recorded

BATCH = 20
# Longer ones take seconds each to compute.
LONGEST_IMAGE, LONGEST_LIBRARY, MOST_NUMBERS = 30, 250, 300


def reasons(c):
    """Why matches fail, once for each that does."""
    return [each[1] for each in c.stages.listing.found.failed if each] if c.stages.listing else []


def short(found):
    return [Stages(run) for run in found if len(run.image) <= LONGEST_IMAGE and len(run.library) <= LONGEST_LIBRARY]


def of_every_sort(rng, cases, count):
    """Those that are lent little, of every kind, edition, depth, number and reasons of failure that has some."""
    small = [c for c in cases if sum(c.lent) <= MOST_NUMBERS]
    rng.shuffle(small)
    turn, order = Counter(), []
    for c in small:
        sort = c.run.kind, c.run.edition, min(c.run.depth, 5), c.outcome.number, frozenset(reasons(c))
        turn[sort] += 1
        order.append((turn[sort], len(order), c))
    return [c for _, _, c in sorted(order, key=lambda each: each[:2])[:count]]


def first(rng):
    return recorded(rng, short(generate(rng)))


def by_edition(rng):
    return recorded(rng, short(different(editions.made(rng))), EDITIONS_AROUND, EDITIONS_SHORT)


def by_depth(rng):
    return recorded(rng, short(different(depths.made(rng))), DEPTHS_AROUND, DEPTHS_SHORT)


SORTS = {"first": first, "editions": by_edition, "depths": by_depth}


def chosen(seed, count, sorts):
    """Short ones, as many of each sort."""
    found = []
    for i, sort in enumerate(sorts):
        rng = random.Random(seed)
        found += of_every_sort(rng, SORTS[sort](rng), count * (i + 1) // len(sorts) - count * i // len(sorts))
    return found


def stated(number, c):
    """Two theorems for a case: what the run comes to, and which references fail first."""
    before = [[each] * n for each, n in zip(BEFORE, c.lent)]
    found = [(2 * number, template.computed_by_model(2 * number, c.run, before, c.outcome))]
    if c.stages.listing:
        found.append((2 * number + 1, template.failed_by_model(2 * number + 1, c.run, c.stages.listing.found.failed)))
    return found


def differing(definition, cases):
    """The cases that differ, with what the checker computed."""
    found = {}
    with tempfile.TemporaryDirectory() as place:
        folder = checker.scratch(definition, f"{place}/scratch")
        for i in range(0, len(cases), BATCH):
            batch = [each for n in range(i, min(i + BATCH, len(cases))) for each in stated(n, cases[n])]
            found.update(checker.check(folder, [(i // BATCH, batch)], 1, template.LITTLE))
    return found


def main():
    options = argparse.ArgumentParser(description=__doc__)
    options.add_argument("--definition", required=True, help="a repository with the definition's crates")
    options.add_argument("--seed", type=int, default=1)
    options.add_argument("--cases", type=int, default=100)
    options.add_argument("--of", choices=SORTS, help="of one sort alone")
    given = options.parse_args()
    cases = chosen(given.seed, given.cases, [given.of] if given.of else list(SORTS))
    try:
        found = differing(given.definition, cases)
    except checker.Unclear as why:
        print(f"the checker says neither yes nor no:\n{why}", file=sys.stderr)
        return 2
    for n, words in found.items():
        c = cases[n // 2]
        print(f"the model says {c.stages.listing.found.failed if n % 2 else c.outcome}, and the definition something else: {c.run.shown()}\n  {words}")
    why = Counter(each for c in cases for each in reasons(c))
    numbers = Counter(c.outcome.number for c in cases)
    deep = Counter(min(c.run.depth, 5) for c in cases)
    print(f"seed {given.seed}: {len(cases)} runs, by number {dict(sorted(numbers.items()))}, {sum(c.run.rules == 1 for c in cases)} of rule set 1, "
          f"{sum(c.run.edition == 2 for c in cases)} of edition 2, by depth (5: above 4) {dict(sorted(deep.items()))}, "
          f"{sum(c.run.stretch[1] > 0 for c in cases)} with a stretch; matches that fail, by reason {dict(sorted(why.items()))}; "
          f"{len(found)} differ from the definition")
    return 1 if found else 0


if __name__ == "__main__":
    sys.exit(main())
