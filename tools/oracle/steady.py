"""What must be so of one scene at all depths, whatever the model computes: at depth 0 every match holds; one that holds at a depth holds at every smaller
one; and what is noted is the same at all. Which matches hold is told once more, from below: those of depth 0, and then of each depth those whose references
lead to the ones before."""
from dataclasses import replace

from model.run import GREATEST_DEPTH, LISTS, Stages

NOTED = LISTS.index("noted")


def from_below(search):
    """The matches that hold at each depth."""
    every = {(number, at) for number, places in enumerate(search.found) for at in places}
    held = [every]
    for _ in range(GREATEST_DEPTH):
        before = held[-1]

        def leads(r, at):
            target = search.target(r, at + r.place)
            return target is not None and (not isinstance(r.goal, int) or (r.goal, target) in before)

        held.append({(number, at) for number, at in every if all(leads(r, at) for r in search.segments[number].references)})
    return held


def holding(search):
    """The matches that hold at the depth that was asked, by the model."""
    every = [(number, at) for number, places in enumerate(search.found) for at in places]
    return {match for match, failed in zip(every, search.failed) if failed is None}


def is_steady(run):
    each = [Stages(replace(run, depth=depth)) for depth in range(GREATEST_DEPTH + 1)]
    held = [holding(stages.listing.found) for stages in each]
    falls = all(more >= less for more, less in zip(held, held[1:]))
    return falls and held == from_below(each[0].listing.found) and all(stages.rows[NOTED] == each[0].rows[NOTED] for stages in each)


def unsteady(found):
    """Of each scene whose depths do not go together a run."""
    scenes = {}
    for stages in found:
        if stages.listing:
            scenes.setdefault((stages.run.image, stages.run.library, replace(stages.run, depth=0).settings()), stages)
    return [stages for stages in scenes.values() if not is_steady(stages.run)]
