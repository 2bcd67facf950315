#!/usr/bin/env python3
"""Records what whole runs on files with switched banks come to (change request W-210): the file of cases of the program crate
`replay_banks`. It has the form of that of `replay` (crates/replay/README.md), but that the last two numbers of an answer are here how many
banks there are, and the digest of how many lines each has, 16 numbers. The same seed gives the same file.

All answers are the model's (model/banks.py). The status is 1, and nothing is written, if the unchanged Rust says something else about a view
of a run that it can be asked about, of those recorded and of `--more` times as many random ones; if a run does not come to what it was made
for; if what is withheld is seen; or if a view differs from the single run on what it shows, with the stretches cut for it."""
import argparse
import random
import sys
from collections import Counter
from dataclasses import replace
from pathlib import Path

from cases.banks import runs
from cases.whole import capacities
from confirm import differing, is_askable, is_own
from model.banks import LINES, NOTED, PART, PLACED, Banked, Quick, not_banked
from model.listing import LINE
from model.run import Stages, at_once
from record import Recorded, as_bytes, digest, table

# How many views the Rust is asked about at a time.
BATCH = 300
# How many views are searched at every place, too.
PLAIN = 12


def of_banks(result):
    """The last two numbers of an answer; zeros with a refusal."""
    return (result.banks, digest(result.each)) if result.number == 0 else (0, 0)


def withheld(run):
    """The stretches that are not empty."""
    return [stretch for stretch in (run.stretch, *run.more) if stretch[1]]


def images(file):
    """The views of a file as images of their own, apart from the model: the first 32 KiB with each of the others."""
    common, *banks = [file[at:at + PART] for at in range(0, len(file), PART)]
    return [common + bank for bank in banks]


def single_runs(run):
    """Those on the views of a file, nothing withheld."""
    return [replace(run, image=image, stretch=(0, 0), more=()) for image in images(run.image)]


def views_to_ask(banked):
    """What the Rust can be asked about: the views of a run, or the single runs on them if it is refused for its library; else nothing."""
    if at_once(banked.run, not_banked) or withheld(banked.run) or not is_askable(single_runs(banked.run)[0]):
        return []
    assert not banked.views or [view.run for view in banked.views] == single_runs(banked.run), "a view shows something else"
    return banked.views or [Stages(run) for run in single_runs(banked.run)]


class OnBanks(Recorded):
    @property
    def own(self):
        """Whether the answer is the Rust's: it said the same of every view, and knows nothing of lent memory."""
        asked = views_to_ask(self.stages)
        return bool(asked) and all(map(is_own, asked)) and self.outcome.number == self.stages.final()


def confirmed(folder, found):
    """Holds the views of runs against the Rust: which of them differ, and how many it was asked about, each once."""
    different = {}
    for view in (view for banked in found for view in views_to_ask(banked)):
        different.setdefault((view.run.image, view.run.library, view.run.settings()), view)
    asked, wrong = list(different.values()), []
    for first in range(0, len(asked), BATCH):
        wrong += differing(folder, asked[first:first + BATCH])[0]
    return wrong, len(asked)


def hides(rng, banked):
    """Whether a run is the same on another file that differs within the stretches alone."""
    run, file = banked.run, banked.run.image
    if not withheld(run) or not banked.views:
        return True
    for start, length in withheld(run):
        file = file[:start] + rng.randbytes(length) + file[start + length:]
    other = Banked(replace(run, image=file))
    return [view.rows for view in other.views] == [view.rows for view in banked.views]


def cut(run, k):
    """The single run on bank k's view, with the part of each stretch that it shows: by the settled readings of W-210 one stretch again. The
    model's views know nothing of this."""
    def stood(x):
        return min(x, PART) + min(max(x - PART * (k + 1), 0), PART)

    first, *more = [(stood(start), stood(start + length) - stood(start)) for start, length in (run.stretch, *run.more)]
    return replace(run, image=images(run.image)[k], stretch=first, more=tuple(more))


class QuickStages(Stages):
    searched_by = Quick


def is_single(rng, banked):
    """Whether each view comes to what the single run on it does."""
    return all(QuickStages(cut(banked.run, k)).rows == view.rows for k, view in enumerate(banked.views))


def is_plain(banked, k):
    """The same, by a search of all places."""
    return Stages(cut(banked.run, k)).rows == banked.views[k].rows


def is_kept_to(rng, banked):
    return banked.run.must is None or banked.final() in banked.run.must


def between(banked):
    """Amounts of placed and noted rows that some views have and others do not, and of lines that some views together have, and all of them."""
    found = []
    for i in (PLACED, NOTED):
        each = {view.needed[i] for view in banked.views}
        found += [capacities.with_one(banked.needed, i, n + more) for n in sorted(each) for more in (0, -1)]
    each = [view.needed[LINES] for view in banked.views]
    for length in (sum(each), sum(each) - 1, sum(each) - LINE, sum(each) + LINE, max(each), each[-1], each[0], sum(each[:-1]), sum(each[1:])):
        found.append(capacities.with_one(banked.needed, LINES, length))
    return [capacities.within_rooms(lent) for lent in dict.fromkeys(found) if min(lent) >= 0]


def amounts(rng, banked):
    """What is lent for a run, one amount or several."""
    more = {"lent, all amounts": capacities.every, "lent, about": capacities.around, "lent, lines": lambda needed: [needed]}.get(banked.run.kind)
    if more:
        return more(banked.needed) + between(banked)
    found = [capacities.enough(rng, banked)]
    if any(banked.needed) and rng.random() < (0.6 if banked.fault else 0.08):
        found.append(capacities.too_little(rng, banked.needed))
    if len(banked.views) > 1 and rng.random() < 0.1:
        found.append(rng.choice(between(banked)))
    return found


def recorded(rng, found):
    return [OnBanks(banked, lent, banked.outcome(lent)) for banked in found for lent in dict.fromkeys(amounts(rng, banked))]


def differ_below(banked, end):
    """Whether the lists of views differ below an address."""
    below = [[line for line in lines if line[0] < end] for lines in banked.lines()]
    return any(lines != below[0] for lines in below)


def not_first_to_lack(c, i):
    """Whether the first and the last view have room for their rows of a list, and one between them has not."""
    each = [view.needed[i] for view in c.stages.views]
    return bool(each) and max(each[0], each[-1]) <= c.lent[i] < max(each)


def lacks_for_all(c):
    """Whether each list alone has room for its lines, and all together have not."""
    each = [view.needed[LINES] for view in c.stages.views]
    return bool(each) and max(each) <= c.lent[LINES] < sum(each)


def report_done(done):
    grades = Counter(line[1] for c in done for lines in c.stages.lines() for line in lines)
    lines = [c.outcome.counts[-1] for c in done]
    several = [c for c in done if c.outcome.banks > 1]
    print(f"\ndone by banks {dict(sorted(Counter(c.outcome.banks for c in done).items()))}, views {sum(c.outcome.banks for c in done)}, "
          f"lines {sum(lines)}, most {max(lines)}, by grade {[grades[g] for g in range(4)]}")
    print(f"of {len(several)} with several banks the lists differ in {sum(differ_below(c.stages, 2 * PART) for c in several)}, "
          f"in the common part in {sum(differ_below(c.stages, PART) for c in several)}")


def report_settings(cases):
    print(f"rule set 1 {sum(c.run.rules == 1 for c in cases)}, edition 2 {sum(c.run.edition == 2 for c in cases)}, "
          f"depths {dict(sorted(Counter(min(c.run.depth, 5) for c in cases).items()))} (5: above), "
          f"a skip amount {sum(c.run.skip is not None for c in cases)}, something withheld {sum(bool(withheld(c.run)) for c in cases)}, "
          f"several stretches {sum(bool(c.run.more) for c in cases)}, 2Ch libraries {sum(c.run.library[:1] == b',' for c in cases)}")
    print(f"9 for a view between the first and the last alone: placed {sum(not_first_to_lack(c, PLACED) for c in cases)}, "
          f"noted {sum(not_first_to_lack(c, NOTED) for c in cases)}; for the lines of all together {sum(map(lacks_for_all, cases))}")
    print("most lent", [max(column) for column in zip(*(c.lent for c in cases))], "longest file", max(len(c.run.image) for c in cases),
          "longest library", max(len(c.run.library) for c in cases))


def report(cases):
    own = [c for c in cases if c.own]
    for some, words in ((own, "the Rust's own"), ([c for c in cases if not c.own], "computed")):
        print(f"\n{words}: {len(some)} cases")
        table(some)
    report_done([c for c in cases if c.outcome.number == 0])
    report_settings(cases)
    # what the program has to say
    by_number = Counter(c.outcome.number for c in cases)
    refused = "".join(f", refused with {n} {by_number[n]}" for n in sorted(by_number) if n)
    print(f"{len(cases)} of {len(cases)} recorded runs agree: done {by_number[0]}{refused}; {len(own)} are the Rust's own; "
          f"lines {sum(c.outcome.counts[-1] for c in cases)}")


def unlike(rng, found):
    """Of which runs something else must come, and what was asked of them."""
    wrong = [(banked, asked.__name__) for banked in found for asked in (is_kept_to, hides, is_single) if not asked(rng, banked)]
    several = [(banked, k) for banked in found for k in range(len(banked.views))]
    return wrong + [(banked, is_plain.__name__) for banked, k in rng.sample(several, PLAIN) if not is_plain(banked, k)]


def options():
    read = argparse.ArgumentParser(description=__doc__)
    read.add_argument("--rust", required=True, help="the folder OUT that build.sh was given")
    read.add_argument("--seed", type=int, default=1)
    read.add_argument("--more", type=int, default=1, help="how many times random runs are compared with the Rust and not recorded")
    read.add_argument("--out", type=Path, required=True, help="the file to write")
    return read.parse_args()


def main():
    given = options()
    rng = random.Random(given.seed)
    found = [Banked(run) for run in runs.made(rng)]
    wrong = unlike(random.Random(given.seed), found)
    apart = random.Random(~given.seed)
    others = [Banked(run) for _ in range(given.more) for run in runs.made_to_compare(apart)]
    unsaid, asked = confirmed(given.rust, found + others)
    for stages, why in wrong + [(view, "the Rust") for view in unsaid]:
        print(f"{why}: computed {stages.final()} {stages.lines()}, and something else must come: {stages.run.kind} {stages.run.settings()}")
    if wrong or unsaid:
        return 1
    cases = recorded(rng, found)
    data = as_bytes(cases, of_banks)
    given.out.parent.mkdir(parents=True, exist_ok=True)
    given.out.write_bytes(data)
    report(cases)
    scenes = len({(c.run.image, c.run.library) for c in cases})
    print(f"seed {given.seed}: {len(cases)} cases, {scenes} scenes, {len(data)} bytes; the Rust was asked about {asked} views")
    return 0


if __name__ == "__main__":
    sys.exit(main())
