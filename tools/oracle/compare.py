#!/usr/bin/env python3
"""Compares the definition with the Rust on small cases: rule set 0, nothing withheld.

Each case becomes a theorem that the checker computes. The status is 1 if any case differs, and 2 if
the checker fails for another reason."""
import argparse
import json
import sys
import tempfile
import time
from collections import Counter

import rust
from cases.small import generate
from definition import checker, template

BATCH = 20


def options():
    read = argparse.ArgumentParser(description=__doc__)
    read.add_argument("--definition", required=True, help="a repository whose crates.txt has the definition's crates")
    read.add_argument("--rust", required=True, help="the folder OUT that build.sh was given")
    read.add_argument("--seed", type=int, default=1)
    read.add_argument("--cases", type=int, default=400)
    read.add_argument("--jobs", type=int, default=1)
    return read.parse_args()


def told(cases, answers):
    """The cases whose answer is known, numbered, and how many are not; a case that was damaged for a
    number must have got it."""
    known = [(n, c, e) for n, (c, e) in enumerate(zip(cases, answers)) if e is not None]
    wrong = [n for n, (c, e) in enumerate(zip(cases, answers)) if c.must is not None and (e is None or e.number not in c.must)]
    return known, len(cases) - len(known), wrong


def differing(folder, batches, jobs):
    """Those of some batches that differ, and still do where much is lent; the checker shows more of what
    it computed where little is."""
    first = checker.check(folder, batches, jobs, template.LITTLE)
    again = [(i, [each for each in batch if each[0] in first]) for i, batch in batches]
    second = checker.check(folder, [(i, batch) for i, batch in again if batch], jobs, template.MUCH)
    return {n: words if words.startswith("computed") else first[n] for n, words in second.items()}


def compared(given, known):
    """The cases that differ, with what the checker computed, batch by batch."""
    stated = [(n, template.said_by_rust(n, case, expected)) for n, case, expected in known]
    batches = [(i // BATCH, stated[i:i + BATCH]) for i in range(0, len(stated), BATCH)]
    found = {}
    with tempfile.TemporaryDirectory() as place:
        folder = checker.scratch(given.definition, f"{place}/scratch")
        for i in range(0, len(batches), given.jobs):
            found.update(differing(folder, batches[i:i + given.jobs], given.jobs))
            done = min(len(known), (i + given.jobs) * BATCH)
            print(f"{done} of {len(known)} computed, {len(found)} differ", file=sys.stderr, flush=True)
    return found


def report(known, found):
    """Each difference, then the totals by number on the domain and off it."""
    for n, case, expected in known:
        if n in found:
            print(json.dumps({"case": n, **case.shown()}))
            print(f"  must be {expected.label}: {expected.lines}")
            print(f"  {found[n]}")
    agreed, differ = (Counter(e.label for n, _, e in known if (n in found) == bad) for bad in (False, True))
    for label in sorted({**agreed, **differ}, key=lambda l: (l.split()[0] == "off", len(l), l)):
        print(f"{label:16} {agreed[label]:5} agree {differ[label]:5} differ")
    grades = Counter(line[1] for _, _, e in known for line in e.lines)
    print("lines by grade:", ", ".join(f"{g}: {grades[g]}" for g in range(4)))


def main():
    given = options()
    began = time.time()
    cases = generate(given.seed, given.cases)
    known, untold, wrong = told(cases, rust.ask(given.rust, cases))
    try:
        found = compared(given, known)
    except checker.Unclear as why:
        print(f"the checker says neither yes nor no:\n{why}", file=sys.stderr)
        return 2
    report(known, found)
    print(f"seed {given.seed}: {len(cases)} cases, {len(known)} compared, {untold} of which the Rust does not tell "
          f"what must come, {len(found)} differ, {time.time() - began:.0f} s")
    for n in wrong:
        print(f"case {n} was damaged for {cases[n].must}, and the Rust's answer is another")
    return 1 if found or wrong else 0


if __name__ == "__main__":
    sys.exit(main())
