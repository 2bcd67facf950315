#!/usr/bin/env python3
"""tally.py FILE..: for each library what is in it, and how many rows and pattern bytes its collection takes under either rule set, as a line of a table.

collection.py of tools/oracle/model computes the rows themselves, but goes through all definitions for each fixup; here they are only counted, by tables."""
import sys
from bisect import bisect_left
from collections import Counter
from pathlib import Path

sys.path.insert(0, str(Path(__file__).resolve().parent.parent / "tools" / "oracle"))
from model.collection import INBLOCK, RELATIVE, WORD, code  # noqa: E402
from model.reader import read  # noqa: E402


def first_of(definitions):
    """The first definition of each id."""
    return {d.id: d for d in reversed(definitions)}


class Tally:
    def __init__(self, modules):
        self.segments = self.references = self.symbols = self.pattern = 0
        for m in modules:
            self.add(m)

    def add(self, m):
        kept = [s for s in m.segments if s.id != 0 and code(s) and s.relocation != 0]
        of_id = Counter(p.id for p in m.publics)
        self.segments += len(kept)
        self.symbols += sum(of_id[s.id] for s in kept)
        self.pattern += sum(s.size for s in kept)
        offsets = sorted(p.offset for p in m.publics if p.id == 0)
        ids, named = {s.id for s in kept}, {1: first_of(m.segments), 2: first_of(m.externals)}
        for c in m.contents:
            if c.id == 0:
                self.segments += 1
                self.symbols += bisect_left(offsets, c.offset + len(c.data)) - bisect_left(offsets, c.offset)
                self.pattern += len(c.data)
            if c.id == 0 or c.id in ids:
                self.references += sum(self.leaves(f, ids, named) for f in c.fixups)

    def leaves(self, f, ids, named):
        """Whether a fixup leaves a reference."""
        found = named.get(f.block, {}).get(f.id)
        kept = f.block == 2 or f.id in ids
        return f.kind in (RELATIVE, WORD, INBLOCK) and found is not None and code(found) and kept


def line(path):
    data = Path(path).read_bytes()
    modules = read(data)
    items = [sum(len(getattr(m, sort)) for m in modules) for sort in ("segments", "publics", "externals", "contents")]
    fixups = sum(len(c.fixups) for m in modules for c in m.contents)
    t = Tally(modules)
    numbers = (len(data), len(modules), *items, fixups, t.segments, t.references, t.symbols, t.pattern)
    return f"| {Path(path).name} | " + " | ".join(f"{n:,}" for n in numbers) + " |"


def main():
    for path in sys.argv[1:]:
        print(line(path), flush=True)


if __name__ == "__main__":
    main()
