"""Holds what the model computes against the Rust, run by run: the number, the list and the printed text; and of the runs that
are collected also the segments, and the two lists that the search leaves."""
import rust
from model import reader
from model.collection import INBLOCK, RELATIVE, WORD
from model.run import at_once

# The numbers that are the Rust's own: a list, and its errors.
OWN = (0, 5, 6, 10, 11, 12)
KINDS = {RELATIVE: "Relative", WORD: "Word", INBLOCK: "Inblock"}


def is_utf8(name):
    try:
        name.decode()
    except UnicodeDecodeError:
        return False
    return True


def is_askable(run):
    """The Rust has rule set 0, edition 1 and depths 0 and 1, withholds nothing, and knows no lengths that are too long."""
    return (run.rules, run.edition) == (0, reader.FIRST) and run.depth <= 1 and not any(length for _, length in (run.stretch, *run.more)) and at_once(run) == 0


def is_own(stages):
    """Whether a run is on the domain of equality."""
    run = stages.run
    plain = is_askable(run) and run.asked is None and run.renamed is None
    if not plain or stages.final() not in OWN or not all(map(is_utf8, stages.names())):
        return False
    return stages.final() > 0 or not stages.listing.found.omits and all(name.isascii() for _, _, name in stages.lines())


def agrees(stages, expected):
    """Whether the Rust says what was computed."""
    if expected.number != stages.final() or expected.lines != stages.lines():
        return False
    return expected.number > 0 or expected.text in (None, stages.text())


def is_right(stages, expected):
    """Whether the Rust does not tell, outside the domain, or says what was computed; and that is what a library was made for."""
    if stages.run.must is not None and stages.final() not in stages.run.must:
        return False
    if is_own(stages):
        return expected is not None and expected.label == f"on {stages.final()}" and agrees(stages, expected)
    return expected is None or expected.label.startswith("on") or agrees(stages, expected)


def as_segment(library, s):
    """A segment in the form of driver/shown.rs."""
    def spelled(part):
        return library[part.at:part.at + part.len].decode()

    references = [[r.place, KINDS[r.kind], r.offset, r.goal if isinstance(r.goal, int) else spelled(r.goal)] for r in s.references]
    return [s.address, list(s.bytes), list(s.masks), references, [[spelled(name), offset] for name, offset in s.symbols]]


def as_lists(s):
    """What was placed and noted, in the form of driver/shown.rs."""
    def noted_by(p):
        own = s.segments[p.segment].references
        led = [(s.target(r, p.found + r.place), r.goal) for r in own if not isinstance(r.goal, int)]
        return [[target, s.spelled(name).decode()] for target, name in led if target is not None]

    placed, noted = {}, {}
    for (position, name), p in s.placed.items():
        placed.setdefault(position, []).append([name.decode(), p.valid, noted_by(p)])
    for (target, name), n in s.noted.items():
        noted.setdefault(target, []).append([name.decode(), n.valid])
    return [[list(each) for each in sorted(found.items())] for found in (placed, noted)]


def is_collected(stages, answer):
    return answer.get("segments") == [as_segment(stages.run.library, s) for s in stages.segments]


def is_searched(stages, answer):
    """A symbol at the image's end or past it is omitted here; the Rust was given a list that is long enough for it."""
    inside = [each for each in answer.get("placed", []) if each[0] < len(stages.run.image)]
    return answer["outcome"] == "searched" and [inside, answer["noted"]] == as_lists(stages.listing.found)


def differing(folder, found):
    """Of which runs the Rust says something else; how many it was asked about, and of how many it showed the stages."""
    asked = [stages for stages in found if is_askable(stages.run)]
    answers = rust.ask(folder, [stages.run for stages in asked])
    wrong = [stages for stages, expected in zip(asked, answers) if not is_right(stages, expected)]
    done = [stages for stages in asked if stages.listing and all(map(is_utf8, stages.names()))]
    for stage, is_same in ((rust.SEGMENTS, is_collected), (rust.SEARCHED, is_searched)):
        shown = rust.shown(folder, [stages.run for stages in done], stage)
        wrong += [stages for stages, answer in zip(done, shown) if not is_same(stages, answer)]
    return wrong, len(asked), len(done)
