"""Files with banks and libraries for them: names that a bank bears out and another does not, patterns over the border at 8000h, chains
that go through a bank and back, files of 16 banks, and random ones."""
from dataclasses import dataclass

from model import collection, reader
from model.banks import MOST_BANKS, PART
from cases.banks.files import BORDER, END, Absolute, File, Ref, Routine, library_of, reaches
from cases.records import INBLOCK, RELATIVE, WORD, as_library
from cases.whole.outside import longer, some

NAMES = (b"f", b"g", b"h", b"?C?LADD", b"?C?CLDPTR")


@dataclass
class Scene:
    kind: str
    file: bytes
    library: bytes
    # Places in the file beside which stretches begin and end.
    spots: list


def scene(kind, file, library):
    return Scene(kind, bytes(file.cells), library, file.spots())


def told():
    """The common part calls `work` at 8010h. Bank 0 has it there, bank 1 has it at 8020h, bank 2 has nothing. What each list has, by hand,
    is in runs.py."""
    main, work = Routine(1, [Ref(WORD, b"work")], [(0, b"main")]), Routine(2, [], [(0, b"work")])
    file = File(3)
    file.lay(None, 0x100, main)
    file.aim(None, 0x100, main, 0, 0x8010)
    file.lay(0, 0x8010, work)
    file.lay(1, 0x8020, work)
    return scene("told", file, library_of([main, work]))


def border():
    """Patterns of the common part's last bytes and of a bank's first ones: each in the views of its bank alone. Some of a bank's end and
    the next one's start, which are neighbours in the file and in no view. Some that end at the border or a view's end, or begin at the
    border."""
    tail, heads = bytes(range(0x51, 0x59)), [bytes(range(first, first + 8)) for first in (0x61, 0x71, 0x81)]
    ends = [bytes(range(first, first + 4)) for first in (0x91, 0xE1)]
    file, routines = File(3), []
    file.put(None, BORDER - len(tail), tail)
    for k, head in enumerate(heads):
        file.put(k, BORDER, head)
    for k, end in enumerate(ends):
        file.put(k, END - len(end), end)

    def add(name, data):
        routines.append(Routine(len(routines) + 1, [], [(0, name), (len(data) - 1, name + b"_end")], data))

    for k, head in enumerate(heads):
        for i, j in ((1, 1), (2, 1), (1, 2), (8, 8), (7, 1), (1, 7)):
            add(b"over%d_%d%d" % (k, i, j), tail[len(tail) - i:] + head[:j])
        add(b"head%d" % k, head[:3])
    add(b"tail", tail[5:])
    for k, end in enumerate(ends):
        add(b"end%d" % k, end[1:])
        add(b"next%d" % k, end[2:] + heads[k + 1][:2])
        add(b"round%d" % k, end[2:] + b"\0\0")
    return scene("border", file, library_of(routines))


def chain(kinds, links, spoilt, banks=3):
    """Routines that refer to the next one, by turns in the common part and in the banks, about the border; a bank lacks some of its own.
    Another one notes names of the second, which come and go with it."""
    refs = [[Ref(kinds[i % len(kinds)], i + 2)] if i + 1 < links else [] for i in range(links)]
    routines = [Routine(i + 1, refs[i], [(0, b"link%d" % (i + 1)), (0, b"any")]) for i in range(links)]
    file = File(banks)
    places = [BORDER - 0x30 + 6 * i if i % 2 == 0 else BORDER + 6 * i for i in range(links)]
    for i, (routine, at) in enumerate(zip(routines, places)):
        for k in [None] if at < BORDER else [k for k in range(banks) if i not in spoilt.get(k, ())]:
            file.lay(k, at, routine)
            if routine.refs:
                file.aim(k, at, routine, 0, places[i + 1])
    other = Routine(20, [Ref(WORD, b"link2"), Ref(WORD, b"any")], [(0, b"other")])
    file.lay(None, 0x40, other)
    file.aim(None, 0x40, other, 0, places[1])
    file.aim(None, 0x40, other, 1, places[1])
    return scene("chain", file, library_of(routines + [other]))


def chains():
    """Of words; of distances; of both."""
    return [chain((WORD,), 6, {1: (1,), 2: (3,)}), chain((RELATIVE,), 6, {0: (3,), 2: (1, 5)}), chain((WORD, RELATIVE), 5, {0: (1,), 1: (3,)}, 2)]


def page():
    """An ACALL whose bytes are the common part's last ones leads into the bank's page, and so does one in the bank; distances lead over the
    border, both ways."""
    ahead = Routine(1, [Ref(INBLOCK, 3)], [(0, b"ahead")], b"\xa1\x11\0")
    near = Routine(2, [Ref(RELATIVE, b"back"), Ref(INBLOCK, b"deep")], [(0, b"near")])
    deep = Routine(3, [Ref(RELATIVE, b"ahead")], [(0, b"deep"), (1, b"deeper")])
    back = Routine(4, [Ref(RELATIVE, 3)], [(0, b"back")])
    file = File(2)
    file.lay(None, BORDER - 3, ahead)
    file.aim(None, BORDER - 3, ahead, 0, BORDER + 0x40)
    file.lay(None, BORDER - 0x20, back)
    file.aim(None, BORDER - 0x20, back, 0, BORDER + 0x40)
    for k in range(2):
        file.lay(k, BORDER, near)
        file.aim(k, BORDER, near, 0, BORDER - 0x20)
        file.aim(k, BORDER, near, 1, BORDER + 0x40)
    file.lay(0, BORDER + 0x40, deep)
    file.aim(0, BORDER + 0x40, deep, 0, BORDER - 3)
    file.lay(1, BORDER + 0x41, deep)
    file.aim(1, BORDER + 0x41, deep, 0, BORDER - 4)
    return scene("page", file, library_of([ahead, near, deep, back]))


def ends():
    """A distance at a view's end leads past it, and one at its start before it: as found to places that are none, as documented from the bank
    to the common part and back. An ACALL whose bytes are the last ones leads to the common part by both. Bank 1 has nothing of this."""
    first = Routine(1, [Ref(RELATIVE, b"last")], [(0, b"first")])
    last = Routine(2, [Ref(RELATIVE, b"first"), Ref(RELATIVE, 1)], [(0, b"last")])
    call = Routine(3, [Ref(INBLOCK, 1)], [(0, b"call"), (2, b"very_last")], b"\xa3\x11\0")
    file = File(2)
    file.lay(None, 2, first)
    file.aim(None, 2, first, 0, 0xFFF0 - END)
    file.lay(0, 0xFFF0, last)
    file.aim(0, 0xFFF0, last, 0, END + 2)
    file.aim(0, 0xFFF0, last, 1, END + 2)
    file.lay(0, END - 3, call)
    file.aim(0, END - 3, call, 0, 2)
    return scene("view's ends", file, library_of([first, last, call]))


def middle():
    """Of three banks the middle one places the most symbols and notes the most names, and its list is the longest."""
    caller, routine = Routine(1, [Ref(WORD, b"f")], [(0, b"g")]), Routine(2, [], [(0, b"f"), (1, b"h")])
    file = File(3)
    file.lay(None, 0x10, caller)
    file.aim(None, 0x10, caller, 0, 0x8002)
    for k, at, target in ((1, 0x8008, 0x8002), (1, 0x8010, 0x8018), (1, 0x8020, 0x0010), (0, 0x8008, 0x9000)):
        file.lay(k, at, caller)
        file.aim(k, at, caller, 0, target)
    for k, at in ((0, 0x8002), (1, 0x8002), (1, 0x8018), (1, 0x8028)):
        file.lay(k, at, routine)
    return scene("middle", file, library_of([caller, routine]))


def sixteen_full():
    """Each bank has a routine of its own at 8000h, some have another at 8008h, and the common part calls both; each bank calls back."""
    own = [Routine(k + 1, [Ref(WORD, b"common")], [(0, b"own%d" % k), (0, b"own")]) for k in range(MOST_BANKS)]
    shared = Routine(17, [Ref(RELATIVE, b"own")], [(0, b"shared")])
    caller = Routine(18, [Ref(WORD, b"own"), Ref(WORD, b"shared"), Ref(WORD, b"own3"), Ref(WORD, 17)], [(0, b"common")])
    over = Routine(19, [Ref(WORD, 5)], [(0, b"over")])
    file = File(MOST_BANKS)
    file.lay(None, 0x20, caller)
    for number, target in enumerate((BORDER, BORDER + 8, BORDER, BORDER + 8)):
        file.aim(None, 0x20, caller, number, target)
    file.lay(None, 0x7000, over)
    file.aim(None, 0x7000, over, 0, BORDER)
    for k in range(MOST_BANKS):
        file.lay(k, BORDER, own[k])
        file.aim(k, BORDER, own[k], 0, 0x20 if k % 3 else 0x21)
        if k % 4 != 1:
            file.lay(k, BORDER + 8, shared)
            file.aim(k, BORDER + 8, shared, 0, BORDER + k % 2)
    return scene("sixteen", file, library_of(own + [shared, caller, over]))


def sixteen_front():
    """Only the first bank has anything; the others are empty."""
    first, second = Routine(1, [Ref(WORD, 2), Ref(WORD, b"g")], [(0, b"f")]), Routine(2, [Ref(WORD, b"f")], [(0, b"g"), (2, b"h")])
    file = File(MOST_BANKS)
    file.lay(None, 0x7FF0, first)
    file.aim(None, 0x7FF0, first, 0, 0x8004)
    file.aim(None, 0x7FF0, first, 1, 0x8004)
    file.lay(0, 0x8004, second)
    file.aim(0, 0x8004, second, 0, 0x7FF0)
    file.lay(0, 0x8010, second)
    file.aim(0, 0x8010, second, 0, 0x7FF0)
    return scene("sixteen", file, library_of([first, second]))


def bare(banks, with_bank=True):
    """Nothing but the start of the common part, so that a file takes few bytes here; but absolute contents of zeros stand in the banks, where
    nothing of them is withheld, and the common part refers to them. By rule set 0 the symbols of those in a bank lie past the end."""
    caller = Routine(1, [Ref(WORD, b"bank"), Ref(WORD, b"low")], [(0, b"caller")])
    other = Routine(2, [Ref(WORD, b"caller")], [(0, b"other")])
    file = File(banks)
    file.lay(None, 8, caller)
    file.aim(None, 8, caller, 0, 0x8100)
    file.aim(None, 8, caller, 1, 0x6000)
    file.lay(None, 0x18, other)
    file.aim(None, 0x18, other, 0, 8)
    absolutes = [Absolute(0x3000, bytes(4), [(0x3000, b"low"), (0x3002, b"lower")]),
                 Absolute(0x18, b"\xa2\0\0", [(0x18, b"at_18")], [(1, Ref(WORD, b"caller"))]),
                 Absolute(0x7FFE, bytes(4), [(0x7FFE, b"over")] + [(0x8000, b"over_end")] * with_bank)]
    if with_bank:
        absolutes += [Absolute(0x8100, bytes(3), [(0x8100, b"bank"), (0x8102, b"banks")]), Absolute(0xFFFC, bytes(4), [(0xFFFF, b"last")])]
    found = scene("bare", file, library_of([caller, other], absolutes))
    found.spots += [file.offset(k, at) for k in range(banks) for at in (0x8000, 0x8001, 0x8100, 0x8102, 0xFFFC, 0xFFFF)]
    found.spots += [0x3000, 0x3003, 0x7FFE, 0x7FFF]
    return found


def some_refs(rng, count):
    refs = []
    for _ in range(rng.choice((0, 1, 1, 2, 3))):
        goal = rng.randrange(1, count + 1) if rng.random() < 0.5 else rng.choice(NAMES)
        refs.append(Ref(rng.choice((WORD, WORD, RELATIVE, INBLOCK)), goal))
    return refs


def some_symbols(rng):
    return [(rng.choice((0, 0, 0, 1, 2)), rng.choice(NAMES)) for _ in range(rng.choice((0, 1, 1, 1, 2)))]


def some_routines(rng):
    """Some that refer to one another and to few names, so that symbols meet; two of them may have the same bytes."""
    count = rng.randrange(2, 7)
    found = [Routine(i + 1, some_refs(rng, count), some_symbols(rng)) for i in range(count)]
    if rng.random() < 0.3:
        twin = rng.choice(found)
        refs = [Ref(r.kind, rng.choice((r.goal, rng.choice(NAMES)))) for r in twin.refs]
        found.append(Routine(count + 1, refs, [(0, rng.choice(NAMES))], twin.data()))
    return found


def lay_some(rng, file, routines, k, at):
    """Some routines behind one another, with gaps at times."""
    for routine in rng.sample(routines, rng.randrange(1, len(routines) + 1)):
        file.lay(k, at, routine)
        at += len(routine.data()) + rng.choice((0, 0, 1, 4))


def goals(file, k, r):
    """Where what a reference names stands in bank k's view; that of a routine in the common part may be in any bank."""
    there = [(at, other) for bank, at, other in file.stand if k is None or bank in (None, k)]
    if isinstance(r.goal, int):
        return [at for at, other in there if other.id == r.goal]
    return [at + offset for at, other in there for offset, symbol in other.symbols if symbol == r.goal]


def aim_some(rng, file):
    """Has references lead to what they name, as far as they reach, and now and then elsewhere."""
    for k, at, routine in file.stand:
        for number, r in enumerate(routine.refs):
            aims = [target for target in goals(file, k, r) if reaches(r.kind, at + routine.locations()[number], target)]
            elsewhere = rng.choice((rng.randrange(END), BORDER, BORDER - 1, END - 1, at))
            file.aim(k, at, routine, number, rng.choice(aims) if aims and rng.random() < 0.9 else elsewhere)


def spoil_some(rng, file):
    """At times another byte in a routine."""
    if rng.random() < 0.4:
        k, at, routine = rng.choice(file.stand)
        file.cells[file.offset(k or 0, at + rng.randrange(len(routine.data())))] = rng.randrange(256)


def random_scene(rng, banks, filled):
    """Routines in the common part, at its start and before the border, in so many of the banks, and now and then over the border."""
    routines, file = some_routines(rng), File(banks)
    lay_some(rng, file, routines, None, rng.choice((0, 1, 0x20)))
    lay_some(rng, file, routines, None, BORDER - rng.randrange(60, 90))
    for k in range(filled):
        start = BORDER + rng.choice((0, 0, 1, 5))
        if rng.random() < 0.5:
            over = rng.choice(routines)
            at = BORDER - rng.randrange(1, len(over.data()))
            file.lay(k, at, over)
            start = at + len(over.data())
        lay_some(rng, file, routines, k, start)
    # those that were laid over are no longer whole: what is left of them is looked for all the same
    aim_some(rng, file)
    spoil_some(rng, file)
    library = library_of(routines)
    return scene("random", file, b"".join(as_library([library])) if rng.random() < 0.2 else library)


def matches_zeros(s):
    return s.address is None and not any(byte & mask for byte, mask in zip(s.bytes, s.masks))


def is_everywhere(library):
    """Whether a segment of a library matches wherever a file has nothing but zeros."""
    try:
        found, _ = collection.collected(reader.read(library), collection.FOUND)
    except reader.Refused:
        return False
    return any(map(matches_zeros, found))


def single(rng, banks):
    """The image and the library of a single run, whose list mostly has lines, at the start of a file."""
    while True:
        run = some(rng)
        if not is_everywhere(run.library):
            return Scene("single", longer(run.image, PART * (1 + banks)), run.library, [0, len(run.image), PART, len(run.image) // 2])
