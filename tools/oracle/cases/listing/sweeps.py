"""What is listed, gone through one by one: document 01's printed case, names in every state beside one another, crowded places, references that are borne
out or not, targets past the image's end."""
from itertools import chain, product

from cases.listing.scenes import MINIMUM, NESTED, Stage, at, exactly, found, past
from cases.listing.texts import descriptions, lengths, runs
from cases.records import RELATIVE, TO_NAME, TO_SEGMENT, WORD, Fixup
from cases.searching.scenes import BOTH_CHECKS, LARGE, Scene, code, scene

IMAGE_OF_01 = bytes.fromhex("00E52522")
LIBRARY_OF_01 = bytes.fromhex(
    "02050001 4D0000AB" "0E0B0001 00010000 00030001 538E" "160E0001 00000000 073F433F 4C414444 FE" "06070001 0000E525 22C6" "04070001 4D000000 00A7")
FEW = (None, 0, 1, 2)
HELPER, BESIDE = 60, 61


def document(rng):
    """Document 01's whole printed case, and with skip amounts."""
    return [Scene("document", IMAGE_OF_01, LIBRARY_OF_01, found(), FEW)]


# A name's state: placed by a valid or an invalid match, or not; noted by one; what becomes of its match's references.
REFERENCES = {"none": (), "borne out": (at(HELPER),), "beside": (at(BESIDE),), "past": (past(2),), "both": (at(HELPER), at(BESIDE))}
STATES = ([(None, noted, "none") for noted in (True, False)]
          + list(product((True, False), (None, True, False), REFERENCES)))


def put(stage, spot, states):
    """Names at one place, A and B and so on, in these states: all that share a state are of one routine."""
    for name, (placed, noted, led) in zip((b"A", b"B", b"C"), states):
        if placed is not None:
            stage.setdefault((placed, led), ([], [(address, b"HELP") for address in REFERENCES[led]]))[0].append((at(spot), name))
        if noted is not None:
            stage.setdefault(("noter", noted), ([], []))[1].append((at(spot), name))


def states(rng):
    """Two names at one place, in every pair of states; some such places in an image."""
    scenes = []
    pairs = list(product([state for state in STATES if state[2] != "both"], repeat=2))
    rng.shuffle(pairs)
    for some in runs(pairs, 8):
        kinds = {}
        for spot, each in enumerate(some):
            put(kinds, 3 * spot, each)
        stage = Stage(rng.random() < 0.5)
        for (placed, led), (symbols, notes) in kinds.items():
            stage.routine(symbols, notes, led if placed == "noter" else placed)
        stage.routine([(at(HELPER), b"HELP")])
        scenes.append(stage.scene("states", 64, found(), (None, 1, 2)))
    return scenes


def single_states(rng):
    """One name in every state, checked or not, with minimums at which all are valid, or none."""
    scenes = []
    for state in STATES:
        kinds = {}
        put(kinds, 0, [state])
        stage = Stage()
        for (placed, led), (symbols, notes) in kinds.items():
            stage.routine(symbols, notes, led if placed == "noter" else placed)
        stage.routine([(at(HELPER), b"HELP")], valid=rng.random() < 0.5)
        scenes.append(stage.scene("states", 64, found((0, MINIMUM, MINIMUM + 1, LARGE)) + found(depths=(0,)), (None, rng.randrange(3))))
    return scenes


def some_names(rng, count):
    """Names of which many start with one another, in any order."""
    more = [b"N%d" % i for i in range(count)] + [b"N" * i for i in range(2, 9)] + [bytes((33 + 7 * i,)) for i in range(13)]
    names = list(dict.fromkeys(list(NESTED) + more))[:count] if count < 12 else rng.sample(list(dict.fromkeys(list(NESTED) + more)), count)
    rng.shuffle(names)
    return names


# How all names of a crowd come to their place: by one routine or by several, and the grade that they have.
def crowd_placed(stage, spot, names):
    stage.routine([(spot, name) for name in names])


def crowd_noted(stage, spot, names):
    stage.routine([], [(spot, name) for name in names])


def crowd_both(stage, spot, names):
    stage.routine([(spot, name) for name in names[::-1]], [(spot, name) for name in names])


def crowd_not_borne_out(stage, spot, names):
    stage.routine([(spot, name) for name in names], [(past(0), b"NOWHERE")])


def crowd_apart(stage, spot, names):
    """Each from a routine of its own, some of them not valid: dropped, or not noted."""
    for i, name in enumerate(names):
        stage.routine(*(([(spot, name)], []) if i % 3 else ([], [(spot, name)])), valid=i % 4 != 1)


CROWDS = (crowd_placed, crowd_noted, crowd_both, crowd_not_borne_out, crowd_apart)


def crowds(rng):
    """Many names at one place, of one grade or of several, with skip amounts about their number."""
    scenes = []
    for make, count in product(CROWDS, (1, 2, 3, 5, 9, 24)):
        names = some_names(rng, count)
        stage = Stage()
        make(stage, at(rng.randrange(3)), names)
        scenes.append(stage.scene("crowds", 8, found(), (None, rng.randrange(3), count - 1, count)))
    for first, second in product(CROWDS, repeat=2):
        names = some_names(rng, 12)
        stage = Stage(False)
        first(stage, at(1), names[:5])
        second(stage, at(1), names[4:])
        scenes.append(stage.scene("crowds", 8, found(), (None, 4, 5, 7, 8)))
    return scenes


def large_crowds(rng):
    """A hundred and more names at one place, in an order that is not that of their bytes."""
    scenes = []
    for make, count, spot in ((crowd_placed, 250, at(0)), (crowd_noted, 140, at(0)), (crowd_both, 140, at(0)), (crowd_noted, 140, past(0))):
        names = [b"%x" % (n * 7919 % 1009) for n in range(1, count + 1)]
        stage = Stage()
        make(stage, spot, names)
        scenes.append(stage.scene("crowds", 3, found(), (None, count - 1, count)))
    return scenes


def low_bits(rng):
    """Names noted at addresses of the same low 16 bits, in the image and far past it, and a symbol in the image; two such targets past the end."""
    scenes = []
    for (placed, led), near, far in product(((None, False), (True, False), (True, True), (False, False), (False, True)), (None, True, False), (True, False)):
        stage = Stage()
        if placed is not None:
            stage.routine([(at(1), b"P")], [(at(1 - 0x10000), b"P")] if led else [], placed)
        if near is not None:
            stage.routine([], [(at(1), b"P"), (past(0), b"Z")], near)
        stage.routine([], [(at(1 - 0x10000), b"P"), (past(-0x10000), b"Z"), (past(-0x10000), b"Y")], far)
        scenes.append(stage.scene("low bits", 4, found(), (None, 1, 2)))
    return scenes


def orders(rng):
    """Names that differ in one byte or in length alone, in several orders of the file; the bytes of ASCII in order."""
    families = ((b"", b"A", b"AA", b"AAA"), (b"A", b"B", b"AB", b"BA"), (b"Z", b"a", b"_", b"?"), (b"N1", b"N10", b"N2", b"N"), (b"a" * 40, b"a" * 41, b"a" * 39 + b"b", b"b"),
                (b"A ", b"A", b"A!", b"A\x7f"), (b"\x01", b"\x02", b" ", b"\x7f"))
    scenes = []
    for family, make in product(families, CROWDS[:4]):
        names = list(family)
        rng.shuffle(names)
        stage = Stage(rng.random() < 0.5)
        make(stage, at(0), names)
        scenes.append(stage.scene("orders", 3, found((MINIMUM,), (int(rng.random() < 0.5),)), (None, 3, 4)))
    return scenes


def borne_out(rng):
    """Several references of one match: which of them leads to a symbol that is placed there by a valid match, by one that is not, is dropped there, is
    another's name, or is not there; a reference to the symbol itself."""
    scenes = []
    goals = {"valid": (at(1), b"V"), "invalid": (at(2), b"I"), "name": (at(1), b"W"), "beside": (at(3), b"V"), "self": (at(0), b"S"), "other": (at(4), b"T"),
             "end": (past(0), b"V"), "low bits": (at(1 - 0x10000), b"V")}
    for chosen in chain(product(goals, repeat=1), product(goals, repeat=2)):
        stage = Stage(rng.random() < 0.5)
        stage.routine([(at(0), b"S")], [goals[goal] for goal in chosen], rng.random() < 0.8)
        stage.routine([(at(1), b"V")])
        stage.routine([(at(2), b"I"), (at(4), b"T")], [], False)
        scenes.append(stage.scene("borne out", 6, found((MINIMUM,), (int(rng.random() < 0.7),)), (None, 1)))
    return scenes


def failing(rng):
    """Matches that fail a check: their symbols are not there, and bear nothing out, but what they noted stays noted; with and without checking."""
    scenes = []
    for first, second, valid in product((True, False), repeat=3):
        stage = Stage()
        stage.routine([(at(0), b"P")], [(at(1), b"Q"), (past(1), b"R")], valid, first)
        stage.routine([(at(1), b"Q"), (at(0), b"P")], [(at(0), b"P"), (past(1), b"A")], not valid, second)
        stage.routine([(at(2), b"T")], [(at(1), b"Q")])
        scenes.append(stage.scene("failing", 5, found((MINIMUM,), BOTH_CHECKS), FEW))
    return scenes


def tails(rng):
    """References that cannot be read: at the image's end and past it. Without checking they note nothing, and lower no grade."""
    scenes = []
    for kind, place, n, led in product((RELATIVE, WORD), (1, 2, 3, 9), (3, 4, 6), (0, 1)):
        fixups = [Fixup(place, kind, TO_NAME, 1), Fixup(1, RELATIVE, TO_NAME, 2)]
        image = (b"\x61" + bytes((led,)) + b"\0" * 9)[:n]
        parts = [code(1, b"\x61", [(0, b"P"), (2, b"F")], fixups)]
        scenes.append(scene("tails", image, parts, found((1,), BOTH_CHECKS), [b"E", b"F"], (rng.choice((None, 1)),)))
    return scenes


def twins(rng):
    """A name placed twice at one position: the first decides about validity and references."""
    scenes = []
    for valid, other, led, also in product((True, False), (True, False), REFERENCES, ("none", "beside")):
        stage = Stage()
        stage.routine([(at(0), b"P")], [(address, b"HELP") for address in REFERENCES[led]], valid)
        stage.routine([(at(0), b"P"), (at(0), b"O")], [(address, b"HELP") for address in REFERENCES[also]], other)
        stage.routine([(at(HELPER), b"HELP")])
        scenes.append(stage.scene("twins", 64, found(), (None, rng.randrange(3))))
    return scenes


def renoted(rng):
    """A name noted again at a place by matches of other validity, in the image and past its end; its first noting gives its order and its place."""
    scenes = []
    for address, flags in product((at(0), past(0), exactly(-2)), product((True, False), repeat=3)):
        stage = Stage(False)
        for valid, names in zip(flags, ((b"Z", b"M"), (b"A", b"Z"), (b"M", b"B", b"A"))):
            stage.routine([], [(address, name) for name in names], valid)
        scenes.append(stage.scene("renoted", rng.randrange(1, 4), found(), (None, 2, 3, 4)))
    return scenes


def targets_past(rng):
    """Several targets past the end with several names each, in no order of bytes, and some not valid: those that only the skip test counts."""
    scenes = []
    places = (past(0), past(1), past(7), exactly(0xFFFF), exactly(-1), exactly(-2), exactly(-65535))
    for count, room in product((1, 2, 3, 5, 8), (1, 2, 5, 300)):
        for _ in range(2):
            stage = Stage(rng.random() < 0.5)
            names = some_names(rng, 9)
            for valid in rng.choice(((True, False), (False, True), (True, True), (True, False, True), (False,))):
                chosen = [(rng.choice(places[:count]), rng.choice(names)) for _ in range(2 * count)]
                stage.routine([(at(0), rng.choice(names))] if rng.random() < 0.4 else [], chosen, valid)
            scenes.append(stage.scene("past the end", room, found(), (*FEW, 3)))
    return scenes


def counted_past(rng):
    """So many valid names and so many others at one target past the end, and skip amounts about both numbers."""
    scenes = []
    for address, valid, others in product((past(0), exactly(-1)), (0, 1, 2, 5), (0, 1, 3)):
        names = some_names(rng, valid + others)
        stage = Stage()
        if others:
            stage.routine([], [(address, name) for name in names[valid:]], False)
        if valid:
            stage.routine([], [(address, name) for name in names[:valid]])
        both = valid + others
        scenes.append(stage.scene("past the end", 2, found(), sorted({0, valid, max(0, both - 1), both, both + 1}) + [None]))
    return scenes


def small(rng):
    """Images of 0 to 9 bytes: nothing in them, a name at each place, targets at the end and past it."""
    scenes = []
    for n, distance, minimum in product(range(10), (0, 2, 0x7F, 0xFF), (0, 2)):
        parts = [code(1, b"\x77", [(0, b"P")], [Fixup(1, RELATIVE, TO_NAME, 1), Fixup(1, RELATIVE, TO_NAME, 2, 3)]),
                 code(2, b"\x77\0", [(1, b"E")], [Fixup(1, RELATIVE, TO_NAME, 2)])]
        image = (b"\x77" + bytes((distance,)) + b"\0\x77\0\x77" + bytes((distance,)) + b"\0\0")[:n]
        asks = found((minimum,), (int(rng.random() < 0.6),))
        scenes.append(scene("small", image, parts, asks, [b"E", b"P"], (None, rng.randrange(3))))
    return scenes


def calls(rng):
    """Segments that refer to one another and to names, in a chain and in a ring, with a byte of one reference changed."""
    scenes = []
    for count, ring, broken in product((2, 3, 5), (False, True), (None, 0, 1)):
        image, parts = bytearray(b"\xee"), []
        for i in range(count):
            led = 1 + 4 * ((i + 1) % count) if ring or i + 1 < count else 0x1234
            image += bytes((0x12, 0, 0, 0x40 + i)) if i == broken else bytes((0x12, led >> 8, led & 0xFF, 0x40 + i))
            parts.append(code(i + 1, bytes((0x12, 0, 0, 0x40 + i)), [(0, b"F%d" % i), (3, b"L%d" % i)], [Fixup(1, WORD, TO_NAME, (i + 1) % count + 1)]))
            if i:
                parts.append(code(count + i + 1, bytes((0x40 + i - 1, 0x12)), [(1, b"F%d" % i)], [Fixup(2, WORD, TO_SEGMENT, (i + 1) % count + 1)]))
        asks, names = found((2, 3), BOTH_CHECKS), [b"F%d" % i for i in range(count)]
        scenes.append(scene("calls", image, parts, asks, names, (rng.choice((None, 1)),)))
    return scenes


SWEEPS = (document, states, single_states, crowds, large_crowds, low_bits, orders, borne_out, failing, tails, twins, renoted, targets_past, counted_past, lengths,
          descriptions, small, calls)
