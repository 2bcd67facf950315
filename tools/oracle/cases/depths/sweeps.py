"""What is checked to a depth, gone through one by one: chains of segments that break at each link, in each way; rings; several references of which one fails
deep; chains that meet; like-named symbols of which the first one is dropped; places at which everything matches; chains over a large image."""
from dataclasses import dataclass
from itertools import product

from cases.depths.boards import KINDS, SIZES, Board, Part, Ref
from cases.records import RELATIVE, TO_NAME, TO_SEGMENT, WORD, Fixup
from cases.searching.scenes import code, scene

LONGEST_CHAIN = 6
# How the k-th link of a chain breaks: its reference leads beside the next segment, or that one does not stand there, or a byte of it is withheld; or the k-th
# segment has a reference to itself or to a name whose bytes pass the image's end, or of which one is withheld.
BESIDE, ABSENT, HIDDEN = "beside", "absent", "hidden"
PAST, NAME_PAST, WITHHELD, NAME_WITHHELD = "past", "name past", "withheld", "name withheld"
WAYS = (BESIDE, PAST, NAME_PAST, WITHHELD, NAME_WITHHELD)
TO_NEXT = (ABSENT, HIDDEN)


@dataclass
class Deep:
    """A scene, and what is withheld of it."""
    kind: str
    image: bytes
    library: bytes
    stretches: tuple = ()


def kind(rng):
    return rng.choice(KINDS)


def some_names(rng, count):
    """References to names: those of segments, which they mostly lead to, and others, to places in the image and past it."""
    names = [b"S%d" % i for i in range(1, count + 1)] + [b"f", b"X", b"?C?LADD"]
    return [Ref(rng.choice(KINDS[:2]), rng.choice(names), rng.choice((None, None, None, rng.randrange(60)))) for _ in range(rng.choice((0, 0, 1, 1, 2)))]


def linked(rng, n):
    """Segments of which each refers to the next, with names in some of them. Many have a symbol of their own name, and one of a name that others have too."""
    parts = []
    for i in range(1, n + 1):
        refs = some_names(rng, n) + ([Ref(kind(rng), i + 1)] if i < n else [])
        rng.shuffle(refs)
        symbols = [(0, b"S%d" % i)] + ([(rng.choice((0, 1)), b"f")] if rng.random() < 0.5 else [])
        parts.append(Part(i, refs, symbols))
    return parts


def put(rng, refs, ref):
    """Before all others or behind them."""
    refs.insert(rng.choice((0, len(refs))), ref)


def broken(rng, parts, k, way):
    """The chain with its k-th link broken."""
    part = parts[k - 1]
    to_next = [r for r in part.refs if r.goal == k + 1]
    if way == BESIDE and to_next:
        to_next[0].aim = rng.choice((1, -1))
    elif way == BESIDE:
        put(rng, part.refs, Ref(kind(rng), k, 1))
    elif way == ABSENT:
        parts[k].spoilt = rng.choice((0, -1))
    elif way in (PAST, WITHHELD):
        put(rng, part.refs, Ref(kind(rng), k, behind=True))
    elif way in (NAME_PAST, NAME_WITHHELD):
        put(rng, part.refs, Ref(kind(rng), b"X", 3, True))
    return part


def behind_bytes(part, at):
    """Where the bytes of a reference behind a pattern are, and how many."""
    ref, location = next((r, p) for r, p in zip(part.refs, part.locations()) if r.behind)
    return at + location, SIZES[ref.kind]


def shown(rng, name, parts, failing=None, way=None, head=False):
    """The parts in some order in the image; one whose reference passes the end stands last."""
    if head:
        parts = parts + [Part(0, [Ref(kind(rng), 1)], [(0, b"ABS"), (1, b"f")])]
    order = rng.sample(parts, len(parts))
    if way in (PAST, NAME_PAST):
        order.remove(failing)
        order.append(failing)
    board = Board(parts)
    laid, size = board.laid(order, rng.choice((0, 0, 1, 2)), rng.choice((0, 0, 1, 3)))
    places = {part.id: at for part, at in laid}
    stretches = ()
    if way in (PAST, NAME_PAST):
        start, count = behind_bytes(failing, places[failing.id])
        size = start + rng.randrange(count)
    elif way in (WITHHELD, NAME_WITHHELD):
        start, count = behind_bytes(failing, places[failing.id])
        stretches = ((start + rng.randrange(count), 1),)
    elif way == HIDDEN:
        following = next(part for part in parts if part.id == failing.id + 1)
        stretches = ((places[following.id] + rng.randrange(len(following.data())), 1),)
    return Deep(name, board.image(laid, size), board.library(laid), stretches)


def chains(rng):
    found = [shown(rng, "chains", linked(rng, n), head=rng.random() < 0.3) for n in range(1, LONGEST_CHAIN + 1)]
    for n in range(1, LONGEST_CHAIN + 1):
        for k, way in product(range(1, n + 1), WAYS + TO_NEXT):
            if way in WAYS or k < n:
                parts = linked(rng, n)
                failing = broken(rng, parts, k, way)
                found.append(shown(rng, "chains", parts, failing, way, rng.random() < 0.2))
    return found


def rings(rng):
    """The last segment of a chain refers to each of them, itself too; whole, and broken somewhere."""
    found = []
    for n in range(1, 6):
        for back, way in product(range(1, n + 1), (None, BESIDE, rng.choice(WAYS[1:]))):
            parts = linked(rng, n)
            put(rng, parts[-1].refs, Ref(kind(rng), back))
            failing = broken(rng, parts, rng.randrange(1, n + 1), way) if way else None
            found.append(shown(rng, "rings", parts, failing, way))
    return found


def forks(rng):
    """A segment that refers to the heads of two or three chains, of which one or two break, each at a place of its own: the first that fails differs by depth."""
    found = []
    for lengths in product((1, 2, 3, 4), repeat=2):
        lengths += (rng.randrange(1, 4),) if rng.random() < 0.5 else ()
        parts, heads = [Part(1, [], [(0, b"S1"), (0, b"f")])], []
        for n in lengths:
            heads.append(len(parts) + 1)
            for i in range(n):
                parts.append(Part(len(parts) + 1, [Ref(kind(rng), len(parts) + 2)] if i + 1 < n else [], [(0, b"S%d" % (len(parts) + 1))]))
        parts[0].refs = [Ref(kind(rng), head) for head in heads]
        for head, n in rng.sample(list(zip(heads, lengths)), rng.choice((1, 1, 2))):
            broken(rng, parts, head + rng.randrange(n), BESIDE)
        found.append(shown(rng, "forks", parts, head=rng.random() < 0.2))
    return found


def meetings(rng):
    """Each segment refers to some later ones and now and then to an earlier one, so that one match is asked for at several depths; the last one mostly fails."""
    found = []
    for n, _ in product((3, 4, 5, 6), range(5)):
        parts = linked(rng, n)
        for part in parts[:-1]:
            put(rng, part.refs, Ref(kind(rng), rng.randrange(part.id + 1, n + 1)))
            if rng.random() < 0.2:
                put(rng, part.refs, Ref(kind(rng), rng.randrange(1, part.id + 1)))
        way = rng.choice((None,) + WAYS)
        failing = broken(rng, parts, n, way) if way else None
        found.append(shown(rng, "meetings", parts, failing, way))
    return found


def twins(rng):
    """Two or three segments of one beginning, with symbols of one name at one place: the first one's chain breaks, and then a later one's symbol comes in, of a
    longer or a shorter pattern. So at a greater depth a line can come that was not there."""
    found = []
    for n, sizes in product((1, 2, 3, 4), ((2, 2), (3, 2), (2, 3), (3, 2, 1))):
        data, chain = b"\x51\x52\x53", len(sizes) + 1
        parts = [code(i + 1, data[:size], [(0, b"f"), (i, b"g")], [Fixup(3, RELATIVE, TO_SEGMENT, chain)] if i == 0 else []) for i, size in enumerate(sizes)]
        # The byte behind the twins leads over one to the chain, as each of the chain's does to the next; the last one back to its start, or astray.
        image = bytearray(b"\xee" + data + b"\1")
        for i in range(n):
            follows = Fixup(1, RELATIVE, TO_SEGMENT, chain + (i + 1) % n)
            parts.append(code(chain + i, bytes((0x70 + i, 0)), [(0, b"C%d" % i)], [follows] + [Fixup(3, WORD, TO_NAME, 1)] * (rng.random() < 0.3)))
            image += bytes((0xEE, 0x70 + i, 1 if i + 1 < n else rng.choice((9, 9, 1 - 3 * n & 0xFF))))
        made = scene("twins", image, parts, [], [rng.choice((b"f", b"g"))])
        found.append(Deep("twins", made.image, made.library))
    return found


def copies(rng):
    """A chain stands several times in the image, whole and broken at different links; so the same segments are asked for at different places."""
    found = []
    for n in (2, 3, 4, 5):
        for count in (2, 3, 4):
            parts = linked(rng, n)
            board = Board(parts)
            laid, size = board.laid(parts * count, rng.choice((0, 1)))
            image = bytearray(board.image(laid, size))
            for _ in range(count - 1):
                image[rng.randrange(size)] ^= rng.choice((1, 0x80, 0xFF))
            found.append(Deep("copies", bytes(image), board.library()))
    return found


def everywhere(rng):
    """Segments that match at every place or at many: one byte leads to the next match, so that all places are walked over and over, out of the image too."""
    found = []
    for count, sizes, _ in product((1, 2, 3), (1, 2), range(4)):
        values = (0x61,) if sizes == 2 else ()
        parts = []
        for i in range(1, count + 1):
            data = bytes(values[:1] + (0,)) if sizes == 2 else b"\0"
            fixups = [Fixup(sizes - 1, RELATIVE, TO_SEGMENT, rng.randrange(1, count + 1)) for _ in range(rng.choice((1, 1, 2)))]
            parts.append(code(i, data, [(0, b"S%d" % i)], fixups + [Fixup(sizes, RELATIVE, TO_NAME, 1)] * (rng.random() < 0.3)))
        cells = [rng.choice((0, 1, 2, 3, 0xFC, 0xFD, 0xFE) + values * 5) for _ in range(rng.choice((6, 12, 24)))]
        made = scene("everywhere", bytes(cells), parts, [], [b"S1"])
        found.append(Deep("everywhere", made.image, made.library))
    return found


def zeros(rng):
    """Erased bytes: a segment refers to itself many times, by references that lead to the image's start, and by one that leads on until the image ends."""
    found = []
    for size, count in ((9, 1), (40, 3), (300, 20), (900, 6)):
        for on in (False, True):
            fixups = [Fixup(0, WORD, TO_SEGMENT, 1)] * count + [Fixup(2, RELATIVE, TO_SEGMENT, 1)] * on
            made = scene("zeros", bytes(size), [code(1, b"\0\0\0\0", [(0, b"Z")], fixups)], [])
            found.append(Deep("zeros", made.image, made.library))
    return found


def far(rng):
    """One segment at places that are far from one another, each leading to the next, and the last one to itself, to nothing, or past the end."""
    found = []
    for stride, last in ((256, 0), (1024, 1), (1024, 0), (2048, 1), (4096, 1), (8192, 0), (8192, 1), (13107, 1)):
        places = list(range(0, min(65533, stride * 7), stride))
        image = bytearray(places[-1] + 3)
        for at, target in zip(places, places[1:] + [places[-1] if last == 0 else 1]):
            image[at:at + 3] = bytes((0x12, target >> 8, target & 0xFF))
        parts = [code(1, b"\x12\0\0", [(0, b"F")], [Fixup(1, WORD, TO_SEGMENT, 2)]), code(2, b"\x12\0\0", [(0, b"G")], [Fixup(1, WORD, TO_SEGMENT, 1)])]
        made = scene("far", image, parts, [])
        found.append(Deep("far", made.image, made.library))
    return found


SWEEPS = (chains, rings, forks, meetings, twins, copies, everywhere, zeros, far)
