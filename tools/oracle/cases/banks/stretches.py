"""What is withheld of a file with banks: stretches by the offsets of the file, of every sort that a view can show of them."""
from model.banks import PART, banks_in
from model.run import MOST_STRETCHES


def clipped(file, start, end):
    """The stretch from one offset to another, as far as the file goes."""
    start, end = max(0, start), min(len(file), end)
    return start, max(0, end - start)


def few(rng, scene, first, last):
    """Some bytes about a spot between two offsets."""
    spot = rng.choice([at for at in scene.spots if first <= at < last] or [first]) + rng.choice((-1, 0, 0, 0, 1))
    return clipped(scene.file, spot, spot + rng.choice((1, 1, 2, 3, 40)))


def in_common(rng, scene):
    return few(rng, scene, 0, PART)


def whole_common(rng, scene):
    return 0, PART


def over_border(rng, scene):
    """Over the border of the common part and bank 0."""
    return clipped(scene.file, PART - rng.choice((1, 2, 3, 70)), PART + rng.choice((1, 2, 3, 70)))


def bank_start(rng, scene):
    return PART * (1 + rng.randrange(banks_in(scene.file)))


def in_bank(rng, scene):
    first = bank_start(rng, scene)
    return few(rng, scene, first, first + PART)


def whole_bank(rng, scene):
    return bank_start(rng, scene), PART


def over_banks(rng, scene):
    """From one bank into another one, or to the end of it."""
    first, last = sorted(bank_start(rng, scene) for _ in range(2))
    return clipped(scene.file, first + rng.choice((0, 1, 4, 0x14, PART - 1)), last + rng.choice((1, 5, 0x14, 0x24, PART)))


def from_common(rng, scene):
    """From the common part over one bank or several."""
    return clipped(scene.file, PART - rng.choice((1, 2, 0x20, 0x7F00, PART)), bank_start(rng, scene) + rng.choice((1, 3, 0x14, PART)))


def empty(rng, scene):
    size = len(scene.file)
    return rng.choice((0, 1, PART - 1, PART, PART + 1, 2 * PART, size - 1, size, rng.choice(scene.spots), rng.randrange(size + 1))), 0


def at_end(rng, scene):
    """The last bytes of the file, one after its middle, and the empty stretch behind it."""
    size = len(scene.file)
    return rng.choice(((size - 1, 1), (size - 3, 3), (size - PART, PART), (size // 2, size - size // 2), (size, 0)))


def all_of_it(rng, scene):
    return 0, len(scene.file)


SORTS = (in_common, in_common, whole_common, over_border, in_bank, in_bank, in_bank, whole_bank, over_banks, from_common, empty, at_end, all_of_it)
SMALL = (in_common, over_border, in_bank, in_bank, in_bank, over_banks, from_common, empty, at_end)


def some_of(rng, scene, count):
    return [rng.choice(SMALL)(rng, scene) for _ in range(count)]


def pieces(rng, stretch):
    """The same bytes by stretches that meet or overlap, in any order, with an empty one."""
    start, length = stretch
    cut = rng.randrange(length + 1)
    found = [(start, cut + (cut < length and rng.randrange(2))), (start + cut, length - cut), (start + cut, 0)]
    rng.shuffle(found)
    return found


def covers(rng, scene):
    """One stretch of each sort; then several, up to 16, and the same bytes by one stretch and by several."""
    found = [[sort(rng, scene)] for sort in SORTS]
    found += [some_of(rng, scene, count) for count in (2, 3, MOST_STRETCHES - 1, MOST_STRETCHES)]
    one = rng.choice((over_border, from_common, over_banks))(rng, scene)
    found += [[one], pieces(rng, one)]
    inside = [at for at in scene.spots if at < len(scene.file)]
    found.append([(at, 1) for at in rng.sample(inside, min(MOST_STRETCHES, len(inside)))])
    return found
