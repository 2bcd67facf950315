"""What is listed, for its printed form: names of every length, and descriptions."""
from itertools import product

from cases.listing.scenes import Stage, at, exactly, found, past
from model.listing import INTO, MEMORIES, MOVES, OPERATIONS, SIGNS, TYPES


def runs(found, size):
    return [found[i:i + size] for i in range(0, len(found), size)]


def lengths(rng):
    """Names of many lengths under every grade, in the image and past its end."""
    scenes = []
    for n, described in product((0, 1, 2, 17, 18, 19, 20, 21, 22, 23, 24, 40, 100, 255), (False, True)):
        name = b"?C?SFPSTKPDATA0".ljust(n, b"_")[:n] if described else bytes(97 + i % 26 for i in range(n))
        stage = Stage()
        stage.routine([(at(0), name), (at(1), name)], [(at(1), name)])
        stage.routine([(at(2), name)], [(past(0), b"NOWHERE")])
        stage.routine([], [(at(3), name), (past(0), name), (exactly(-9), name), (at(4), name)], rng.random() < 0.9)
        stage.routine([(at(4), name + b"+" if n < 255 else b"+")])
        scenes.append(stage.scene("lengths", 5, found(), (None, 0, 1)))
    return scenes


def descriptions_of(names, rng):
    """Each name at a place of its own, one in four only noted there; its description does not depend on that."""
    stage = Stage()
    spots = [(at(i), name) for i, name in enumerate(names)]
    stage.routine([each for i, each in enumerate(spots) if i % 4])
    stage.routine([], spots[::4])
    return stage.scene("descriptions", len(names), found(), (None, rng.randrange(2)))


def descriptions(rng):
    """Every word of a description, in every combination of sign, type and operation; of moves and memories with some signs and types; names cut short, with
    something behind, with a byte changed."""
    signs = (b"", *SIGNS)
    names = [b"?C?" + b"".join(each) for each in product(signs, TYPES, OPERATIONS)]
    names += [b"?C?" + rng.choice(signs) + rng.choice(list(TYPES)) + b"".join(each) for each in product(MOVES, MEMORIES, (b"", *INTO))]
    whole = (b"?C?L0LDPTR0", b"?C?ULDIV", b"?C?SFPSTKOPTR0", b"?C?CLDIDATA", b"?C?CLDIXDATA", b"?C?CILDCODE0")
    names += [name[:n] for name in whole for n in range(len(name))]
    names += [name + more for name in whole for more in (b"0", b"00", b"X", b"?C?LADD", b" ")]
    names += [name[:i] + bytes((name[i] ^ 0x20,)) + name[i + 1:] for name in whole[:4] for i in range(len(name))]
    names += [b"?C?" + b"".join(rng.choice(list(words)) for words in rng.sample((SIGNS, TYPES, OPERATIONS, MOVES, MEMORIES, INTO), 4)) for _ in range(60)]
    names = list(dict.fromkeys(names))
    rng.shuffle(names)
    return [descriptions_of(some, rng) for some in runs(names, 12)]
