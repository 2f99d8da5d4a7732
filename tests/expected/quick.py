"""The tile calls once more, quick enough for the largest tiles. The sums are taken a whole row and a whole column at a time, and a hurt
line is found by the short way of SPEC 5.8. To fill, and to write, the equations of tests/expected/tile.py are solved. `held` compares all
of it with that slower implementation, which tries every line.

A tile is its bytes, and an answer is the text that a listing has for it."""

from functools import lru_cache
from random import Random

from expected import tile as slow
from expected.sizes import NEW, OLD, OLD_SLOPES, SLOPES

KEPT = 2048  # so many answers are kept: a large reel has many copies of few tiles


def turned(run, by):
    """The run with each byte moved up by so many places, around its end: what stood at k stands at k + by."""
    cut = len(run) - by % len(run)
    return run[cut:] + run[:cut]


def both_sums(p, l, tile):
    """SPEC 4.2: the sums of slope 1, and those of slope l, each as p bytes. Row i turned by i has each byte at its diagonal of slope 1, and
    column j turned by l times j at that of slope l; the byte added to each is that of SPEC 3.3."""
    side = p - 1
    first = second = 0
    for n in range(side):
        first ^= int.from_bytes(turned(tile[n * side : (n + 1) * side] + b"\0", n), "big")
        second ^= int.from_bytes(turned(tile[n::side] + b"\0", l * n), "big")
    return first.to_bytes(p, "big"), second.to_bytes(p, "big")


def is_good(p, l, tile):
    """SPEC 4.3."""
    first, second = both_sums(p, l, tile)
    return len({*first, *second}) == 1


def explaining(p, l, tile):
    """SPEC 5.8: the good tiles by which a column and by which a row explains a tile, at most one of each, by SPEC 4.5."""
    side = p - 1
    first, second = both_sums(p, l, tile)
    found = []
    for c in range(side):
        changes = turned(first, -c)
        if changes == turned(second, -l * c):
            made = bytearray(tile)
            for i in range(side):
                made[i * side + c] ^= changes[i] ^ changes[side]
            found.append(bytes(made))
            break
    stepped = bytes(second[l * j % p] for j in range(p))
    step = pow(l, -1, p)  # B(r + l j) is B(l (j + r / l))
    for r in range(side):
        changes = turned(first, -r)
        if changes == turned(stepped, -r * step):
            made = bytearray(tile)
            for j in range(side):
                made[r * side + j] ^= changes[j] ^ changes[side]
            found.append(bytes(made))
            break
    assert all(is_good(p, l, made) for made in found)
    return set(found)


@lru_cache(maxsize=KEPT)
def repair(p, l, tile):
    """SPEC 5.3: the answer, and the tile afterwards. The kind makes no difference once the slope is taken."""
    if is_good(p, l, tile):
        return "clean", tile
    found = explaining(p, l, tile)
    if len(found) == 1:
        (made,) = found
        return slow.difference(p, tile, made), made
    return "refused 8" if found else "refused 5", tile


@lru_cache(maxsize=KEPT)
def fill(p, l, tile, *lines):
    """SPEC 5.4, of lines that the tile has: the answer, and the tile afterwards."""
    first, second = both_sums(p, l, tile)
    filled = slow.filling_of_sums(p, l, tile, [*first, *second], lines)
    if filled is None or filled == slow.SEVERAL:
        return "refused 5" if filled is None else "refused 8", tile
    return "done", bytes(filled)


@lru_cache(maxsize=KEPT)
def written(p, l, text):
    """SPEC 5.1: the good tile that has a text."""
    side, columns = p - 1, p - 3
    laid = b"".join(text[i * columns : (i + 1) * columns] + b"\0\0" for i in range(side))
    answer, tile = fill(p, l, laid, ("column", p - 3), ("column", p - 2))
    assert answer == "done" and text_of(p, tile) == text and is_good(p, l, tile)
    return tile


def text_of(p, tile):
    """SPEC 3.2."""
    side = p - 1
    return b"".join(tile[i * side : i * side + p - 3] for i in range(side))


def added(one, other):
    """SPEC 1.1: the XOR of two runs."""
    return (int.from_bytes(one, "big") ^ int.from_bytes(other, "big")).to_bytes(len(one), "big")


def held(attempts=40):
    """Compares with the slower implementation: tiles of small sizes, with none, some and all bytes of one line or two changed."""
    drawn = Random(10)
    for attempt in range(attempts):
        p = drawn.choice((5, 7, 11, 13))
        l = drawn.choice(SLOPES[p] + OLD_SLOPES[p])
        kind = NEW if l in SLOPES[p] else OLD
        text = drawn.randbytes(slow.text_length(p))
        tile = bytearray(written(p, l, text))
        assert (kind, list(tile)) == (kind, slow.write(kind, p, l, text, [0] * len(tile))[1])
        lines = [(drawn.choice(("row", "column")), drawn.randrange(p - 1)) for _ in range(2)]
        for line in lines[: attempt % 3]:
            for k in slow.places(p, line):
                tile[k] ^= drawn.choice((0, 1, drawn.randrange(256)))
        tile = bytes(tile)
        assert is_good(p, l, tile) == slow.is_good(p, l, tile)
        assert (repair(p, l, tile)[0], list(repair(p, l, tile)[1])) == plain(slow.repair(kind, p, l, list(tile)))
        assert (fill(p, l, tile, *lines)[0], list(fill(p, l, tile, *lines)[1])) == plain(slow.fill(kind, p, l, list(tile), *lines))


def plain(answered):
    """An answer with its tile as a list."""
    answer, tile = answered
    return answer, list(tile)
