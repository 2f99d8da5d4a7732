"""What is said of one tile: each kind of damage, the worked tiles of SPEC 10, and hurt bytes at the small sizes."""

from expected.reel import record
from expected.reels.made import DAMAGE, Case, damaged, good, hurt, joined, one_byte_hurt
from expected.sizes import NEW, OLD
from expected.tile import parsed, places, tile_length
from expected.tiles import OLD_L, OLD_P, OLD_REPAIRED, REPAIRED, WRITTEN, ones

# Sizes and slopes at which hurt bytes are tried, of new tiles and of old ones.
TRIED = ((NEW, 5, 2), (NEW, 5, 3), (NEW, 7, 3), (NEW, 7, 5), (OLD, 7, 2), (OLD, 7, 4))


def numbered(p, l, tiles, kind=NEW):
    """A reel of these tiles, numbered from 0."""
    return b"".join(record(n, p, l, tile, kind) for n, tile in enumerate(tiles))


def listed(p, l, states):
    """The listing of a reel of tiles in these states."""
    return "\n".join([*(f"{n} {p} {l} {state}" for n, state in enumerate(states)), f"end {len(states)}"])


def each_state():
    """Each state on one reel; and a tile refused 5, or 8, first, in the middle and last: it is counted, and the listing goes on."""
    p, l = 11, 2
    states = dict(zip(DAMAGE, ("clean", "cell 9 3", "column 5", "row 3", *["refused 5"] * 3), strict=True))
    tiles = [damaged(kind, p, l) for kind in states]
    yield Case("each state", numbered(p, l, tiles), listed(p, l, states.values()))
    yield Case("each state, from the last", numbered(p, l, tiles[::-1]), listed(p, l, [*states.values()][::-1]))
    whole, refused = good(p, l), damaged("two rows", p, l)
    for place in range(3):
        tiles, said = [whole] * 3, ["clean"] * 3
        tiles[place], said[place] = refused, "refused 5"
        yield Case(f"a tile refused 5 as number {place} of 3", numbered(p, l, tiles), listed(p, l, said))
    yield Case("one tile refused 5", numbered(p, l, [refused]), listed(p, l, ["refused 5"]))
    clean, doubtful = (ones(OLD_REPAIRED[n][0], OLD_P) for n in (17, 14))
    for place in range(3):
        tiles, said = [clean] * 3, ["clean"] * 3
        tiles[place], said[place] = doubtful, "refused 8"
        yield Case(f"a tile refused 8 as number {place} of 3", numbered(OLD_P, OLD_L, tiles, OLD), listed(OLD_P, OLD_L, said))


def worked_tiles():
    """The worked tiles 1 to 8, each on a reel of its own and all on one. The sums of tiles 2 and 3 are not zero, and they are clean."""
    tiles = {n: (parsed(tile), "clean") for n, (_, tile, _) in WRITTEN.items()}
    tiles |= {n: (ones(before), answer) for n, (before, answer, _) in REPAIRED.items()}
    assert list(tiles) == list(range(1, 9))
    for n, (tile, answer) in tiles.items():
        yield Case(f"worked tile {n}", record(n, 5, 2, tile), f"{n} 5 2 {answer}\nend 1")
    lines = [f"{n} 5 2 {answer}" for n, (_, answer) in tiles.items()]
    reel = b"".join(record(n, 5, 2, tile) for n, (tile, _) in tiles.items())
    yield Case("worked tiles 1 to 8", reel, "\n".join([*lines, "end 8"]))


def worked_old_tiles():
    """The worked tiles 14, 16 and 17, each on a reel of its own and all on one: doubtful, a cell, and clean. Taken for new ones they are
    refused for their slope."""
    p, l = OLD_P, OLD_L
    tiles = {n: (ones(before, p), answer) for n, (before, answer, _) in OLD_REPAIRED.items()}
    for n, (tile, answer) in tiles.items():
        yield Case(f"worked tile {n}", record(n, p, l, tile, OLD), f"{n} {p} {l} {answer}\nend 1")
        yield Case(f"worked tile {n}, taken for new", record(n, p, l, tile, NEW), "stopped 2 0")
    lines = [f"{n} {p} {l} {answer}" for n, (_, answer) in tiles.items()]
    reel = b"".join(record(n, p, l, tile, OLD) for n, (tile, _) in tiles.items())
    yield Case("worked tiles 14, 16 and 17", reel, "\n".join([*lines, "end 3"]))


def every_choice():
    """Old tiles of size 7, of which some bytes of a line are changed alike, in every choice of them: a cell, or the line, or doubtful."""
    for l in (2, 4):
        for line in [(kind, n) for kind in ("column", "row") for n in range(6)]:
            tiles = []
            for choice in range(1, 2**6):
                tile = good(7, l)
                for n, k in enumerate(places(7, line)):
                    tile = one_byte_hurt(tile, k, 0x41 * (choice >> n & 1))
                tiles.append(tile)
            yield Case(f"every choice of {' '.join(map(str, line))} at 7 {l}", numbered(7, l, tiles, OLD), "end 63")


def one_byte():
    """One hurt byte, in every cell: SPEC 5.3 answers with the cell."""
    for of_kind, p, l in TRIED:
        for change in (0x01, 0x80, 0xFF):
            tiles = [one_byte_hurt(good(p, l), k, change) for k in range(tile_length(p))]
            said = listed(p, l, [f"cell {i} {j}" for i in range(p - 1) for j in range(p - 1)])
            yield Case(f"one byte at {p} {l} changed by {change:02X}", numbered(p, l, tiles, of_kind), said)


def one_or_two():
    """The first byte of each line hurt, the last one, and both by the same change: two cells, and then the line (SPEC 5.3)."""
    for of_kind, p, l in (*TRIED, (NEW, 11, 7), (NEW, 23, 5), (OLD, 23, 2)):
        for kind in ("column", "row"):
            tiles, states = [], []
            for n in range(p - 1):
                first, *_, last = places(p, (kind, n))
                hurt_first, hurt_last = (one_byte_hurt(good(p, l), k) for k in (first, last))
                tiles += [hurt_first, hurt_last, one_byte_hurt(hurt_first, last)]
                states += ["cell {} {}".format(*divmod(k, p - 1)) for k in (first, last)] + [f"{kind} {n}"]
            yield Case(f"one byte and two of each {kind} at {p} {l}", numbered(p, l, tiles, of_kind), listed(p, l, states))


def two_bytes():
    """Every two bytes changed alike, at 5 and at 7: in a column, in a row, or in two lines, which one line may explain all the same."""
    for of_kind, p, l in ((NEW, 5, 2), (NEW, 5, 3), (NEW, 7, 3), (OLD, 7, 2)):
        for first in range(tile_length(p)):
            once = one_byte_hurt(good(p, l), first)
            tiles = [one_byte_hurt(once, second) for second in range(tile_length(p))]
            yield Case(f"byte {first} and each other at {p} {l}", numbered(p, l, tiles, of_kind), f"end {len(tiles)}")


def every_line():
    """Each column and each row hurt, in all its bytes."""
    for of_kind, p, l in (*TRIED, (NEW, 11, 7), (NEW, 23, 5), (OLD, 23, 2)):
        for kind in ("column", "row"):
            tiles = [hurt(good(p, l), p, (kind, n)) for n in range(p - 1)]
            said = listed(p, l, [f"{kind} {n}" for n in range(p - 1)])
            yield Case(f"each {kind} at {p} {l}", numbered(p, l, tiles, of_kind), said)


def many_tiles():
    """2,520 tiles of size 5, their damage of all kinds: 65,520 bytes. Also so many that the count gains a digit."""
    for count in (9, 10, 11, 99, 100, 101, 999, 1000, 1001, 2520):
        yield Case(f"{count} tiles", joined([5] * count), f"end {count}")
