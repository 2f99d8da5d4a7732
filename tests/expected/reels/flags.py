"""Flagged records (SPEC 7.1): flags at both sides of each edge, and tiles that are restored by their flags (SPEC 7.6)."""

from itertools import product
from random import Random

from expected.done import lines
from expected.flag import flag_of
from expected.reel import record
from expected.reels.made import LOST, SORTS, Case, all_sorts, flagged, good, hurt, one_byte_hurt
from expected.reels.tiles import listed
from expected.sizes import HOUSE, OLD_SLOPES, SLOPES
from expected.tile import places, tile_length

# Sizes and slopes at which every two lines are tried.
TRIED = ((5, 2), (5, 3), (7, 3), (7, 5), (11, 2))
# What is done to a good tile of size p of which these lines are flagged.
ON_LINES = {
    "garbage on": lambda p, tile, lost: hurt(tile, p, *lost),
    "00 on": lambda p, tile, lost: lines(0x00, *lost).to(p, tile),
    "FF on": lambda p, tile, lost: lines(0xFF, *lost).to(p, tile),
    "nothing on": lambda p, tile, lost: tile,
    "a cell beside": lambda p, tile, lost: hurt(tile, p, *lost, ("cell", *cell_beside(p, lost))),
}


def taken(p):
    """At each edge the flags that a record of size p can carry."""
    return 0, p - 2, 0x8000, 0x8000 + p - 2, 0xFFFF


def other(p):
    """At each edge the flags that it cannot carry."""
    return p - 1, 0x7FFF, 0x8000 + p - 1, 0xFFFE


def two_flags():
    """Every two of these at size 5. Where one of them cannot be carried, a good tile and good records stand behind it: the listing must not
    go on. All those that can be stand on one reel, with garbage for their tiles."""
    p, l, before = 5, 2, all_sorts([5, 7])
    for flags in product(taken(p) + other(p), repeat=2):
        if not {*flags} <= {*taken(p)}:
            reel = before + record(7, p, l, good(p, l), flags=flags) + before
            yield Case("flags {:04X} and {:04X}".format(*flags), reel, f"stopped 4 {len(before)}")
    drawn = Random(8)
    pairs = list(product(taken(p), repeat=2))
    reel = b"".join(record(n, p, l, drawn.randbytes(tile_length(p)), flags=flags) for n, flags in enumerate(pairs))
    yield Case("every two flags that are carried", reel, "end 25")


def lone_flags():
    """Each of them at other sizes, as the first flag, as the second and as both, in a header alone: what cannot be carried is refused, and
    for what can be, it is the tile that is missing."""
    for p in (7, 257):
        for flag in taken(p) + other(p):
            for flags in ((flag, 0xFFFF), (0xFFFF, flag), (flag, flag)):
                header = record(7, p, HOUSE[p], b"", flags=flags)
                number = 7 if flag in taken(p) else 4
                yield Case("flags {:04X} and {:04X} at {}".format(*flags, p), header, f"stopped {number} 0")


def each_kind():
    """Each kind of a flagged tile on a reel of its own, and one that is refused 5 first, in the middle and last: the listing goes on."""
    p, l = 17, 3
    for name, of in LOST.items():
        yield Case(name, flagged(7, p, l, of(p)), f"7 {p} {l} {of(p).said}\nend 1")
    for place in range(3):
        names = ["a row with a column"] * 3
        names[place] = "a line, and a cell beside it"
        lost = [LOST[name](p) for name in names]
        reel = b"".join(flagged(n, p, l, one) for n, one in enumerate(lost))
        yield Case(f"a flagged tile refused 5 as number {place} of 3", reel, listed(p, l, [one.said for one in lost]))


def every_pair(p):
    """Every two of a tile's lines in either order, each line twice, each alone with None before it or behind it, and None twice."""
    return list(product([*product(("row", "column"), range(p - 1)), None], repeat=2))


def cell_beside(p, lost):
    """The first cell that is on none of these lines, by its row and its column."""
    on_them = {k for line in lost for k in places(p, line)}
    return divmod(min(k for k in range(tile_length(p)) if k not in on_them), p - 1)


def said_beside(p, l, lost, cell):
    """What is said where these lines are flagged and a cell is hurt beside them. Without a flag it is told. Two rows, and two columns, are
    filled whatever stands beside them (SPEC 5.4), and one line is not (SPEC 4.5). A row with a column is filled where the two diagonals
    through the crossing have one sum (SPEC 5.8), which the cell spoils if it stands on one of them."""
    i, j = cell
    if not lost:
        return f"cell {i} {j}"
    numbers = dict(lost)
    if len(numbers) == 1:
        return "refused 5" if len({*lost}) == 1 else "filled"
    row, column = numbers["row"], numbers["column"]
    spoilt = any((i + s * j - row - s * column) % p == 0 for s in (1, l))
    return "refused 5" if spoilt else "filled"


def every_two_lines():
    """Every two lines of a small tile flagged, and each alone. What stands on them makes no difference: all are filled, and where there is
    no flag the tile is clean. With a cell hurt beside them it depends."""
    for (p, l), (name, done) in product(TRIED, ON_LINES.items()):
        reel, states = [], []
        for n, pair in enumerate(every_pair(p)):
            lost = [line for line in pair if line]
            reel.append(record(n, p, l, done(p, good(p, l), lost), flags=map(flag_of, pair)))
            unhurt = "filled" if lost else "clean"
            states.append(said_beside(p, l, lost, cell_beside(p, lost)) if name == "a cell beside" else unhurt)
        yield Case(f"{name} every two lines at {p} {l}", b"".join(reel), listed(p, l, states))


def drawn_record(drawn, n):
    """A pseudo-random record of any sort. Its tile has garbage on two lines, one or none, which are flagged if it has room for flags; and
    one byte may be hurt anywhere."""
    sort, p = drawn.choice(list(SORTS)), drawn.choice((5, 7, 11, 13, 17))
    l = drawn.choice(SLOPES[p] + OLD_SLOPES[p] if sort == "OLD" else SLOPES[p])
    pair = drawn.choice(every_pair(p))
    tile = hurt(good(p, l), p, *filter(None, pair))
    if drawn.randrange(3) == 0:
        tile = one_byte_hurt(tile, drawn.randrange(len(tile)))
    told = {"flags": map(flag_of, pair)} if sort == "FLAGGED" else SORTS[sort]
    return record(n, p, l, tile, **told)


def drawn_reels():
    """Reels of ten such records."""
    drawn = Random(9)
    for attempt in range(40):
        reel = b"".join(drawn_record(drawn, n) for n in range(10))
        yield Case(f"pseudo-random records, {attempt}", reel, "end 10")
