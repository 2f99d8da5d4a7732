"""The fields of a record's header (SPEC 7.1): each size, each slope, tile numbers, and the largest sizes."""

from random import Random

from expected.reel import FLAGGED_HEADER, LONGEST, NO_FLAGS, record
from expected.reels.made import DAMAGE, LOST, Case, Lost, damaged, flagged, good, hurt, one_byte_hurt
from expected.reels.tiles import listed
from expected.sizes import HOUSE, NEW, OLD, OLD_SLOPES, SIZES, SLOPES
from expected.tile import tile_length

LARGEST = 251  # the largest size that fits: 62,510 bytes


def each_size():
    """One tile of each size that fits, at its house slope: whole, with a hurt column, a hurt row and a hurt byte; and with a row and a
    column that are flagged."""
    for p in SIZES[:-1]:
        l, byte = HOUSE[p], tile_length(p) // 3
        row, column = divmod(byte, p - 1)
        tiles = (
            ("whole", good(p, l), "clean"),
            ("a column", damaged("a column", p, l), f"column {p // 2}"),
            ("a row", damaged("a row", p, l), f"row {p // 3}"),
            ("a byte", one_byte_hurt(good(p, l), byte), f"cell {row} {column}"),
        )
        for name, tile, answer in tiles:
            yield Case(f"size {p}, {name}", record(p, p, l, tile), f"{p} {p} {l} {answer}\nend 1")
        crossed = flagged(p, p, l, LOST["a row with a column"](p))
        yield Case(f"size {p}, a lost row with a lost column", crossed, f"{p} {p} {l} filled\nend 1")


def each_slope():
    """Every slope that is allowed at 11, and at 31, with each kind of damage on one reel, of new tiles, old ones and flagged ones; and the
    slopes that are not allowed, of old tiles, also at 7 and 17."""
    slopes = [(kind, p, l) for kind in (NEW, OLD) for p in (11, 31) for l in SLOPES[p]]
    slopes += [(OLD, p, l) for p in (7, 11, 17, 31) for l in OLD_SLOPES[p]]
    for kind, p, l in slopes:
        reel = b"".join(record(n, p, l, damaged(damage, p, l), kind) for n, damage in enumerate(DAMAGE))
        yield Case(f"{kind.name}, slope {l} at {p}", reel, f"{len(DAMAGE) - 1} {p} {l} refused 5\nend {len(DAMAGE)}")
    assert SLOPES[11] == [2, 6, 7, 8]
    for p, l in [(p, l) for p in (11, 31) for l in SLOPES[p]]:
        lost = [of(p) for of in LOST.values()]
        reel = b"".join(flagged(n, p, l, one) for n, one in enumerate(lost))
        yield Case(f"FLAGGED, slope {l} at {p}", reel, listed(p, l, [one.said for one in lost]))


def largest():
    """The largest size that fits: a hurt line whose number has one, two and three digits, a hurt cell, and tiles that no line explains."""
    p, l = LARGEST, HOUSE[LARGEST]
    for n in (0, 9, 10, 99, 100, 249):
        for kind in ("column", "row"):
            reel = record(n, p, l, hurt(good(p, l), p, (kind, n)))
            yield Case(f"{kind} {n} at {p}", reel, f"{n} {p} {l} {kind} {n}\nend 1")
    for row, column in ((0, 0), (9, 10), (100, 9), (10, 249), (249, 99)):
        reel = record(1, p, l, hurt(good(p, l), p, ("cell", row, column)))
        yield Case(f"cell ({row}, {column}) at {p}", reel, f"1 {p} {l} cell {row} {column}\nend 1")
    steepest = SLOPES[p][-1]
    reel = record(2**32 - 1, p, steepest, hurt(good(p, steepest), p, ("cell", 249, 249)))
    yield Case("the longest line", reel, f"4294967295 {p} {steepest} cell 249 249\nend 1")
    for kind in ("two columns", "two rows", "a row with a column"):
        yield Case(f"{kind} at {p}", record(1, p, l, damaged(kind, p, l)), f"1 {p} {l} refused 5\nend 1")
    steepest = OLD_SLOPES[p][-1]
    for name, tile, answer in (
        ("a cell", hurt(good(p, steepest), p, ("cell", 249, 249)), "cell 249 249"),
        ("two rows", damaged("two rows", p, steepest), "refused 5"),
    ):
        yield Case(f"{name} of an old tile at {p}", record(1, p, steepest, tile, OLD), f"1 {p} {steepest} {answer}\nend 1")
    garbage = Random(251).randbytes(tile_length(p))
    yield Case(f"garbage at {p}", record(1, p, l, garbage), f"1 {p} {l} refused 5\nend 1")
    yield Case(f"garbage at {p}, and a byte", record(1, p, l, garbage) + b"\xd5", "stopped 7 62510")


def largest_flagged():
    """The largest size that fits, with flags: each kind of them, lines whose number has one, two and three digits, and garbage."""
    p, l = LARGEST, HOUSE[LARGEST]
    for name, of in LOST.items():
        yield Case(f"{name} at {p}", flagged(1, p, l, of(p)), f"1 {p} {l} {of(p).said}\nend 1")
    for first, second in ((("row", 249), ("column", 99)), (("column", 249), ("row", 9))):
        yield Case(f"{first} with {second} at {p}", flagged(2, p, l, Lost(first, second)), f"2 {p} {l} filled\nend 1")
    both = 249, 0x8000 + 249
    garbage = Random(252).randbytes(tile_length(p))
    yield Case(f"garbage with flags at {p}", record(1, p, l, garbage, flags=both), f"1 {p} {l} refused 5\nend 1")
    yield Case(f"garbage with flags at {p}, and a byte", record(1, p, l, garbage, flags=both) + b"\xd5", "stopped 7 62514")
    yield Case(f"garbage with flags at {p}, less a byte", record(1, p, l, garbage, flags=both)[:-1], "stopped 7 0")


def above_largest():
    """A header of size 257 has never enough bytes behind it here."""
    header = record(1, 257, 3, b"")
    for behind in (0, 1, 16, 1000, LONGEST - len(header)):
        yield Case(f"size 257 with {behind} bytes", header + bytes(behind), "stopped 7 0")
    yield Case("size 257 behind a tile", record(1, 5, 2, bytes(16)) + header + bytes(99), "1 5 2 clean\nstopped 7 26")
    yield Case("size 257 with slope 2", record(1, 257, 2, bytes(9)), "stopped 2 0")
    yield Case("an old record of size 257 with slope 2", record(1, 257, 2, bytes(9), OLD), "stopped 7 0")
    most = LONGEST - FLAGGED_HEADER
    yield Case(f"a flagged record of size 257 with {most} bytes", record(1, 257, 3, bytes(most), flags=NO_FLAGS), "stopped 7 0")


def numbers():
    """Tile numbers at the edges of their four bytes and of their decimal digits, and numbers that repeat."""
    edges = [0, 1, 255, 256, 65535, 65536, 0x01020304, 0x7FFFFFFF, 0x80000000, 0xFFFFFFFE, 0xFFFFFFFF]
    digits = [n for power in range(1, 10) for n in (10**power - 1, 10**power)]
    for n in edges + digits:
        yield Case(f"number {n}", record(n, 5, 2, bytes(16)), f"{n} 5 2 clean\nend 1")
    lines = [f"{n} 5 2 clean" for n in edges + digits]
    reel = b"".join(record(n, 5, 2, bytes(16)) for n in edges + digits)
    yield Case("all these numbers", reel, "\n".join([*lines, f"end {len(lines)}"]))
    lines = [f"{n} 5 2 filled" for n in edges + digits]
    reel = b"".join(record(n, 5, 2, bytes(16), flags=(0, 0)) for n in edges + digits)
    yield Case("all these numbers on flagged records", reel, "\n".join([*lines, f"end {len(lines)}"]))
    repeated = record(7, 5, 2, bytes(16)) * 3 + record(8, 7, 3, bytes(36)) + record(7, 7, 3, bytes(36)) * 2
    said = "7 5 2 clean\n" * 3 + "8 7 3 clean\n" + "7 7 3 clean\n" * 2 + "end 6"
    yield Case("repeated numbers", repeated, said)
