"""Reels in which nothing is right, or nothing behind a right mark or header."""

from random import Random

from expected.reel import FLAGGED, FLAGGED_HEADER, HEADER, KINDS, record
from expected.reels.made import SORTS, Case, all_sorts, joined, mixed
from expected.sizes import HOUSE, OLD_SLOPES
from expected.tile import tile_length
from expected.worked_reels import WHOLE_REEL

LENGTHS = (*range(1, 41), 100, 255, 256, 257, 1000, 4095, 4096, 4097, 10000, 32768, 65535, 65536, 65537)
REPEATED = ("FF", "00", "D5", "5D", "D5 5D", "5D D5", "D5 5E", "C3 3C")


def no_mark():
    """Pseudo-random bytes of many lengths."""
    drawn = Random(1)
    for length in LENGTHS:
        for attempt in range(3):
            reel = drawn.randbytes(length)
            yield Case(f"{length} pseudo-random bytes, {attempt}", reel, ends_without_mark(length))


def ends_without_mark(length):
    """How a listing ends for bytes that begin with no mark."""
    return "too long" if length > 65536 else "stopped 7 0" if length < HEADER else "stopped 6 0"


def ends_behind_mark(mark, length):
    """How a listing ends for a mark repeated: behind it the size is D55D hex, 5DD5 or D55E."""
    if length < (FLAGGED_HEADER if mark == FLAGGED else HEADER):
        return "stopped 7 0"
    return "stopped 1 0" if length <= 65536 else "too long"


def repeated():
    """One or two bytes repeated."""
    for repeat in REPEATED:
        some = bytes.fromhex(repeat)
        for length in LENGTHS:
            ends = ends_behind_mark(some, length) if some in KINDS else ends_without_mark(length)
            yield Case(f"{length} bytes {repeat}", (some * length)[:length], ends)


def complemented():
    """Sound reels with every byte complemented."""
    reels = {
        "the whole reel of SPEC 10": WHOLE_REEL,
        "five records": mixed([5, 7, 11, 13, 47]),
        "five records of three sorts": all_sorts([5, 7, 11, 13, 47]),
        "the largest": joined([251]),
    }
    for name, reel in reels.items():
        yield Case(f"{name}, complemented", bytes(255 - byte for byte in reel), "stopped 6 0")


def behind_a_mark():
    """Pseudo-random bytes behind a right mark, a right size, and a right slope."""
    drawn = Random(2)
    for attempt in range(20):
        for mark in KINDS:
            named = f"{mark.hex()}, {attempt}"
            yield Case(f"a mark and pseudo-random bytes, {named}", mark + drawn.randbytes(98))
            yield Case(f"a mark, a size and pseudo-random bytes, {named}", mark + b"\x00\x05" + drawn.randbytes(96))
            yield Case(f"a mark, p 5, l 2 and pseudo-random bytes, {named}", mark + b"\x00\x05\x00\x02" + drawn.randbytes(94))


def behind_headers():
    """Right headers, and pseudo-random bytes for tiles; once of all values, once of bits alone."""
    drawn = Random(3)
    tried = [("NEW", p, HOUSE[p]) for p in (5, 7, 11, 13, 17, 31, 101)]
    tried += [("FLAGGED", p, HOUSE[p]) for p in (5, 7, 17, 31)]
    tried += [("OLD", p, OLD_SLOPES[p][0]) for p in (7, 11, 13, 17, 31, 101)]
    for sort, p, l in tried:
        for attempt in range(3):
            tiles = [drawn.randbytes(tile_length(p)) for _ in range(5)]
            for name, kept in (("bytes", 0xFF), ("bits", 0x01)):
                reel = b"".join(record(n, p, l, [byte & kept for byte in tile], **SORTS[sort]) for n, tile in enumerate(tiles))
                yield Case(f"{sort}, pseudo-random {name} in tiles of size {p}, {attempt}", reel, "end 5")
