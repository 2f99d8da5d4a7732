"""The reel, from SPEC 7 and 8 and, for the bytes of a record, from FORMATS: how a record is laid out, which records are refused, and
what the program `list` has to print for a reel. What is said of a tile comes from the definition of a good tile (tests/expected/tile.py),
what is said of a size and a slope from the rule for them (tests/expected/sizes.py), and of a flag from tests/expected/flag.py."""

from functools import lru_cache
from struct import pack, unpack_from
from typing import NamedTuple

from expected.flag import NONE, is_carried, to_fill
from expected.sizes import NEW, OLD, Kind, verdict
from expected.tile import fill, repair, tile_length

MARKS = {NEW: bytes.fromhex("D5 5D"), OLD: bytes.fromhex("5D D5")}  # of the records without flags
FLAGGED = bytes.fromhex("D5 5E")  # the mark of a flagged record, which is of a new tile
KINDS = {MARKS[NEW]: NEW, FLAGGED: NEW, MARKS[OLD]: OLD}
LAYOUT = ">2sHHI"  # FORMATS: mark, p, l, tile number; high bytes first (SPEC 1.2)
FLAGS_LAYOUT = ">HH"  # behind these in a flagged record: the first flag, the second flag
HEADER, FLAGGED_HEADER = 10, 14  # SPEC 7.1
NO_FLAGS = NONE, NONE  # SPEC 7.1: of a tile whose record has no place for flags
LONGEST = 65536  # SPEC 8.2: how many bytes `list` takes


class Tile(NamedTuple):
    """SPEC 7.2: a tile on a reel, with its flags as they stand there and the offset where its bytes begin."""

    kind: Kind
    number: int
    p: int
    l: int
    flags: tuple
    start: int

    @property
    def end(self):
        """SPEC 7.3: where its bytes end, which is the offset of the next record."""
        return self.start + tile_length(self.p)


def record(number, p, l, tile, kind=NEW, flags=None, mark=None):
    """The bytes of one record: with two flags, of a flagged one. Its mark is that of its sort, or another one."""
    own = MARKS[kind] if flags is None else FLAGGED
    header = pack(LAYOUT, own if mark is None else bytes(mark), p, l, number)
    return header + (b"" if flags is None else pack(FLAGS_LAYOUT, *flags)) + bytes(tile)


def tile_at(reel, at):
    """SPEC 7.1: the tile that a header tells of, at an offset where a header stands as a whole."""
    mark, p, l, number = unpack_from(LAYOUT, reel, at)
    if mark == FLAGGED:
        return Tile(KINDS[mark], number, p, l, unpack_from(FLAGS_LAYOUT, reel, at + HEADER), at + FLAGGED_HEADER)
    return Tile(KINDS[mark], number, p, l, NO_FLAGS, at + HEADER)


def refusal(reel, at):
    """SPEC 7.2, rows 2 to 7: the number with which the record at an offset is refused, or None."""
    left = len(reel) - at
    if left < HEADER:
        return 7
    mark, *_ = unpack_from(LAYOUT, reel, at)
    if mark not in KINDS:
        return 6
    if mark == FLAGGED and left < FLAGGED_HEADER:
        return 7
    tile = tile_at(reel, at)
    judged = verdict(tile.kind, tile.p, tile.l)
    if judged != "taken":
        return int(judged.removeprefix("refused "))
    if not all(is_carried(tile.p, flag) for flag in tile.flags):
        return 4
    return 7 if len(reel) < tile.end else None


def restore(kind, p, l, tile, flags):
    """SPEC 7.6: the answer, and the tile afterwards."""
    lost = to_fill(flags)
    if not lost:
        return repair(kind, p, l, tile)
    answer, left = fill(kind, p, l, tile, *lost)
    return "filled" if answer == "done" else answer, left


@lru_cache(maxsize=1024)  # a reel that is changed in one place has most of its tiles again
def state(kind, p, l, flags, tile):
    """SPEC 8.1: what comes of restoring a tile."""
    return restore(kind, p, l, list(tile), flags)[0]


def tiles(reel):
    """SPEC 7.5 and 8.1: the line of each tile up to the end or a refusal, and the offset where the last one ends."""
    lines, at = [], 0
    while at < len(reel) and refusal(reel, at) is None:
        kind, number, p, l, flags, start = tile = tile_at(reel, at)
        at = tile.end
        lines.append(f"{number} {p} {l} {state(kind, p, l, flags, reel[start:at])}")
    return lines, at


def listing(reel):
    """SPEC 8: all that `list` prints on standard output."""
    if len(reel) > LONGEST:
        return "too long\n"
    lines, at = tiles(reel)
    closing = f"end {len(lines)}" if at == len(reel) else f"stopped {refusal(reel, at)} {at}"
    return "".join(f"{line}\n" for line in (*lines, closing))


# The table of FORMATS: for each size the lengths of a record without flags and of a flagged one.
LENGTHS = {5: (26, 30), 7: (46, 50), 11: (110, 114), 101: (10010, 10014), 251: (62510, 62514), 257: (65546, 65550)}
assert all((HEADER + tile_length(p), FLAGGED_HEADER + tile_length(p)) == lengths for p, lengths in LENGTHS.items())
# The empty reel has no tiles (SPEC 7.1).
assert listing(b"") == "end 0\n"
