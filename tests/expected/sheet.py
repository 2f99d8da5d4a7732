"""The correction sheet, from SPEC 6 and, for the bytes of a record, from FORMATS: what its records say, which of them are faulty, and what
the tile becomes. The change that a sheet makes is the good tile that has its differences as text, and so comes from the definition of a
good tile (tests/expected/tile.py)."""

from struct import pack, unpack

from expected.sizes import NEW
from expected.tile import place, refusal, text_length, text_of, tile_length, write

MARK = bytes.fromhex("C3 3C")
LAYOUT = ">2sHHBB"  # FORMATS: mark, row, column, was, is; high bytes first (SPEC 1.2)
LENGTH = 8  # SPEC 6.1


def record(row, column, was, to_be, mark=MARK):
    """The bytes of one record."""
    return list(pack(LAYOUT, bytes(mark), row, column, was, to_be))


def records(sheet):
    """The records of a sheet, with the offset of each."""
    return [(at, *unpack(LAYOUT, bytes(sheet[at : at + LENGTH]))) for at in range(0, len(sheet), LENGTH)]


def fault(p, sheet):
    """SPEC 6.3: the sheet's own refusal with its offset, or None. The length is judged, then of each record its mark and its place."""
    if len(sheet) % LENGTH != 0:
        return "refused 7 at 0"
    for at, mark, row, column, _, _ in records(sheet):
        if mark != MARK:
            return f"refused 6 at {at}"
        if row > p - 2 or column > p - 4:
            return f"refused 4 at {at}"
    return None


def differences(sheet):
    """SPEC 6.2: each place that is named, with the differences of its records taken together."""
    found = {}
    for _, _, row, column, was, to_be in records(sheet):
        found[row, column] = found.get((row, column), 0) ^ was ^ to_be
    return found


def change(kind, p, l, sheet):
    """SPEC 6.4: D, the good tile that has the differences as its text, which is 0 elsewhere."""
    given = differences(sheet)
    text = [given.get((i, j), 0) for i in range(p - 1) for j in range(p - 3)]
    assert len(text) == text_length(p)
    answer, tile = write(kind, p, l, text, [0] * tile_length(p))
    assert answer == "done" and text_of(p, tile) == text
    named = {place(p, i, j) for i, j in given}
    assert all(byte == 0 for k, byte in enumerate(tile) if k % (p - 1) < p - 3 and k not in named)
    return tile


def correct(kind, p, l, tile, sheet):
    """SPEC 6.3 and 6.4: the answer, and the tile afterwards."""
    no = refusal(kind, p, l, lambda: len(tile) == tile_length(p))
    if no:
        return f"{no} at 0", tile
    no = fault(p, sheet)
    if no:
        return no, tile
    return f"records {len(sheet) // LENGTH}", added(tile, change(kind, p, l, sheet))


def added(tile, other):
    """SPEC 1.1: the XOR of two tiles, byte for byte."""
    return [a ^ b for a, b in zip(tile, other, strict=True)]


# A sheet without records (SPEC 6.1): none is counted, and the tile stays.
assert correct(NEW, 5, 2, list(range(16)), []) == ("records 0", list(range(16)))
# SPEC 10, number 12: columns 2 and 1 of a record.
assert [correct(NEW, 5, 2, [0] * 16, record(0, column, 0, 1))[0] for column in (2, 1)] == ["refused 4 at 0", "records 1"]
