"""The worked tiles of SPEC 10, 1 to 11 at p 5 and l 2, and 13 to 17, which are old, at p 7 and l 2, the judgements 18 to 24, the recoveries
25 to 31, and what is said there of each: the script must ask it, of these bytes, and the answer that the rules give must be the one that is
said."""

from expected.sheet import added, change, record
from expected.sizes import NEW, OLD
from expected.tile import is_good, parsed

P, L = 5, 2
OLD_P, OLD_L = 7, 2  # of tiles 13 to 17

# Text, the tile that it writes, and what all its sums are.
WRITTEN = {
    1: ("1 0 / 0 0 / 0 0 / 0 0", "1 0 0 1 / 0 0 1 1 / 0 0 1 0 / 0 0 1 0", 0),
    2: ("0 1 / 1 0 / 0 1 / 1 1", "0 1 1 1 / 1 0 0 1 / 0 1 1 0 / 1 1 1 1", 1),
    3: ("1 2 / 2 0 / 0 2 / 2 2", "1 2 2 3 / 2 0 1 3 / 0 2 3 0 / 2 2 3 2", 2),
}
# Where the tile to repair has 1, the answer, and where the tile has 1 afterwards.
REPAIRED = {
    4: ([(2, 3)], "cell 2 3", []),
    5: ([(0, 0), (1, 0)], "column 0", []),
    6: ([(0, 0), (0, 1)], "row 0", []),
    7: ([(0, 0), (1, 2)], "refused 5", [(0, 0), (1, 2)]),
    8: ([(0, 0), (1, 1)], "column 3", [(0, 0), (1, 1), (0, 3), (1, 3), (3, 3)]),
}
# Where the tile has 1 outside row 0 and column 0, and the tile when these are filled, or None where that is refused with 5.
FILLED = {
    9: ((1, 1), "0 1 0 1 / 1 1 0 0 / 1 0 0 0 / 1 0 0 0"),
    10: ((2, 3), None),
}
# A tile that was restored from the scan of 9, the two lines that are named, and the answer.
RESTORED = {
    18: (FILLED[9][1], ("row", 0), ("column", 0), "done"),
    19: ("0 0 0 0 / 0 0 0 0 / 0 0 0 0 / 0 0 0 0", ("row", 0), ("column", 0), "refused 11"),
    20: ("0 0 0 0 / 0 1 0 0 / 0 0 0 0 / 0 0 0 0", ("row", 0), ("column", 0), "refused 10"),
    21: ("0 0 0 0 / 0 0 0 0 / 0 0 0 1 / 0 0 0 0", ("row", 0), ("column", 0), "refused 10"),
    22: (FILLED[9][1], ("row", 0), ("row", 0), "refused 11"),
    23: (FILLED[9][1], ("column", 0), ("column", 0), "refused 11"),
    24: (FILLED[9][1], ("row", 0), ("column", 4), "refused 4"),
}
# The scan of a recovery by the cells that have 1, the answer, and the text, or None where it stays; 25 is the tile of 2.
RECOVERED = {
    26: ([(2, 3)], "cell 2 3", "0 0 / 0 0 / 0 0 / 0 0"),
    27: ([(0, 0), (1, 0)], "column 0", "0 0 / 0 0 / 0 0 / 0 0"),
    28: ([(0, 0), (0, 1)], "row 0", "0 0 / 0 0 / 0 0 / 0 0"),
    29: ([(0, 0), (1, 1)], "column 3", "1 0 / 0 1 / 0 0 / 0 0"),
    30: ([(0, 0), (1, 2)], "refused 5", None),
}
LENT = 9  # what stands in a text before it is recovered
LOST = (0, 255)  # what stands in the lost cells
OTHER = 7  # what stands in a tile before it is written, and in a text before it is read
# Number 12: how sizes are judged, each with a slope that would do, and slopes at 7, of each kind.
JUDGED = {
    NEW: {
        **{(4, 2): "refused 1", (9, 2): "refused 1", (258, 2): "refused 1", (5, 2): "taken", (257, 3): "taken"},
        **{(7, 2): "refused 2", (7, 6): "refused 2", (7, 10): "refused 2", (7, 3): "taken", (7, 5): "taken"},
    },
    OLD: {
        **{(4, 2): "refused 1", (9, 2): "refused 1", (258, 2): "refused 1", (257, 2): "taken"},
        **{(7, l): "taken" for l in (2, 3, 4, 5)},
        **{(7, 1): "refused 2", (7, 6): "refused 2"},
    },
}
# Where E of the old tiles has 1: each diagonal of either slope that meets row 0 in one of these cells meets column 0 in another one.
E = [*[(0, k) for k in (1, 2, 4)], *[(k, 0) for k in (1, 2, 4)]]
# Where an old tile has 1, and the answer when row 0 and column 0 are filled; and when it is repaired, with where it has 1 afterwards.
OLD_FILLED = {13: ([], "refused 8"), 15: ([(1, 1)], "refused 5")}
OLD_REPAIRED = {
    14: ([(1, 0), (2, 0), (4, 0)], "refused 8", [(1, 0), (2, 0), (4, 0)]),
    16: ([(1, 1)], "cell 1 1", []),
    17: (E, "clean", E),
}
WRONG_LENGTHS = (15, 17)
COLUMNS = {2: "refused 4 at 0", 1: "records 1"}  # of a correction


def ones(cells, p=P):
    """A tile of zeros but for 1 in these cells."""
    return [int((i, j) in cells) for i in range(p - 1) for j in range(p - 1)]


def hold_written(says):
    """Tiles 1 to 3 are written over other bytes, read, and repaired, which leaves them."""
    for text, tile, common in WRITTEN.values():
        text, tile = parsed(text), parsed(tile)
        says("write", P, L, [OTHER] * 16, text, "done", tile)
        for slope in (1, L):
            says("sums", P, slope, tile, [], "sums:" + f" {common:02x}" * P, tile)
        says("read", P, L, [OTHER] * 8, tile, "done", text)
        says("mend", P, L, tile, [], "clean", tile)


def hold_repaired(says):
    """Tiles 4 to 8."""
    for before, answer, behind in REPAIRED.values():
        says("mend", P, L, ones(before), [], answer, ones(behind))


def hold_filled(says):
    """Tiles 9 and 10, with different bytes in the lost cells."""
    lines = ("row", 0), ("column", 0)
    for one, filled in FILLED.values():
        for lost in LOST:
            tile = [lost if i == 0 or j == 0 else int((i, j) == one) for i in range(P - 1) for j in range(P - 1)]
            if filled:
                says("fill", P, L, tile, [], "done", parsed(filled), lines)
            else:
                says("fill", P, L, tile, [], "refused 5", tile, lines)


def hold_corrected(says):
    """Tile 11: tile 4 is corrected, which gives tile 1 with the hurt byte of tile 4, and then repaired."""
    tile, hurt = parsed(WRITTEN[1][1]), ones([(2, 3)])
    corrected = [a ^ b for a, b in zip(tile, hurt, strict=True)]
    says("correct", P, L, hurt, record(0, 0, 0, 1), "records 1", corrected)
    says("mend", P, L, corrected, [], "cell 2 3", tile)


def hold_edges(says):
    """Number 12."""
    for kind, judged in JUDGED.items():
        for (p, l), answer in judged.items():
            says("judge", p, l, [], [], answer, [], kind=kind)
    for length in WRONG_LENGTHS:
        tile = [0] * length
        says("write", P, L, tile, parsed(WRITTEN[1][0]), "refused 3", tile)
        says("read", P, L, [OTHER] * 8, tile, "refused 3", [OTHER] * 8)
        says("mend", P, L, tile, [], "refused 3", tile)
        says("fill", P, L, tile, [], "refused 3", tile, (("row", 0), ("column", 0)))
        says("correct", P, L, tile, record(0, 1, 0, 1), "refused 3 at 0", tile)
    for column, answer in COLUMNS.items():
        says("correct", P, L, ones([]), record(0, column, 0, 1), answer)


def hold_old(says):
    """Tiles 13 to 17. Tile 17 is written too, from its text, and filled where two rows or two columns of it are lost."""
    p, l, lines = OLD_P, OLD_L, (("row", 0), ("column", 0))
    for cells, answer in OLD_FILLED.values():
        tile = ones(cells, p)
        says("fill", p, l, tile, [], answer, tile, lines, kind=OLD)
    for before, answer, behind in OLD_REPAIRED.values():
        says("mend", p, l, ones(before, p), [], answer, ones(behind, p), kind=OLD)
    e = ones(E, p)
    assert is_good(p, l, e)
    text = [int((i, j) in E) for i in range(p - 1) for j in range(p - 3)]
    says("read", p, l, [OTHER] * len(text), e, "done", text, kind=OLD)
    says("write", p, l, [OTHER] * len(e), text, "done", e, kind=OLD)
    lost = [LOST[1]] * (p - 1) + e[p - 1 :]
    says("fill", p, l, lost, [], "done", e, (("row", 0), ("row", 3)), kind=OLD)
    says("fill", p, l, e, [], "done", e, (("column", 5), ("column", 0)), kind=OLD)


def hold_old_corrected(says):
    """Tile 14 is corrected, and is doubtful as before (SPEC 6.5)."""
    p, l, sheet = OLD_P, OLD_L, record(0, 0, 0, 1)
    tile = ones(OLD_REPAIRED[14][0], p)
    corrected = added(tile, change(OLD, p, l, sheet))
    says("correct", p, l, tile, sheet, "records 1", corrected, kind=OLD)
    says("mend", p, l, corrected, [], "refused 8", corrected, kind=OLD)


def hold_judged(says):
    """Judgements 18 to 24."""
    for restored, first, second, answer in RESTORED.values():
        tile = parsed(restored)
        says("accept", P, L, tile, ones([(1, 1)]), answer, tile, (first, second))


def hold_recovered(says):
    """Recoveries 25 to 31: of each scan the text, and that inspect answers the same and leaves the scan."""
    cases = [(NEW, P, L, parsed(WRITTEN[2][1]), "clean", parsed(WRITTEN[2][0]))]
    cases += [(NEW, P, L, ones(cells), answer, text and parsed(text)) for cells, answer, text in RECOVERED.values()]
    cases += [(OLD, OLD_P, OLD_L, ones(OLD_REPAIRED[14][0], OLD_P), "refused 8", None)]
    for kind, p, l, scan, answer, text in cases:
        lent = [LENT] * ((p - 1) * (p - 3))
        says("text", p, l, lent, scan, answer, text or lent, kind=kind)
        says("look", p, l, scan, [], answer, scan, kind=kind)


def hold(says):
    """All of them."""
    first = [hold_written, hold_repaired, hold_filled, hold_corrected, hold_edges]
    later = [hold_old, hold_old_corrected, hold_judged, hold_recovered]
    for part in first + later:
        part(says)
