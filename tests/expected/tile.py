"""The tile calls of SPEC 5, worked out from the definition of a good tile (SPEC 4.3) and from nothing else.

A tile is the list of its bytes, row by row (SPEC 3.1). That all 2p sums are one byte is a set of 2p linear equations: bytes are added by
XOR, bit by bit, and so the equations are over GF(2). The unknowns are the bytes of the flagged cells, which are those on the lines to
fill, and the one byte that all sums are. Gaussian elimination solves them (SPEC 5.8). It tells whether there is no filling, one, or
several, which is where an unknown is not settled. What SPEC 4.5 and 5.4 say of that is asserted each time. Writing is filling the two check
columns, and repair is filling every line in turn, comparing what comes out, and counting the bytes that came out otherwise.

A line of a slope is a diagonal (SPEC 4.1). Any other line is a row or a column: a pair, ("row", r) or ("column", c). An answer is the
text that the program prints for it."""

from functools import cache, lru_cache

from expected.sizes import NEW, is_allowed, verdict


def place(p, i, j):
    """SPEC 3.1: where the cell in row i and column j stands."""
    return i * (p - 1) + j


@lru_cache(maxsize=16)  # of a large tile they take megabytes
def cells_of_lines(p, s):
    """SPEC 4.1: for each line of slope s, the places of its cells. The added row and column (SPEC 3.3) are left out: they hold 0."""
    lines = [[] for _ in range(p)]
    for i in range(p - 1):
        for j in range(p - 1):
            lines[(i + s * j) % p].append(place(p, i, j))
    return lines


def sums(p, s, tile):
    """SPEC 4.2: the sum of each line of slope s."""
    result = []
    for cells in cells_of_lines(p, s):
        total = 0
        for k in cells:
            total ^= tile[k]
        result.append(total)
    return result


def both_sums(p, l, tile):
    """All 2p sums: those of slope 1, then those of slope l."""
    return sums(p, 1, tile) + sums(p, l, tile)


def is_good(p, l, tile):
    """SPEC 4.3: all the sums are the same byte."""
    return len(set(both_sums(p, l, tile))) == 1


@cache
def places(p, line):
    """The places of the cells of a row or a column."""
    kind, n = line
    if kind == "row":
        return [place(p, n, j) for j in range(p - 1)]
    return [place(p, i, n) for i in range(p - 1)]


def has_line(p, line):
    """SPEC 3.4: whether a tile of size p has the line."""
    _, n = line
    return n <= p - 2


@lru_cache(maxsize=600)  # more than the largest tile has lines
def coefficients(p, l, lines):
    """SPEC 5.8: the left sides of the 2p equations, those of slope 1 and then those of slope l, as bits: bit 0 for the common byte, and one
    bit for each flagged cell. With each the flagged places on its line; and all flagged places in the order of their bits."""
    flagged = sorted({k for line in lines for k in places(p, line)})
    equations = [(1, []) for _ in range(2 * p)]
    for n, k in enumerate(flagged, start=1):
        i, j = divmod(k, p - 1)
        for t in ((i + j) % p, p + (i + l * j) % p):
            left, cells = equations[t]
            equations[t] = (left | 1 << n, cells + [k])
    return equations, flagged


SEVERAL = "several"  # in place of a filling: there are two different ones


def eliminate(equations, unknowns):
    """Solves equations whose left side is a set of bits and whose right side is a byte. Gives the values; or None where the equations
    contradict each other; or SEVERAL where they do not, and settle not every unknown."""
    pivots = {}
    for left, right in equations:
        while left and left.bit_length() - 1 in pivots:
            pivot_left, pivot_right = pivots[left.bit_length() - 1]
            left ^= pivot_left
            right ^= pivot_right
        if left:
            pivots[left.bit_length() - 1] = (left, right)
        elif right:
            return None
    return back_substituted(pivots, unknowns) if len(pivots) == unknowns else SEVERAL


def back_substituted(pivots, unknowns):
    """The values, from the lowest unknown upward: each pivot's equation has its own unknown and lower ones."""
    values = []
    for n in range(unknowns):
        left, value = pivots[n]
        left ^= 1 << n
        while left:
            highest = left.bit_length() - 1
            value ^= values[highest]
            left ^= 1 << highest
        values.append(value)
    return values


def filling(p, l, tile, *lines):
    """The one good tile that agrees with the tile outside the lines; or None, or SEVERAL."""
    return filling_of_sums(p, l, tile, both_sums(p, l, tile), lines)


def filling_of_sums(p, l, tile, totals, lines):
    """The same for a tile whose 2p sums are known. The right side of an equation is the sum of the cells that are not flagged: the
    line's sum with the flagged bytes taken off."""
    equations, flagged = coefficients(p, l, lines)
    known = []
    for (left, cells), right in zip(equations, totals, strict=True):
        for k in cells:
            right ^= tile[k]
        known.append((left, right))
    values = eliminate(known, len(flagged) + 1)
    hold_count(p, l, lines, values)
    if values in (None, SEVERAL):
        return values
    filled = list(tile)
    for n, k in enumerate(flagged):
        filled[k] = values[n + 1]
    assert is_good(p, l, filled)
    return filled


def hold_count(p, l, lines, values):
    """SPEC 4.5 and 5.4: how many fillings some lines can have, whatever the bytes."""
    (kind, _), *others = set(lines)
    if any(other != kind for other, _ in others):
        assert values != SEVERAL if is_allowed(p, l) else values in (None, SEVERAL)
    else:
        assert values not in (None, SEVERAL) if others else values != SEVERAL


def tile_length(p):
    """SPEC 3.1: how many bytes a tile of size p has."""
    return (p - 1) ** 2


def text_length(p):
    """SPEC 3.2: how many bytes a text of size p has."""
    return (p - 1) * (p - 3)


def text_of(p, tile):
    """SPEC 3.2: the bytes of columns 0 to p-4, row by row."""
    return [tile[place(p, i, j)] for i in range(p - 1) for j in range(p - 3)]


def refusal(kind, p, l, lengths_are_right):
    """SPEC 9.2: refusal 1, 2 or 3, in that order, or None. Only a size has a length, so the lengths are asked for last."""
    judged = verdict(kind, p, l)
    if judged != "taken":
        return judged
    return None if lengths_are_right() else "refused 3"


def write(kind, p, l, text, tile):
    """SPEC 5.1: the answer, and the tile afterwards."""
    no = refusal(kind, p, l, lambda: len(tile) == tile_length(p) and len(text) == text_length(p))
    if no:
        return no, tile
    laid = [0] * tile_length(p)
    for k, byte in enumerate(text):
        laid[place(p, k // (p - 3), k % (p - 3))] = byte
    written = filling(p, l, laid, ("column", p - 3), ("column", p - 2))
    assert text_of(p, written) == list(text)
    return "done", written


def read(kind, p, l, tile, text):
    """SPEC 5.2: the answer, and the text afterwards."""
    no = refusal(kind, p, l, lambda: len(tile) == tile_length(p) and len(text) == text_length(p))
    if no:
        return no, text
    return ("done", text_of(p, tile)) if is_good(p, l, tile) else ("refused 5", text)


def difference(p, lent, good):
    """SPEC 5.3, step 3: the name of the difference between two tiles that agree outside a line: a cell, or the line of several."""
    cells = [divmod(k, p - 1) for k in range(tile_length(p)) if lent[k] != good[k]]
    (row, *other_rows), (column, *other_columns) = (set(numbers) for numbers in zip(*cells))
    if len(cells) == 1:
        return f"cell {row} {column}"
    assert not other_rows or not other_columns, f"{cells} are on no line"
    return f"row {row}" if other_columns else f"column {column}"


def explanations(p, l, tile):
    """SPEC 5.3, step 2: the different good tiles by which some line explains a tile. By 4.5 all columns have one at most, and all rows."""
    totals = both_sums(p, l, tile)  # once, not for each line: a large tile has 500 of them
    found = []
    for kind in ("column", "row"):
        of_kind = [filling_of_sums(p, l, tile, totals, ((kind, n),)) for n in range(p - 1)]
        different = {bytes(good) for good in of_kind if good is not None}
        assert len(different) <= 1
        found += different
    return set(found)


def repair(kind, p, l, tile):
    """SPEC 5.3: the answer, and the tile afterwards, by trying every line."""
    no = refusal(kind, p, l, lambda: len(tile) == tile_length(p))
    if no:
        return no, tile
    if is_good(p, l, tile):
        return "clean", tile
    found = explanations(p, l, tile)
    if len(found) == 1:
        repaired = list(*found)
        return difference(p, tile, repaired), repaired
    assert not found or not is_allowed(p, l), "doubtful at an allowed slope"
    return "refused 8" if found else "refused 5", tile


def recover(kind, p, l, scan, text):
    """SPEC 5.7: the answer, and the text afterwards: where repair of the scan is not refused, that of the tile that it leaves."""
    no = refusal(kind, p, l, lambda: len(scan) == tile_length(p) and len(text) == text_length(p))
    if no:
        return no, text
    answer, repaired = repair(kind, p, l, scan)
    if answer.startswith("refused"):
        return answer, text
    assert read(kind, p, l, repaired, text) == ("done", text_of(p, repaired))
    return answer, text_of(p, repaired)


def fill(kind, p, l, tile, first, second):
    """SPEC 5.4: the answer, and the tile afterwards."""
    no = refusal(kind, p, l, lambda: len(tile) == tile_length(p))
    if no:
        return no, tile
    if not (has_line(p, first) and has_line(p, second)):
        return "refused 4", tile
    filled = filling(p, l, tile, first, second)
    if filled in (None, SEVERAL):
        return "refused 5" if filled is None else "refused 8", tile
    return "done", filled


def judge(p, l, scan, restored, first, second):
    """SPEC 5.5: the answer; nothing is changed. What is accepted is the filling of the scan, and what is not is none."""
    no = refusal(NEW, p, l, lambda: len(scan) == len(restored) == tile_length(p))
    if no:
        return no
    if not (has_line(p, first) and has_line(p, second)):
        return "refused 4"
    named = {*places(p, first), *places(p, second)}
    agree = all(scan[k] == restored[k] for k in range(tile_length(p)) if k not in named)
    assert (filling(p, l, scan, first, second) == restored) == (is_good(p, l, restored) and agree)
    if not is_good(p, l, restored):
        return "refused 10"
    return "done" if agree else "refused 11"


def parsed(picture, lost=0):
    """The bytes of what SPEC 10 and the paper show, strokes between rows left out, with `lost` for a question mark."""
    return [lost if sign == "?" else int(sign) for sign in picture.split() if sign != "/"]
