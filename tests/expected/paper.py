"""The examples of the paper (Blaum and Bruck 2000). The arrays are typed from a scan of it, with the row and column of added zeros. What
the paper says of them is asserted; the script must ask it, and the answer that the rules give must be the paper's. Its numbers that the
scan has wrong are said where they stand."""

from expected.tile import is_good, parsed, place, sums, text_length, text_of

EXAMPLE_2_1 = """0 1 1 1 0
1 0 0 1 0
0 1 1 0 0
1 1 1 1 0
0 0 0 0 0"""

EXAMPLE_2_2 = """0 1 0 1 0
1 0 1 1 0
1 0 1 1 0
1 1 0 1 0
0 0 0 0 0"""

# After Theorem 3.1: criss-cross weight 3, rank 2.
LOW_RANK = """0 0 0 0 1 1 0
0 0 0 0 1 1 0
0 0 0 1 0 0 0
0 0 0 0 0 0 0
0 0 0 1 0 0 0
0 0 0 1 1 1 0
0 0 0 0 0 0 0"""

RECEIVED_4_1 = """1 0 0 0 1 0 0
0 0 1 0 0 0 0
0 1 0 0 1 1 0
0 1 0 1 0 0 0
0 1 0 0 1 1 0
0 0 0 1 0 1 0
0 0 0 0 0 0 0"""

CORRECTED_4_1 = """1 0 0 0 1 0 0
0 0 1 0 0 0 0
0 1 0 0 1 1 0
0 0 0 0 1 1 0
0 1 0 0 1 1 0
0 0 0 1 0 1 0
0 0 0 0 0 0 0"""

RECEIVED_4_2 = """1 0 ? 0 ? 0 0
1 1 ? 0 ? 1 0
0 1 ? 0 ? 1 0
0 1 ? 0 ? 1 0
0 1 ? 0 ? 0 0
1 0 ? 1 ? 1 0
0 0 0 0 0 0 0"""

RECEIVED_4_3 = """1 0 ? 0 0 0 0
1 1 ? 0 0 1 0
0 1 ? 0 1 1 0
0 1 ? 0 0 1 0
? ? ? ? ? ? 0
1 0 ? 1 1 1 0
0 0 0 0 0 0 0"""

DECODED_4_2 = """1 0 0 0 0 0 0
1 1 0 0 0 1 0
0 1 1 0 1 1 0
0 1 0 0 0 1 0
0 1 0 0 1 0 0
1 0 0 1 1 1 0
0 0 0 0 0 0 0"""


def array(scan, lost=0):
    """The tile of an array: the last row and the last column are the added zeros."""
    rows = [parsed(row, lost) for row in scan.splitlines()]
    assert all(len(row) == len(rows) and row[-1] == 0 for row in rows) and not any(rows[-1])
    return [byte for row in rows[:-1] for byte in row[:-1]]


def syndrome(p, s, tile):
    """The paper's syndrome polynomial, its coefficients from the constant one upward: each sum less the sum of the last line."""
    totals = sums(p, s, tile)
    return [totals[t] ^ totals[p - 1] for t in range(p - 1)]


def polynomial(*powers):
    """The coefficients, below the sixth, of a polynomial modulo 1 + x + ... + x^6, given by its powers."""
    folded = [0] * 7
    for power in powers:
        folded[power % 7] ^= 1
    return [c ^ folded[6] for c in folded[:6]]


def hold_sums(says, p, l, tile, common=None):
    """The sums along both slopes are asked for. Where a common byte is given, all are said to be that."""
    for slope in (1, l):
        says("sums", p, slope, tile, [], *(["sums:" + f" {common:02x}" * p] if common is not None else []))


def hold_good_at_5(says, l, scan):
    """Examples 2.1 and 2.2: all sums are said to be odd."""
    tile = array(scan)
    hold_sums(says, 5, l, tile, 1)
    says("read", 5, l, [7] * 8, tile, "done", text_of(5, tile))


def cross(p, l):
    """The array in the proof of Theorem 3.1: row 0 and column 0 hold 1 at the places of U, which are the powers of l, or the
    other remainders where p-1 is such a power."""
    powers = {pow(l, k, p) for k in range(p - 1)}
    u = set(range(1, p)) - powers if p - 1 in powers else powers
    tile = [0] * (p - 1) ** 2
    for k in u:
        tile[place(p, 0, k)] = tile[place(p, k, 0)] = 1
    return u, tile


def hold_refused(says, p, l, u_of_paper):
    """Examples 3.1 and 3.2: good along a slope that the calls refuse. The scan's pictures have a sign too many in the first row (3.1)
    or in every row and column (3.2); the sets U in the proof of Theorem 3.1 are right, and Lemma 2.1 holds of their arrays."""
    u, tile = cross(p, l)
    assert u == u_of_paper and is_good(p, l, tile)
    hold_sums(says, p, l, tile, 0)
    text = [0] * text_length(p)
    says("read", p, l, text, tile, "refused 2", text)
    says("mend", p, l, tile, [], "refused 2", tile)
    says("fill", p, l, tile, [], "refused 2", tile, (("row", 0), ("column", 0)))


def hold_example_4_1(says):
    """A row in error. The syndromes are those of the paper, and so is the answer: row 3, since no column explains."""
    tile, corrected = array(RECEIVED_4_1), array(CORRECTED_4_1)
    turned = [tile[place(7, j, i)] for i in range(6) for j in range(6)]
    assert syndrome(7, 1, tile) == polynomial(2, 3, 5)
    assert syndrome(7, 3, tile) == polynomial(0, 2, 3)
    assert syndrome(7, 5, turned) == polynomial(0, 1, 3)
    assert not is_good(7, 3, tile) and is_good(7, 3, corrected)
    hold_sums(says, 7, 3, tile)
    says("mend", 7, 3, tile, [], "row 3", corrected)
    hold_sums(says, 7, 3, corrected)


def hold_filled(says, scan, *lines):
    """Two lines erased. The sums are asked for with zeros for the erased bits. The decoded array is the paper's, and its text writes it."""
    decoded = array(DECODED_4_2)
    hold_sums(says, 7, 3, array(scan))
    says("fill", 7, 3, array(scan, 255), [], "done", decoded, lines)
    hold_sums(says, 7, 3, decoded, 0)
    says("read", 7, 3, [7] * 24, decoded, "done", text_of(7, decoded))
    says("write", 7, 3, [7] * 36, text_of(7, decoded), "done", decoded)


def check_example_4_2():
    """The equation (1 + x^4) E2 = 1 + x + x^2 + x^4 + x^5 of the scan has x^2 where (20) gives x^3; E2 = x^2 solves the right one."""
    tile = array(RECEIVED_4_2)
    assert syndrome(7, 1, tile) == polynomial(0, 3, 5)
    assert syndrome(7, 3, tile) == polynomial(0, 1, 2, 3)
    decoded = array(DECODED_4_2)
    columns = {c: [i for i in range(6) if decoded[place(7, i, c)]] for c in (2, 4)}
    assert columns == {2: [2], 4: [2, 4, 5]}
    # (20) and (21) with l = 3, s = 2, t = 4
    assert polynomial(*[k + 2 for k in (0, 3, 5)], *[k - 6 for k in (0, 1, 2, 3)]) == polynomial(0, 1, 3, 4, 5)
    assert polynomial(*[k - 4 for k in (0, 3, 5)], *[k - 8 for k in (0, 1, 2, 3)]) == polynomial(0, 2, 3)
    assert polynomial(2, 2 + 4) == polynomial(0, 1, 3, 4, 5)
    assert polynomial(2, 4, 5, 2 + 4, 4 + 4, 5 + 4) == polynomial(0, 2, 3)


def check_example_4_3():
    """The paper's table of syndromes."""
    tile = array(RECEIVED_4_3)
    assert sums(7, 1, tile) == [0, 1, 0, 0, 1, 1, 0]
    assert sums(7, 3, tile) == [1, 1, 1, 0, 0, 0, 0]


def hold(says):
    """All of them."""
    hold_good_at_5(says, 2, EXAMPLE_2_1)
    hold_good_at_5(says, 3, EXAMPLE_2_2)
    hold_refused(says, 7, 2, {1, 2, 4})
    hold_refused(says, 17, 2, {3, 5, 6, 7, 10, 11, 12, 14})
    assert is_good(7, 3, array(LOW_RANK))
    hold_sums(says, 7, 3, array(LOW_RANK), 1)
    hold_example_4_1(says)
    check_example_4_2()
    hold_filled(says, RECEIVED_4_2, ("column", 2), ("column", 4))
    check_example_4_3()
    hold_filled(says, RECEIVED_4_3, ("row", 4), ("column", 2))
