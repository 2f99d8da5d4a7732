"""Sizes and slopes, from SPEC 2: the lists there are held against the rules there."""

from enum import Enum
from math import gcd

LAST = 300  # sizes and slopes are looked for from 0 to here

# The table of SPEC 2.3: a slope, and the sizes whose house slope it is.
HOUSE_SLOPES = """
    2 | 5 11 13 19 29 37 53 59 61 67 83 101 107 131 139 149 163 173 179 181 197 211 227
    3 | 7 17 31 43 79 89 113 127 137 199 223 233 257
    5 | 23 47 73 97 103 157 167 193
    6 | 41 109 151 229 251
    7 | 71 239 241
    19 | 191"""


def listed_house_slopes():
    """The house slope of each size, as the table lists it."""
    listed = {}
    for row in HOUSE_SLOPES.strip().splitlines():
        slope, sizes = row.split("|")
        for size in sizes.split():
            assert int(size) not in listed, f"{size} is listed twice"
            listed[int(size)] = int(slope)
    return listed


def is_size(p):
    """SPEC 2.1, by trial division."""
    return 5 <= p <= 257 and all(p % d != 0 for d in range(2, p))


def is_slope(p, l):
    """SPEC 2.2, for a size p: from 2 to p-2."""
    return 2 <= l <= p - 2


def is_allowed(p, l):
    """SPEC 2.2, for a size p: which remainders the powers of l leave."""
    return is_slope(p, l) and {pow(l, k, p) for k in range(p - 1)} == set(range(1, p))


class Kind(Enum):
    """SPEC 2.5: the kind of a tile."""

    NEW = 0
    OLD = 1


NEW, OLD = Kind
TAKES = {NEW: is_allowed, OLD: is_slope}  # which slopes a kind takes at a size


def verdict(kind, p, l):
    """SPEC 2.4: number 1 comes before number 2."""
    if not is_size(p):
        return "refused 1"
    return "taken" if TAKES[kind](p, l) else "refused 2"


def phi(n):
    """How many of 1 to n share no divisor with n."""
    return sum(gcd(k, n) == 1 for k in range(1, n + 1))


SIZES = [p for p in range(LAST + 1) if is_size(p)]
SLOPES = {p: [l for l in range(LAST + 1) if is_allowed(p, l)] for p in SIZES}
OLD_SLOPES = {p: [l for l in range(LAST + 1) if is_slope(p, l) and l not in SLOPES[p]] for p in SIZES}  # those of old tiles alone
HOUSE = {p: SLOPES[p][0] for p in SIZES}

assert HOUSE == listed_house_slopes()
assert len(SIZES) == 53
# The slopes whose powers reach all are phi(p-1) in number, and from 5 on neither 1 nor p-1 is among them.
assert all(len(SLOPES[p]) == phi(p - 1) for p in SIZES)
# SPEC 10, number 12. And the same slope is allowed at one size and not at another.
assert all(verdict(kind, p, 2) == "refused 1" for kind in Kind for p in (4, 9, 258)) and is_size(5) and is_size(257)
assert [verdict(NEW, 7, l) for l in (2, 6, 10, 3, 5)] == ["refused 2"] * 3 + ["taken"] * 2
assert [verdict(OLD, 7, l) for l in range(1, 7)] == ["refused 2", *["taken"] * 4, "refused 2"]
assert [verdict(NEW, p, 2) for p in (5, 7, 17)] == ["taken", "refused 2", "refused 2"]
assert [OLD_SLOPES[p] for p in (5, 7)] == [[], [2, 4]]
