"""Flags, from SPEC 3.5: a number tells of a line that was lost, or that there is none. A line is a pair, as in tests/expected/tile.py; in
place of it, None says that there is none."""

from expected.tile import has_line

NONE = 0xFFFF
COLUMNS = 0x8000  # from here on a number names a column


def line_of(flag):
    """The line that a flag tells of."""
    if flag == NONE:
        return None
    return ("row", flag) if flag < COLUMNS else ("column", flag - COLUMNS)


def flag_of(line):
    """The flag that tells of a line."""
    if line is None:
        return NONE
    kind, n = line
    return n if kind == "row" else COLUMNS + n


def is_carried(p, flag):
    """SPEC 7.5: whether a flagged record of size p can carry the flag."""
    line = line_of(flag)
    return line is None or has_line(p, line)


def lost_lines(flags):
    """The lines that some flags tell of, in their order."""
    return [line for line in map(line_of, flags) if line]


def to_fill(flags):
    """SPEC 7.6: the two lines to fill, where there is a flag; a lone one is named twice."""
    lost = lost_lines(flags)
    return (lost[0], lost[-1]) if lost else ()


# The table of FORMATS: a flag, the line, and whether it is carried at p 5, and at p 257.
TOLD = {
    0x0000: (("row", 0), True, True),
    0x0003: (("row", 3), True, True),
    0x0004: (("row", 4), False, True),
    0x00FF: (("row", 255), False, True),
    0x0100: (("row", 256), False, False),
    0x7FFF: (("row", 32767), False, False),
    0x8000: (("column", 0), True, True),
    0x8003: (("column", 3), True, True),
    0x8004: (("column", 4), False, True),
    0x80FF: (("column", 255), False, True),
    0x8100: (("column", 256), False, False),
    0xFFFE: (("column", 32766), False, False),
    0xFFFF: (None, True, True),
}
assert all((line_of(flag), is_carried(5, flag), is_carried(257, flag)) == told for flag, told in TOLD.items())
assert all(flag_of(line_of(flag)) == flag for flag in range(NONE + 1))
