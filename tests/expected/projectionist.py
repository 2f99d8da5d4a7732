"""The sample reel samples/projectionist.reel: old tiles and a new one, what was done to each, and the line that it must give. Each line is
held against the listing that is worked out from the bytes (tests/expected/reel.py), and what fill answers for the lost lines is worked out
too (tests/expected/tile.py)."""

from expected.caption import captioned
from expected.done import cells, lines, nothing
from expected.reel import listing, record
from expected.sizes import NEW, OLD, is_allowed
from expected.tile import fill

# Invented for this reel.
CAPTION = """\
- Which of the two did she sing?
- Nobody wrote it down.
- Then leave the line dark.
"""
# The lines that both tiles of the story have lost, and two that an old tile gets back.
CROSSED = ("row", 1), ("column", 9)
TWO_ROWS = ("row", 2), ("row", 11)

# Kind, tile number, p, l, what was done, what repair must answer, and which lines are then filled with which answer.
TILES = (
    (OLD, 1, 17, 2, lines(0x00, *CROSSED), "refused 5", (CROSSED, "refused 8")),
    (NEW, 2, 17, 3, lines(0x00, *CROSSED), "refused 5", (CROSSED, "done")),
    (OLD, 3, 7, 2, cells(0x01, (1, 0), (2, 0), (4, 0)), "refused 8", None),
    (OLD, 4, 13, 4, nothing(), "clean", None),
    (OLD, 5, 17, 2, cells(0x20, (9, 5)), "cell 9 5", None),
    (OLD, 6, 17, 2, lines(0x00, *TWO_ROWS), "refused 5", (TWO_ROWS, "done")),
)
assert all(is_allowed(p, l) == (kind == NEW) for kind, _, p, l, *_ in TILES)


def hold_filled(kind, p, l, whole, hurt, filled):
    """What fill answers for lost lines: done, with the tile from before, or a refusal, and the tile is as it was lent."""
    lost, said = filled
    assert fill(kind, p, l, hurt, *lost) == (said, whole if said == "done" else hurt)


def rows():
    """For each record its bytes, its place in the reel, its fields, what was done, and its line."""
    at, found = 0, []
    for n, (kind, number, p, l, done, answer, filled) in enumerate(TILES, start=1):
        whole = captioned(kind, p, l, CAPTION)
        hurt = done.to(p, whole)
        if filled:
            hold_filled(kind, p, l, whole, hurt, filled)
        made = record(number, p, l, hurt, kind)
        found.append((made, n, at, kind.name.lower(), number, p, l, done.words, f"{number} {p} {l} {answer}"))
        at += len(made)
    return found


def reel():
    """The whole reel."""
    return b"".join(made for made, *_ in rows())


LISTING = "".join(f"{line}\n" for *_, line in rows()) + f"end {len(TILES)}\n"
assert listing(reel()) == LISTING
