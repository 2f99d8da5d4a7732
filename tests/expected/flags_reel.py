"""The sample reel samples/flags.reel: the captions of a small film on records of all three sorts, most of them flagged, what was done to
each tile, and the line that it must give. Each line is held against the listing that is worked out from the bytes (tests/expected/reel.py),
and each tile that is restored against the one that was written."""

from typing import NamedTuple

from expected.caption import captioned
from expected.done import Done, both, cells, garbage, lines, nothing
from expected.flag import flag_of
from expected.reel import FLAGGED_HEADER, HEADER, NO_FLAGS, listing, record, restore
from expected.sizes import NEW, OLD, Kind
from expected.tile import repair, text_length

# Invented for this reel. A caption has its place here for its number.
CAPTIONS = (
    "THE NIGHT TRAM\nA film in twelve captions\n",
    "The last tram leaves at ten.\nIt has left at ten for thirty-one years.\n",
    "- You are early.\n- Your clock is late.\n- Then we are both on time.\n",
    "[rain on the roof of the shelter]\n",
    "- Who rides it, at this hour?\n- A baker, a nurse. Tonight you.\n",
    "I only came to bring back the umbrella.\n",
    "- It was never ours.\n- It hung in your hall all winter.\n",
    "Ticket, please. No, not that one.\nThat one was for the ferry.\n",
    "- Did you see the driver?\n- I saw a coat, and a cap on top of it.\n",
    "[the doors close]\n",
    "Hold on to the strap.\nThe bend by the mill is sharper than it looks.\n",
    "- Where does it go, after the mill?\n- Home, like everybody.\n",
    "[a bell]",
)


class Scan(NamedTuple):
    """A record: the number of its caption, what was done to the tile, what its line says, what repair says of the same tile, and the lines
    that its flags tell of, or None for a record without flags."""

    number: int
    done: Done
    said: str
    repaired: str
    lost: tuple | None = None
    p: int = 17
    l: int = 3
    kind: Kind = NEW


CROSSED = ("row", 5), ("column", 12)  # of one tile that was scanned twice
HURT_TOO = ("row", 3), ("column", 8)  # of a tile that is hurt elsewhere too
SCANS = (
    Scan(0, lines(0xFF, ("column", 6)), "column 6", "column 6", l=2, kind=OLD),
    Scan(1, nothing(), "clean", "clean"),
    Scan(2, lines(0x00, *CROSSED), "filled", "refused 5", CROSSED),
    Scan(2, lines(0x00, *CROSSED), "refused 5", "refused 5"),
    Scan(3, garbage(("column", 0)), "filled", "column 0", (("column", 0), None)),
    Scan(4, lines(0xFF, ("row", 15)), "filled", "row 15", (None, ("row", 15))),
    Scan(5, garbage(("column", 15)), "filled", "column 15", (("column", 15), ("column", 15))),
    Scan(6, cells(0x20, (9, 4)), "cell 9 4", "cell 9 4", (None, None)),
    Scan(7, nothing(), "filled", "clean", (("row", 7), None)),
    Scan(8, both(lines(0x00, *HURT_TOO), cells(0x01, (9, 2))), "refused 5", "refused 5", HURT_TOO),
    Scan(9, lines(0x00, ("column", 4)), "refused 5", "column 4", (None, ("row", 2))),
    Scan(10, lines(0x00, ("row", 0), ("row", 11)), "filled", "refused 5", (("row", 11), ("row", 0)), 13, 2),
    Scan(11, garbage(("column", 0), ("column", 9)), "filled", "refused 5", (("column", 0), ("column", 9)), 11, 7),
    Scan(12, cells(0x20, (0, 0), (1, 1)), "filled", "column 3", (("row", 0), ("column", 1)), 5, 2),
)
assert {scan.number for scan in SCANS} == set(range(len(CAPTIONS)))
assert all(len(CAPTIONS[scan.number]) <= text_length(scan.p) for scan in SCANS)


def laid(scan):
    """The bytes of a record. What is said of its tile is held to SPEC 7.6, by its flags, and to SPEC 5.3; where it is not refused, the tile
    that was written comes out."""
    number, done, said, repaired, lost, p, l, kind = scan
    whole = captioned(kind, p, l, CAPTIONS[number])
    hurt = done.to(p, whole)
    flags = None if lost is None else tuple(map(flag_of, lost))
    assert restore(kind, p, l, hurt, flags or NO_FLAGS) == (said, hurt if said.startswith("refused") else whole)
    assert repair(kind, p, l, hurt)[0] == repaired
    return record(number, p, l, hurt, kind, flags)


def flag_words(lost):
    """The flags of a record in words."""
    if lost is None:
        return "no flags"
    return ", ".join("none" if line is None else "{} {}".format(*line) for line in lost)


def rows():
    """For each record its bytes, its place in the reel, its header, its flags, what was done, and its line."""
    at, found = 0, []
    for n, scan in enumerate(SCANS, start=1):
        made = laid(scan)
        header = made[: HEADER if scan.lost is None else FLAGGED_HEADER].hex(" ").upper()
        line = f"{scan.number} {scan.p} {scan.l} {scan.said}"
        found.append((made, n, at, header, flag_words(scan.lost), scan.done.words, line))
        at += len(made)
    return found


def reel():
    """The whole reel."""
    return b"".join(made for made, *_ in rows())


LISTING = "".join(f"{line}\n" for *_, line in rows()) + f"end {len(SCANS)}\n"
assert listing(reel()) == LISTING
# Without its flags the last tile would be repaired to another one that is good, as two hurt cells may look like one hurt column (SPEC 10).
assert repair(NEW, 5, 2, list(laid(SCANS[-1])[FLAGGED_HEADER:]))[1] != captioned(NEW, 5, 2, CAPTIONS[-1])
