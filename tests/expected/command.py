"""What the command `counterfrost` has to do with reels, from SPEC 12: its standard output, its standard error, its exit status and the new
reel. The walk is that of tests/expected/reel.py, the tiles are those of tests/expected/quick.py. A whole reel is looked at, without windows
(SPEC 12.9)."""

from functools import lru_cache
from typing import NamedTuple

from expected import quick, sheet
from expected.flag import to_fill
from expected.reel import record, refusal, tile_at
from expected.sizes import OLD
from expected.tile import has_line, text_length, tile_length

LAST = 4294967295  # the largest number of a tile
ROW = 24  # squares in a row of the map
LONGEST_SHEET = 131072  # SPEC 12.3


class Outcome(NamedTuple):
    """What a run leaves: no new reel is None."""

    status: int
    output: bytes = b""
    errors: bytes = b""
    new: bytes | None = None


class Found(NamedTuple):
    """A tile of a walk: the offset of its record, and what comes of restoring it (SPEC 7.6)."""

    offset: int
    tile: tuple
    state: str
    restored: bytes

    @property
    def line(self):
        """SPEC 8.1: its line of a listing, without LF."""
        return f"{self.tile.number} {self.tile.p} {self.tile.l} {self.state}"


def restored(p, l, flags, tile):
    """SPEC 7.6: the answer, and the tile afterwards."""
    lost = to_fill(flags)
    if not lost:
        return quick.repair(p, l, tile)
    answer, left = quick.fill(p, l, tile, *lost)
    return "filled" if answer == "done" else answer, left


def steps(reel):
    """The tiles of a walk, as Found, and then the line that closes the listing, as text."""
    at = count = 0
    while at < len(reel):
        no = refusal(reel, at)
        if no is not None:
            yield f"stopped {no} {at}"
            return
        tile = tile_at(reel, at)
        yield Found(at, tile, *restored(tile.p, tile.l, tile.flags, reel[tile.start : tile.end]))
        at = tile.end
        count += 1
    yield f"end {count}"


@lru_cache(maxsize=4)  # one reel is given to several commands
def walked(reel):
    """The tiles of a walk, and the line that closes the listing."""
    *tiles, closing = steps(reel)
    return tiles, closing


def said(*lines):
    """SPEC 12.6: lines on standard error."""
    return "".join(f"counterfrost: {line}\n" for line in lines).encode()


def listing(tiles, closing):
    """SPEC 8.1."""
    return "".join(f"{line}\n" for line in (*(found.line for found in tiles), closing)).encode()


def ended(closing):
    """Whether the walk came to the end."""
    return closing.startswith("end")


def status_of(tiles, closing):
    """SPEC 12.5, of `list` and `map`."""
    return 0 if ended(closing) and all(found.state == "clean" for found in tiles) else 1


def list_(reel):
    """`list`."""
    walk = walked(reel)
    return Outcome(status_of(*walk), listing(*walk))


def repair(reel):
    """`repair`."""
    tiles, closing = walked(reel)
    new = bytearray(reel)
    for found in tiles:
        new[found.tile.start : found.tile.end] = found.restored
    well = ended(closing) and not any(found.state.startswith("refused") for found in tiles)
    return Outcome(0 if well else 1, listing(tiles, closing), b"", bytes(new))


# The map, SPEC 12.7 and 12.8.

WORDS = ("clean", "cell", "column", "row", "filled", "refused", "doubtful")
SIGNS = dict(zip(WORDS, ".o|-#x?"))
GROUNDS = dict(zip(WORDS, "khhhfrd"))
STYLE = (
    "text{font:12px monospace;fill:#333}.o{text-anchor:end}.n{text-anchor:middle}.k{fill:#e0efe0}.h{fill:#efcb70}"
    ".b{fill:#b00020}.f{fill:#bcd4ee}.i{fill:#1f4e8c}.r{fill:#3a3a3a}.d{fill:#6b4a8c}"
    ".x{fill:none;stroke:#fff;stroke-width:3}.s{fill:none;stroke:#b00020;stroke-width:2;stroke-dasharray:4 3}"
)
STOP = '<path class="s" d="M1 1h26v26h-26z"/>'
LEGEND = ("clean", "cell 128 128", "column 128", "row 128", "filled", "refused 5", "refused 8")  # the shapes are those of size 257


def word(state):
    """The word for a state."""
    return "doubtful" if state == "refused 8" else state.split()[0]


def shape(p, state):
    """The table of the shapes."""
    numbers = [int(field) for field in state.split()[1:]]
    name, sign = word(state), ""
    if name == "cell":
        row, column = numbers
        sign = f'<circle class="b" cx="{4 + 20 * column // (p - 2)}" cy="{4 + 20 * row // (p - 2)}" r="4"/>'
    elif name == "column":
        sign = f'<path class="b" d="M{25 * numbers[0] // (p - 2)} 0h3v28h-3z"/>'
    elif name == "row":
        sign = f'<path class="b" d="M0 {25 * numbers[0] // (p - 2)}h28v3h-28z"/>'
    elif name == "filled":
        sign = '<path class="i" d="M8 8h12v12h-12z"/>'
    elif name == "refused":
        sign = '<path class="x" d="M6 6l16 16m0-16l-16 16"/>'
    elif name == "doubtful":
        sign = '<path class="x" d="M9 11c0-7 10-7 10-1c0 4-5 4-5 7m0 3v3"/>'
    return f'<path class="{GROUNDS[name]}" d="M0 0h28v28h-28z"/>{sign}'


def square(offset, k, line, drawn):
    """The lines of the k-th square: it is named by a line of the listing."""
    x, y = 96 + 32 * (k % ROW), 16 + 32 * (k // ROW)
    if k % ROW == 0:
        yield f'<text class="o" x="88" y="{y + 18}">{offset}</text>'
    yield f'<g transform="translate({x} {y})"><title>{line}</title>{drawn}</g>'


def stop_of(closing):
    """The number and the offset of a refusal, or None."""
    return None if ended(closing) else tuple(closing.split()[1:])


def picture_head(rows):
    """The first lines."""
    high = 112 + 32 * rows
    yield f'<svg xmlns="http://www.w3.org/2000/svg" width="872" height="{high}" viewBox="0 0 872 {high}">'
    yield f"<style>{STYLE}</style>"
    yield f'<path fill="#fff" d="M0 0h872v{high}h-872z"/>'


def picture_foot(rows, counts, stops):
    """The legend, and the end. The counts are by word."""
    entries = [(shape(257, state), word(state), counts.get(word(state), 0)) for state in LEGEND]
    entries.append((STOP, "stopped", stops))
    for j, (drawn, name, count) in enumerate(entries):
        x, y = 96 + 192 * (j % 4), 32 + 32 * rows + 36 * (j // 4)
        yield f'<g transform="translate({x} {y})">{drawn}<text x="36" y="18">{name} {count}</text></g>'
    yield "</svg>"


def counted(tiles):
    """How many tiles there are of each word."""
    counts = {}
    for found in tiles:
        counts[word(found.state)] = counts.get(word(found.state), 0) + 1
    return counts


def picture(tiles, closing):
    """SPEC 12.7: the lines."""
    stop = stop_of(closing)
    rows = (len(tiles) + (stop is not None) + ROW - 1) // ROW
    yield from picture_head(rows)
    for k, found in enumerate(tiles):
        yield from square(found.offset, k, found.line, shape(found.tile.p, found.state))
    if stop:
        yield from square(stop[1], len(tiles), closing, f'{STOP}<text class="n" x="14" y="18">{stop[0]}</text>')
    yield from picture_foot(rows, counted(tiles), int(stop is not None))


def signs(tiles, closing):
    """SPEC 12.8: the lines."""
    stop = stop_of(closing)
    squares = [(found.offset, SIGNS[word(found.state)]) for found in tiles]
    if stop:
        squares.append((stop[1], stop[0]))
    for k in range(0, len(squares), ROW):
        yield f"{squares[k][0]:>12}" + "".join(f" {sign}" for _, sign in squares[k : k + ROW])
    yield from signs_foot(counted(tiles), closing)


def signs_foot(counts, closing):
    """The lines below the signs."""
    for name in WORDS:
        yield f"{SIGNS[name]} {name} {counts.get(name, 0)}"
    yield closing


def map_(reel, text=False):
    """`map`, and `map --text`."""
    walk = walked(reel)
    lines = signs(*walk) if text else picture(*walk)
    return Outcome(status_of(*walk), "".join(f"{line}\n" for line in lines).encode())


# One tile, SPEC 12.3.


def first_with(reel, number):
    """The first tile of the walk that has the number, or None, and the line that closes the walk."""
    tiles, closing = walked(reel)
    return next((found for found in tiles if found.tile.number == number), None), closing


def no_tile(closing, name, number):
    """SPEC 12.6: no such tile."""
    return Outcome(1, b"", said(closing, f"{name}: no tile {number}"))


def read(reel, number, name="-"):
    """`read`. The name is that of the reel, for messages."""
    found, closing = first_with(reel, number)
    if found is None:
        return no_tile(closing, name, number)
    errors = b"" if found.state == "clean" else said(found.line)
    if found.state.startswith("refused"):
        return Outcome(1, b"", errors)
    return Outcome(0, quick.text_of(found.tile.p, found.restored), errors)


def with_tile(reel, found, tile):
    """The reel with another tile in place of one."""
    return reel[: found.tile.start] + tile + reel[found.tile.end :]


def fill(reel, number, lines, name="-"):
    """`fill`, of lines as pairs: one of them, or two."""
    found, closing = first_with(reel, number)
    if found is None:
        return no_tile(closing, name, number)
    tile = found.tile
    head = f"{tile.number} {tile.p} {tile.l}"
    if not all(has_line(tile.p, line) for line in lines):
        return Outcome(2, b"", said(f"{head} refused 4"))
    answer, filled = quick.fill(tile.p, tile.l, reel[tile.start : tile.end], lines[0], lines[-1])
    if answer != "done":
        return Outcome(1, b"", said(f"{head} {answer}"))
    return Outcome(0, f"{head} filled\n".encode(), b"", with_tile(reel, found, filled))


def correct(reel, number, records, name="-", sheet_name="-"):
    """`correct`, by the bytes of a sheet."""
    found, closing = first_with(reel, number)
    if found is None:
        return no_tile(closing, name, number)
    tile = found.tile
    fault = sheet.fault(tile.p, records)
    if fault:
        return Outcome(2, b"", said(f"{sheet_name}: {fault}"))
    given = sheet.differences(records)
    text = bytes(given.get(divmod(k, tile.p - 3), 0) for k in range(text_length(tile.p)))
    changed = quick.added(reel[tile.start : tile.end], quick.written(tile.p, tile.l, text))
    line = f"{tile.number} {tile.p} {tile.l} corrected {len(records) // 8}\n"
    return Outcome(0, line.encode(), b"", with_tile(reel, found, changed))


def write(p, l, number, texts):
    """`write`, of texts that have their length, at a slope that is allowed: SPEC 12.4."""
    assert number + len(texts) - 1 <= LAST and all(len(text) == text_length(p) for text in texts)
    laid = (record(number + n, p, l, quick.written(p, l, text)) for n, text in enumerate(texts))
    return Outcome(0, b"", b"", b"".join(laid))


def held():
    """The examples of SPEC 10 and FORMATS, and the slower implementation of the listing."""
    from expected.reel import listing as slow_listing
    from expected.worked_reels import WHOLE_REEL

    quick.held()
    assert list_(WHOLE_REEL) == (1, b"7 5 2 clean\n8 5 2 cell 2 3\nstopped 7 52\n", b"", None)
    assert list_(WHOLE_REEL).output == slow_listing(WHOLE_REEL).encode()
    doubtful = bytes.fromhex("5DD5 0007 0002 00000009") + bytes(6) + (b"\1" + bytes(5)) * 2 + bytes(6) + b"\1" + bytes(11)
    assert list_(doubtful).output == b"9 7 2 refused 8\nend 1\n" and tile_length(7) == 36
    assert tile_at(doubtful, 0).kind is OLD
    # FORMATS, the example of two records of a sheet over worked tile 1.
    before = bytes.fromhex("D55D 0005 0002 00000001  01000001 00000101 00000100 00000100")
    after = bytes.fromhex("D55D 0005 0002 00000001  41000003 00000341 00000300 00424100")
    two = bytes.fromhex("C33C00000000 0141 C33C00030001 0042")
    assert correct(before, 1, two) == (0, b"1 5 2 corrected 2\n", b"", after)
    assert write(5, 2, 1, [b"\1" + bytes(7)]).new == before
