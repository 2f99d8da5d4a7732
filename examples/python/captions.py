"""Three captions on their way from the film to the screen, as examples/c/captions.c tells it, from Python.

    python3 captions.py [SHARED LIBRARY]
"""

import sys

import counterfrost
from counterfrost import FLAGGED, NEW, Counterfrost, column, correction, row, text_length

# A new tile of size 11: 10 rows of 10 bytes, of which 8 are text.
SIZE = 11
ROWS = COLUMNS = SIZE - 1
TEXT_COLUMNS = SIZE - 3

CAPTIONS = [b"- Who let the boat go?", b"- The ferryman, at noom.", b"- Then who is that on the far shore?"]


def print_caption(text):
    """Prints the caption that a text holds, without the spaces behind it."""
    print(text.decode().rstrip(" "))


def splice(tile, at):
    """What a splice does to a row."""
    tile[at * COLUMNS : (at + 1) * COLUMNS] = bytes(COLUMNS)


def scratch(tile, at):
    """What a scratch does to a column."""
    for i in range(ROWS):
        tile[i * COLUMNS + at] ^= 0x55 + i


def dust(tile, i, j):
    """What a grain of dust does to a cell."""
    tile[i * COLUMNS + j] ^= 0x20


def hurt_in_words(hurt):
    """Says what was hurt."""
    return " ".join(map(str, hurt)) if hurt else "clean"


def restore(library, kind, p, l, first, second, tile):
    """Fills the lines that the flags name, or repairs the tile where there is no flag, and says what came of it."""
    lost = [flag for flag in (first, second) if flag is not None]
    if lost:
        library.fill(kind, p, l, tile, lost[0], lost[-1])  # if only one flag is set, it is named twice
        return "filled"
    return hurt_in_words(library.repair(kind, p, l, tile))


def show(library, kind, number, p, l, first, second, tile):
    """Restores a tile of the reel, says what came of it, and prints its caption."""
    try:
        print(f"tile {number}: {restore(library, kind, p, l, first, second, tile)}")
        print_caption(library.read(kind, p, l, tile))
    except counterfrost.Refused as no:
        print(f"tile {number}: refused {no.number}")


def judge(library, slope, scan, restored):
    """Judges a tile that was restored from a scan of which row 1 and column 5 were lost."""
    try:
        library.judge(SIZE, slope, scan, restored, row(1), column(5))
        print("judged: accepted")
    except counterfrost.Refused as no:
        print("judged: refused", no.number)


def correct_letter(library, slope, tile):
    """Puts the wrong letter of the second caption right, on its tile, which is scratched there."""
    i, j = divmod(CAPTIONS[1].index(b"noom") + 3, TEXT_COLUMNS)
    scratch(tile, j)
    records = library.correct(NEW, SIZE, slope, tile, correction(i, j, ord("m"), ord("n")))
    print(f"corrected: {records} letter")


def main():
    library = Counterfrost(*sys.argv[1:])
    slope = library.house_slope(SIZE)

    tiles = [library.write(NEW, SIZE, slope, caption.ljust(text_length(SIZE))) for caption in CAPTIONS]
    print(f"written: {len(tiles)} tiles, size {SIZE}, slope {slope}")

    scans = [bytearray(tile) for tile in tiles]
    dust(scans[0], 1, 3)
    splice(scans[1], 1)
    scratch(scans[1], 5)
    splice(scans[2], 2)

    records = [
        library.lay(NEW, SIZE, slope, 1, scans[0]),
        library.lay(NEW, SIZE, slope, 2, scans[1]),
        library.lay(FLAGGED, SIZE, slope, 2, scans[1], row(1), column(5)),
        library.lay(FLAGGED, SIZE, slope, 3, scans[2], None, row(2)),
    ]
    reel = b"".join(records)
    print(f"laid: {len(records)} records, {len(reel)} bytes")

    for found in library.tiles(reel):
        show(library, *found)

    judge(library, slope, scans[1], tiles[1])
    by_hand = bytearray(tiles[1])
    dust(by_hand, 1, 2)
    judge(library, slope, scans[1], by_hand)

    # The lab's tile is not ours to change: it is only looked at.
    print("inspected:", hurt_in_words(library.inspect(NEW, SIZE, slope, by_hand)))

    # Here the text is all that is wanted: one call repairs and reads, and leaves the tile with its scratch.
    correct_letter(library, slope, tiles[1])
    hurt, text = library.recover(NEW, SIZE, slope, tiles[1])
    print("recovered:", hurt_in_words(hurt))
    print_caption(text)


if __name__ == "__main__":
    try:
        main()
    except (counterfrost.Refused, OSError) as no:
        sys.exit(str(no))
