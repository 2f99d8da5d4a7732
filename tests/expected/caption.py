"""Captions on the tiles of the sample reels."""

from expected.tile import text_length, tile_length, write


def captioned(kind, p, l, caption):
    """The good tile of a caption: as much of it as the text holds, and spaces behind it."""
    text = caption.encode("ascii")[: text_length(p)].ljust(text_length(p))
    answer, tile = write(kind, p, l, text, [0] * tile_length(p))
    assert answer == "done"
    return tile
