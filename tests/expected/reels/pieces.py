"""Reels that come in pieces. The end of the input decides, and not the end of a piece."""

from itertools import accumulate, pairwise

from expected.reel import FLAGGED_HEADER, LONGEST
from expected.reels.lengths import filled
from expected.reels.made import all_sorts, joined, record_length
from expected.worked_reels import FLAGS_REEL, WHOLE_REEL


def cut_up(reel, *lengths):
    """The pieces of a reel: of these lengths, the last of them as often as it takes."""
    places = [0, *accumulate(lengths)]
    while places[-1] < len(reel):
        places.append(places[-1] + lengths[-1])
    return [reel[start:end] for start, end in pairwise(places) if start < len(reel)]


def cases():
    """The name of each case and its pieces."""
    sizes = (5, 7, 11, 13, 5)
    sound = filled(LONGEST)
    return {
        "nothing": [],
        "the whole reel of SPEC 10 byte by byte": cut_up(WHOLE_REEL, 1),
        "the reel with flags of SPEC 10 byte by byte": cut_up(FLAGS_REEL, 1),
        "record by record": cut_up(joined(sizes), *map(record_length, sizes)),
        "the header of a flagged record, its tile, then 9 bytes at a time": cut_up(all_sorts(sizes), FLAGGED_HEADER, 16, 9),
        "a byte, then 9 bytes at a time": cut_up(joined(sizes), 1, 9),
        "65536 bytes: one, then 1000 at a time": cut_up(sound, 1, 1000),
        "65536 bytes: all at once": [sound],
        "65536 bytes: 65535, then one": cut_up(sound, LONGEST - 1, 1),
        "the largest size: one byte, then 1000 at a time": cut_up(joined([251]), 1, 1000),
        "65537 bytes: one, then 1000 at a time": cut_up(sound + b"\x00", 1, 1000),
        "65537 bytes: 65536, then one": cut_up(sound + b"\x00", LONGEST, 1),
        "65538 bytes: 65536, then two": cut_up(sound + b"\xd5\x5d", LONGEST, 2),
        "200000 bytes: 1000 at a time": cut_up(bytes(200000), 1000),
    }
