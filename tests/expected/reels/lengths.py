"""Reels by their length: the empty one, one cut short at every place, and those at and above the most that `list` takes (SPEC 8.2)."""

from itertools import accumulate

from expected.reel import HEADER, LONGEST, NO_FLAGS, record
from expected.reels.made import LOST, Case, all_sorts, flagged, good, joined, mixed, record_length
from expected.sizes import HOUSE, SIZES
from expected.worked_reels import FLAGS_LISTING, FLAGS_REEL, WHOLE_LISTING, WHOLE_REEL

# Which sizes come first on a reel of 65,536 bytes that ends well. Sizes 5 and 7 follow.
MOST = {
    "the largest first": (251,),
    "two large ones first": (181, 179),
    "each size up to 59 first": SIZES[: SIZES.index(59) + 1],
    "small sizes alone": (),
}


def sizes_for(total, *first):
    """Sizes whose records have so many bytes together: the first ones as given, then 7 and 5 as often as it takes."""
    left = total - sum(map(record_length, first))
    for sevens in range(left // record_length(7) + 1):
        fives, over = divmod(left - sevens * record_length(7), record_length(5))
        if over == 0:
            return [*first, *[7] * sevens, *[5] * fives]
    raise ValueError(f"no records have {total} bytes together")


def filled(total):
    """A sound reel of so many bytes."""
    reel = joined(sizes_for(total))
    assert len(reel) == total
    return reel


def short_reels():
    """The worked reels of SPEC 10, the empty reel, and one record cut after each byte of its header and before its last byte."""
    yield Case("the whole reel of SPEC 10", WHOLE_REEL, WHOLE_LISTING.rstrip("\n"))
    yield Case("the reel with flags of SPEC 10", FLAGS_REEL, FLAGS_LISTING.rstrip("\n"))
    yield Case("empty", b"", "end 0")
    yield Case("one byte 00", b"\x00", "stopped 7 0")
    yield Case("one byte D5", b"\xd5", "stopped 7 0")
    one = record(7, 5, 2, good(5, 2))
    for length in range(1, HEADER):
        yield Case(f"{length} bytes of a header", one[:length], "stopped 7 0")
    yield Case("a header alone", one[:10], "stopped 7 0")
    yield Case("25 bytes of a record", one[:25], "stopped 7 0")
    yield Case("26 bytes of a record", one[:26], "7 5 2 clean\nend 1")


def every_cut():
    """A few records, cut at every length: new ones, such of both kinds, and such of all three sorts."""
    reels = {
        "three new records": (joined([5, 7, 5]), (26, 46, 26)),
        "three records": (mixed([5, 7, 5]), (26, 46, 26)),
        "four records of three sorts": (all_sorts([5, 7, 5, 7]), (30, 46, 26, 50)),
    }
    for name, (reel, lengths) in reels.items():
        ends = [0, *accumulate(lengths)]
        assert len(reel) == ends[-1]
        for length in range(len(reel) + 1):
            count, start = max((n, end) for n, end in enumerate(ends) if end <= length)
            closing = f"end {count}" if start == length else f"stopped 7 {start}"
            yield Case(f"{name} cut to {length} bytes", reel[:length], closing)


def most_bytes():
    """Exactly as many bytes as are taken, or a few less: reels that end well, and reels that end in a refusal."""
    for name, first in MOST.items():
        sizes = sizes_for(LONGEST, *first)
        yield Case(f"65536 bytes, {name}", joined(sizes), f"end {len(sizes)}")
    last = record(9, 251, HOUSE[251], good(251, HOUSE[251]))
    yield Case("65536 bytes, the largest last", filled(LONGEST - len(last)) + last, "9 251 6 clean\nend 112")
    last = flagged(9, 251, HOUSE[251], LOST["a row with a column"](251))
    yield Case("65536 bytes, the largest last, with flags", filled(LONGEST - len(last)) + last, "9 251 6 filled\nend 108")
    fives = joined([5] * 2520)
    yield Case("65536 bytes, zeros behind 2520 tiles", fives + bytes(16), "stopped 6 65520")
    yield Case("65536 bytes, a body cut short", fives + record(1, 5, 2, bytes(6)), "stopped 7 65520")
    yield Case("65529 bytes, a header cut short", fives + record(1, 5, 2, b"")[:9], "stopped 7 65520")
    yield Case("65535 bytes", filled(LONGEST)[:-1], "stopped 7 65510")


def too_long():
    """More bytes than are taken: nothing is listed, whatever they are."""
    sound = filled(LONGEST)
    reels = {
        "65537 bytes, a sound reel and 00": sound + b"\x00",
        "65537 bytes, a sound reel and D5": sound + b"\xd5",
        "65537 bytes, zeros": bytes(65537),
        "65538 bytes, a sound reel": filled(65538),
        "65538 bytes, zeros": bytes(65538),
        "65546 bytes, a record of size 257": record(1, 257, 3, bytes(65536)),
        "65550 bytes, a flagged record of size 257": record(1, 257, 3, bytes(65536), flags=NO_FLAGS),
        "200000 bytes, a sound reel": filled(200000),
        "200000 bytes, zeros": bytes(200000),
    }
    return [Case(name, reel, "too long") for name, reel in reels.items()]
