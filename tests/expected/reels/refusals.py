"""Every refusal of a record (SPEC 7.2), at the reel's start and behind good records, and the order of refusals where a record has several
faults (SPEC 9.2)."""

from itertools import product

from expected.flag import NONE
from expected.reel import record
from expected.reels.made import SORTS, Case, all_sorts, good, joined

PLACES = {"first": b"", "behind one": joined([5]), "behind three": all_sorts([7, 5, 11])}
MARKS = (
    *("D4 5D", "D5 5C", "D5 5F", "D4 5C", "00 5D", "D5 00", "00 00", "FF FF", "C3 3C", "5C D5", "5D D4", "5D D6", "5D 5D", "D5 D5"),
    *("D4 5E", "5E D5", "5E 5E", "D5 DE"),
)
SIZES = (0, 1, 2, 3, 4, 6, 8, 9, 15, 25, 253, 255, 256, 258, 261, 263, 1285, 65535)  # 261, 263, 1285: the low byte is a size
# At each size slopes below 2 and from p-1 on, some of them with the low byte of an allowed one; and for new tiles slopes whose powers miss.
SLOPES = {
    "NEW": {
        5: (0, 1, 4, 5, 6, 255, 256, 258, 512, 65535),
        7: (0, 1, 2, 4, 6, 7, 259, 768, 65535),
        11: (0, 1, 3, 4, 5, 9, 10, 11, 258, 65535),
        17: (0, 1, 2, 4, 8, 9, 13, 15, 16, 17, 65535),
    },
    "OLD": {
        5: (0, 1, 4, 5, 258, 65535),
        7: (0, 1, 6, 7, 258, 512, 65535),
        17: (0, 1, 16, 17, 258, 65535),
    },
    "FLAGGED": {
        5: (0, 1, 4, 258),
        7: (0, 1, 2, 4, 6, 259),
        17: (2, 16, 65535),
    },
}
FLAGS = (0x0004, 0x8004)  # of lines that a tile of size 5 just does not have; tests/expected/reels/flags.py has more


def lone_faults():
    """The name of each fault, the number for it, and a record that has this fault alone. No other record stands behind it: the
    bytes of a tile do, so that there is something to go on to."""
    for mark in MARKS:
        yield f"mark {mark}", 6, record(7, 5, 2, good(5, 2), mark=bytes.fromhex(mark))
    for sort, told in SORTS.items():
        header, tile = record(7, 5, 2, b"", **told), good(5, 2)
        for length in range(1, len(header)):
            yield f"{sort}, {length} bytes of a header", 7, header[:length]
        for p in SIZES:
            yield f"{sort}, size {p}", 1, record(7, p, 2, tile, **told)
        for p, slopes in SLOPES[sort].items():
            for l in slopes:
                yield f"{sort}, slope {l} at {p}", 2, record(7, p, l, bytes((p - 1) ** 2), **told)
        for length in range(len(tile)):
            yield f"{sort}, {length} bytes of a tile", 7, header + tile[:length]
    for flag in FLAGS:
        for flags in ((flag, NONE), (0x0000, flag)):
            yield "flags {:04X} and {:04X}".format(*flags), 4, record(7, 5, 2, good(5, 2), flags=flags)


def each_refusal():
    """Each fault at each place. Good records stand behind it where it is not for want of bytes: the listing must not go on."""
    behind = joined([5, 7])
    for place, before in PLACES.items():
        for name, number, faulty in lone_faults():
            yield Case(f"{place}, {name}", before + faulty, f"stopped {number} {len(before)}")
            if number != 7:
                reel = before + faulty + behind
                yield Case(f"{place}, {name}, good ones behind", reel, f"stopped {number} {len(before)}")


def faulty_records():
    """Every choice of faults in one record: its sort, the numbers of its faults in the order in which they are told, its header, and what
    there is of its tile. The faults are a wrong mark 6, a wrong size 1, a wrong slope 2, in a flagged record a flag that it cannot carry 4,
    and a tile cut short 7."""
    for sort, marked, sized, sloped, carried, whole in product(SORTS, *[(True, False)] * 5):
        if not carried and sort != "FLAGGED":
            continue
        told = SORTS[sort] if carried else {"flags": (FLAGS[0], NONE)}
        mark = None if marked else b"\xd5\x00"
        header = record(7, 5 if sized else 9, 2 if sloped else 0, b"", **told, mark=mark)
        faults = ((marked, 6), (sized, 1), (sloped, 2), (carried, 4), (whole, 7))
        numbers = [number for sound, number in faults if not sound]
        if numbers:
            tile = good(5, 2)
            yield sort, numbers, header, tile if whole else tile[:3]


def several_faults():
    """All of them at each place: the first fault is told. And once with the header cut short, which comes before all; if that of a flagged
    record has ten bytes or more, it comes behind the mark."""
    sound = PLACES["behind three"]
    for sort, numbers, header, tile in faulty_records():
        name = f"{sort}, faults " + " ".join(map(str, numbers))
        for place, before in PLACES.items():
            yield Case(f"{place}, {name}", before + header + tile, f"stopped {numbers[0]} {len(before)}")
        yield Case(f"{name}, 9 bytes", sound + header[:9], f"stopped 7 {len(sound)}")
        if sort == "FLAGGED":
            number = 6 if numbers[0] == 6 else 7
            yield Case(f"{name}, 13 bytes", sound + header[:13], f"stopped {number} {len(sound)}")


def offsets():
    """Refusals at offsets whose number of digits grows: the offset is that of the record's first byte."""
    for count in (0, 1, 3, 4, 38, 39, 384, 385, 2519):
        before = joined([5] * count)
        yield Case(f"a wrong mark behind {count} tiles", before + bytes(10), f"stopped 6 {26 * count}")
        yield Case(f"one byte behind {count} tiles", before + b"\xd5", f"stopped 7 {26 * count}")
