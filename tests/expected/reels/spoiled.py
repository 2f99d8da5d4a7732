"""Sound reels in which one thing was changed at random: a byte, the length, one byte more or one less."""

from random import Random

from expected.reels.made import Case, all_sorts, joined, mixed

SOUND = {
    "small": joined([5, 7, 5, 11, 7, 5]),
    "mixed": joined([11, 5, 13, 7, 17, 5, 19]),
    "large": joined([5, 61, 7]),
    "old and new": mixed([7, 5, 11, 7, 17, 13, 7]),
    "all sorts": all_sorts([5, 7, 5, 7, 11, 5, 13, 7, 5, 7]),
}
TRIES = 80


def drawn(seed):
    """For each try at each sound reel its name, the reel, and a pseudo-random place in it, never twice the same; and the source of
    more."""
    source = Random(seed)
    for name, reel in SOUND.items():
        for at in source.sample(range(len(reel)), TRIES):
            yield name, reel, at, source


def byte_changed():
    """A byte becomes another one."""
    for name, reel, at, source in drawn(4):
        byte = reel[at] ^ source.randrange(1, 256)
        yield Case(f"{name}, byte {at} changed to {byte:02X}", reel[:at] + bytes([byte]) + reel[at + 1 :])


def header_byte_changed():
    """Each byte of a record's header becomes another one, in several ways: of a new record, of an old one, and of a flagged one."""
    for name, start, length in (("small", 26, 10), ("old and new", 46 + 26, 10), ("all sorts", 30 + 46 + 26, 14)):
        reel = SOUND[name]
        for at in range(start, start + length):
            for change in (0x01, 0x02, 0x04, 0x10, 0x80, 0x88, 0xFF):
                byte = reel[at] ^ change
                yield Case(f"{name}, header byte {at} changed to {byte:02X}", reel[:at] + bytes([byte]) + reel[at + 1 :])


def cut():
    """The reel ends early."""
    for name, reel, at, _ in drawn(5):
        yield Case(f"{name}, cut to {at} bytes", reel[:at])


def byte_inserted():
    """A byte comes in between."""
    for name, reel, at, source in drawn(6):
        byte = source.randrange(256)
        yield Case(f"{name}, {byte:02X} inserted before byte {at}", reel[:at] + bytes([byte]) + reel[at:])


def byte_removed():
    """A byte is lost."""
    for name, reel, at, _ in drawn(7):
        yield Case(f"{name}, byte {at} removed", reel[:at] + reel[at + 1 :])
