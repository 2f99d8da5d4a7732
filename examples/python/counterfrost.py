"""The calls of include/counterfrost.h for Python, by ctypes, from the shared library.

Texts, sheets and reels come in as bytes, and tiles that a call may change as bytearrays; a refusal is raised as Refused. A call that is
told a size and a slope is told the kind of the tile first, NEW or OLD; judge, which takes new tiles alone, is not. A line is named by row
or column, and so is a flag, which is None where no line was lost.
"""

import ctypes
import platform
from ctypes import byref, c_size_t, c_uint8, c_uint32, c_uint64

NAMED_AS = "libcounterfrost.so.0.8"  # the calls below are those of this version

NEW = 0  # takes the slopes that are allowed at its size
OLD = 1  # takes every slope from 2 to p-2; where the slope is not allowed, a repair or a filling may be doubtful, which is refused 8
FLAGGED = 2  # not a kind of tile, but the record of a new one with two flags, for lay

NO_FLAG = 0xFFFF  # how C says None

WORDS = {
    1: "the size is not one of the primes between 5 and 257",
    2: "the slope cannot be used at this size by a tile of this kind",
    3: "a tile or a text does not have the length of this size",
    4: "the tile does not have that line, its text that place, or the record a place for that flag",
    5: "the tile is damaged: no such repair exists, or it has to be repaired before it is read",
    6: "a record does not begin with a mark",
    7: "a sheet or a reel ends within a record",
    8: "the tile is doubtful: two different good tiles would do, and nothing tells which was printed",
    9: "the room is too small for the record",
    10: "the restored tile is not good",
    11: "the restored tile differs from the scan outside the named lines",
}


class Refused(Exception):
    """Why a call says no: the number, and for a sheet or a reel the offset of the faulty record."""

    def __init__(self, number, offset=0):
        super().__init__(f"refused {number}: {WORDS[number]}")
        self.number = number
        self.offset = offset


def row(number):
    """A row, for fill and judge, and as a flag. One that is no number of a line is named as 7ffe hex: no tile has it, and 4 is said."""
    return number if 0 <= number < 0x7FFE else 0x7FFE


def column(number):
    """A column, likewise."""
    return 0x8000 + row(number)


def correction(row, column, was, now):
    """One record of a sheet: in this place of the text stood the byte `was`, and `now` is to stand there."""
    return b"\xc3\x3c" + _two_bytes(row) + _two_bytes(column) + bytes([was, now])


def tile_length(p):
    return (p - 1) * (p - 1)


def text_length(p):
    return (p - 1) * (p - 3)


def record_length(which, p):
    return (14 if which == FLAGGED else 10) + tile_length(p)


class Counterfrost:
    """The library, loaded from a path, or from where the system looks for libraries."""

    def __init__(self, path=NAMED_AS):
        if platform.machine() not in ("x86_64", "AMD64"):
            raise OSError(f"{path} is for x86-64, and this Python is for {platform.machine()}")
        self._calls = ctypes.CDLL(path)

    def _ask(self, name, *arguments):
        """Makes a call and gives its kind and its two numbers."""
        call = getattr(self._calls, name)
        call.restype = c_uint64
        word = call(*arguments)
        kind, first, second = word >> 32, word >> 16 & 0xFFFF, word & 0xFFFF
        if kind == 4:
            raise Refused(first)
        return kind, first, second

    def version(self):
        """Major, minor and patch."""
        self._calls.cf_version.restype = c_uint64
        number = self._calls.cf_version()
        return number // 10000, number // 100 % 100, number % 100

    def house_slope(self, p):
        """The slope to use at the size p, if nothing else is agreed."""
        return self._ask("cf_house_slope", _number(p))[1]

    def check(self, kind, p, l):
        """Raises Refused unless p is a size and l a slope that the kind can use there."""
        self._ask("cf_takes", _number(kind), _number(p), _number(l))

    def write(self, kind, p, l, text):
        """The good tile that has the text."""
        self.check(kind, p, l)
        tile = bytearray(tile_length(p))
        self._ask("cf_write", _number(kind), _number(p), _number(l), *_read_only(text), *_lent(tile))
        return tile

    def read(self, kind, p, l, tile):
        """The text out of a good tile."""
        self.check(kind, p, l)
        text = bytearray(text_length(p))
        self._ask("cf_read", _number(kind), _number(p), _number(l), *_read_only(tile), *_lent(text))
        return bytes(text)

    def repair(self, kind, p, l, tile):
        """Puts one hurt column or row right, in place, and names what was hurt: ("cell", 2, 3), by row and column, where it was one byte;
        ("column", 3) or ("row", 1) where it was more; None where it was nothing."""
        return _hurt(*self._ask("cf_repair", _number(kind), _number(p), _number(l), *_lent(tile)))

    def inspect(self, kind, p, l, scan):
        """Names what is hurt in a scan, as repair does. Nothing is changed."""
        return _hurt(*self._ask("cf_inspect", _number(kind), _number(p), _number(l), *_read_only(scan)))

    def recover(self, kind, p, l, scan):
        """What is hurt in a scan, named as repair does, and the text of the tile that repair would make of it. The scan stays as it is."""
        self.check(kind, p, l)
        text = bytearray(text_length(p))
        hurt = _hurt(*self._ask("cf_recover", _number(kind), _number(p), _number(l), *_read_only(scan), *_lent(text)))
        return hurt, bytes(text)

    def fill(self, kind, p, l, tile, first, second):
        """Fills one or two lost lines, in place; one line is named twice."""
        self._ask("cf_fill", _number(kind), _number(p), _number(l), *_lent(tile), _number(first), _number(second))

    def judge(self, p, l, scan, restored, first, second):
        """Raises Refused unless the restored tile is the one that fill makes of the scan; one line is named twice. Nothing is changed."""
        self._ask("cf_judge", _number(p), _number(l), *_read_only(scan), *_read_only(restored), _number(first), _number(second))

    def correct(self, kind, p, l, tile, sheet):
        """Corrects a tile, sound or damaged, by a sheet, in place, and counts its records."""
        told = c_uint64()
        try:
            self._ask("cf_correct", _number(kind), _number(p), _number(l), *_lent(tile), *_read_only(sheet), byref(told))
        except Refused as no:
            raise Refused(no.number, told.value) from None
        return told.value

    def tiles(self, reel):
        """The tiles of a reel of any length, one after the other: kind, number, p, l, the first and the second flag, and a copy of the
        tile, which fill or repair may change. A tile with a flag is to be filled; if only one is set, name its line twice."""
        at = 0
        while True:
            numbers = kind, number, p, l, first, second, offset = [c_uint64() for _ in range(7)]
            try:
                answered, *_ = self._ask("cf_next", *_read_only(reel), _number(at), *map(byref, numbers))
            except Refused as no:
                raise Refused(no.number, offset.value) from None
            if answered == 7:
                return
            at = offset.value + tile_length(p.value)
            flags = (None if flag.value == NO_FLAG else flag.value for flag in (first, second))
            yield kind.value, number.value, p.value, l.value, *flags, bytearray(reel[offset.value : at])

    def lay(self, which, p, l, number, tile, first=None, second=None):
        """The record of a tile, for a reel. It is FLAGGED, or NEW or OLD, which have no place for a flag. The tile may be hurt."""
        if not 0 <= number < 2**32:
            raise ValueError(f"the number of a tile has four bytes, which cannot say {number}")
        self.check(which, p, l)
        room = bytearray(record_length(which, p))
        flags = (_number(NO_FLAG if flag is None else flag) for flag in (first, second))
        told = [_number(which), _number(p), _number(l), c_uint32(number), *flags]
        self._ask("cf_lay", *told, *_read_only(tile), *_lent(room), byref(c_uint64()))
        return bytes(room)


def _hurt(answered, first, second):
    """What the answer to repair, inspect or recover names."""
    return {0: None, 1: ("column", first), 2: ("row", first), 3: ("cell", first, second)}[answered]


def _two_bytes(n):
    """A row or a column on a sheet. One that two bytes cannot say is laid as the largest, which no text has."""
    return (n if 0 <= n < 2**16 else 2**16 - 1).to_bytes(2, "big")


def _number(n):
    """A number as C takes it. One that C does not have is given as the largest, which is no size, slope, line or place, and no old kind."""
    return c_size_t(n if 0 <= n < 2**64 else 2**64 - 1)


def _lent(memory):
    """A bytearray as a pointer to its own bytes, and a length. No pointer may be null: an empty one is lent as a byte that is not used."""
    length = len(memory)
    return (c_uint8 * max(length, 1)).from_buffer(memory if length else bytearray(1)), c_size_t(length)


def _read_only(data):
    """Bytes that the call only reads, likewise; they are copied."""
    return (c_uint8 * max(len(data), 1)).from_buffer_copy(bytes(data) or b"\0"), c_size_t(len(data))
