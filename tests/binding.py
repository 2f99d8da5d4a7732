"""Tries examples/python/counterfrost.py where its program does not go: refusals, their words, and numbers that C does not have. And holds
it, and examples/rust/counterfrost.rs, to what the header declares: calls, constants and words.

    tests/python tests/binding.py EXAMPLES SHARED-LIBRARY VERSION
"""

import re
import sys
from ctypes import byref, c_uint32, c_uint64
from pathlib import Path

sys.path.insert(0, sys.argv[1] + "/python")

from captions import restore
from counterfrost import FLAGGED, NAMED_AS, NEW, NO_FLAG, OLD, WORDS, Counterfrost, Refused
from counterfrost import _lent, _number, column, correction, record_length, row, text_length, tile_length

library = Counterfrost(sys.argv[2])
version = sys.argv[3]


def refusal(call, *arguments):
    """The number and the offset of the refusal that a call has to give."""
    try:
        call(*arguments)
    except Refused as no:
        return no.number, no.offset
    return None


# The whole reel of SPEC 10.
REEL = bytes.fromhex("D55D0005000200000007" + "00" * 16 + "D55D0005000200000008" + "00" * 11 + "41" + "00" * 4 + "00")

# An old record and a new one: worked tile 16 of SPEC 10, and zeros.
OLD_REEL = bytes.fromhex("5DD50007000200000010" + "00" * 7 + "01" + "00" * 28 + "D55D0007000300000011" + "00" * 36)


def listed(kind, number, p, l, first, second, tile):
    """A tile of a reel, and what comes of restoring it by its flags."""
    try:
        said = restore(library, kind, p, l, first, second, tile)
    except Refused as no:
        said = f"refused {no.number}"
    return kind, number, p, l, first, second, said


def walk(reel):
    """The tiles of a reel up to its refusal, and that."""
    tiles = []
    try:
        for tile in library.tiles(reel):
            tiles.append(listed(*tile))
    except Refused as no:
        return tiles, (no.number, no.offset)
    return tiles, None


def zeros_with(*ones, length=16):
    """A tile of zeros with some ones."""
    return bytearray(int(k in ones) for k in range(length))


def repaired(*ones):
    """What repair says of a tile of zeros with some ones, of which it makes zeros."""
    tile = zeros_with(*ones)
    said = library.repair(NEW, 5, 2, tile)
    return said if tile == bytes(16) else tile


def doubted(call, *ones):
    """The refusal of an old tile, at 7 and slope 2, of zeros with some ones, if it is left as it was."""
    tile = zeros_with(*ones, length=36)
    lent = bytes(tile)
    said = refusal(call, OLD, 7, 2, tile, *([row(0), column(0)] if call == library.fill else []))
    return said if tile == lent else tile


# The scan and the filling of worked tile 9.
SCAN = bytes(5) + b"\x01" + bytes(10)
FILLED = bytes([0, 1, 0, 1, 1, 1, 0, 0, 1, 0, 0, 0, 1, 0, 0, 0])


def judged(restored, first=row(0), second=column(0)):
    """The refusal of a tile that was restored from this scan; None where it is accepted."""
    return refusal(library.judge, 5, 2, SCAN, restored, first, second)


# The text and the tile of worked tile 2, and the scan of 7, which no line explains.
TEXT = bytes([0, 1, 1, 0, 0, 1, 1, 1])
TILE = bytes([0, 1, 1, 1, 1, 0, 0, 1, 0, 1, 1, 0, 1, 1, 1, 1])
DAMAGED = zeros_with(0, 6)

# The scan of worked tile 14, an old one, which is doubtful.
DOUBTFUL = zeros_with(6, 12, 24, length=36)


def changed(*places):
    """The tile of worked tile 2 with bytes changed in some places, in no two alike."""
    return bytes(byte ^ (0x41 + k if k in places else 0) for k, byte in enumerate(TILE))


def recovered(scan):
    """What is hurt in a scan, and its text, by recover; or what was found where inspect says something else, or the scan did not stay."""
    lent = bytearray(scan)
    hurt, text = library.recover(NEW, 5, 2, lent)
    inspected = library.inspect(NEW, 5, 2, lent)
    return (hurt, text) if inspected == hurt and lent == scan else (hurt, inspected, lent)


def refused_both(kind, p, l, scan):
    """The refusals of inspect and of recover."""
    return [refusal(call, kind, p, l, scan) for call in (library.inspect, library.recover)]


def nines(length):
    """A text as recover is lent it in SPEC 10, and room for a record, to show what is left there."""
    return bytes([9] * length)


def left(call, *memory, kind=NEW, p=5):
    """The refusal of a call in C, at slope 2, that is lent this very memory, None where it is done; and what the memory holds then."""
    lent = [bytearray(each) for each in memory]
    said = refusal(library._ask, call, _number(kind), _number(p), _number(2), *(word for each in lent for word in _lent(each)))
    return said, *lent


# The reel with flags of SPEC 10, as FORMATS has it: whole records, and a header whose flag cannot be right.
FLAG_REEL = bytes.fromhex(
    """
    D5 5E 00 05 00 02 00 00 00 09 00 00 80 00
    00 00 00 00 00 01 00 00 00 00 00 00 00 00 00 00
    D5 5E 00 05 00 02 00 00 00 0A FF FF 00 00
    01 01 00 00 00 00 00 00 00 00 00 00 00 00 00 00
    D5 5E 00 05 00 02 00 00 00 0B 80 03 FF FF
    00 00 00 00 00 00 00 00 00 00 00 00 00 00 00 00
    D5 5E 00 05 00 02 00 00 00 0C FF FF FF FF
    00 00 00 00 00 00 00 00 00 00 00 01 00 00 00 00
    D5 5D 00 05 00 02 00 00 00 0D
    01 01 00 00 00 00 00 00 00 00 00 00 00 00 00 00
    D5 5E 00 05 00 02 00 00 00 0E 00 00 80 00
    00 00 00 00 00 00 00 00 00 00 00 01 00 00 00 00
    D5 5E 00 05 00 02 00 00 00 0F 00 04 FF FF
    """
)
WHOLE_RECORDS = 176

# What its records are laid from: which, number, tile and flags.
FLAG_RECORDS = [
    (FLAGGED, 9, SCAN, row(0), column(0)),
    (FLAGGED, 10, zeros_with(0, 1), None, row(0)),
    (FLAGGED, 11, bytes(16), column(3), None),
    (FLAGGED, 12, zeros_with(11), None, None),
    (NEW, 13, zeros_with(0, 1)),
    (FLAGGED, 14, zeros_with(11), row(0), column(0)),
]


def restored(reel):
    """The tiles of a reel, each as restoring it leaves it."""
    tiles = list(library.tiles(reel))
    for tile in tiles:
        listed(*tile)
    return [tile for *_, tile in tiles]


def found(reel, at):
    """The refusal of cf_next, None where it gives none, and its seven numbers, which hold 99 before."""
    numbers = [c_uint64(99) for _ in range(7)]
    said = refusal(library._ask, "cf_next", *_lent(bytearray(reel)), _number(at), *map(byref, numbers))
    return said, [number.value for number in numbers]


def laid(which, room_length, p=5, l=2, first=NO_FLAG, second=NO_FLAG, tile=SCAN):
    """The refusal of cf_lay, None where it is done, the length that it gives, which is 99 before, and what is left in a room of nines."""
    room, length = bytearray(nines(room_length)), c_uint64(99)
    told = [*map(_number, (which, p, l)), c_uint32(9), *map(_number, (first, second)), *_lent(bytearray(tile)), *_lent(room)]
    return refusal(library._ask, "cf_lay", *told, byref(length)), length.value, bytes(room)


def not_laid(number, room_length):
    """What `laid` says where this is refused: no length, and the room as it was."""
    return (number, 0), 0, nines(room_length)


def numbers_laid(*numbers):
    """The numbers of tiles, laid and read back; and None for one that a record cannot say."""
    for number in numbers:
        try:
            yield next(library.tiles(library.lay(NEW, 5, 2, number, SCAN)))[1]
        except ValueError:
            yield None


HEADER = (Path(sys.argv[2]).parent.parent / "include" / "counterfrost.h").read_text()
RUST = Path(sys.argv[1] + "/rust/counterfrost.rs").read_text()
PYTHON = Path(sys.argv[1] + "/python/counterfrost.py").read_text()

# The header's constants without their CF_, and the types of its parameters as Rust has them.
CONSTANTS = {name: int(number, 0) for name, number in re.findall(r"#define CF_([A-Z_]+) (0x[0-9a-f]+|[0-9]+)u\b", HEADER)}
IN_RUST = {"const uint8_t *": "*const u8", "uint8_t *": "*mut u8", "uint64_t *": "&mut u64", "uint32_t ": "u32", "size_t ": "usize"}


def declared(pattern, text):
    """Calls by name, each with its parameters, as a text declares them."""
    return {name: [one.strip() for one in told.split(",") if one.strip()] for name, told in re.findall(pattern, text)}


def in_rust(parameter):
    """A parameter of the header as Rust declares it."""
    for c_type, rust_type in IN_RUST.items():
        if parameter.startswith(c_type):
            return f"{parameter.removeprefix(c_type)}: {rust_type}"
    return parameter


CALLS = declared(r"(?m)^uint64_t (cf_\w+)\((?:void|([^)]*))\);", HEADER)

zeros = bytearray(16)
checks = {
    "the version": (".".join(map(str, library.version())), version),
    "the name by which it is loaded": (NAMED_AS, "libcounterfrost.so." + version.rpartition(".")[0]),
    "the header's words": (
        WORDS,
        {CONSTANTS[name]: words for name, words in re.findall(r'case CF_([A-Z_]+):\s+return "([^"]+)"', HEADER)},
    ),
    "the header's constants": ([NEW, OLD, FLAGGED, NO_FLAG], [CONSTANTS[name] for name in ("NEW", "OLD", "FLAGGED", "NO_FLAG")]),
    "the header's calls": (set(re.findall(r"\bcf_\w+", PYTHON)), set(CALLS)),
    "the header's calls in Rust": (
        declared(r"pub fn (cf_\w+)\(([^)]*)\) -> u64;", RUST),
        {name: [in_rust(parameter) for parameter in told] for name, told in CALLS.items()},
    ),
    "the header's refusals in Rust": (
        [(name, int(number)) for name, number in re.findall(r"pub const ([A-Z_]+): u16 = ([0-9]+);", RUST)],
        [(name, CONSTANTS[name]) for name in ("DOUBTFUL", "TOO_SMALL", "NOT_GOOD", "DIFFERS_ELSEWHERE")],
    ),
    "no size": ([refusal(library.house_slope, p) for p in (0, 4, 258, -1, 2**64 + 5)], [(1, 0)] * 5),
    "sizes": ([library.house_slope(p) for p in (5, 7, 191, 257)], [2, 3, 19, 3]),
    "no slope": ([refusal(library.check, NEW, 7, l) for l in (2, 6, 10, -1, 2**64 + 3)], [(2, 0)] * 5),
    "slopes": ([refusal(library.check, NEW, 7, l) for l in (3, 5)], [None, None]),
    "old slopes": ([refusal(library.check, OLD, 7, l) for l in range(1, 7)], [(2, 0), None, None, None, None, (2, 0)]),
    "no old kind": ([refusal(library.check, kind, 7, 2) for kind in (2, -1, 2**32 + 1, 2**64 + 1)], [(2, 0)] * 4),
    "no size to write or read": ([refusal(library.write, NEW, 2, 2, b""), refusal(library.read, OLD, 2**70, 2, b"")], [(1, 0)] * 2),
    "no length": ([refusal(library.write, NEW, 5, 2, b""), refusal(library.repair, NEW, 5, 2, bytearray(15))], [(3, 0)] * 2),
    "no line": ([refusal(library.fill, NEW, 5, 2, bytearray(16), a, row(0)) for a in (row(4), column(4))], [(4, 0)] * 2),
    "no line at all": (
        [refusal(library.fill, NEW, 5, 2, bytearray(16), line(n), row(0)) for line in (row, column) for n in (-(2**15), -1, 2**15, 2**70)],
        [(4, 0)] * 8,
    ),
    "no line is named as no flag": (
        [[row(n), column(n)] for n in (0x7FFD, 0x7FFE, 0x7FFF, 2**70)],
        [[0x7FFD, 0xFFFD]] + [[0x7FFE, 0xFFFE]] * 3,
    ),
    "no place": (refusal(library.correct, NEW, 5, 2, zeros, correction(0, 1, 0, 1) + correction(0, 2, 0, 1)), (4, 8)),
    "no place at all": (refusal(library.correct, NEW, 5, 2, zeros, correction(2**70, -1, 0, 1)), (4, 0)),
    "nothing was changed": (zeros, bytes(16)),
    "an empty sheet": (library.correct(NEW, 5, 2, zeros, b""), 0),
    "not good": (refusal(library.read, NEW, 5, 2, b"\x01" + bytes(15)), (5, 0)),
    "worked tile 1": (library.write(NEW, 5, 2, bytes([1] + [0] * 7)).hex(), "01000001000001010000010000000100"),
    "the whole reel": (walk(REEL), ([(NEW, 7, 5, 2, None, None, "clean"), (NEW, 8, 5, 2, None, None, "cell 2 3")], (7, 52))),
    "a reel of both kinds": (
        walk(OLD_REEL),
        ([(OLD, 16, 7, 2, None, None, "cell 1 1"), (NEW, 17, 7, 3, None, None, "clean")], None),
    ),
    "the reel with flags": (
        walk(FLAG_REEL),
        (
            [
                (NEW, 9, 5, 2, row(0), column(0), "filled"),
                (NEW, 10, 5, 2, None, row(0), "filled"),
                (NEW, 11, 5, 2, column(3), None, "filled"),
                (NEW, 12, 5, 2, None, None, "cell 2 3"),
                (NEW, 13, 5, 2, None, None, "row 0"),
                (NEW, 14, 5, 2, row(0), column(0), "refused 5"),
            ],
            (4, WHOLE_RECORDS),
        ),
    ),
    "its tiles restored": (restored(FLAG_REEL[:WHOLE_RECORDS]), [FILLED, *[bytes(16)] * 4, zeros_with(11)]),
    "its records laid": (
        b"".join(library.lay(which, 5, 2, *told) for which, *told in FLAG_RECORDS),
        FLAG_REEL[:WHOLE_RECORDS],
    ),
    "the numbers of a tile, of the end and of a refusal": (
        [found(FLAG_REEL, at) for at in (30, 120, WHOLE_RECORDS, len(FLAG_REEL), 2**64 - 1)],
        [
            (None, [NEW, 10, 5, 2, NO_FLAG, 0, 44]),
            (None, [NEW, 13, 5, 2, NO_FLAG, NO_FLAG, 130]),
            ((4, 0), [0, 0, 0, 0, NO_FLAG, NO_FLAG, WHOLE_RECORDS]),
            (None, [0, 0, 0, 0, NO_FLAG, NO_FLAG, 0]),
            (None, [0, 0, 0, 0, NO_FLAG, NO_FLAG, 0]),
        ],
    ),
    "records of each sort": (
        [library.lay(which, 7, 3, 1, bytes(36)).hex() for which in (NEW, OLD, FLAGGED, 3, -1, 2**64 + 2)],
        [
            mark + "00070003" + "00000001" + flags + "00" * 36
            for mark, flags in [("d55d", ""), ("5dd5", ""), ("d55e", "ffffffff"), *[("d55d", "")] * 3]
        ],
    ),
    "lengths": (
        [(tile_length(p), text_length(p), *(record_length(which, p) for which in (NEW, OLD, FLAGGED))) for p in (5, 101, 257)],
        [(16, 8, 26, 26, 30), (10000, 9800, 10010, 10010, 10014), (65536, 65024, 65546, 65546, 65550)],
    ),
    "numbers of tiles": (list(numbers_laid(0, 2**32 - 1, -1, 2**32)), [0, 2**32 - 1, None, None]),
    "no size or slope of a record": (
        [refusal(library.lay, which, p, l, 1, b"") for which in (NEW, OLD, FLAGGED) for p, l in ((9, 2), (2**70, 2), (7, 6))]
        + [refusal(library.lay, which, 7, 2, 1, bytes(36)) for which in (NEW, OLD, FLAGGED)],
        [(1, 0), (1, 0), (2, 0)] * 3 + [(2, 0), None, (2, 0)],
    ),
    "no length of a record's tile": ([refusal(library.lay, FLAGGED, 5, 2, 1, bytes(n)) for n in (0, 15, 17, 30)], [(3, 0)] * 4),
    "no line of a flag": (
        [refusal(library.lay, FLAGGED, 5, 2, 1, SCAN, *flags) for flags in ((row(4), None), (None, column(4)), (row(-1), row(0)))],
        [(4, 0)] * 3,
    ),
    "no place for a flag": (
        [refusal(library.lay, which, 5, 2, 1, SCAN, *flags) for which in (NEW, OLD, 3) for flags in ((row(0),), (None, column(0)))],
        [(4, 0)] * 6,
    ),
    "a room that is long enough": (
        [laid(FLAGGED, n, first=row(0), second=column(0)) for n in (30, 34)],
        [(None, 30, FLAG_REEL[:30]), (None, 30, FLAG_REEL[:30] + nines(4))],
    ),
    "no room": (
        [laid(which, n) for which, n in ((NEW, 0), (NEW, 25), (OLD, 25), (FLAGGED, 29))],
        [not_laid(9, n) for n in (0, 25, 25, 29)],
    ),
    "which refusal comes first": (
        [
            laid(NEW, 1, first=0),
            laid(NEW, 1, first=0, tile=b""),
            laid(NEW, 1, first=0, tile=b"", l=4),
            laid(NEW, 1, first=0, tile=b"", l=4, p=4),
        ],
        [not_laid(number, 1) for number in (4, 3, 2, 1)],
    ),
    "worked tiles 4 to 6": ([repaired(11), repaired(0, 4), repaired(0, 1)], [("cell", 2, 3), ("column", 0), ("row", 0)]),
    "worked tiles 13 and 14": ([doubted(library.fill), doubted(library.repair, 6, 12, 24)], [(8, 0)] * 2),
    "worked tile 15": (doubted(library.fill, 7), (5, 0)),
    "worked judgements": (
        [judged(FILLED), judged(bytes(16)), judged(SCAN), judged(bytes(11) + b"\x01" + bytes(4))],
        [None, (11, 0), (10, 0), (10, 0)],
    ),
    "a line alone": ([judged(FILLED, row(0), row(0)), judged(FILLED, column(0), column(0))], [(11, 0)] * 2),
    "no line to judge": ([judged(FILLED, row(0), column(4)), judged(FILLED, row(2**70), row(0))], [(4, 0)] * 2),
    "no length to judge": ([judged(FILLED[1:]), judged(b"")], [(3, 0)] * 2),
    "no slope to judge": ([refusal(library.judge, 7, l, bytes(36), bytes(36), row(0), row(0)) for l in (2, 3, 6)], [(2, 0), None, (2, 0)]),
    "worked tiles 25 to 29": (
        [recovered(scan) for scan in (TILE, zeros_with(11), zeros_with(0, 4), zeros_with(0, 1), zeros_with(0, 5))],
        [
            (None, TEXT),
            (("cell", 2, 3), bytes(8)),
            (("column", 0), bytes(8)),
            (("row", 0), bytes(8)),
            (("column", 3), bytes([1, 0, 0, 1, 0, 0, 0, 0])),
        ],
    ),
    "a hurt byte of text, and of checks": ([recovered(changed(k)) for k in (9, 10)], [(("cell", 2, 1), TEXT), (("cell", 2, 2), TEXT)]),
    "each hurt column": ([recovered(changed(*range(c, 16, 4))) for c in range(4)], [(("column", c), TEXT) for c in range(4)]),
    "each hurt row": ([recovered(changed(*range(4 * r, 4 * r + 4))) for r in range(4)], [(("row", r), TEXT) for r in range(4)]),
    "worked tiles 30 and 31": (refused_both(NEW, 5, 2, DAMAGED) + refused_both(OLD, 7, 2, DOUBTFUL), [(5, 0), (5, 0), (8, 0), (8, 0)]),
    "old or new": (refused_both(OLD, 7, 2, bytes(36)) + refused_both(NEW, 7, 2, bytes(36)), [None, None, (2, 0), (2, 0)]),
    "no size to inspect or recover": ([refused_both(NEW, p, 2, b"") for p in (4, -1, 2**70)], [[(1, 0)] * 2] * 3),
    "no length to inspect or recover": ([refused_both(NEW, 5, 2, bytes(n)) for n in (0, 8, 15, 17)], [[(3, 0)] * 2] * 4),
    "the scan stays": (
        [left("cf_inspect", zeros_with(0, 4)), left("cf_inspect", DAMAGED), left("cf_recover", zeros_with(0, 4), nines(8))],
        [(None, zeros_with(0, 4)), ((5, 0), DAMAGED), (None, zeros_with(0, 4), bytes(8))],
    ),
    "the text stays": (
        [left("cf_recover", DAMAGED, nines(8)), left("cf_recover", DOUBTFUL, nines(24), kind=OLD, p=7)],
        [((5, 0), DAMAGED, nines(8)), ((8, 0), DOUBTFUL, nines(24))],
    ),
    "no length of a text": ([left("cf_recover", TILE, nines(n)) for n in (0, 7, 9)], [((3, 0), TILE, nines(n)) for n in (0, 7, 9)]),
    "the empty reel": (list(library.tiles(b"")), []),
}
wrong = {name: got for name, (got, asked) in checks.items() if got != asked}
for name, got in wrong.items():
    print(f"binding: {name}: {got}")
sys.exit(1 if wrong else 0)
