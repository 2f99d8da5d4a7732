"""The script of the program `worked`, and what has to be answered to each of its questions. The script says at its top how it is read. The
answers come from the rules of SPEC: of tiles in tests/expected/tile.py, of sheets, sizes and reels in the files beside it."""

from typing import NamedTuple

from expected import reel as reels
from expected.flag import line_of
from expected.sheet import correct
from expected.sizes import HOUSE, NEW, OLD, Kind, is_size, verdict
from expected.tile import fill, judge, read, recover, repair, sums, write

COLON = 23  # the column that tells a question
LOST = 0xFF  # what a byte that is lost lies there as
NUMBERS = 2**64  # places are reckoned modulo this


class Question(NamedTuple):
    """A question: its name, the kind of the tile, two numbers, two lines, the bytes that the call may change, and those that it reads."""

    name: str
    kind: Kind
    p: int
    l: int
    lines: tuple
    held: list
    lent: list


def number(text):
    """A number, or nothing, in three columns."""
    return int(text) if text.strip() else 0


def named_line(text):
    """A row or a column in three columns. Capital letters count down from the largest number."""
    kind = {"r": "row", "c": "column"}[text[0].lower()]
    return kind, NUMBERS - 1 - int(text[1:]) if text[0].isupper() else int(text[1:])


def parsed(text):
    """Bytes, each of two hexadecimal digits or two question marks, parted by spaces and strokes."""
    return [LOST if byte == "??" else bytes.fromhex(byte)[0] for byte in text.replace("/", " ").split()]


def question(line):
    """The question that a line asks, or None for a comment."""
    if line[COLON : COLON + 1] != ":":
        assert not line or line.startswith("#"), f"neither a question nor a comment: {line}"
        return None
    name, sign, p, l, first, second = line[:7].strip(), line[7], line[8:11], line[12:15], line[16:19], line[20:23]
    held, _, lent = line[COLON + 1 :].partition(":")
    lines = (named_line(first), named_line(second)) if name in ("fill", "accept") else ()
    return Question(name, OLD if sign == "o" else NEW, number(p), number(l), lines, parsed(held), parsed(lent))


def listed(data):
    """Bytes as the program writes them."""
    return ":" + "".join(f" {byte:02x}" for byte in data)


def told(tile):
    """A tile of a reel in words: an old one is said to be one, and each flag that tells of a line is told."""
    kind = "old tile" if tile.kind == OLD else "tile"
    told = zip(("first", "second"), map(line_of, tile.flags))
    lost = "".join(f" {name} flag {line[0]} {line[1]}" for name, line in told if line)
    return f"{kind} {tile.number} {tile.p} {tile.l}{lost} at {tile.start}"


def found(reel, at):
    """SPEC 7.2 and 7.3: what stands at a place of a reel, and where the tile's bytes begin and end: where no tile stands, at the place
    itself."""
    if at >= len(reel):
        return "end", at, at
    no = reels.refusal(reel, at)
    if no:
        return f"refused {no} at {at}", at, at
    tile = reels.tile_at(reel, at)
    return told(tile), tile.start, tile.end


def at_place(reel, at):
    """SPEC 7.3, and 7.4 for a reader's second step: all that is asked for at a place. The next record is where the tile's bytes end."""
    here, start, after = found(reel, at)
    rest = reel[after:]
    _, _, behind_first = found(reel, 0)
    second, *_ = found(reel, behind_first)
    first_of_rest, *_ = found(rest, 0)
    return f"{here} after {after} rest {len(rest)} {first_of_rest} second {second}{listed(reel[start:after])}"


def answered(asked):
    """What a question is answered, and the bytes that the call leaves."""
    name, kind, p, l, lines, held, lent = asked
    if name == "write":
        answer, left = write(kind, p, l, lent, held)
    elif name == "read":
        answer, left = read(kind, p, l, lent, held)
    elif name == "mend":
        answer, left = repair(kind, p, l, held)
    elif name == "look":
        answer, left = repair(kind, p, l, list(held))[0], held
    elif name == "text":
        answer, left = recover(kind, p, l, lent, held)
    elif name == "fill":
        answer, left = fill(kind, p, l, held, *lines)
    elif name == "accept":
        answer, left = judge(p, l, lent, held, *lines), held
    elif name == "correct":
        answer, left = correct(kind, p, l, held, lent)
    elif name == "house":
        answer, left = f"slope {HOUSE[p]}" if is_size(p) else "refused 1", held
    elif name == "judge":
        answer, left = verdict(kind, p, l), held
    elif name == "sums":
        answer, left = "sums" + listed(sums(p, l, held)), held
    else:
        assert name == "place", f"no such question: {name}"
        answer, left = at_place(bytes(held), (p - l) % NUMBERS), held
    return answer, left


def run(script):
    """All that the program has to print for the script; and with each question its answer and the bytes that the call leaves."""
    printed, asked = [], []
    for line in script.splitlines():
        printed.append(f"{line}\n")
        one = question(line)
        if one:
            answer, left = answered(one)
            asked.append((one, answer, left))
            printed.append(f"  {answer}{listed(left)}\n")
    return "".join(printed), asked
