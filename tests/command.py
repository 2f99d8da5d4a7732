"""Tries the command `counterfrost`: runs it on many reels that are made here, and compares standard output, standard error, exit status
and the new reel, byte for byte, with what SPEC 12 asks for, as tests/expected/command.py works it out.

    python3 tests/command.py target/bin/counterfrost            # about a minute
    python3 tests/command.py target/bin/counterfrost --long     # and reels of up to 200 MB, with the memory that they take
    python3 tests/command.py target/bin/counterfrost --short    # a few groups, in some seconds
    python3 tests/command.py --write                            # stores the pictures that tests/command/run compares with

The last line says how many runs there were and how many differences, and so does the exit status."""

import sys

sys.dont_write_bytecode = True  # leave no files beside the sources

import os  # noqa: E402
import subprocess  # noqa: E402
from contextlib import contextmanager, suppress  # noqa: E402
from pathlib import Path  # noqa: E402
from random import Random  # noqa: E402
from shutil import which  # noqa: E402
from tempfile import TemporaryDirectory  # noqa: E402
from threading import Thread  # noqa: E402
from time import monotonic  # noqa: E402

from expected import command, long_reels, sheet  # noqa: E402
from expected.pool import SORTS, drawn_record, each_state, numbered, pool, run_of  # noqa: E402
from expected.reel import listing as slow_listing  # noqa: E402
from expected.reel import record  # noqa: E402
from expected.reels import GROUPS, pieces  # noqa: E402
from expected.sizes import HOUSE, SIZES, SLOPES  # noqa: E402
from expected.tile import text_length, tile_length  # noqa: E402

LIMIT = 60  # seconds after which a program that has not ended is stopped
SHOWN = 40  # so many differences are told in full
WINDOW = 262144  # SPEC 12.9
LARGEST = 65550  # the largest record
AROUND = range(WINDOW - 20, WINDOW + 21)
BYTES, LARGE = "one byte at a time", "large pieces"  # two ways to feed a pipe
WAYS = ("file", "redirected", BYTES, LARGE)
PIECE = 1 << 20
TOP = Path(__file__).resolve().parent.parent


def in_pieces(data, length):
    """The bytes in pieces."""
    return (data[at : at + length] for at in range(0, len(data), length))


@contextmanager
def fed(data, way):
    """A descriptor for standard input. A pipe that gives one byte at a time keeps each written byte apart, so that no read gets two."""
    if way == "file":
        with open(os.devnull, "rb") as nothing:
            yield nothing
    elif way == "redirected":
        with open("reel", "rb") as file:
            yield file
    else:
        reading, writing = os.pipe2(os.O_CLOEXEC | (os.O_DIRECT if way == BYTES else 0))
        feeder = Thread(target=feed, args=(writing, in_pieces(data, 1 if way == BYTES else PIECE)))
        feeder.start()
        try:
            yield reading
        finally:
            os.close(reading)
            feeder.join()


def feed(writing, parts):
    """Puts the parts into a pipe and closes it. A program that has seen enough may end before the last one."""
    with suppress(BrokenPipeError), os.fdopen(writing, "wb", buffering=0) as pipe:
        for part in parts:
            left = memoryview(part)
            while left:
                left = left[pipe.write(left) :]


class Trials:
    """Runs the command in the current folder and counts. The reel is the file `reel`, the new one `new`, a sheet `sheet`."""

    def __init__(self, binary):
        self.binary, self.runs, self.differences, self.group = binary, 0, 0, None

    def begin(self, title):
        """Begins a group, and tells of the one before."""
        self.end()
        self.group = title, self.runs, self.differences, monotonic()

    def end(self):
        """Tells of the group."""
        if self.group:
            title, runs, differences, since = self.group
            told = f", {self.differences - differences} differences" if self.differences > differences else ""
            print(f"{title}: {self.runs - runs} runs{told}, {monotonic() - since:.1f} s", flush=True)
        self.group = None

    def differs(self, name, words):
        """Tells of a difference."""
        self.differences += 1
        if self.differences <= SHOWN:
            print(f"  {name}: {words}", flush=True)

    def lay(self, reel):
        """Puts the reel into its file."""
        Path("reel").write_bytes(reel)

    def run(self, name, asked, words, reel=b"", way="file"):
        """One run. The word `REEL` stands for the reel's name, or for `-` if it is fed otherwise."""
        words = [("reel" if way == "file" else "-") if word == "REEL" else word for word in words]
        name = f"{name}: {' '.join(words)[:200]} ({way})"
        self.runs += 1
        with suppress(FileNotFoundError):
            os.unlink("new")
        with fed(reel, way) as stdin:
            try:
                ran = subprocess.run([*self.binary, *words], stdin=stdin, capture_output=True, timeout=LIMIT)
            except subprocess.TimeoutExpired:
                return self.differs(name, f"not ended after {LIMIT} s")
        for what, one, other in (("standard output", asked.output, ran.stdout), ("standard error", asked.errors, ran.stderr)):
            if one != other:
                return self.differs(name, f"{what}: {first_difference(one, other)}")
        if ran.returncode != asked.status:
            return self.differs(name, f"status {asked.status} asked for, {ran.returncode} given")
        new = Path("new").read_bytes() if os.path.exists("new") else None
        if new != asked.new:
            return self.differs(name, f"the new reel: {first_difference(asked.new, new)}")
        if os.path.exists("new.part"):
            os.unlink("new.part")
            return self.differs(name, "new.part is left")

    def unchanged(self, name, reel):
        """Whether the reel is what it was."""
        if Path("reel").read_bytes() != reel:
            self.differs(name, "the reel was changed")

    def whole(self, name, reel, ways=("file",), verbs=("list", "repair", "map", "signs")):
        """The commands for a whole reel."""
        self.lay(reel)
        for way in ways:
            for verb in verbs:
                self.run(name, *WHOLE[verb](reel), reel, way)
        self.unchanged(name, reel)


WHOLE = {
    "list": lambda reel: (command.list_(reel), ("list", "REEL")),
    "repair": lambda reel: (command.repair(reel), ("repair", "REEL", "new")),
    "map": lambda reel: (command.map_(reel), ("map", "REEL")),
    "signs": lambda reel: (command.map_(reel, text=True), ("map", "REEL", "--text")),
}


def first_difference(one, other):
    """Where two runs of bytes differ, in words."""
    if one is None or other is None:
        return f"{'none' if one is None else 'one'} asked for, {'none' if other is None else 'one'} made"
    at = next((k for k, (a, b) in enumerate(zip(one, other)) if a != b), min(len(one), len(other)))
    near = max(at - 40, 0)
    return f"{len(one)} bytes asked for, {len(other)} given; at {at} {one[near : at + 60]!r} asked for, {other[near : at + 60]!r} given"


def reel_name(way):
    """How a message calls the reel."""
    return "reel" if way == "file" else "-"


# The groups.


def examples(trials):
    """The reels of the other tests of listings: the empty one, the worked ones, each state, refusals, garbage, and spoiled ones."""
    for title, cases in GROUPS.items():
        trials.begin(f"list: {title}")
        for name, reel, ends in cases():
            asked = command.list_(reel)
            if len(reel) <= 4096:
                assert asked.output == slow_listing(reel).encode(), name
            assert ends in (None, "too long") or f"\n{asked.output.decode()}".endswith(f"\n{ends}\n"), name
            trials.lay(reel)
            trials.run(name, asked, ("list", "REEL"))
    trials.begin("list: through a pipe, in pieces")
    for name, parts in pieces.cases().items():
        reel = b"".join(parts)
        if len(reel) < 10000:
            trials.run(name, command.list_(reel), ("list", "REEL"), reel, BYTES)
        trials.run(name, command.list_(reel), ("list", "REEL"), reel, LARGE)


def small(trials):
    """Small reels by every way: all records of the sizes 5, 7 and 11, and how many rows of the map there are."""
    trials.begin("small reels, by every way to read them")
    for name, reel in (("empty", b""), ("5", each_state(5)), ("7", each_state(7)), ("11", each_state(11)), ("a byte", b"\xd5")):
        trials.whole(name, reel, WAYS)
    drawn = Random(20)
    for count in (1, 2, 23, 24, 25, 47, 48, 49, 72):
        reel = b"".join(drawn_record(drawn, drawn.choice((5, 7))) for _ in range(count))
        trials.whole(f"{count} tiles", reel, ("file", "redirected"), ("map", "signs"))
        for no, behind in stops(drawn):
            trials.whole(f"{count} tiles, and stopped {no}", reel + behind, ("file", LARGE), ("map", "signs"))


def stops(drawn):
    """Bytes at which a walk stops, with the number for no."""
    yield 1, record(1, 6, 2, bytes(40))
    yield 2, record(1, 7, 2, bytes(40))
    yield 2, record(1, 257, 1, bytes(40), mark=bytes.fromhex("5DD5"))
    yield 4, record(1, 7, 3, bytes(40), flags=(0xFFFF, 6))
    yield 4, record(1, 7, 3, bytes(40), flags=(0x8006, 0))
    yield 6, b"\0" + drawn.randbytes(39)
    yield 7, drawn.randbytes(drawn.randrange(1, 10))
    yield 7, record(1, 101, 2, bytes(40))


def each_size(trials):
    """Every size: all records of it on one reel, and each tile read, some filled, some corrected."""
    trials.begin("every size: list, repair and map")
    for p in SIZES:
        reel = each_state(p)
        trials.whole(f"size {p}", reel, ("file", LARGE) if p % 3 else ("file", "redirected"))
    trials.begin("every size: read, fill and correct")
    drawn = Random(21)
    for p in SIZES:
        reel = each_state(p)
        trials.lay(reel)
        count = len(command.walked(reel)[0])
        numbers = range(count) if p < 20 else drawn.sample(range(count), 4)
        for number in (*numbers, count, 2**32 - 1):
            one_tile(trials, f"size {p}", reel, number, p, drawn, "file")
        trials.unchanged(f"size {p}", reel)


def a_line(p, drawn):
    """Some line, mostly one that the tile has."""
    return drawn.choice(("row", "column")), drawn.choice((*[drawn.randrange(p - 1)] * 12, p - 2, p - 1, 4294967295))


def a_sheet(p, drawn):
    """Some sheet, mostly without a fault."""
    count = drawn.choice((0, 1, 2, 3, 40))
    records = [sheet.record(drawn.randrange(p - 1), drawn.randrange(p - 3), *drawn.randbytes(2)) for _ in range(count)]
    fault = drawn.randrange(12)
    if fault == 0 and records:
        records[drawn.randrange(count)][:2] = (0xC3, 0x3D)
    if fault == 1 and records:
        records[drawn.randrange(count)][2:6] = drawn.choice(((p - 1).to_bytes(2, "big") + b"\0\0", b"\0\0" + (p - 3).to_bytes(2, "big")))
    laid = bytes(byte for one in records for byte in one)
    return laid[:-1] if fault == 2 else laid


def one_tile(trials, name, reel, number, p, drawn, way):
    """Read, fill and correct, of one tile."""
    called = reel_name(way)
    trials.run(name, command.read(reel, number, called), ("read", "REEL", str(number)), reel, way)
    lines = [a_line(p, drawn) for _ in range(drawn.randrange(1, 3))]
    words = [f"{kind}:{n}" for kind, n in lines]
    trials.run(name, command.fill(reel, number, lines, called), ("fill", "REEL", "new", str(number), *words), reel, way)
    records = a_sheet(p, drawn)
    Path("sheet").write_bytes(records)
    asked = command.correct(reel, number, records, called, "sheet")
    trials.run(name, asked, ("correct", "REEL", "new", str(number), "sheet"), reel, way)


def writing(trials):
    """Every size: texts written, and read again."""
    trials.begin("every size: write, and list what was written")
    drawn = Random(22)
    for p in SIZES:
        for l in {HOUSE[p], SLOPES[p][-1]}:
            texts = [drawn.randbytes(text_length(p)) for _ in range(drawn.randrange(1, 4))]
            names = [f"text{n}" for n in range(len(texts))]
            for name, text in zip(names, texts):
                Path(name).write_bytes(text)
            number = drawn.choice((0, drawn.randrange(2**32 - 5), 2**32 - len(texts)))
            asked = command.write(p, l, number, texts)
            slope = "house" if l == HOUSE[p] and drawn.randrange(2) else str(l)
            trials.run(f"size {p}", asked, ("write", "new", str(p), slope, str(number), *names))
            trials.lay(asked.new)
            trials.run(f"size {p}, written", command.list_(asked.new), ("list", "REEL"))
    trials.begin("write, a text from standard input")
    text = drawn.randbytes(text_length(257))
    for way in (BYTES, LARGE):
        given = text if way == LARGE else text[: text_length(13)]
        p = 257 if way == LARGE else 13
        trials.run("from a pipe", command.write(p, HOUSE[p], 1, [given]), ("write", "new", str(p), "house", "1", "-"), given, way)


def cuts(trials):
    """A last record that is cut: at each byte of its header and of the first bytes behind it, and near its end."""
    trials.begin("cut ends")
    drawn = Random(23)
    for sort in SORTS:
        for p in (5, 7, 131, 257):
            last = drawn_record(drawn, p, sort)
            before = each_state(5) if p < 257 else drawn_record(drawn, 257)
            places = {*range(21), len(last) - 1, len(last), len(last) // 2}
            for cut in sorted(places):
                ways = ("file", BYTES) if p < 10 and sort == "flagged" else ("file",)
                trials.whole(f"{sort}, size {p}, cut to {cut}", before + last[:cut], ways, ("list", "repair") if cut % 3 else WHOLE)


def spoiled_headers(trials):
    """A header with each of its bytes changed, on a reel of other records."""
    trials.begin("a byte of a header changed")
    drawn = Random(24)
    before, behind = each_state(5), each_state(7)
    for sort in SORTS:
        for at in range(14):
            for change in (1, 0x80, drawn.randrange(1, 256)):
                laid = bytearray(drawn_record(drawn, 11, sort))
                laid[at] ^= change
                trials.whole(f"{sort}, byte {at}", before + laid + behind, ("file",), ("list", "repair"))


def edges(trials):
    """Records, refusals and ends at the edge of the first window."""
    drawn = Random(25)
    trials.begin("a record begins near the edge of a window")
    for start in AROUND[::2]:
        before = run_of(start, drawn)
        for sort in SORTS:
            for p in (5, 47, 257):
                reel = before + drawn_record(drawn, p, sort) + each_state(5)
                ways = ("file", LARGE) if sort == "flagged" else ("file",)
                trials.whole(f"{sort}, size {p}, at {start}", reel, ways, ("list", "repair"))
        trials.whole(f"at {start}", before + each_state(7), ("file", "redirected"), ("map", "signs"))
    trials.begin("the largest record near the edge of a window")
    for length, sort in ((LARGEST, "flagged"), (LARGEST - 4, "new")):
        middle = WINDOW - LARGEST
        for start in (*range(middle - 20, middle + 21, 2), WINDOW - LARGEST // 2 - 1, WINDOW - 14, WINDOW - 10):
            reel = run_of(start, drawn) + drawn_record(drawn, 257, sort)
            assert len(reel) == start + length
            for name, behind in (("alone", b""), ("more", each_state(5)), ("another", drawn_record(drawn, 257, sort)), ("a byte", b"\xd5")):
                trials.whole(f"{sort} at {start}, {name}", reel + behind, ("file",), ("list", "repair"))
    trials.begin("a refusal near the edge of a window")
    for start in AROUND[::2]:
        before = run_of(start, drawn)
        for no, laid in stops(drawn):
            for behind in (b"", drawn.randbytes(70000)):
                if no != 7 or not behind:
                    reel = before + laid + behind
                    trials.whole(f"stopped {no} at {start}", reel, ("file",), ("repair",))
        trials.whole(f"garbage at {start}", before + b"\0" * 300, ("file", LARGE), WHOLE)


def ends(trials):
    """Reels that end at the edge of a window, or a few bytes before or behind it."""
    trials.begin("a reel ends near the edge of a window")
    drawn = Random(26)
    for length in AROUND:
        for name, last in (("small", 0), ("large", 65550), ("largest of 241", (241 - 1) ** 2 + 10)):
            start = WINDOW - 40 - last if last else WINDOW - 2000
            p = 257 if last == 65550 else 241
            reel = run_of(start, drawn) + (drawn_record(drawn, p) if last else b"") + run_of(3000, drawn)
            reel = reel[:length]
            trials.whole(f"{name}, cut to {length}", reel, ("file", LARGE) if length % 4 == 0 else ("file",), ("list", "repair"))
        if length % 2 == 0:
            trials.whole(f"whole, {length}", run_of(length, drawn), ("file", "redirected", LARGE), ("list", "repair"))
        else:
            reel = run_of(length - 1, drawn) + b"\xd5"
            trials.whole(f"whole, and a byte, {length}", reel, ("file", "redirected", LARGE), ("list", "repair"))


def second_edges(trials):
    """The same for the second window, which begins at the record that crosses the first edge, and for a third."""
    trials.begin("the second window and the third")
    drawn = Random(27)
    for begin in (WINDOW - 65548, WINDOW - 30000, WINDOW - 8, WINDOW):
        head = run_of(begin, drawn) + drawn_record(drawn, 257, "flagged")
        for away in range(-20, 21, 4):
            before = head + run_of(begin + WINDOW + away - len(head), drawn)
            assert len(before) == begin + WINDOW + away
            for name, behind in (
                ("a record", drawn_record(drawn, 5)),
                ("flags", drawn_record(drawn, 7, "flagged")),
                ("the largest", drawn_record(drawn, 257, "flagged")),
                ("garbage", b"\0" * 20),
                ("a wrong flag", record(1, 257, 3, bytes(65536), flags=(0, 256))),
            ):
                trials.whole(f"{name}, {away} from the edge behind {begin}", before + behind, ("file",), ("repair",))
            trials.whole(f"{away} from the edge behind {begin}", before + run_of(200000, drawn), ("file",), ("list", "repair", "signs"))


def drawn_reels(trials):
    """Reels of drawn records of all sizes and sorts, some cut, some with garbage behind, by all commands."""
    trials.begin("drawn reels")
    drawn = Random(28)
    for attempt in range(60):
        most = drawn.choice((7, 31, 101, 257, 257))
        sizes = [p for p in SIZES if p <= most]
        reel, length = bytearray(), drawn.randrange(drawn.choice((2000, 100000, 700000)))
        while len(reel) < length:
            reel += drawn_record(drawn, drawn.choice(sizes))
        end = drawn.randrange(5)
        if end == 0:
            del reel[len(reel) - drawn.randrange(1, 30) :]
        elif end == 1:
            reel += drawn.randbytes(drawn.randrange(1, 2000))
        reel = bytes(reel)
        way = drawn.choice(("file", "file", "redirected", LARGE))
        trials.whole(f"drawn {attempt}", reel, (way,))
        tiles, _ = command.walked(reel)
        for _ in range(4):
            number, p = drawn.choice([(found.tile.number, found.tile.p) for found in tiles] or [(1, 5)])
            one_tile(trials, f"drawn {attempt}", reel, drawn.choice((number, number, number, number + 1)) % 2**32, p, drawn, way)
        trials.unchanged(f"drawn {attempt}", reel)


def far_tiles(trials):
    """One tile far along a reel, or two with the same number, with records before and behind it, and a reel that stops before it."""
    trials.begin("one tile far along a reel")
    drawn = Random(29)
    for start in (WINDOW - 30, WINDOW - 12, WINDOW, WINDOW + 2, 3 * WINDOW - 4, 3 * WINDOW + 500):
        before = b"".join(with_other_number(run_of(start, drawn)))
        for p in (5, 17, 257):
            same = numbered(777, drawn.choice(pool("new", p))), numbered(777, drawn.choice(pool("flagged", p)))
            reel = before + same[0] + same[1] + run_of(5000, drawn) + b"\xd5\x5d"
            trials.lay(reel)
            for way in ("file", LARGE):
                one_tile(trials, f"far, size {p} at {start}", reel, 777, p, drawn, way)
            stopped = before + b"\0" + same[0]
            trials.lay(stopped)
            one_tile(trials, f"far, stopped before it at {start}", stopped, 777, p, drawn, "file")


def with_other_number(reel):
    """The records of a reel, those of tile 777 with another number."""
    for found in command.walked(reel)[0]:
        laid = reel[found.offset : found.tile.end]
        yield numbered(778, laid) if found.tile.number == 777 else laid


def pictures():
    """The pictures that tests/command/run compares with: they are worked out here."""
    samples = {name: (TOP / "samples" / f"{name}.reel").read_bytes() for name in ("short", "flags", "projectionist")}
    return {TOP / "tests" / "command" / f"{name}.svg": command.map_(reel).output for name, reel in {**samples, "empty": b""}.items()}


def coverage(trials):
    """Whether the pool has every state, for each size that has it."""
    states = {}
    for p in SIZES:
        for found in command.walked(each_state(p))[0]:
            states.setdefault(command.word(found.state), set()).add(p)
    assert {name: len(sizes) for name, sizes in states.items()} == {**dict.fromkeys(command.WORDS, 53), "doubtful": 52}, states
    assert tile_length(257) + 14 == LARGEST and trials.runs == 0
    assert all(path.is_file() and path.read_bytes() == drawn for path, drawn in pictures().items()), "run with --write"


SHORT = small, spoiled_headers, far_tiles


def main(words):
    """Gives the exit status."""
    if words == ["--write"]:
        for path, drawn in pictures().items():
            path.write_bytes(drawn)
        return 0
    long, short = "--long" in words, "--short" in words
    binary = [word for word in words if word not in ("--long", "--short")]
    if not binary or which(binary[0]) is None:
        print("usage: python3 tests/command.py BINARY [--long | --short], where the binary can be run", file=sys.stderr)
        return 2
    binary[0] = os.path.abspath(which(binary[0]))
    os.environ["LC_ALL"] = "C"
    trials = Trials(binary)
    begun = monotonic()
    with TemporaryDirectory() as folder:
        os.chdir(folder)
        command.held()
        if not short:
            coverage(trials)
        for group in SHORT if short else (*SHORT, writing, each_size, cuts, edges, ends, second_edges, drawn_reels, examples):
            group(trials)
        if long:
            long_reels.tried(trials)
        trials.end()
        os.chdir("/")
    print(f"{monotonic() - begun:.0f} s")
    print(f"{trials.runs} runs, {trials.differences} differences")
    return 1 if trials.differences else 0


if __name__ == "__main__":
    sys.exit(main(sys.argv[1:]))
