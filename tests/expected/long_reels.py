"""Long reels for tests/command.py: made of a block of records again and again, so that what is asked for is known from the block, and
compared piece by piece while the command runs. The memory that it takes is looked at all the while, in /proc: the most that was resident at
once, the C library's pages included (VmHWM), and what of it is the process's own (RssAnon)."""

import os
import subprocess
from contextlib import suppress
from pathlib import Path
from random import Random
from threading import Event, Thread
from time import monotonic
from typing import NamedTuple

from expected import command, sheet
from expected.pool import each_state, numbered, pool
from expected.reel import record
from expected.sizes import SIZES

LENGTH = 200_000_000
PIECE = 1 << 20
MOST, MOST_OWN = 2560, 1280  # kilobytes that a run may take, and how many of its own
LAST_NUMBER = 4242424242  # of the tile behind the last block


class Long(NamedTuple):
    """A block, how often it stands on the reel, and what stands behind."""

    name: str
    block: bytes
    times: int
    behind: bytes

    def __len__(self):
        return len(self.block) * self.times + len(self.behind)


def long_reels():
    """The reels: many small records, records of all sizes with a cut one behind, and a walk that stops early."""
    last = numbered(LAST_NUMBER, pool("new", 17)[3])
    small = (each_state(5) + each_state(7) + each_state(11)) * 50
    large = b"".join(each_state(p, 100 * p) for p in SIZES)
    yield Long("small records", small, LENGTH // len(small), last)
    yield Long("all sizes", large, LENGTH // len(large), last + each_state(257)[:30000])
    yield Long("stopped early", bytes(PIECE), LENGTH // PIECE, b"")


def parts_of(block, times, behind):
    """The bytes, piece by piece."""
    for _ in range(times):
        yield block
    yield behind


def walk_of(long):
    """The tiles of the block, those behind it, and the closing line of the whole reel."""
    tiles, closing = command.walked(long.block)
    if not command.ended(closing):
        return [], [], "stopped 6 0"
    more, closing = command.walked(long.behind)
    if command.ended(closing):
        return tiles, more, f"end {len(tiles) * long.times + len(more)}"
    _, no, offset = closing.split()
    return tiles, more, f"stopped {no} {int(offset) + len(long.block) * long.times}"


def listing(long):
    """What `list` and `repair` print, piece by piece."""
    tiles, more, closing = walk_of(long)
    lines = "".join(f"{found.line}\n" for found in tiles).encode()
    yield from parts_of(lines, long.times, command.listing(more, closing))


def squares(long):
    """All squares of the map: the offset, the line, the drawn shape and the sign."""
    tiles, more, closing = walk_of(long)

    def made(found):
        return found.offset, found.line, command.shape(found.tile.p, found.state), command.SIGNS[command.word(found.state)]

    ready = [made(found) for found in tiles]
    for n in range(long.times if tiles else 0):
        at = n * len(long.block)
        for offset, *drawn in ready:
            yield (offset + at, *drawn)
    for offset, *drawn in map(made, more):
        yield (offset + long.times * len(long.block), *drawn)
    stop = command.stop_of(closing)
    if stop:
        yield stop[1], closing, f'{command.STOP}<text class="n" x="14" y="18">{stop[0]}</text>', stop[0]


def counted(long):
    """How many squares, how many tiles of each word, and the closing line."""
    tiles, more, closing = walk_of(long)
    counts = {name: count * long.times for name, count in command.counted(tiles).items()}
    for name, count in command.counted(more).items():
        counts[name] = counts.get(name, 0) + count
    return sum(counts.values()) + (not command.ended(closing)), counts, closing


def picture(long):
    """What `map` prints, piece by piece."""
    count, counts, closing = counted(long)
    rows = (count + command.ROW - 1) // command.ROW
    yield "".join(f"{line}\n" for line in command.picture_head(rows)).encode()
    lines = []
    for k, (offset, line, drawn, _) in enumerate(squares(long)):
        lines += command.square(offset, k, line, drawn)
        if len(lines) > 5000:
            yield "".join(f"{one}\n" for one in lines).encode()
            lines = []
    lines += command.picture_foot(rows, counts, int(not command.ended(closing)))
    yield "".join(f"{one}\n" for one in lines).encode()


def signs(long):
    """What `map --text` prints, piece by piece."""
    _, counts, closing = counted(long)
    row = []
    for k, (offset, _, _, sign) in enumerate(squares(long)):
        if k % command.ROW == 0:
            yield ("".join(row) + ("\n" if row else "")).encode()
            row = [f"{offset:>12}"]
        row.append(f" {sign}")
    yield ("".join(row) + ("\n" if row else "")).encode()
    yield "".join(f"{line}\n" for line in command.signs_foot(counts, closing)).encode()


def joined(parts):
    """Parts put together to pieces that are worth comparing."""
    held = bytearray()
    for part in parts:
        held += part
        if len(held) >= PIECE:
            yield bytes(held)
            held.clear()
    yield bytes(held)


def same(parts, read):
    """Compares parts with what is read, and gives None or where they differ. What is read is read to its end."""
    at, held, found = 0, b"", None
    for part in joined(parts):
        while found is None and len(held) < len(part):
            more = read(PIECE)
            if not more:
                found = f"ends at {at + len(held)}"
            held += more
        if found is None and held[: len(part)] != part:
            found = f"differs between {at} and {at + len(part)}"
        if found:
            break
        held, at = held[len(part) :], at + len(part)
    if found is None and (held or read(1)):
        found = f"goes on behind {at}"
    while read(PIECE):
        pass
    return found


def watch(pid, ended, most):
    """Looks at the most memory that a process has taken."""
    while not ended.wait(0.005):
        with suppress(OSError):
            for line in Path(f"/proc/{pid}/status").read_text().splitlines():
                for n, name in enumerate(("VmHWM:", "RssAnon:")):
                    if line.startswith(name):
                        most[n] = max(most[n], int(line.split()[1]))


def feed(pipe, long):
    """The whole reel into a pipe."""
    with suppress(BrokenPipeError), pipe:
        for part in parts_of(long.block, long.times, long.behind):
            pipe.write(part)


def run(trials, long, words, parts, status, piped=False, errors=b"", new=None):
    """One run: standard output is compared while it comes, and the new reel afterwards."""
    words = [("-" if piped else "reel") if word == "REEL" else word for word in words]
    name = f"{long.name}: {' '.join(words)}{' (a pipe)' if piped else ''}"
    trials.runs += 1
    begun, most, ended = monotonic(), [0, 0], Event()
    with open("errors", "wb") as told:
        stdin = subprocess.PIPE if piped else subprocess.DEVNULL
        process = subprocess.Popen([*trials.binary, *words], stdin=stdin, stdout=subprocess.PIPE, stderr=told, bufsize=PIECE)
    threads = [Thread(target=watch, args=(process.pid, ended, most))]
    if piped:
        threads.append(Thread(target=feed, args=(process.stdin, long)))
    for thread in threads:
        thread.start()
    found = same(parts, process.stdout.read)
    process.stdout.close()
    given = process.wait()
    ended.set()
    for thread in threads:
        thread.join()
    if found:
        trials.differs(name, f"standard output {found}")
    if Path("errors").read_bytes() != errors:
        trials.differs(name, f"standard error: {Path('errors').read_bytes()[:200]!r}")
    if given != status:
        trials.differs(name, f"status {status} asked for, {given} given")
    if most[0] > MOST or most[1] > MOST_OWN:
        trials.differs(name, f"{most[0]} kB of memory, {most[1]} of its own, above {MOST} or {MOST_OWN}")
    if new is not None:
        found = same_file(new)
        if found:
            trials.differs(name, f"the new reel {found}")
    if os.path.exists("new.part"):
        trials.differs(name, "new.part is left")
    for left in ("new", "new.part"):
        with suppress(FileNotFoundError):
            os.unlink(left)
    print(f"  {name}: {monotonic() - begun:.1f} s, {most[0]} kB, {most[1]} of its own", flush=True)


def same_file(parts):
    """Compares the new reel."""
    if not os.path.exists("new"):
        return "is not there"
    with open("new", "rb") as file:
        return same(parts, file.read)


def tried(trials):
    """All of it."""
    for long in long_reels():
        trials.begin(f"long reels, {long.name}, {len(long)} bytes")
        with open("reel", "wb") as file:
            for part in parts_of(long.block, long.times, long.behind):
                file.write(part)
        stopped = walk_of(long)[2].startswith("stopped")
        mended = command.repair(long.block).new, long.times, command.repair(long.behind).new
        run(trials, long, ("list", "REEL"), listing(long), 1)
        run(trials, long, ("list", "REEL"), listing(long), 1, piped=True)
        run(trials, long, ("repair", "REEL", "new"), listing(long), 1, new=parts_of(*mended))
        run(trials, long, ("repair", "REEL", "new"), listing(long), 1, piped=True, new=parts_of(*mended))
        run(trials, long, ("map", "REEL", "--text"), signs(long), 1)
        run(trials, long, ("map", "REEL", "--text"), signs(long), 1, piped=True)
        if long.name != "small records":
            run(trials, long, ("map", "REEL"), picture(long), 1)
            run(trials, long, ("map", "REEL"), picture(long), 1, piped=True)
        if stopped and not walk_of(long)[0]:
            for piped in (False, True):
                told = command.said("stopped 6 0", f"{'-' if piped else 'reel'}: no tile 1")
                run(trials, long, ("read", "REEL", "1"), [b""], 1, piped, told)
        else:
            last_tile(trials, long)
    os.unlink("reel")
    half_way(trials)
    above_four_gigabytes(trials)


def last_tile(trials, long):
    """The tile behind the last block, read, filled and corrected."""
    number = str(LAST_NUMBER)
    records = bytes(sheet.record(3, 4, 5, 6))
    Path("sheet").write_bytes(records)
    for piped in (False, True):
        asked = command.read(long.behind, LAST_NUMBER)
        run(trials, long, ("read", "REEL", number), [asked.output], asked.status, piped, asked.errors)
        asked = command.fill(long.behind, LAST_NUMBER, [("row", 1), ("row", 2)])
        new = parts_of(long.block, long.times, asked.new)
        run(trials, long, ("fill", "REEL", "new", number, "row:1", "row:2"), [asked.output], 0, piped, b"", new)
        asked = command.correct(long.behind, LAST_NUMBER, records)
        new = parts_of(long.block, long.times, asked.new)
        run(trials, long, ("correct", "REEL", "new", number, "sheet"), [asked.output], 0, piped, b"", new)


def half_way(trials):
    """A large picture: a million small tiles, all clean, and what list says of them: status 0."""
    drawn = Random(40)
    block = b"".join(numbered(drawn.randrange(2**32), pool("new", 5)[0]) for _ in range(1000))
    long = Long("a million clean tiles", block, 1000, b"")
    trials.begin(f"long reels, {long.name}, {len(long)} bytes")
    with open("reel", "wb") as file:
        for part in parts_of(long.block, long.times, long.behind):
            file.write(part)
    run(trials, long, ("list", "REEL"), listing(long), 0)
    run(trials, long, ("repair", "REEL", "new"), listing(long), 0, new=parts_of(long.block, long.times, b""))
    run(trials, long, ("map", "REEL"), picture(long), 0)
    run(trials, long, ("map", "REEL"), picture(long), 0, piped=True)
    os.unlink("reel")


def above_four_gigabytes(trials):
    """Offsets that four bytes do not hold: large tiles of zeros, of which the file has the headers alone, and a last tile that is hurt."""
    block = record(1, 257, 3, bytes(65536))
    hurt = record(LAST_NUMBER, 257, 3, bytes(65535) + b"A")
    long = Long("above four gigabytes", block, 65600, hurt + b"\xd5\x5d\x01")
    assert len(long) > 2**32
    trials.begin(f"long reels, {long.name}, {len(long)} bytes")
    with open("reel", "wb") as file:
        for n in range(long.times):
            file.seek(n * len(block))
            file.write(block[:10])
        file.seek(long.times * len(block))
        file.write(long.behind)
    run(trials, long, ("list", "REEL"), listing(long), 1)
    run(trials, long, ("map", "REEL", "--text"), signs(long), 1)
    run(trials, long, ("map", "REEL"), picture(long), 1)
    told = command.said(f"{LAST_NUMBER} 257 3 cell 255 255")
    run(trials, long, ("read", "REEL", str(LAST_NUMBER)), [bytes(256 * 254)], 0, False, told)
    os.unlink("reel")
