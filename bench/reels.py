"""Makes the reels on which the command is timed. Each is a short reel, its block, many times over: a reel is nothing but records, one
behind the other. The tiles are written by the command itself, of pseudo-random texts."""

import random
import subprocess
from collections import Counter

LENGTH = 200_000_000
# The worst damage takes a hundred times as long.
SHORT = LENGTH // 10

HEADER = 10
SAME_CHANGE = 0x5A
# The last tile of each reel has this number, and no other tile.
LAST = 0xFFFFFFFF

SIZES = [p for p in range(5, 258) if all(p % n for n in range(2, p))]


class Reel:
    """A reel's block before a repair and after it, the states that are listed of the block, and how often it stands in the file."""

    def __init__(self, name, tiles, damage=None, length=LENGTH):
        self.name = name
        self.states = Counter()
        before, after = [], []
        for k, (p, record) in enumerate(tiles):
            hurt = bytearray(record)
            state, mended = damage(hurt, p, k) if damage else ("clean", True)
            self.states[state] += 1
            before.append(bytes(hurt))
            after.append(record if mended else bytes(hurt))
        self.tiles = len(tiles)
        self.last_size = tiles[-1][0]
        self.before, self.after = b"".join(before), b"".join(after)
        self.times = round(length / len(self.before))
        self.length = self.times * len(self.before)

    def numbered(self, block):
        """The block that ends the reel: its last tile has the number LAST."""
        at = len(block) - (self.last_size - 1) ** 2 - 4
        return block[:at] + LAST.to_bytes(4, "big") + block[at + 4:]

    def blocks(self, block):
        for _ in range(self.times - 1):
            yield block
        yield self.numbered(block)

    def make(self, path):
        self.path = path
        with open(path, "wb") as file:
            file.writelines(self.blocks(self.before))

    def is_repaired_in(self, path):
        with open(path, "rb") as file:
            return all(file.read(len(block)) == block for block in self.blocks(self.after)) and file.read(1) == b""


def cell(p, row, column):
    return HEADER + row * (p - 1) + column


def hurt_column(record, p, _):
    """Each byte of the last column is changed."""
    for row in range(p - 1):
        record[cell(p, row, p - 2)] ^= 1 + row % 255
    return f"column {p - 2}", True


def hurt_every_second_row(record, p, k):
    """Each byte of the last row is changed, in every second tile."""
    if k % 2 == 0:
        return "clean", True
    for column in range(p - 1):
        record[cell(p, p - 2, column)] ^= 1 + column % 255
    return f"row {p - 2}", True


def hurt_worst(record, p, _):
    """The worst damage that was found; bench/hurt_jobs.c says what it is, and why."""
    for row in range(0, p - 1, 2):
        record[cell(p, row, 1)] ^= SAME_CHANGE
    for row in (p - 7, p - 6):
        record[cell(p, row, 3)] ^= SAME_CHANGE
    return "refused 5", False


def written(program, folder, p, count, source):
    """So many tiles of size p, each with its size, as records of the command's own writing."""
    texts = [folder / f"text-{k}" for k in range(count)]
    for text in texts:
        text.write_bytes(source.randbytes((p - 1) * (p - 3)))
    subprocess.run([program, "write", folder / "block", str(p), "house", "1", *texts, "--force"], check=True)
    reel, step = (folder / "block").read_bytes(), HEADER + (p - 1) ** 2
    for path in [*texts, folder / "block"]:
        path.unlink()
    return [(p, reel[at:at + step]) for at in range(0, len(reel), step)]


def make_reels(program, folder):
    source = random.Random(1)
    large = written(program, folder, 257, 64, source)
    of_all = [tile for p in SIZES for tile in written(program, folder, p, 2, source)]
    reels = [
        Reel("size 257, clean", large),
        Reel("size 257, a hurt column in each tile", large, hurt_column),
        Reel("size 17, clean", written(program, folder, 17, 256, source)),
        Reel("size 5, clean", written(program, folder, 5, 256, source)),
        Reel("all 53 sizes, a hurt row in every second tile", of_all, hurt_every_second_row),
        Reel("size 257, the worst damage in each tile", large, hurt_worst, SHORT),
    ]
    for k, reel in enumerate(reels):
        reel.make(folder / f"{k}.reel")
    return reels
