"""The sample reels, and what the gate runs the program `list` on. They are made here, and what `list` must print is worked out from
SPEC 7 and 8 (tests/expected/reel.py).

    python3 tests/samples.py            # are the stored files what is made here?
    python3 tests/samples.py --write    # stores them"""

import sys

sys.dont_write_bytecode = True  # leave no files beside the sources

from pathlib import Path  # noqa: E402

from expected import flags_reel, long_reel, projectionist  # noqa: E402
from expected.reel import listing  # noqa: E402
from expected.worked_reels import WHOLE_REEL  # noqa: E402

TOP = Path(__file__).resolve().parent.parent
PAGE = "samples/README.md"
LONG_HEADS = ("record", "offset", "number", "p", "l", "what was done to it", "the line it must give")
OLD_HEADS = ("record", "offset", "kind", *LONG_HEADS[2:])
FLAGS_HEADS = ("record", "offset", "header", "flags", *LONG_HEADS[-2:])
MOST = 40000  # the reels stay below so many bytes


def row(fields):
    """A row of a table on a page."""
    return f"| {' | '.join(map(str, fields))} |"


def table(heads, rows):
    """The table of a reel's records."""
    records = [row((*fields, f"`{line}`")) for *fields, line in rows]
    return "\n".join([row(heads), f"|{'---|' * len(heads)}", *records])


def with_table(page, heads, rows):
    """The page with the table in place of the one that it has under these heads."""
    before, found, behind = page.partition(row(heads))
    assert found, f"{PAGE} has no table of {', '.join(heads)}"
    _, _, after = behind.partition("\n\n")
    return f"{before}{table(heads, rows)}\n\n{after}"


def page():
    """The page about the samples, with all tables."""
    kept = (TOP / PAGE).read_text(encoding="utf-8")
    kept = with_table(kept, LONG_HEADS, long_reel.rows())
    kept = with_table(kept, OLD_HEADS, [fields for _, *fields in projectionist.rows()])
    return with_table(kept, FLAGS_HEADS, [fields for _, *fields in flags_reel.rows()])


def files():
    """What each file has to hold."""
    long, old, flags = long_reel.reel(), projectionist.reel(), flags_reel.reel()
    assert max(map(len, (long, old, flags))) < MOST
    return {
        "samples/short.reel": WHOLE_REEL,
        "samples/long.reel": long,
        "samples/projectionist.reel": old,
        "samples/projectionist.expected": projectionist.LISTING.encode(),
        "samples/flags.reel": flags,
        "samples/flags.expected": flags_reel.LISTING.encode(),
        "crates/list/stdin": long,
        "crates/list/stdout": listing(long).encode(),
        PAGE: page().encode(),
    }


def write():
    """Stores the files."""
    for name, data in files().items():
        (TOP / name).parent.mkdir(parents=True, exist_ok=True)
        (TOP / name).write_bytes(data)
        print(f"{name}: {len(data)} bytes")
    return 0


def check():
    """Says whether the stored files are what is made here. Gives the exit status."""
    made = files()
    other = [name for name, data in made.items() if not (TOP / name).is_file() or (TOP / name).read_bytes() != data]
    if other:
        print("otherwise than tests/samples.py makes them:", *other)
        return 1
    print(", ".join(made), "are what SPEC asks for")
    return 0


if __name__ == "__main__":
    sys.exit(write() if sys.argv[1:] == ["--write"] else check())
