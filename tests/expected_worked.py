"""What the program `worked` has to print for its script, crates/worked/stdin. It is worked out from the rules of SPEC, never from the
program. And what SPEC 10 says of its tiles and its reels, and the paper of its examples, and what is known of tiles that were hurt here, is
held against it: the script must ask it, and the rules must give the answer that is said; only then is the text printed."""

import sys

sys.dont_write_bytecode = True  # leave no files beside the sources

from pathlib import Path  # noqa: E402

from expected import edge, paper, tiles, worked_reels  # noqa: E402
from expected.script import run  # noqa: E402
from expected.sizes import NEW  # noqa: E402

SCRIPT = Path(__file__).resolve().parent.parent / "crates/worked/stdin"

printed, asked = run(SCRIPT.read_text(encoding="ascii"))


def says(name, p, l, held, lent, answer=None, left=None, lines=(), begins="", kind=NEW):
    """The script asks this, and the answer is this, or begins with this, and leaves these bytes, as far as they are given."""
    found = [(said, kept) for one, said, kept in asked if one == (name, kind, p, l, lines, held, lent)]
    assert found, f"the script does not ask {name} {kind.name} {p} {l} {lines} of {held} and {lent}"
    for said, kept in found:
        assert said.startswith(begins), f"{name} {p} {l} of {held}: {said} worked out, {begins} said"
        assert answer in (None, said), f"{name} {p} {l} of {held}: {said} worked out, {answer} said"
        assert left in (None, kept), f"{name} {p} {l} of {held}: {kept} worked out, {left} said"


tiles.hold(says)
edge.hold(says)
paper.hold(says)
worked_reels.hold(says)
print(printed, end="")
