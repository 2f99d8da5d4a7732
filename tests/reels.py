"""Tries the program `list`: runs it on many reels and compares what it prints, byte for byte, with what SPEC 8 asks for, as
tests/expected/reel.py works it out. The reels stand in tests/expected/reels/.

    python3 tests/reels.py target/bin/list

The arguments are the command to run. The last line says whether all went well, and so does the exit status."""

import sys

sys.dont_write_bytecode = True  # leave no files beside the sources

from itertools import zip_longest  # noqa: E402
from shutil import which  # noqa: E402
from typing import NamedTuple  # noqa: E402

import fed  # noqa: E402
from expected.reel import listing  # noqa: E402
from expected.reels import GROUPS, pieces  # noqa: E402

# The program's words on standard error where reading standard input fails (SPEC 8.2).
UNREADABLE = b"counterfrost-list: the input could not be read\n"


class Trial(NamedTuple):
    """What was printed, and what was asked for on standard output and on standard error. The exit status is to be 0."""

    name: str
    printed: fed.Printed
    output: bytes
    errors: bytes = b""


def by_file(command, cases):
    """Each reel as a file. Where a case says how its listing ends, the listing that was worked out is held to it."""
    for name, reel, ends in cases:
        asked = listing(reel)
        assert ends is None or f"\n{asked}".endswith(f"\n{ends}\n"), f"{name}: {asked}"
        yield Trial(name, fed.by_file(command, reel), asked.encode())


def by_pipe(command):
    """Reels through a pipe, in pieces."""
    for name, parts in pieces.cases().items():
        yield Trial(name, fed.by_pipe(command, parts), listing(b"".join(parts)).encode())


def unreadable(command):
    """Inputs that cannot be read: no listing, and a line on standard error."""
    yield Trial("a directory", fed.by_directory(command), b"", UNREADABLE)
    yield Trial("open for writing alone", fed.by_writing_only(command), b"", UNREADABLE)
    yield Trial("closed", fed.by_nothing(command), b"", UNREADABLE)


def shown(line):
    """A line in a message."""
    if line is None:
        return "no line"
    return repr(line[:100].decode(errors="backslashreplace"))


def first_difference(stream, asked, printed):
    """The first line in which the two differ, in words, or None."""
    lines = zip_longest(asked.splitlines(keepends=True), printed.splitlines(keepends=True))
    for number, (one, other) in enumerate(lines, start=1):
        if one != other:
            return f"line {number} of {stream}: {shown(one)} asked for, {shown(other)} printed"
    return None


def difference(trial):
    """What is otherwise than it should be, in words, or None."""
    output, errors, status = trial.printed
    return (
        first_difference("standard output", trial.output, output)
        or first_difference("standard error", trial.errors, errors)
        or (f"not ended after {fed.LIMIT} s" if status is None else None)
        or (f"exit status {status}" if status != 0 else None)
    )


def print_group(title, trials):
    """A line for the group, and one for each trial that went otherwise. Gives the number of trials and of those."""
    count, otherwise = 0, []
    for trial in trials:
        count += 1
        found = difference(trial)
        if found:
            otherwise.append(f"  {trial.name}: {found}")
    print(f"{title}: {count} reels", *otherwise, sep="\n", flush=True)
    return count, len(otherwise)


def print_groups(command):
    """All groups. Gives the number of reels and of those that were listed otherwise."""
    groups = [(title, by_file(command, cases())) for title, cases in GROUPS.items()]
    groups += [("through a pipe, in pieces", by_pipe(command)), ("inputs that cannot be read", unreadable(command))]
    results = [print_group(title, trials) for title, trials in groups]
    return (sum(column) for column in zip(*results))


def main(command):
    """Gives the exit status."""
    if not command or which(command[0]) is None:
        print("usage: python3 tests/reels.py COMMAND..., where the command can be run", file=sys.stderr)
        return 2
    count, otherwise = print_groups(command)
    print(f"{count} reels:", f"{otherwise} listed otherwise" if otherwise else "all listed as SPEC asks")
    return 1 if otherwise else 0


if __name__ == "__main__":
    sys.exit(main(sys.argv[1:]))
