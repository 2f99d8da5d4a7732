"""Runs the measured program: counts the instructions of a call under the emulator, and times it on the machine itself."""

import shutil
import subprocess
import sys
from pathlib import Path

from building import EMULATOR, ON_X86_64, OUT

SIZES = [17, 127, 257]

# All that the emulator knows, AVX2 among it, so that memcpy and ISA-L choose their wide code. But not ERMS: memcpy would then be one
# instruction, which the emulator carries out, and counts, byte by byte.
CPU = "max,-erms"

# The machine's own loader for x86-64. Where there is one, its C library is loaded, and the cross compiler's loader would break on that.
LOADER = Path("/lib64/ld-linux-x86-64.so.2")

# The two runs whose difference is the cost of the calls between. The first call is in both: it also binds functions and fills tables.
FEW, MANY = 1, 3

# All cases are timed so many times over, and the best is kept: what else the machine does seldom hurts the same case each time.
PASSES = 12


def instructions_of_run(case, p, repeats):
    """The instructions of the whole program. It has no environment and a short name: both are put on its stack and would shift it."""
    roots = [] if LOADER.exists() else ["-L", "/usr/x86_64-linux-gnu"]
    words = [shutil.which(EMULATOR), *roots, "-cpu", CPU, "-plugin", "./count.so", "./bench", case, str(p), str(repeats)]
    done = subprocess.run(words, cwd=OUT, env={}, capture_output=True, text=True)
    if done.returncode != 0:
        sys.exit(f"bench: {case} at p {p}: wrong, exit status {done.returncode}\n{done.stderr}")
    return int(done.stderr.split("instructions ")[1])


def instructions_with_loop(case, p):
    """The instructions of a call and of the loop around it."""
    return (instructions_of_run(case, p, MANY) - instructions_of_run(case, p, FEW)) / (MANY - FEW)


def count(cases):
    """The instructions of one call of each case at each size: what is over what a call of nothing costs."""
    counts = {}
    for p in SIZES:
        print(f"bench: counting at p {p}", file=sys.stderr)
        loop = instructions_with_loop("plain-nothing", p)
        for case in cases:
            counts[case, p] = instructions_with_loop(case, p) - loop
    return counts


def nanoseconds(case, p):
    done = subprocess.run([str(OUT / "bench"), "time", case, str(p)], capture_output=True, text=True)
    if done.returncode != 0:
        sys.exit(f"bench: {case} at p {p}: wrong, exit status {done.returncode}\n{done.stderr}")
    return float(done.stdout)


def time(cases):
    """The nanoseconds of one call of each case at each size; nothing on a machine that only emulates the program."""
    if not ON_X86_64:
        return {}
    best = {}
    for each in range(PASSES):
        print(f"bench: timing, pass {each + 1} of {PASSES}", file=sys.stderr)
        for key in ((case, p) for p in SIZES for case in cases):
            best[key] = min(nanoseconds(*key), best.get(key, float("inf")))
    return best
