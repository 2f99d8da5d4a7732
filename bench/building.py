"""Builds the measured program and the counter of instructions, all below target/bench/."""

import platform
import shutil
import subprocess
import sys
from pathlib import Path

TOP = Path(__file__).resolve().parent.parent
OUT = TOP / "target" / "bench"

ON_X86_64 = platform.machine() == "x86_64"
COMPILER = "cc" if ON_X86_64 else "x86_64-linux-gnu-gcc"
EMULATOR = "qemu-x86_64"
FLAGS = ["-O2", "-Wall", "-Wextra", "-Wpedantic", "-Werror"]

# The peers that can be installed: the macro that asks for one, a header of it, what it is linked with, and where it is used.
PEERS = {
    "ISA-L": ("WITH_ISAL", "isa-l/erasure_code.h", ["-lisal"], "isal_jobs.c"),
    "Jerasure": ("WITH_JERASURE", "jerasure.h", ["-lJerasure", "-lgf_complete"], "jerasure_jobs.c"),
}

# Jerasure's header names another one of its own without the folder.
INCLUDES = ["-I" + str(TOP / "include"), "-I" + str(TOP / "tests" / "face"), "-I/usr/include/jerasure"]

COMMON = ["bench.c", "hurt_jobs.c", "material.c", "measure.c", "plain_jobs.c", "stripe.c", "tile_jobs.c"]


def need(command):
    if shutil.which(command) is None:
        sys.exit(f"bench: {command} is missing; bench/install installs it")


def run(words):
    subprocess.run([str(word) for word in words], check=True)


def has_peer(name):
    """Whether a program with this peer's header can be compiled and linked."""
    _, header, libraries, _ = PEERS[name]
    words = [COMPILER, *INCLUDES, "-x", "c", "-", "-o", OUT / "tried", *libraries]
    program = f"#include <{header}>\nint main(void) {{ return 0; }}\n"
    tried = subprocess.run([str(word) for word in words], input=program.encode(), capture_output=True)
    return tried.returncode == 0


def build_program(archive, peers):
    """target/bench/bench, with the archive and with those peers."""
    sources = COMMON + [PEERS[name][3] for name in peers]
    files = [TOP / "bench" / name for name in sources] + sorted((TOP / "tests" / "face").glob("peer*.c"))
    macros = ["-D" + PEERS[name][0] for name in peers]
    libraries = [word for name in peers for word in PEERS[name][2]]
    run([COMPILER, "-std=c99", *FLAGS, *macros, *INCLUDES, *files, archive, *libraries, "-o", OUT / "bench"])


def build_counter():
    """target/bench/count.so, which the emulator loads, so it is built for this machine."""
    run(["cc", "-std=c99", *FLAGS, "-shared", "-fPIC", TOP / "bench" / "count.c", "-o", OUT / "count.so"])


def build(archive):
    """Builds all, and says which peers are in it."""
    for command in {"cc", COMPILER, EMULATOR}:
        need(command)
    if not Path(archive).is_file():
        sys.exit(f"bench: there is no archive {archive}")
    OUT.mkdir(parents=True, exist_ok=True)
    peers = [name for name in PEERS if has_peer(name)]
    build_program(archive, peers)
    build_counter()
    return peers
