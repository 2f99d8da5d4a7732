"""The ways in which a program is given its standard input, and what it then prints."""

import os
import subprocess
from contextlib import suppress
from tempfile import TemporaryFile
from threading import Thread
from time import sleep
from typing import NamedTuple

LIMIT = 20  # seconds after which a program that has not ended is stopped
FIRST_PAUSE, PAUSE = 0.05, 0.002  # seconds after the first piece, so that the program has started, and after each other


class Printed(NamedTuple):
    """What a program wrote, and its exit status: None for a program that had to be stopped."""

    output: bytes
    errors: bytes
    status: int | None


def run(command, stdin):
    """Runs the command to its end."""
    with TemporaryFile() as output, TemporaryFile() as errors:
        process = subprocess.Popen(command, stdin=stdin, stdout=output, stderr=errors)
        try:
            status = process.wait(LIMIT)
        except subprocess.TimeoutExpired:
            process.kill()
            process.wait()
            status = None
        output.seek(0)
        errors.seek(0)
        return Printed(output.read(), errors.read(), status)


def by_descriptor(command, descriptor):
    """Standard input is what was opened, and is closed afterwards."""
    try:
        return run(command, descriptor)
    finally:
        os.close(descriptor)


def by_file(command, data):
    """Standard input is a file."""
    with TemporaryFile() as file:
        file.write(data)
        file.seek(0)
        return run(command, file)


def by_pipe(command, pieces):
    """Standard input is a pipe that delivers the pieces one after the other, with pauses."""
    reading, writing = os.pipe()
    feeder = Thread(target=feed, args=(writing, pieces))
    feeder.start()
    try:
        return by_descriptor(command, reading)
    finally:
        feeder.join()


def feed(writing, pieces):
    """Puts the pieces into a pipe and closes it. A program that has seen enough may end before the last one."""
    pause = FIRST_PAUSE
    with suppress(BrokenPipeError), os.fdopen(writing, "wb") as pipe:
        for piece in pieces:
            pipe.write(piece)
            pipe.flush()
            sleep(pause)
            pause = PAUSE


def by_directory(command):
    """Standard input is a directory: reading gives the error EISDIR."""
    return by_descriptor(command, os.open(os.curdir, os.O_RDONLY))


def by_writing_only(command):
    """Standard input is open for writing alone: reading gives the error EBADF."""
    return by_descriptor(command, os.open(os.devnull, os.O_WRONLY))


def by_nothing(command):
    """Standard input is closed: reading gives the error EBADF."""
    return run(["sh", "-c", 'exec "$@" <&-', "sh", *command], subprocess.DEVNULL)
