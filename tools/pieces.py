"""Runs of the program whose standard input is a file that is read as a whole or in pieces, and the
parts of what `dump` prints."""

import os
import select
import subprocess
from typing import NamedTuple

from allocations import Shim
from sockets import IS_PROVED, PROGRAM

# How many seconds a run may take. One without proofs is slow.
LONGEST = 600 if IS_PROVED else 3_600
# What the lines of a report begin with, which stand between those of documents.
REPORT = (b"open ", b"accepted", b"message ", b"ended ", b"fault ", b"offence ")


class Ended(NamedTuple):
    """How a run ended: its status, None where it didn't end by itself, the output and the note."""

    status: int
    output: bytes
    note: bytes


def file_of(content=b""):
    """A file in memory."""
    file = os.fdopen(os.memfd_create("run"), "w+b")
    file.write(content)
    file.seek(0)
    return file


def content_of(file):
    file.seek(0)
    return file.read()


def status_of(process):
    """The status of a process once it has ended, or None where that takes too long."""
    handle = os.pidfd_open(process.pid)
    ended, _, _ = select.select([handle], [], [], LONGEST)
    os.close(handle)
    if not ended:
        process.kill()
    status = process.wait()
    return status if ended else None


def run(words, stream=b"", environment=None):
    """How a run on a stream ends."""
    with file_of(stream) as source, file_of() as output, file_of() as note:
        how = {"stdin": source, "stdout": output, "stderr": note, "env": environment}
        process = subprocess.Popen([PROGRAM, *words], close_fds=False, **how)
        return Ended(status_of(process), content_of(output), content_of(note))


class Pieces:
    """What has runs read their input in pieces, with a library in this folder."""

    def __init__(self, folder):
        self.library = Shim(folder).library

    def environment(self, most, seed=0):
        """The environment of a run in which each read gets at most so many bytes, or with a seed a
        random number up to that."""
        # No allocation has this number.
        ample = {"FAIL_ALLOCATION": "-1", "ALLOCATIONS": os.devnull}
        sizes = {"MOST_READ": str(most), "READ_SEED": str(seed)}
        return {**os.environ, "LD_PRELOAD": self.library, **ample, **sizes}


class Otherwise(Exception):
    """What a run did, where that isn't what it should."""


def split(dumped):
    """The report in what `dump` prints, and the lines of each document."""
    report, documents = [], []
    for line in dumped.splitlines(True):
        if line.startswith(REPORT):
            report.append(line)
            documents += [[]] if line.startswith(b"message ") else []
        else:
            documents[-1].append(line)
    return b"".join(report), [b"".join(it) for it in documents]
