"""Follows the acknowledged lines of a journal while the program writes it.

The lines that count are those up to the first that begins with neither `[`, as entries do, nor `{`, as all others do. They
never change, so each is read once.
"""

from __future__ import annotations

import os
from pathlib import Path
from typing import Iterator

CHUNK = 1 << 20
BEGINNINGS = (b"[", b"{")
MARK = b'{"batch":'
"""So the mark of a batch begins. It ends with the digest of all that stands before it."""


class Follower:
    """How far a journal was read: bytes, entries, batches, and the digest that the last mark has."""

    def __init__(self, path: Path) -> None:
        self.file = os.open(path, os.O_RDONLY | os.O_CLOEXEC)
        self.bytes = 0
        self.entries = 0
        self.batches = 0
        self.seal = ""

    def new_lines(self) -> Iterator[bytes]:
        """Each acknowledged line that was not read before, without its line feed: entries, and the mark behind those of a batch.

        The file is read forwards: the byte that opens a batch is written after the rest of the batch is there.
        """
        rest, at = b"", self.bytes
        while data := os.pread(self.file, CHUNK, at):
            at += len(data)
            if b"\n" not in data and (rest or data)[:1] in BEGINNINGS:
                rest += data
                continue
            *lines, rest = (rest + data).split(b"\n")
            for line in lines:
                if line[:1] not in BEGINNINGS:
                    return
                self._count(line)
                yield line
            if rest[:1] not in (*BEGINNINGS, b""):
                return

    def _count(self, line: bytes) -> None:
        self.bytes += len(line) + 1
        self.entries += line.startswith(b"[")
        if line.startswith(MARK):
            self.batches += 1
            self.seal = line[-66:-2].decode()

    def copy(self, start: int, end: int) -> Iterator[bytes]:
        """The acknowledged bytes from one offset to another."""
        while start < min(end, self.bytes):
            data = os.pread(self.file, min(CHUNK, min(end, self.bytes) - start), start)
            if not data:
                return
            start += len(data)
            yield data

    def close(self) -> None:
        os.close(self.file)
