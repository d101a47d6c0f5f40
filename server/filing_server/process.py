"""One `filing run --journal`: lines go in, and each gets its reply, in order."""

from __future__ import annotations

import asyncio
import collections
import logging
from typing import Callable, Protocol

LOG = logging.getLogger("filing_server")
MOST_UNWRITTEN = 1 << 20

Told = Callable[[bytes | None], None]
"""What is called with a reply, or with None where the program ended before it."""


class Watcher(Protocol):
    """Who is told what becomes of the program."""

    def before_write(self) -> None:
        """Lines go out next."""

    def after_replies(self) -> None:
        """Some replies came, and each was handed on."""

    def set_full(self, is_full: bool) -> None:
        """The program takes its lines slower than they come, or takes them again."""


class Program(asyncio.SubprocessProtocol):
    """The child process. Each line that is not blank gets one reply, so replies are matched by counting.

    Lines that come within one turn of the loop go out in one write, and so share the syncs of the journal.
    """

    def __init__(self, watcher: Watcher) -> None:
        self.watcher = watcher
        self.waiting: collections.deque[Told] = collections.deque()
        self.lines: list[bytes] = []
        self.pieces: list[bytes] = []
        self.is_full = False
        self.is_ended = False
        self.loop = asyncio.get_running_loop()
        self.status: asyncio.Future[int] = self.loop.create_future()

    @classmethod
    async def start(cls, command: list[str], watcher: Watcher) -> Program:
        """Starts the program in a group of its own, so that a signal of the terminal reaches the server alone."""
        loop = asyncio.get_running_loop()
        _, program = await loop.subprocess_exec(lambda: cls(watcher), *command, stderr=None, start_new_session=True)
        return program

    def send(self, line: bytes, told: Told) -> None:
        """Sends a line that is not blank and has no line feed."""
        if self.is_ended:
            told(None)
            return
        if not self.lines:
            self.loop.call_soon(self._write)
        self.lines += (line, b"\n")
        self.waiting.append(told)

    async def ask(self, line: bytes) -> bytes | None:
        """The reply to one line."""
        future: asyncio.Future[bytes | None] = self.loop.create_future()
        self.send(line, lambda reply: None if future.done() else future.set_result(reply))
        return await future

    def end_input(self) -> None:
        """The program reads its end, keeps what waits, and ends."""
        if not self.is_ended:
            self._write()
            self.stdin.close()

    def kill(self) -> None:
        self.transport.kill()

    def _write(self) -> None:
        if self.lines and not self.is_ended:
            self.watcher.before_write()
            self.stdin.write(b"".join(self.lines))
        self.lines.clear()

    # What the loop calls.

    def connection_made(self, transport: asyncio.BaseTransport) -> None:
        assert isinstance(transport, asyncio.SubprocessTransport)
        self.transport = transport
        stdin = transport.get_pipe_transport(0)
        assert isinstance(stdin, asyncio.WriteTransport)
        stdin.set_write_buffer_limits(high=MOST_UNWRITTEN)
        self.stdin = stdin

    def pipe_data_received(self, fd: int, data: bytes) -> None:
        start = 0
        while (end := data.find(b"\n", start)) >= 0:
            piece = data[start:end]
            if self.pieces:
                piece = b"".join([*self.pieces, piece])
                self.pieces.clear()
            self._tell(piece)
            start = end + 1
        if start < len(data):
            self.pieces.append(data[start:])
        self.watcher.after_replies()

    def _tell(self, reply: bytes | None) -> None:
        told = self.waiting.popleft()
        try:
            told(reply)
        except Exception:  # one client's fault must not shift the replies of the others
            LOG.exception("a reply could not be handed on")

    def pause_writing(self) -> None:
        self.is_full = True
        self.watcher.set_full(True)

    def resume_writing(self) -> None:
        self.is_full = False
        self.watcher.set_full(False)

    def connection_lost(self, exc: Exception | None) -> None:
        """The process has ended and its pipes are closed: what waits gets no reply."""
        self.is_ended = True
        while self.waiting:
            self._tell(None)
        self.watcher.after_replies()
        self.status.set_result(self.transport.get_returncode() or 0)
