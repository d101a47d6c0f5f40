"""Clients of the Unix socket: lines come, and reply lines go. The system says which user a client is."""

from __future__ import annotations

import asyncio
import os
import pwd
import socket
import struct
from typing import TYPE_CHECKING

from .sessions import Client, refused

if TYPE_CHECKING:
    from .office import Office


def peer_user(transport: asyncio.BaseTransport) -> str:
    """The user at the other end, by SO_PEERCRED."""
    peer = transport.get_extra_info("socket").getsockopt(socket.SOL_SOCKET, socket.SO_PEERCRED, struct.calcsize("3i"))
    _, uid, _ = struct.unpack("3i", peer)
    try:
        return pwd.getpwuid(uid).pw_name
    except KeyError:
        return str(uid)


class LineClient(Client):
    """A connection of the Unix socket."""

    def __init__(self, office: Office, transport: asyncio.Transport) -> None:
        super().__init__(office, peer_user(transport))
        self.transport = transport
        self.got = bytearray()
        self.looked = 0
        self.outbox: list[bytes] = []
        self.has_ended = False
        self.stalled: asyncio.TimerHandle | None = None
        transport.set_write_buffer_limits(high=1 << 16)

    def receive(self, data: bytes) -> None:
        self.got += data
        self._take()

    def _take(self) -> None:
        """Asks each whole line that is there, while there is room; else the client is not read on."""
        while self.has_room and not self.stalled:
            end = self.got.find(b"\n", self.looked)
            if end < 0:
                break
            line = bytes(self.got[:end])
            del self.got[: end + 1]
            self.looked = 0
            self._ask(line)
        else:
            self.transport.pause_reading()
            return
        self.looked = len(self.got)
        if self.looked > self.office.settings.body:
            self._refuse_long()
        elif self.has_ended:
            self._take_last()
        elif not self.is_gone:
            self.transport.resume_reading()

    def _ask(self, line: bytes) -> None:
        if len(line) > self.office.settings.body:
            self._refuse_long()
        else:
            self.ask(line)

    def _refuse_long(self) -> None:
        self.outbox.append(refused("line-too-long"))
        self.flush()
        self.got.clear()
        self.transport.close()
        self.leave()

    def _take_last(self) -> None:
        """The client has ended its lines; the last may lack its line feed."""
        line = bytes(self.got)
        self.got.clear()
        self.looked = 0
        self.ask(line)
        self.flush()

    def end_lines(self) -> bool:
        """No line comes any more. Replies that are due are still written."""
        self.has_ended = True
        self._take()
        return not self.is_gone

    def deliver(self, reply: bytes) -> None:
        self.outbox.append(reply)

    def flush(self) -> None:
        if self.is_gone:
            return
        if self.transport.get_write_buffer_size() > self.office.settings.unread:
            self.drop()
            return
        if self.outbox:
            self.outbox.append(b"")
            self.transport.write(b"\n".join(self.outbox))
            self.outbox.clear()
        if self.has_ended and not self.waiting and not self.got:
            self.transport.close()

    def go_on(self) -> None:
        if not self.is_gone:
            self._take()

    def stall(self) -> None:
        """The client does not read: it is not read either, and dropped if that goes on."""
        self.stalled = asyncio.get_running_loop().call_later(self.office.settings.stall, self.drop)
        self.transport.pause_reading()

    def unstall(self) -> None:
        if self.stalled:
            self.stalled.cancel()
            self.stalled = None
        self.go_on()

    def drop(self) -> None:
        self.transport.abort()

    async def finish(self) -> None:
        if self.outbox:
            self.transport.write(b"".join(reply + b"\n" for reply in self.outbox))
            self.outbox.clear()
        self.transport.close()

    def leave(self) -> None:
        if self.stalled:
            self.stalled.cancel()
        super().leave()


class LineProtocol(asyncio.Protocol):
    """What the loop calls for one connection."""

    client: LineClient | None = None

    def __init__(self, office: Office) -> None:
        self.office = office

    def connection_made(self, transport: asyncio.BaseTransport) -> None:
        assert isinstance(transport, asyncio.Transport)
        if not self.office.is_open:
            self._refuse(transport, "restarting")
        elif len(self.office.clients) >= self.office.settings.clients:
            self._refuse(transport, "too-many-clients")
        else:
            self.client = LineClient(self.office, transport)

    def _refuse(self, transport: asyncio.Transport, word: str) -> None:
        transport.write(refused(word) + b"\n")
        transport.close()

    def data_received(self, data: bytes) -> None:
        if self.client:
            self.client.receive(data)

    def eof_received(self) -> bool:
        return self.client.end_lines() if self.client else False

    def pause_writing(self) -> None:
        if self.client:
            self.client.stall()

    def resume_writing(self) -> None:
        if self.client:
            self.client.unstall()

    def connection_lost(self, exc: Exception | None) -> None:
        if self.client:
            self.client.leave()


async def serve_lines(office: Office) -> asyncio.AbstractServer | None:
    """The Unix socket, where there is to be one. Its place is taken over from a server that was killed."""
    path = office.settings.unix
    if path is None:
        return None
    if path.is_socket():
        with socket.socket(socket.AF_UNIX) as other:
            if other.connect_ex(str(path)) == 0:
                raise OSError(f"another server has the socket {path}")
        path.unlink()
    old = os.umask(0o117)
    try:
        return await asyncio.get_running_loop().create_unix_server(
            lambda: LineProtocol(office), str(path), backlog=1024
        )
    finally:
        os.umask(old)
