"""Clients of the WebSocket: a message has one line or more, and each reply is a message."""

from __future__ import annotations

import asyncio
import collections

from aiohttp import WSCloseCode, WSMsgType, web

from .office import STOP_WAIT, Office
from .sessions import Client


MOST_UNREAD = 1 << 20


class SocketClient(Client):
    """A WebSocket. Replies wait in a queue whose bytes are bounded."""

    def __init__(self, office: Office, user: str, request: web.Request, socket: web.WebSocketResponse) -> None:
        super().__init__(office, user)
        self.transport = request.transport
        self.socket = socket
        self.replies: collections.deque[bytes] = collections.deque()
        self.unread = 0
        self.is_due = asyncio.Event()
        self.room = asyncio.Event()
        self.code = WSCloseCode.OK

    @property
    def has_room(self) -> bool:
        return super().has_room and self.unread < MOST_UNREAD

    def deliver(self, reply: bytes) -> None:
        if self.unread > self.office.settings.unread:
            self.drop()
            return
        self.replies.append(reply)
        self.unread += len(reply)
        self.is_due.set()

    def go_on(self) -> None:
        self.room.set()

    def drop(self) -> None:
        if self.transport is not None:
            self.transport.abort()
        self.leave()
        self.room.set()

    async def finish(self) -> None:
        self.room.set()
        end = asyncio.get_running_loop().time() + self.office.settings.stall
        while self.replies and asyncio.get_running_loop().time() < end:
            await asyncio.sleep(0.02)
        self.code = WSCloseCode.GOING_AWAY
        await self.socket.close(code=self.code)

    async def write(self) -> None:
        """Writes replies as they come; a client that reads none for long is dropped."""
        while True:
            await self.is_due.wait()
            self.is_due.clear()
            while self.replies:
                reply = self.replies[0]
                await asyncio.wait_for(self.socket.send_str(reply.decode()), self.office.settings.stall)
                self.replies.popleft()
                self.unread -= len(reply)
                if self.has_room:
                    self.go_on()

    async def read(self) -> None:
        """Takes lines while there is room for them."""
        async for message in self.socket:
            if message.type not in (WSMsgType.TEXT, WSMsgType.BINARY):
                return
            text = message.data.encode("utf-8", "surrogatepass") if isinstance(message.data, str) else message.data
            for line in text.split(b"\n"):
                while not self.has_room and not self.is_gone:
                    self.room.clear()
                    await self.room.wait()
                if self.is_gone:
                    return
                self.ask(line)


async def serve_socket(office: Office, user: str, request: web.Request) -> web.WebSocketResponse:
    """Serves one WebSocket until it ends."""
    socket = web.WebSocketResponse(max_msg_size=office.settings.body, compress=False, timeout=STOP_WAIT)
    await socket.prepare(request)
    client = SocketClient(office, user, request, socket)
    writing = asyncio.ensure_future(client.write())
    writing.add_done_callback(lambda done: None if done.cancelled() or done.exception() is None else client.drop())
    try:
        await client.read()
        while client.replies and not writing.done():
            await asyncio.sleep(0.02)
        await socket.close(code=client.code)
    finally:
        client.leave()
        writing.cancel()
    return socket
