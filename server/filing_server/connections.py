"""HTTP connections: so many at once, each has to ask something in time, and what is no HTTP is told so by a problem."""

from __future__ import annotations

import asyncio
import json
import logging

from aiohttp import web

LINGER = 1.0
NO_LOG = logging.getLogger("filing_server.access")
NO_LOG.disabled = True


def bare_problem(word: str, title: str, status: int) -> bytes:
    return json.dumps({"type": f"urn:filing:{word}", "title": title, "status": status, "word": word}).encode()


class Connection(web.RequestHandler):
    """A connection of HTTP, on which something has to be asked within a time."""

    was_asked = False

    def __init__(self, server: web.Server, wait: float) -> None:
        loop = asyncio.get_running_loop()
        super().__init__(server, loop=loop, access_log=NO_LOG, lingering_time=LINGER, auto_decompress=False)
        self.wait = wait

    def connection_made(self, transport: asyncio.BaseTransport) -> None:
        super().connection_made(transport)
        self.first = asyncio.get_running_loop().call_later(self.wait, self._shut)

    def _shut(self) -> None:
        if self.transport is not None and not self.was_asked:
            self.transport.close()

    def connection_lost(self, exc: BaseException | None) -> None:
        self.first.cancel()
        super().connection_lost(exc)

    def handle_error(
        self, request: web.BaseRequest, status: int = 500, exc: BaseException | None = None, message: str | None = None
    ) -> web.StreamResponse:
        """What could not be read as a request, or failed behind the handlers."""
        word, title = ("fault", "the server failed") if status >= 500 else ("bad-request", "this is no request of HTTP")
        response = web.Response(
            status=status, body=bare_problem(word, title, status), content_type="application/problem+json"
        )
        response.force_close()
        return response


class Refusal(asyncio.Protocol):
    """A connection above the number that is taken."""

    def connection_made(self, transport: asyncio.BaseTransport) -> None:
        assert isinstance(transport, asyncio.Transport)
        body = bare_problem("too-many-clients", "as many clients as this server takes are connected", 503)
        head = "HTTP/1.1 503 Service Unavailable\r\nContent-Type: application/problem+json\r\n"
        head += "Retry-After: 2\r\nConnection: close\r\n"
        transport.write(f"{head}Content-Length: {len(body)}\r\n\r\n".encode() + body)
        transport.close()


class Door:
    """Lets so many connections in."""

    def __init__(self, server: web.Server, most: int, wait: float) -> None:
        self.server = server
        self.most = most
        self.wait = wait

    def __call__(self) -> asyncio.Protocol:
        if len(self.server.connections) >= self.most:
            return Refusal()
        return Connection(self.server, self.wait)
