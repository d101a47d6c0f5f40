"""Each version as it comes, to whoever listens."""

from __future__ import annotations

import asyncio
import json

MOST_BEHIND = 256
ALIVE = b": alive\n\n"
ALIVE_EVERY = 15.0


class Listener:
    """A bounded queue of events. Where it is full its connection ends, and the client comes back with its last number."""

    def __init__(self) -> None:
        self.events: asyncio.Queue[bytes | None] = asyncio.Queue(MOST_BEHIND)
        self.has_gap = False

    def put(self, text: bytes | None) -> None:
        if not self.has_gap:
            try:
                self.events.put_nowait(text)
            except asyncio.QueueFull:
                self.has_gap = True

    async def next(self) -> bytes | None:
        """The next event, or a sign of life where none comes for a while; None at the end, or behind a gap."""
        if self.has_gap and self.events.empty():
            return None
        try:
            return await asyncio.wait_for(self.events.get(), ALIVE_EVERY)
        except asyncio.TimeoutError:
            return ALIVE


class Hub:
    """All who listen."""

    def __init__(self) -> None:
        self.listeners: set[Listener] = set()

    def tell(self, number: int, what: dict[str, object]) -> None:
        if self.listeners:
            text = event(number, what)
            for listener in self.listeners:
                listener.put(text)

    def end(self) -> None:
        """Nobody is told anything more."""
        for listener in self.listeners:
            listener.put(None)


def event(number: int, what: dict[str, object]) -> bytes:
    """One server-sent event. JSON has no line feed, so no text in it can begin another."""
    text = json.dumps(what, ensure_ascii=False, separators=(",", ":"))
    return f"id: {number}\nevent: version\ndata: {text}\n\n".encode()
