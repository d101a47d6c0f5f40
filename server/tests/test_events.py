"""Versions as they come, by server-sent events."""

from __future__ import annotations

import asyncio
import json
import threading
from http.client import HTTPConnection
from typing import Any, Callable, Iterator
from urllib.parse import quote

from conftest import WAIT, Office, report
from filing_server.events import MOST_BEHIND, Hub, Listener, event


class Stream:
    """One who listens."""

    def __init__(self, office: Office, **headers: str) -> None:
        self.connection = HTTPConnection("127.0.0.1", office.port, timeout=WAIT)
        self.connection.request(
            "GET", "/events", headers={name.replace("_", "-"): value for name, value in headers.items()}
        )
        self.response = self.connection.getresponse()
        assert self.response.headers["Content-Type"].startswith("text/event-stream")
        assert self.response.readline() == b": alive\n" and self.response.readline() == b"\n"

    def events(self) -> Iterator[tuple[int, Any]]:
        while True:
            lines = [self.response.readline().decode() for _ in range(4)]
            if not lines[0]:
                return
            assert lines[0].startswith("id: ") and lines[1] == "event: version\n" and lines[3] == "\n", lines
            yield int(lines[0][4:]), json.loads(lines[2][6:])


def test_versions_come_as_they_are_made(shared: Office) -> None:
    first = Stream(shared)
    assert shared.load(quote("a\n\ndata: forged", safe=""), report()).status == 201
    shared.load("r1", report())
    shared.amend({"declares": [{"report": "r1", "word": "none"}]})
    events = first.events()
    last = shared.get("/seal").json["version"]
    told = [next(events) for _ in range(last)]
    assert [number for number, _ in told] == list(range(1, last + 1))
    assert told[-1][1] == shared.get(f"/versions/{last}").json and told[-1][1]["reports"] == ["r1"]
    again = Stream(shared, Last_Event_ID="1").events()
    assert [next(again)[0] for _ in range(last - 1)] == list(range(2, last + 1))


def test_a_stop_ends_the_streams(start: Callable[..., Office]) -> None:
    office = start()
    stream = Stream(office)
    threading.Timer(0.2, office.process.terminate).start()
    assert list(stream.events()) == []
    assert office.process.wait(WAIT) == 0


def test_one_who_does_not_read_has_a_bounded_queue() -> None:
    async def work() -> None:
        hub, slow = Hub(), Listener()
        hub.listeners.add(slow)
        for number in range(3 * MOST_BEHIND):
            hub.tell(number, {"version": number})
        assert slow.events.qsize() == MOST_BEHIND and slow.has_gap
        got = [await slow.next() for _ in range(MOST_BEHIND)]
        assert got == [event(number, {"version": number}) for number in range(MOST_BEHIND)]
        assert await slow.next() is None

    asyncio.run(work())


def test_listeners_are_clients(start: Callable[..., Office]) -> None:
    office = start("--clients", "2")
    streams = [Stream(office), Stream(office)]
    full = office.get("/events")
    assert (full.status, full.word) == (503, "too-many-clients")
    for stream in streams:
        stream.response.close()
