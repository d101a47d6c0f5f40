"""Bounds of HTTP and of what is held for clients."""

from __future__ import annotations

import asyncio
import gzip
import json
import socket
import time
from typing import Callable

import aiohttp
import pytest
from conftest import WAIT, Office, fact, report, until


def connect(office: Office, data: bytes = b"") -> socket.socket:
    connection = socket.create_connection(("127.0.0.1", office.port), WAIT)
    connection.sendall(data)
    return connection


def test_connections_are_counted(start: Callable[..., Office]) -> None:
    office = start("--clients", "2")
    held = [connect(office) for _ in range(4)]
    full = until(lambda: refused(office), "there is no room")
    assert b" 503 " in full and b'"word": "too-many-clients"' in full
    for connection in held:
        connection.close()
    until(lambda: not refused(office), "there is room again")
    assert office.get("/reports").status == 200


def refused(office: Office) -> bytes:
    """What a connection above the number is told; nothing where there is room."""
    with connect(office) as connection:
        connection.settimeout(0.3)
        try:
            return connection.recv(10000)
        except TimeoutError:
            return b""


def test_who_asks_nothing_is_shut_out(start: Callable[..., Office]) -> None:
    office = start("--stall", "0.5")
    silent = [connect(office), connect(office, b"GET /reports HTTP/1.1\r\nHost: 127")]
    head = f"POST /amendments HTTP/1.1\r\nHost: 127.0.0.1:{office.port}\r\nContent-Type: application/json\r\n"
    slow = connect(office, head.encode() + b"Content-Length: 9\r\n\r\n{")
    began = time.monotonic()
    assert [connection.recv(10) for connection in silent] == [b"", b""]
    answer = slow.makefile("rb").read()
    assert b" 408 " in answer and b'"too-slow"' in answer
    assert time.monotonic() - began < 30
    assert office.get("/reports").status == 200


def test_lines_are_refused_by_503_where_there_is_no_room(start: Callable[..., Office]) -> None:
    office = start("--clients", "1")
    client = office.client()
    assert client.ask(b"x") == [["bad-line"]]

    async def work() -> None:
        async with aiohttp.ClientSession() as session:
            with pytest.raises(aiohttp.WSServerHandshakeError) as full:
                await session.ws_connect(office.url + "lines")
            assert full.value.status == 503

    asyncio.run(work())


def test_a_reply_may_be_longer_than_what_may_be_unread(start: Callable[..., Office]) -> None:
    office = start("--unread", "100000")
    client = office.client()
    large = fact("A", "v" * 3_000_000)
    assert client.ask(["load", "r1", report({"f": large})], ["export", "r1"])[1][1]["facts"] == {"f": large}

    async def work() -> None:
        async with aiohttp.ClientSession() as session, session.ws_connect(office.url + "lines", max_msg_size=0) as line:
            for _ in range(3):
                await line.send_str('["export","r1"]\n["open","s","review"]\n["close","s"]')
            for _ in range(3):
                assert len(json.loads(await line.receive_str())[1]["facts"]["f"]["value"]) == 3_000_000
                assert [await line.receive_str() for _ in range(2)] == ['["opened"]', '["closed"]']

    asyncio.run(asyncio.wait_for(work(), WAIT))


def test_packed_bodies_are_not_unpacked(start: Callable[..., Office]) -> None:
    office = start("--body", "100000")
    bomb = gzip.compress(b'{"adds":[]}' + b" " * 50_000_000)
    assert len(bomb) < 100_000
    answer = office.amend(bomb, Content_Encoding="gzip")
    assert (answer.status, answer.word) == (400, "bad-request")
    assert office.load("r1", gzip.compress(b"{}"), Content_Encoding="gzip").word == "bad-report"


def test_bodies_together_are_bounded(start: Callable[..., Office]) -> None:
    office = start("--body", "1000000", "--stall", "3")
    head = f"POST /amendments HTTP/1.1\r\nHost: 127.0.0.1:{office.port}\r\nContent-Type: application/json\r\n"
    held = [connect(office, f"{head}Content-Length: 1000000\r\n\r\n[".encode()) for _ in range(4)]
    until(lambda: office.amend({}).status == 503, "no further body is held")
    assert office.amend({}).word == "busy"
    assert office.get("/seal").status == 200
    for connection in held:
        connection.close()
    until(lambda: office.amend({}).status == 200, "there is room again")
