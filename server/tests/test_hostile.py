"""Hostile requests: each is answered by a name of its fault, and no other client is touched."""

from __future__ import annotations

import json
import socket
from typing import Any, Iterator

import pytest
from conftest import WAIT, LineClient, Office, fact, report

DEEP = '{"a":' * 120 + "1" + "}" * 120


@pytest.fixture(scope="module")
def bystander(shared: Office) -> Iterator[LineClient]:
    """A client with an open session, which has to read the same to the end."""
    client = shared.client()
    assert client.ask(["load", "r1", report({"f": fact("A", "a")})], ["open", "s", "amend"]) == [
        ["loaded", 1],
        ["opened"],
    ]
    yield client
    assert client.ask(["add", "s", "r1", "g", fact("B", "b")], ["commit", "s"])[1][0] == "committed"
    client.close()


def raw(office: Office, data: bytes) -> tuple[int, Any]:
    """The status and the body of the answer to bytes of one's own."""
    with socket.create_connection(("127.0.0.1", office.port), WAIT) as connection:
        connection.sendall(data.replace(b"PORT", str(office.port).encode()))
        answer = b""
        while data := connection.recv(65536):
            answer += data
    head, _, body = answer.partition(b"\r\n\r\n")
    return int(head.split(b" ", 2)[1]), json.loads(body)


HOST = b"Host: 127.0.0.1:PORT\r\nConnection: close\r\n"
BODY = HOST + b"Content-Type: application/json\r\n"

RAW = [
    (b"\x00\x01\x02\r\n\r\n", 400, "bad-request"),
    (b"HELLO\r\n\r\n", 400, "bad-request"),
    (b"GET /reports HTTP/1.1\r\n" + HOST + b"X: " + b"a" * 20000 + b"\r\n\r\n", 400, "bad-request"),
    (b"GET /" + b"a" * 20000 + b" HTTP/1.1\r\n" + HOST + b"\r\n", 400, "bad-request"),
    (b"GET /reports HTTP/1.1\r\n" + HOST + b"no colon\r\n\r\n", 400, "bad-request"),
    (b"POST /amendments HTTP/1.1\r\n" + BODY + b"Content-Length: -5\r\n\r\n", 400, "bad-request"),
    (b"POST /amendments HTTP/1.1\r\n" + BODY + b"Content-Length: 99999999999999\r\n\r\n", 413, "too-large"),
    (
        b"POST /amendments HTTP/1.1\r\n" + BODY + b"Content-Length: 2\r\nTransfer-Encoding: chunked\r\n\r\n0\r\n\r\n",
        400,
        "bad-request",
    ),
    (b"GET /reports HTTP/1.1\r\nConnection: close\r\nHost: evil.example\r\n\r\n", 403, "another-origin"),
    (b"GET /reports HTTP/1.1\r\nConnection: close\r\n\r\n", 403, "another-origin"),
    (b"GET /reports HTTP/1.1\r\n" + HOST + b"Origin: null\r\n\r\n", 403, "another-origin"),
    (b"GET /lines HTTP/1.1\r\n" + HOST + b"\r\n", 400, "bad-request"),
    (b"GET /reports/../../etc/passwd HTTP/1.1\r\n" + HOST + b"\r\n", 404, "not-found"),
    (b"GET //evil.example/reports HTTP/1.1\r\n" + HOST + b"\r\n", 404, "not-found"),
]


@pytest.mark.parametrize("data, status, word", RAW, ids=range(len(RAW)))
def test_bytes_that_are_no_fair_request(
    shared: Office, bystander: LineClient, data: bytes, status: int, word: str
) -> None:
    answer = raw(shared, data)
    assert (answer[0], answer[1]["word"]) == (status, word)
    assert bystander.ask(["get", "s", "r1", "f"])[0][0] == "fact"


AMENDMENTS: list[tuple[Any, int, str]] = [
    (b"", 400, "bad-request"),
    (b"\xff\xfe", 400, "bad-request"),
    (b"[" * 100_000, 400, "bad-request"),
    (b'{"adds":[{"report":"r1","id":"x","fact":' + DEEP.encode() + b"}]}", 422, "too-deep"),
    (b'{"adds":NaN}', 400, "bad-request"),
    (b'{"adds":[{"report":"r1","id":"x","fact":{"decimals":1e999}}]}', 400, "bad-request"),
    (b'{"adds":[{"report":"r1","id":"x","fact":' + b"9" * 5000 + b"}]}", 400, "bad-request"),
    ([], 400, "bad-request"),
    ({"lines": [["commit", "s"]]}, 400, "bad-request"),
    ({"reads": [{"line": ["commit", "s"], "reply": ["committed", 1]}]}, 400, "bad-request"),
    ({"reads": [{"line": [["get"], "r1", "f"], "reply": []}]}, 400, "bad-request"),
    ({"reads": [{"line": ["get", 5, {}], "reply": ["none"]}]}, 400, "bad-line"),
    ({"reads": [{"line": ["page", "r1", "ex:A", True, None, 10**30], "reply": []}]}, 400, "bad-line"),
    ({"removes": [{"report": "r1", "id": None}]}, 400, "bad-request"),
    ({"adds": [{"report": "r1", "id": "\ud800", "fact": {}}]}, 400, "bad-request"),
    ({"adds": [{"report": "r1", "id": "x", "fact": "no fact"}]}, 400, "bad-line"),
    ({"adds": [{"report": "r1", "id": "x"}]}, 400, "bad-line"),
    ({"adds": [{"report": "r1", "id": "x", "fact": fact("A", "v", **{"ex:D" + "d" * 5000: "x"})}]}, 422, "bad-fact"),
    ({"declares": [{"report": "r1", "word": "everything"}]}, 400, "bad-line"),
]


@pytest.mark.parametrize("body, status, word", AMENDMENTS, ids=range(len(AMENDMENTS)))
def test_amendments_that_are_none(shared: Office, bystander: LineClient, body: Any, status: int, word: str) -> None:
    answer = shared.amend(body)
    assert (answer.status, answer.word) == (status, word), answer.json
    assert bystander.ask(["get", "s", "r1", "f"])[0][0] == "fact"


REQUESTS: list[tuple[str, str, Any, dict[str, str], int, str]] = [
    ("DELETE", "/reports/r1", None, {}, 405, "not-allowed"),
    ("POST", "/journal", b"{}", {}, 405, "not-allowed"),
    ("PUT", "/reports/x", b"{}", {"Content_Type": "text/plain"}, 415, "not-json-type"),
    ("PUT", "/reports/x", b'{"documentInfo":' + DEEP.encode() + b"}", {}, 422, "too-deep"),
    ("PUT", "/reports/x", b"\xff", {}, 422, "bad-report"),
    ("PUT", "/reports/%ff", b"{}", {}, 400, "bad-request"),
    ("POST", "/amendments", b"{}", {"Idempotency_Key": "k" * 200}, 400, "bad-request"),
    ("POST", "/amendments", b"{}", {"Origin": "http://evil.example"}, 403, "another-origin"),
    ("GET", "/versions/-1", None, {}, 400, "bad-request"),
    ("GET", "/versions/99999999999999999999", None, {}, 400, "bad-request"),
    ("GET", "/versions/0", None, {}, 404, "no-version"),
    ("GET", "/diff/0/%D9%A1", None, {}, 400, "bad-request"),
    ("GET", "/reports?at=1e3", None, {}, 400, "bad-request"),
    ("GET", "/reports/r1/facts?limit=1001", None, {}, 400, "bad-request"),
    ("GET", "/reports/a%00b?at=0", None, {}, 404, "no-report"),
    ("GET", "/reports/r1/facts/none/history", None, {}, 404, "no-fact"),
    ("GET", "/log.svg?first=0", None, {}, 400, "bad-request"),
    ("GET", "/journal?from=-1", None, {}, 400, "bad-request"),
    ("GET", "/page.js/../../office.py", None, {}, 404, "not-found"),
]


@pytest.mark.parametrize("method, path, body, headers, status, word", REQUESTS, ids=range(len(REQUESTS)))
def test_requests_beyond_what_there_is(
    shared: Office,
    bystander: LineClient,
    method: str,
    path: str,
    body: Any,
    headers: dict[str, str],
    status: int,
    word: str,
) -> None:
    answer = shared.request(method, path, body, **headers)
    assert (answer.status, answer.word) == (status, word), answer.json
    assert bystander.ask(["get", "s", "r1", "f"])[0][0] == "fact"


LINES = [
    b'["\\u0063ommit","s"]',
    b'["commit","root/1"]',
    b'["add","s","r1","x",' + DEEP.encode() + b"]",
    b'["load","x",' + json.dumps(DEEP).encode() + b"]",
    b'["load","x","' + b"\\u005b" * 200 + b'"]',
    b"[" * 1_000_000,
    b'"' * 1_000_000,
    b'["get","' + b"\\" * 999_999 + b'"]',
    b"\x00" * 1000,
    b"\xff" * 1000,
    b'["close",null]',
]


@pytest.mark.parametrize("line", LINES, ids=range(len(LINES)))
def test_lines_that_are_none(shared: Office, bystander: LineClient, line: bytes) -> None:
    client = shared.client()
    assert client.ask(line)[0] in (["bad-line"], ["no-session"])
    assert client.ask(["open", "s", "review"], ["close", "s"]) == [["opened"], ["closed"]]
    client.close()
    assert bystander.ask(["get", "s", "r1", "f"])[0][0] == "fact"


def test_there_are_enough_of_them() -> None:
    assert len(RAW) + len(AMENDMENTS) + len(REQUESTS) + len(LINES) >= 40
