"""Clients of the Unix socket: names apart, sessions that end, and bounds."""

from __future__ import annotations

import getpass
import json
import socket
import time
from typing import Callable

import pytest
from conftest import LineClient, Office, fact, report, until


def test_one_name_at_two_clients_is_two_sessions(shared: Office) -> None:
    anna, ben = shared.client(), shared.client()
    assert anna.ask(["load", "names", report()]) == [["loaded", 1]]
    assert anna.ask(["open", "s", "amend"]) == ben.ask(["open", "s", "amend"]) == [["opened"]]
    assert anna.ask(b"", b" \t", ["cell", "s", "names", {"concept": "ex:A"}], b"\r") == [["cell", "empty", []]]
    assert ben.ask(["cell", "s", "names", {"concept": "ex:B"}]) == [["cell", "empty", []]]
    assert anna.ask(["add", "s", "names", "n9", fact("B", "suit")], ["commit", "s"]) == [["staged"], ["committed", 2]]
    assert ben.ask(["add", "s", "names", "n7", fact("A", "suit")], ["commit", "s"])[1][:2] == ["conflict", 2]
    assert ben.ask(["get", "s", "names", "n9"], ["commit", "s"], ["close", "s"]) == [["no-session"]] * 3


def test_no_spelling_reaches_another_client(shared: Office) -> None:
    anna, ben = shared.client(), shared.client()
    user = getpass.getuser()
    assert anna.ask(["open", "s", "review"]) == [["opened"]]
    number = shared.log()[0]["session"]
    for name in ("s", f"{user}/{number}", f"{user}/0", f"../{user}/{number}", f"{number}"):
        assert ben.ask(["get", name, "r", "f"], ["commit", name], ["close", name]) == [["no-session"]] * 3
    spelled = f'"{user}/{number}"'.replace("/", "\\/").encode()
    assert ben.ask(b'["cl\\u006fse",' + spelled + b"]", b'["close",' + spelled + b"]") == [["bad-line"], ["no-session"]]
    assert anna.ask(["close", "s"]) == [["closed"]]


def test_many_lines_at_once_are_answered_in_order(shared: Office) -> None:
    client = shared.client()
    lines = [
        ["open", "s", "review"],
        ["open", "s", "amend"],
        ["close", "s"],
        ["open", "s", "amend"],
        ["commit", "s", 1],
        ["commit", "s"],
    ]
    expected = [["opened"], ["name-in-use"], ["closed"], ["opened"], ["bad-line"]]
    replies = client.ask(*(lines * 1000))
    for start in range(0, 6000, 6):
        assert replies[start : start + 5] == expected and replies[start + 5][0] == "committed"


def test_large_lines_and_replies(shared: Office) -> None:
    client = shared.client()
    large = report({f"f{number}": fact(f"C{number}", "v" * 100) for number in range(20_000)})
    loaded, exported, last = client.ask(
        ["load", "large", json.dumps(large)], ["export", "large"], ["export", "missing"]
    )
    assert loaded[0] == "loaded" and len(exported[1]["facts"]) == 20_000 and last == ["no-report"]


def test_a_client_that_goes_leaves_no_session(shared: Office) -> None:
    client = shared.client()
    assert client.ask(["open", "v", "review"], ["open", "w", "amend"]) == [["opened"]] * 2
    client.close()
    numbers = [it["session"] for it in shared.log() if it["end"] is None or it["end"] == ["closed"]][:2]
    until(lambda: [it["end"] for it in shared.log() if it["session"] in numbers] == [["closed"]] * 2, "both are closed")


def test_replies_come_though_the_client_has_ended_its_lines(shared: Office) -> None:
    client = shared.client()
    client.socket.sendall(b'["open","s","review"]\n["close","s"]')
    client.socket.shutdown(socket.SHUT_WR)
    assert client.replies.read() == b'["opened"]\n["closed"]\n'


def test_the_system_says_who_it_is(shared: Office) -> None:
    client = shared.client()
    client.ask(["open", "s", "review"], ["close", "s"])
    assert shared.log()[0]["user"] == getpass.getuser()


def test_idle_sessions_end(start: Callable[..., Office]) -> None:
    office = start("--idle", "0.5")
    client = office.client()
    assert client.ask(["open", "s", "review"]) == [["opened"]]
    until(lambda: office.log()[-1]["end"] == ["closed"], "it is closed")
    assert client.ask(["get", "s", "r", "f"], ["open", "s", "amend"]) == [["no-session"], ["opened"]]


def test_bounds(start: Callable[..., Office]) -> None:
    office = start("--sessions", "2", "--body", "4096", "--clients", "3")
    client = office.client()
    assert client.ask(["open", "a", "review"], ["open", "b", "review"], ["open", "c", "review"]) == [
        ["opened"],
        ["opened"],
        ["refused", "too-many-sessions"],
    ]
    assert client.ask(["close", "a"], ["open", "c", "review"]) == [["closed"], ["opened"]]
    others = [office.client(), office.client()]
    full = office.client()
    assert full.reply() == ["refused", "too-many-clients"]
    with pytest.raises(ConnectionError):
        full.reply()
    for sent in (b"x" * 5000, b"x" * 5000 + b"\n"):
        others[1].close()
        long = until(lambda: entered(office), "there is room again")
        long.socket.sendall(sent)
        assert long.reply() == ["refused", "line-too-long"]
        with pytest.raises(ConnectionError):
            long.reply()
    assert client.ask(["close", "b"], ["close", "c"]) == [["closed"]] * 2


def entered(office: Office) -> object:
    """A client, once there is room for it."""
    client = office.client()
    try:
        return client if client.ask(b"x") == [["bad-line"]] else None
    except (ConnectionError, OSError):
        return None


def is_dropped(client: LineClient) -> bool:
    try:
        client.socket.sendall(b"\n")
        return False
    except TimeoutError:
        return False
    except OSError:
        return True


def test_replies_that_nobody_reads_are_bounded(start: Callable[..., Office]) -> None:
    office = start("--unread", "1000000", "--stall", "600")
    client, other = office.client(), office.client()
    facts = {f"{number:04}{'i' * 2000}": fact("A", "v") for number in range(500)}
    assert other.ask(["load", "r1", report(facts)], ["open", "s", "review"]) == [["loaded", 1], ["opened"]]
    assert client.ask(["open", "s", "review"]) == [["opened"]]
    client.send(*[["page", "s", "r1", "ex:A", True, None, 500]] * 60)
    until(lambda: is_dropped(client), "the client is dropped")
    assert other.ask(["close", "s"]) == [["closed"]]


def test_a_client_that_does_not_read_is_dropped(start: Callable[..., Office]) -> None:
    office = start("--unread", "1000000", "--stall", "1")
    client, other = office.client(), office.client()
    assert other.ask(["load", "r1", report({"f": fact("A", "v" * 300_000)})]) == [["loaded", 1]]
    client.socket.settimeout(0.5)
    try:
        for _ in range(2000):
            client.socket.sendall(b'["export","r1"]\n' * 100)
    except OSError:
        pass
    began = time.monotonic()
    assert other.ask(["open", "s", "review"], ["get", "s", "r1", "g"]) == [["opened"], ["none"]]
    assert time.monotonic() - began < 20
    client.socket.settimeout(10)
    until(lambda: is_dropped(client), "the client is dropped")
    assert other.ask(["close", "s"]) == [["closed"]]
