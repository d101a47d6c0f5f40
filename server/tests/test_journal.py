"""Reading a journal while it grows, and what it says of versions and facts."""

from __future__ import annotations

import json
from pathlib import Path
from typing import Any

from filing_server.journal import Follower
from filing_server.ledger import Ledger
from filing_server.notes import Keyed, Notes, NotesInUse, Who

import pytest


BEGIN = b'{"journal":1}\n{"table":[]}\n'


def mark(batch: int, time: str = "", **opened: str) -> bytes:
    """A mark with a digest that is its number again and again. Who follows a journal believes the program."""
    said = {"batch": batch, "entries": 9, "time": time, "opened": opened, "sha256": str(batch) * 64}
    return json.dumps(said, separators=(",", ":")).encode() + b"\n"


def test_lines_count_up_to_the_gate(tmp_path: Path) -> None:
    """The states of a batch that is put: only what stands before the gate counts."""
    path = tmp_path / "journal"
    first, second = BEGIN + mark(0) + b"[a]\n" + mark(1), b"[b]\n[c]\n" + mark(2)
    path.write_bytes(first + b"\n")
    follower = Follower(path)
    assert list(follower.new_lines()) == first.splitlines()
    assert (follower.batches, follower.entries, follower.seal) == (2, 1, "1" * 64)
    path.write_bytes(first + b"\n" + second[1:] + b"\n")  # the batch is there but for its first byte
    assert list(follower.new_lines()) == []
    path.write_bytes(first + b"\n" + second[1:9])  # torn
    assert list(follower.new_lines()) == []
    path.write_bytes(first + second + b"\n")
    assert list(follower.new_lines()) == second.splitlines()
    assert (follower.bytes, follower.batches, follower.entries) == (len(first + second), 3, 3)
    assert follower.seal == "2" * 64
    assert b"".join(follower.copy(len(first), 10_000)) == second
    assert b"".join(follower.copy(10_000, 20_000)) == b""


@pytest.mark.parametrize("content", [b"", b"\n", b"\n[a]\n", b"a]\n", b"[a", b"{a"])
def test_files_without_a_line_that_counts(tmp_path: Path, content: bytes) -> None:
    path = tmp_path / "journal"
    path.write_bytes(content)
    assert list(Follower(path).new_lines()) == []


def test_long_lines_and_many(tmp_path: Path) -> None:
    path = tmp_path / "journal"
    lines = [b"[" + b"x" * size + b"]" for size in (3_000_000, 1, 1 << 20, (1 << 20) - 3, 0)]
    lines += [b"{" + b"x" * (2 << 20)] + [b"[y]"] * 100_000
    path.write_bytes(b"\n".join(lines) + b"\n\n")
    follower = Follower(path)
    assert list(follower.new_lines()) == lines
    assert list(follower.new_lines()) == []


def entry(session: int | None, *parts: Any) -> bytes:
    *step, reply = parts
    return json.dumps([session, step, reply], separators=(",", ":")).encode() + b"\n"


FACT = {"value": "x", "dimensions": {"concept": "ex:A"}}
STAGED, OPENED = ["staged"], ["opened"]


def test_what_versions_changed(tmp_path: Path) -> None:
    path = tmp_path / "journal"
    path.write_bytes(
        BEGIN
        + mark(0)
        + entry(None, "load", "r1", {"facts": {}}, ["loaded", 1])
        + entry(None, "load", "r1", {"facts": {"a": '["loaded",9]]'}}, ["name-taken"])
        + entry(1, "open", "amend", OPENED)
        + entry(2, "open", "amend", OPENED)
        + entry(1, "add", "r1", "f1", FACT, STAGED)
        + entry(1, "add", "r1", "f1", FACT, ["taken"])
        + entry(1, "add", "r1", "gone", FACT, STAGED)
        + entry(1, "remove", "r1", "gone", STAGED)
        + entry(2, "add", "r1", "never", FACT, STAGED)
        + entry(1, "commit", ["committed", 2])
        + entry(2, "commit", ["conflict", 2, ["id", "r1", "f1"]])
        + mark(1, "early", **{"1": "anna/1", "2": "ben/2"})
        + entry(3, "open", "amend", OPENED)
        + entry(3, "remove", "r1", "f1", STAGED)
        + entry(3, "add", "r1", "f1", FACT | {"value": "y"}, STAGED)
        + entry(3, "declare", "r2", "none", STAGED)
        + entry(3, "commit", ["committed", 3])
        + entry(4, "open", "amend", OPENED)
        + entry(4, "remove", "r1", "f1", STAGED)
        + entry(4, "commit", ["committed", 4])
        + mark(2, "later", **{"3": "ben/3", "4": "s"})
        + b"\n"
    )
    ledger = Ledger(path, {2})
    versions = ledger.catch_up()
    assert [(it.number, it.session, it.reports, it.changes) for it in versions] == [
        (1, None, ("r1",), 0),
        (2, 1, ("r1",), 1),
        (3, 3, ("r1", "r2"), 2),
        (4, 4, ("r1",), 1),
    ]
    assert ledger.loads == {"r1": 1} and ledger.sessions == 4
    changes = ledger.changes["r1", "f1"]
    assert [(it.version, it.kind) for it in changes] == [(2, "added"), (3, "changed"), (4, "removed")]
    assert [ledger.fact_at(it) for it in changes[:2]] == [FACT, FACT | {"value": "y"}]
    assert ("r1", "gone") not in ledger.changes and ("r1", "never") not in ledger.changes
    assert ledger.ends == {2: b'["conflict",2,["id","r1","f1"]]'}
    assert ledger.times == ["early", "early", "later", "later"]
    ben = {2: Who("ben", "early"), 3: Who("ben", "later")}
    assert ledger.openings == {1: Who("anna", "early"), **ben, 4: Who("s", "later")}


def test_notes_are_read_again(tmp_path: Path) -> None:
    path = tmp_path / "notes"
    notes = Notes(path)
    notes.start(0, 0)
    notes.session(1, "anna")
    notes.keyed_session(2, "ben", "k", "d")
    notes.version(1, "ben")
    with pytest.raises(NotesInUse):
        Notes(path)
    notes.close()
    with path.open("ab") as file:
        file.write(b'["version",2,"torn')
    again = Notes(path)
    assert again.sessions[1].user == "anna" and again.versions[1].user == "ben"
    assert again.keys == {("ben", "k"): Keyed("d", 2)}
    again.start(1, 1)  # the journal has kept the first session alone
    assert 2 not in again.sessions and not again.keys
    again.close()
    last = Notes(path)
    assert 2 not in last.sessions and not last.keys and last.sessions[1].user == "anna"
    last.close()
