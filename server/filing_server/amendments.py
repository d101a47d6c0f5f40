"""One amendment whole, for whoever has no session: what it read, what it removes and adds, and one outcome.

Under a key of the user's a repeated request is one amendment. The key and the number of its session are on the disk before the
commit is sent; after a crash the journal says what became of that session.
"""

from __future__ import annotations

import asyncio
import functools
import hashlib
import json
from dataclasses import dataclass
from typing import Any

from .lines import encode
from .office import Office
from .problems import Problem
from .process import Program

READS = {"get": 3, "cell": 3, "page": 6, "declared": 2}
MOST_LINES = 100_000
MOST_KEYS = 10_000
STAGED = ["staged"]

Line = list[Any]


@dataclass(frozen=True)
class Amendment:
    """Lines without a session's name, each with the reply that is asked for."""

    reads: list[tuple[Line, Line]]
    changes: list[Line]


@dataclass(frozen=True)
class Outcome:
    """What became of an amendment: the reply to its commit, or to the line at which it ended.

    Where a reading was answered otherwise than the amendment says, `line` is that reading and `expected` its earlier reply.
    """

    session: int
    reply: list[Any]
    line: Line | None = None
    expected: list[Any] | None = None

    def result(self) -> dict[str, object]:
        """What is told of a commit; fails with the problem that any other outcome is."""
        members: dict[str, Any]
        if self.reply[0] == "committed":
            return {"outcome": "committed", "version": self.reply[1], "session": self.session}
        if self.expected is not None and self.line is not None:
            members = {
                "thing": thing_of(self.line),
                "expected": self.expected,
                "found": self.reply,
                "session": self.session,
            }
            raise Problem("conflict", "what the amendment read is answered otherwise now", **members)
        members = {"reply": self.reply, "session": self.session}
        if self.reply[0] == "conflict":
            members |= {"version": self.reply[1], "thing": self.reply[2]}
        if self.line is not None:
            members["line"] = self.line
        raise Problem(str(self.reply[0]), None, **members)


def wrong(detail: str) -> Problem:
    return Problem("bad-request", detail)


def texts(item: object, *names: str) -> list[str]:
    """These members of an object, which have to be texts."""
    if not isinstance(item, dict) or not all(isinstance(item.get(name), str) for name in names):
        raise wrong("each of removes, adds and declares has texts: " + ", ".join(names))
    return [item[name] for name in names]


def is_reading(line: Line) -> bool:
    """Whether this is a line that reads, without the name of a session."""
    return bool(line) and isinstance(line[0], str) and READS.get(line[0]) == len(line)


def read_amendment(body: object) -> Amendment:
    """The amendment that a body asks for."""
    if not isinstance(body, dict) or set(body) - {"reads", "removes", "adds", "declares"}:
        raise wrong("an amendment is an object of reads, removes, adds and declares")
    if any(not isinstance(part, list) for part in body.values()) or sum(map(len, body.values())) > MOST_LINES:
        raise wrong(f"reads, removes, adds and declares are arrays, of at most {MOST_LINES} items together")
    reads: list[tuple[Line, Line]] = []
    for item in body.get("reads", []):
        line, reply = (item.get("line"), item.get("reply")) if isinstance(item, dict) else (None, None)
        if not isinstance(line, list) or not is_reading(line) or not isinstance(reply, list):
            raise wrong("each of reads has the line, without the name of a session, and the reply that was read")
        reads.append((line, reply))
    changes: list[Line] = [["remove", *texts(item, "report", "id")] for item in body.get("removes", [])]
    for item in body.get("adds", []):
        report, name = texts(item, "report", "id")
        changes.append(["add", report, name, item.get("fact")])
    changes += [["declare", *texts(item, "report", "word")] for item in body.get("declares", [])]
    return Amendment(reads, changes)


def same(one: object, other: object) -> bool:
    """Whether two values are one JSON text; true and 1 are not."""
    return json.dumps(one, sort_keys=True) == json.dumps(other, sort_keys=True)


def thing_of(line: Line) -> list[Any]:
    """What a reading reads, as a conflict names it."""
    if line[0] == "page":
        return ["range", *line[1:5], None]
    return [{"get": "id", "cell": "cell", "declared": "policy"}[line[0]], *line[1:]]


def session_lines(amendment: Amendment, session: str) -> list[bytes]:
    """The lines of an amendment up to its commit."""
    lines = [line for line, _ in amendment.reads] + amendment.changes
    try:
        return [encode(["open", session, "amend"]), *(encode([line[0], session, *line[1:]]) for line in lines)]
    except ValueError:
        raise wrong("a text of the amendment is no Unicode") from None


class Amendments:
    """The amendments of an office, and the outcomes under keys."""

    def __init__(self, office: Office) -> None:
        self.office = office
        self.keyed: dict[tuple[str, str], tuple[str, asyncio.Task[Outcome]]] = {}

    async def take(self, text: bytes, body: object, user: str, key: str | None) -> tuple[Outcome, bool]:
        """The outcome of an amendment, and whether it is that of an earlier request under its key.

        The work goes on though the one who asked is gone.
        """
        amendment = read_amendment(body)
        if not self.office.is_open:
            raise Problem("restarting")
        if key is None:
            return await asyncio.shield(asyncio.ensure_future(self._run(amendment, user, None))), False
        digest = hashlib.sha256(text).hexdigest()
        if known := self.keyed.get((user, key)):
            if known[0] != digest:
                raise Problem("key-reused")
            return await asyncio.shield(known[1]), True
        if kept := self._kept(user, key, digest):
            return kept, True
        task = asyncio.ensure_future(self._run(amendment, user, (key, digest)))
        self.keyed[user, key] = digest, task
        task.add_done_callback(functools.partial(self._settle, (user, key)))
        return await asyncio.shield(task), False

    def _settle(self, key: tuple[str, str], done: asyncio.Task[Outcome]) -> None:
        """An outcome stays for repeated requests. Where it was lost, the journal says it."""
        if done.cancelled() or done.exception():
            self.keyed.pop(key, None)
        for old in list(self.keyed)[: max(0, len(self.keyed) - MOST_KEYS)]:
            if self.keyed[old][1].done():
                del self.keyed[old]

    def _kept(self, user: str, key: str, digest: str) -> Outcome | None:
        """What the journal has of an amendment under this key; none where its session came to no commit."""
        keyed = self.office.notes.keys.get((user, key))
        if keyed is None:
            return None
        self.office.catch_up()
        end = self.office.ledger.ends.get(keyed.session)
        if end is None or end == b'["closed"]':
            return None
        if keyed.digest != digest:
            raise Problem("key-reused")
        return Outcome(keyed.session, json.loads(end))

    async def _run(self, amendment: Amendment, user: str, keyed: tuple[str, str] | None) -> Outcome:
        """Takes the amendment by a session of its own."""
        office, program = self.office, self.office.program
        number = office.next_session
        lines = session_lines(amendment, f"{user}/{number}")
        office.open_session(user, keyed)
        _, *replies = await self._ask(program, lines)
        fault = self._fault(amendment, number, replies)
        if keyed and not fault:
            await office.sync_notes()
        end = encode(["close" if fault else "commit", f"{user}/{number}"])
        (reply,) = await self._ask(program, [end], user)
        return fault or Outcome(number, reply)

    def _fault(self, amendment: Amendment, number: int, replies: list[Line]) -> Outcome | None:
        """The first line that was not answered as it has to be."""
        for (line, expected), reply in zip(amendment.reads, replies):
            if reply[0] == "bad-line" or reply[0] == "bad-fact":
                return Outcome(number, reply, line)
            if not same(expected, reply):
                return Outcome(number, reply, line, expected)
        for line, reply in zip(amendment.changes, replies[len(amendment.reads) :]):
            if reply != STAGED:
                return Outcome(number, reply, line)
        return None

    async def _ask(self, program: Program, lines: list[bytes], ends: str | None = None) -> list[Line]:
        """The replies to lines that are sent at once; `ends` is the user whose session the line ends."""
        replies: list[bytes] = []
        done: asyncio.Future[bool] = asyncio.get_running_loop().create_future()

        def told(reply: bytes | None) -> None:
            if reply is None:
                if not done.done():
                    done.set_result(False)
                return
            if ends is not None:
                self.office.told_end(reply, ends)
            replies.append(reply)
            if len(replies) == len(lines):
                done.set_result(True)

        for line in lines:
            program.send(line, told)
        if not await done:
            raise Problem("restarting")
        return [json.loads(reply) for reply in replies]
