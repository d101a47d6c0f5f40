"""What the journal says of versions and facts: which session made a version and when, and which versions changed a fact.

It reads the acknowledged lines as they come, and keeps where a fact stands in the journal rather than the fact.
"""

from __future__ import annotations

import json
import re
from dataclasses import dataclass, field
from pathlib import Path
from typing import Collection

from .journal import MARK, Follower
from .notes import Who

ENTRY = re.compile(rb'\[(?:(\d+)|null),\["([a-z]+)"(?:,("[^"\\]*+(?:\\.[^"\\]*+)*+"))?')
MADE = re.compile(rb'\["(?:loaded|committed)",(\d+)\]\]$')
STAGED = b',["staged"]]'
CHANGES = frozenset({b"add", b"remove", b"declare"})


@dataclass(frozen=True, slots=True)
class Version:
    """A version: the session that made it, or none where a load did, and the reports that it touched."""

    number: int
    session: int | None
    reports: tuple[str, ...]
    changes: int


@dataclass(frozen=True, slots=True)
class Change:
    """What a version did to one fact, and where the fact that it put stands in the journal."""

    version: int
    kind: str
    at: int
    length: int


@dataclass(slots=True)
class Staged:
    """What an open session has staged of one fact: the first change, the last, and where the last stands."""

    first: bytes
    last: bytes
    at: int
    length: int

    def kind(self) -> str | None:
        """What is left of it at the commit."""
        if self.last == b"add":
            return "added" if self.first == b"add" else "changed"
        return "removed" if self.first == b"remove" else None


@dataclass(slots=True)
class Open:
    """An open session: what it has staged, by report and fact, and the reports that it declares anew."""

    facts: dict[tuple[str, str], Staged] = field(default_factory=dict)
    declared: set[str] = field(default_factory=set)


class Ledger:
    """The versions of a journal, up to where it was read, and how sessions under a key have ended."""

    def __init__(self, path: Path, keyed: Collection[int] = ()) -> None:
        self.follower = Follower(path)
        self.keyed = keyed
        self.sessions = 0
        self.versions: list[Version] = []
        self.loads: dict[str, int] = {}
        self.changes: dict[tuple[str, str], list[Change]] = {}
        self.ends: dict[int, bytes] = {}
        self.open: dict[int, Open] = {}
        self.openings: dict[int, Who] = {}
        self.times: list[str] = []

    @property
    def version(self) -> int:
        return len(self.versions)

    def catch_up(self) -> list[Version]:
        """Reads what is new, and gives the versions in it."""
        before = len(self.versions)
        for line in self.follower.new_lines():
            self._take(line)
        return self.versions[before:]

    def fact_at(self, change: Change) -> object:
        """The fact that a change put, read from the journal."""
        line = b"".join(self.follower.copy(change.at, change.at + change.length))
        return json.loads(line)[1][3]

    def _take(self, line: bytes) -> None:
        entry = ENTRY.match(line)
        if entry is None:
            if line.startswith(MARK):
                self._take_mark(line)
            return
        word = entry[2]
        if entry[1] is None:
            self._take_load(line, entry[3])
            return
        session = int(entry[1])
        if word == b"open":
            self.sessions = max(self.sessions, session)
            self.open[session] = Open()
        elif word in CHANGES and line.endswith(STAGED):
            self._take_change(session, word, line)
        elif word in (b"commit", b"close"):
            self._take_end(session, line)

    def _take_mark(self, line: bytes) -> None:
        """The mark of a batch says when that was put, and by which names its sessions were opened: `user/number` from here."""
        mark = json.loads(line)
        for number, name in mark["opened"].items():
            self.openings[int(number)] = Who(name.removesuffix(f"/{number}"), mark["time"])
        self.times += [mark["time"]] * (len(self.versions) - len(self.times))

    def _take_load(self, line: bytes, name: bytes | None) -> None:
        if name is not None and (made := MADE.search(line, len(line) - 64)):
            report = json.loads(name)
            self.loads[report] = int(made[1])
            self.versions.append(Version(int(made[1]), None, (report,), 0))

    def _take_change(self, session: int, word: bytes, line: bytes) -> None:
        _, report, name, *_ = json.loads(line)[1]
        opened = self.open.setdefault(session, Open())
        if word == b"declare":
            opened.declared.add(report)
            return
        at, length = self.follower.bytes - len(line) - 1, len(line)
        if staged := opened.facts.get((report, name)):
            staged.last, staged.at, staged.length = word, at, length
        else:
            opened.facts[report, name] = Staged(word, word, at, length)

    def _take_end(self, session: int, line: bytes) -> None:
        opened = self.open.pop(session, Open())
        if session in self.keyed:
            self.ends[session] = line[line.index(b"],") + 2 : -1]
        made = MADE.search(line)
        if made is None:
            return
        version, touched, count = int(made[1]), set(opened.declared), len(opened.declared)
        for (report, name), staged in opened.facts.items():
            if kind := staged.kind():
                self.changes.setdefault((report, name), []).append(Change(version, kind, staged.at, staged.length))
                touched.add(report)
                count += 1
        self.versions.append(Version(version, session, tuple(sorted(touched)), count))
