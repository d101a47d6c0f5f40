"""Who and when: a file beside the journal, which the journal does not need.

    ["start",time,sessions,version]           the server started on a journal with so many sessions and versions
    ["session",number,user,time]              the session of this number was opened for this user
    ["session",number,user,time,key,digest]   the same, of an amendment under a key of the user's
    ["version",number,user,time]              a user was told this version

A session is noted before its opening is sent, a version before it is told. Numbers are the journal's own. After a crash the
journal may give a number again; then a start stands between, which makes void the sessions that were not kept.
"""

from __future__ import annotations

import fcntl
import json
import os
import time
from dataclasses import dataclass
from pathlib import Path


class NotesInUse(Exception):
    """Another server has this journal."""


@dataclass(frozen=True, slots=True)
class Who:
    """A user, and when."""

    user: str
    time: str


@dataclass(frozen=True, slots=True)
class Keyed:
    """An amendment that was begun under a key: the digest of its text, and its session."""

    digest: str
    session: int


def now() -> str:
    return time.strftime("%Y-%m-%dT%H:%M:%SZ", time.gmtime())


class Notes:
    """The file, locked while the server runs, and what it says."""

    def __init__(self, path: Path) -> None:
        self.sessions: dict[int, Who] = {}
        self.versions: dict[int, Who] = {}
        self.keys: dict[tuple[str, str], Keyed] = {}
        self.keyed: set[int] = set()
        self.lines: list[str] = []
        self.file = os.open(path, os.O_RDWR | os.O_CREAT | os.O_CLOEXEC, 0o600)
        try:
            fcntl.flock(self.file, fcntl.LOCK_EX | fcntl.LOCK_NB)
        except OSError:
            os.close(self.file)
            raise NotesInUse(path) from None
        self._read(path)

    def _read(self, path: Path) -> None:
        data = path.read_bytes()
        for line in data.split(b"\n"):
            try:
                self._take(json.loads(line))
            except (ValueError, TypeError, IndexError, KeyError):
                continue  # a line that a crash has torn
        os.lseek(self.file, 0, os.SEEK_END)
        if data and not data.endswith(b"\n"):
            os.write(self.file, b"\n")

    def _take(self, note: list[object]) -> None:
        what, number = note[0], note[1]
        if what == "start":
            self._start(int(str(note[2])), int(str(note[3])))
        elif what == "session" and isinstance(number, int):
            self.sessions[number] = Who(str(note[2]), str(note[3]))
            if len(note) == 6:
                self._key(str(note[2]), str(note[4]), Keyed(str(note[5]), number))
        elif what == "version" and isinstance(number, int):
            self.versions[number] = Who(str(note[2]), str(note[3]))

    def _start(self, sessions: int, version: int) -> None:
        self.sessions = {number: who for number, who in self.sessions.items() if number <= sessions}
        self.keys = {key: keyed for key, keyed in self.keys.items() if keyed.session <= sessions}
        self.versions = {number: who for number, who in self.versions.items() if number <= version}

    def start(self, sessions: int, version: int) -> None:
        """The program has begun anew on a journal with so many sessions and versions."""
        self._start(sessions, version)
        self._note("start", now(), sessions, version)
        self.flush()
        self.sync()

    def _key(self, user: str, key: str, keyed: Keyed) -> None:
        self.keys[user, key] = keyed
        self.keyed.add(keyed.session)

    def session(self, number: int, user: str) -> None:
        self.sessions[number] = who = Who(user, now())
        self._note("session", number, user, who.time)

    def keyed_session(self, number: int, user: str, key: str, digest: str) -> None:
        self.sessions[number] = who = Who(user, now())
        self._key(user, key, Keyed(digest, number))
        self._note("session", number, user, who.time, key, digest)

    def version(self, number: int, user: str) -> None:
        self.versions[number] = who = Who(user, now())
        self._note("version", number, user, who.time)

    def _note(self, *what: object) -> None:
        self.lines.append(json.dumps(what, ensure_ascii=False, separators=(",", ":")) + "\n")

    def flush(self) -> None:
        """What was noted is with the system, and so outlives this process."""
        if self.lines:
            data, self.lines = "".join(self.lines).encode(), []
            while data:
                data = data[os.write(self.file, data) :]

    def sync(self) -> None:
        """What was flushed is on the disk. Another thread may call this."""
        os.fdatasync(self.file)

    def close(self) -> None:
        self.flush()
        os.close(self.file)
