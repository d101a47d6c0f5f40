"""A client, whatever carries its lines: its sessions, which no other client can name, and the replies that it waits for."""

from __future__ import annotations

import time
from dataclasses import dataclass
from typing import TYPE_CHECKING

from .lines import BAD, Kind, Line, encode, is_blank, read_line

if TYPE_CHECKING:
    from .office import Office

MOST_WAITING = 1024
LONG_LINE = 1 << 20


@dataclass(slots=True)
class Session:
    """An open session: its private name as JSON, and when it was last used."""

    name: bytes
    used: float


def refused(word: str) -> bytes:
    """The reply of the server itself, where it does not send a line on."""
    return encode(["refused", word])


class Client:
    """Lines of one user. Each that is not blank is answered by one call of `deliver`, in their order."""

    def __init__(self, office: Office, user: str) -> None:
        self.office = office
        self.user = user
        self.sessions: dict[str, Session] = {}
        self.no_session = encode(f"{user}/0")
        self.waiting = 0
        self.heavy = 0
        self.is_gone = False
        office.clients.add(self)

    def deliver(self, reply: bytes) -> None:
        """Hands a reply on."""
        raise NotImplementedError

    def drop(self) -> None:
        """The connection ends at once, since the client does not read."""
        raise NotImplementedError

    async def finish(self) -> None:
        """The connection ends once what was delivered is written."""
        raise NotImplementedError

    def go_on(self) -> None:
        """There may be room for further lines."""

    def flush(self) -> None:
        """The replies of a batch were delivered."""

    @property
    def has_room(self) -> bool:
        """Whether its next line may be read. Behind a load or an export nothing is read before its reply."""
        office = self.office
        return self.waiting < MOST_WAITING and not self.heavy and not office.is_full and not office.is_stopping

    def ask(self, text: bytes) -> None:
        """Sends a line of the client on. No spelling of a line reaches a session of another client."""
        if is_blank(text):
            return
        line = read_line(text)
        if (
            line.kind is Kind.OPEN
            and line.name not in self.sessions
            and len(self.sessions) >= self.office.settings.sessions
        ):
            self._send(BAD, line, refused("too-many-sessions"))
        else:
            self._send(self._private(line), line)

    def _private(self, line: Line) -> bytes:
        """The line as it is sent on. No session has the number 0. A private name is the user with the journal's number."""
        if line.kind in (Kind.BAD, Kind.LOAD, Kind.EXPORT):
            return line.rest
        if line.kind is Kind.OPEN and line.name not in self.sessions:
            self.sessions[line.name] = Session(encode(f"{self.user}/{self.office.open_session(self.user)}"), 0.0)
        session = self.sessions.pop(line.name, None) if line.kind is Kind.END else self.sessions.get(line.name)
        if session is None:
            return line.under(self.no_session)
        session.used = time.monotonic()
        return line.under(session.name)

    def _send(self, sent: bytes, line: Line, instead: bytes | None = None) -> None:
        is_heavy = line.kind in (Kind.LOAD, Kind.EXPORT) or len(sent) > LONG_LINE
        self.waiting += 1
        self.heavy += is_heavy

        def told(reply: bytes | None) -> None:
            self.waiting -= 1
            self.heavy -= is_heavy
            if reply is None:
                self.lose()
                return
            if line.kind is Kind.END or line.kind is Kind.LOAD:
                self.office.told_end(reply, self.user)
            if not self.is_gone:
                self.deliver(instead or reply)
                self.office.dirty.add(self)

        self.office.send(sent, told)

    def lose(self) -> None:
        """A reply was lost, since the program ended before it. So the connection ends."""
        if not self.is_gone:
            self.leave()
            self.office.finishing(self)

    def close_idle(self, before: float) -> None:
        """Ends each session that was last used before this moment."""
        for name in [name for name, session in self.sessions.items() if session.used < before]:
            self._close(self.sessions.pop(name))

    def leave(self) -> None:
        """The client is gone: its sessions end."""
        if not self.is_gone:
            self.is_gone = True
            self.office.clients.discard(self)
            for session in self.sessions.values():
                self._close(session)
            self.sessions.clear()

    def _close(self, session: Session) -> None:
        self.office.send(b'["close",' + session.name + b"]", lambda reply: None)
