"""The office: the program, its journal, and whoever is connected."""

from __future__ import annotations

import asyncio
import fcntl
import logging
import os
import re
import time
from pathlib import Path

from .events import Hub
from .ledger import Ledger, Version
from .lines import BAD
from .notes import Notes, Who
from .process import Program, Told
from .sessions import Client
from .settings import Settings

LOG = logging.getLogger("filing_server")
MADE = re.compile(rb'\["(?:loaded|committed)",(\d+)\]')
LOCK_WAIT = 15.0
REPLY_WAIT = 30.0
STOP_WAIT = 5.0
END_WAIT = 60.0
MOST_RESTARTS = 5
RESTART_SPAN = 60.0


class ProgramEnded(Exception):
    """The program ended before it took a line; its own message is on standard error."""

    def __init__(self, status: int) -> None:
        super().__init__(f"filing ended with status {status}")
        self.status = status


class Office:
    """One journal, one program, one server. All of it runs in one loop."""

    def __init__(self, settings: Settings) -> None:
        self.settings = settings
        self.clients: set[Client] = set()
        self.dirty: set[Client] = set()
        self.endings: set[asyncio.Future[None]] = set()
        self.hub = Hub()
        self.is_full = False
        self.is_stopping = False  # then no further line is read
        self.version = 0
        self.sessions = 0
        self.notes = Notes(settings.notes)

    async def start(self) -> None:
        """Starts the program and reads the journal; returns once lines are taken."""
        await self._wait_for_journal(self.settings.journal)
        self.program = await self._start_program()
        self.ledger = Ledger(self.settings.journal, self.notes.keyed)
        await asyncio.get_running_loop().run_in_executor(None, self.ledger.catch_up)
        self._begin_numbers()

    async def _start_program(self) -> Program:
        program = await Program.start(self.settings.program, self)
        if await program.ask(BAD) is None:
            raise ProgramEnded(await program.status)
        return program

    async def _wait_for_journal(self, path: Path) -> None:
        """A program whose server was killed ends by itself, once it has kept what waits. It is waited for."""
        if not path.is_file():
            return
        file = os.open(path, os.O_RDONLY | os.O_CLOEXEC)
        try:
            end = time.monotonic() + LOCK_WAIT
            while time.monotonic() < end:
                try:
                    fcntl.flock(file, fcntl.LOCK_EX | fcntl.LOCK_NB)
                    return
                except OSError:
                    await asyncio.sleep(0.1)
        finally:
            os.close(file)

    def _begin_numbers(self) -> None:
        """Numbers go on from those of the journal: what it does not have was not kept."""
        self.ledger.open.clear()
        self.version, self.sessions = self.ledger.version, self.ledger.sessions
        self.notes.start(self.sessions, self.version)

    async def run(self) -> int:
        """Until the program ends. Where a signal has killed it, it is started again; any other end wants a person."""
        starts: list[float] = []
        status = await self.program.status
        while status < 0 and not self.is_stopping:
            starts = [start for start in starts if start > time.monotonic() - RESTART_SPAN]
            if len(starts) == MOST_RESTARTS:
                break
            starts.append(time.monotonic())
            LOG.warning("filing was killed by signal %d, and is started again", -status)
            for client in list(self.clients):
                client.lose()
            status = await self._run_again()
        return status

    async def _run_again(self) -> int:
        """Starts the program anew, and gives the status with which it ends."""
        try:
            program = await self._start_program()
        except ProgramEnded as ended:
            return ended.status
        if self.is_stopping:
            program.end_input()
        else:
            self.catch_up()
            self._begin_numbers()
            self.is_full = False
            self.program = program
        return await program.status

    async def stop(self) -> None:
        """No further line is taken; replies that are due are told, sessions end, and the program keeps what waits."""
        self.is_stopping = True
        self.hub.end()
        end = time.monotonic() + REPLY_WAIT
        while any(client.waiting for client in self.clients) and time.monotonic() < end and not self.program.is_ended:
            await asyncio.sleep(0.02)
        for client in list(self.clients):
            client.leave()
            self.finishing(client)
        await asyncio.wait([*self.endings, asyncio.ensure_future(asyncio.sleep(0))], timeout=STOP_WAIT)
        self.program.end_input()
        done, _ = await asyncio.wait({self.program.status}, timeout=END_WAIT)
        if not done:
            self.program.kill()

    def finishing(self, client: Client) -> None:
        """Ends a client's connection in the background."""
        ending = asyncio.ensure_future(client.finish())
        self.endings.add(ending)
        ending.add_done_callback(self.endings.discard)

    def close(self) -> None:
        self.notes.close()

    # Lines out and replies in.

    @property
    def is_open(self) -> bool:
        """Whether lines are taken."""
        return not self.is_stopping and not self.program.is_ended

    def send(self, line: bytes, told: Told) -> None:
        self.program.send(line, told)

    @property
    def next_session(self) -> int:
        """The number that the journal will give to the session which is opened next."""
        return self.sessions + 1

    def open_session(self, user: str, keyed: tuple[str, str] | None = None) -> int:
        """Notes the session whose opening is sent next, with the key and the digest of its amendment where it has them."""
        self.sessions += 1
        if keyed:
            self.notes.keyed_session(self.sessions, user, *keyed)
        else:
            self.notes.session(self.sessions, user)
        return self.sessions

    async def sync_notes(self) -> None:
        """What was noted so far is on the disk. It does not stop the loop."""
        self.notes.flush()
        await asyncio.get_running_loop().run_in_executor(None, self.notes.sync)

    def told_end(self, reply: bytes, user: str) -> None:
        """A load or an end of a session was answered; if it made a version, that is noted before anybody is told."""
        if made := MADE.fullmatch(reply):
            self.version = int(made[1])
            self.notes.version(self.version, user)
            self.notes.flush()
            asyncio.get_running_loop().call_soon(self.catch_up)

    def catch_up(self) -> None:
        """Reads what is new in the journal, and tells of each version in it."""
        for version in self.ledger.catch_up():
            self.hub.tell(version.number, self.described(version))

    def opener(self, session: int | None) -> Who | None:
        """Who opened a session, and when: as it was noted, or else as the journal has it."""
        if session is None:
            return None
        return self.notes.sessions.get(session) or self.ledger.openings.get(session)

    def described(self, version: Version) -> dict[str, object]:
        """A version as it is told: what the journal says, with who and when."""
        who = self.notes.versions.get(version.number) or self.opener(version.session)
        return {
            "version": version.number,
            "kind": "load" if version.session is None else "commit",
            "session": version.session,
            "user": who.user if who else None,
            "time": who.time if who else self.ledger.times[version.number - 1] or None,
            "reports": list(version.reports),
            "changes": version.changes,
        }

    # What the program's watcher is told.

    def before_write(self) -> None:
        self.notes.flush()

    def after_replies(self) -> None:
        while self.dirty:
            client = self.dirty.pop()
            client.flush()
            if client.has_room:
                client.go_on()

    def set_full(self, is_full: bool) -> None:
        self.is_full = is_full
        if not is_full:
            for client in list(self.clients):
                if client.has_room:
                    client.go_on()

    async def close_idle(self) -> None:
        """Ends idle sessions, again and again."""
        while True:
            await asyncio.sleep(min(self.settings.idle / 4, 5.0))
            before = time.monotonic() - self.settings.idle
            for client in list(self.clients):
                client.close_idle(before)
