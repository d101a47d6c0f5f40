"""What `filing show`, `diff` and `log` say of the journal while it is written, and the facts of reports.

A version never changes, so what was computed of one is kept while there is room.
"""

from __future__ import annotations

import asyncio
import collections
import json
from dataclasses import dataclass
from typing import Any, Awaitable, Callable, Hashable

from .lines import encode
from .office import Office
from .problems import Problem

MOST_AT_ONCE = 2
MOST_QUEUED = 64
MOST_KEPT = 32 << 20
TIMEOUT = 120.0


@dataclass(frozen=True)
class Fact:
    """A fact of a report, and the text in which it is searched."""

    id: str
    body: dict[str, Any]
    text: str

    @property
    def concept(self) -> str:
        return str(self.body["dimensions"].get("concept", ""))

    @property
    def period(self) -> str | None:
        period: str | None = self.body["dimensions"].get("period")
        return period


@dataclass(frozen=True)
class Report:
    """A report of a version: its text as an export prints it, and its facts in byte order of their identifiers."""

    version: int
    text: bytes
    facts: list[Fact]


def read_report(version: int, line: bytes) -> Report:
    """The report in the reply `["report",{..}]`."""
    text = line.strip()[len(b'["report",') : -1]
    facts = []
    for name, body in json.loads(text).get("facts", {}).items():
        words = [name, str(body.get("value")), *(f"{key} {value}" for key, value in body["dimensions"].items())]
        facts.append(Fact(name, body, " ".join(words).lower()))
    facts.sort(key=lambda fact: fact.id.encode())
    return Report(version, text, facts)


class Kept:
    """Results by key, the least used gone first, up to a number of bytes."""

    def __init__(self) -> None:
        self.results: collections.OrderedDict[Hashable, tuple[Any, int]] = collections.OrderedDict()
        self.size = 0
        self.coming: dict[Hashable, asyncio.Future[Any]] = {}

    async def get(self, key: Hashable, make: Callable[[], Awaitable[tuple[Any, int]]]) -> Any:
        """The result of this key, made once however many ask for it."""
        if key in self.results:
            self.results.move_to_end(key)
            return self.results[key][0]
        if key not in self.coming:
            self.coming[key] = asyncio.ensure_future(self._make(key, make))
        return await asyncio.shield(self.coming[key])

    async def _make(self, key: Hashable, make: Callable[[], Awaitable[tuple[Any, int]]]) -> Any:
        try:
            result, size = await make()
        finally:
            del self.coming[key]
        self.results[key] = result, size
        self.size += size
        while self.size > MOST_KEPT and len(self.results) > 1:
            _, (_, gone) = self.results.popitem(last=False)
            self.size -= gone
        return result


class Views:
    """Views of an office's journal."""

    def __init__(self, office: Office) -> None:
        self.office = office
        self.kept = Kept()
        self.turns = asyncio.Semaphore(MOST_AT_ONCE)
        self.queued = 0

    async def reports(self, version: int) -> list[dict[str, object]]:
        """The reports of a version, each with its number of facts and the duplicates that it allows."""

        async def make() -> tuple[list[dict[str, object]], int]:
            lines = await self._lines("show", ["--at", str(version)], [])
            return [
                {"name": name, "facts": facts, "declared": declared} for _, name, facts, declared in lines[1:]
            ], 1000 + 200 * len(lines)

        result: list[dict[str, object]] = await self.kept.get(("reports", version), make)
        return result

    async def report(self, name: str, version: int) -> Report:
        """A report of a version. The current one is exported by the running program, which keeps no entry of that."""

        async def make() -> tuple[Report, int]:
            line, exported = await self._exported(name) if version == self.office.version else (b"", -1)
            if exported != version:
                line = await self._output("show", ["--at", str(version)], [name])
            report = await asyncio.get_running_loop().run_in_executor(None, read_report, version, line)
            return report, len(line)

        result: Report = await self.kept.get(("report", name, version), make)
        return result

    async def _exported(self, name: str) -> tuple[bytes, int]:
        """The reply to an export, and the version that it shows: replies come in the order of the lines."""
        coming: asyncio.Future[tuple[bytes | None, int]] = asyncio.get_running_loop().create_future()
        self.office.send(
            b'["export",' + encode(name) + b"]", lambda reply: coming.set_result((reply, self.office.version))
        )
        line, version = await coming
        if line is None:
            raise Problem("restarting")
        if line == b'["no-report"]':
            raise Problem("no-report")
        return line, version

    async def differences(self, start: int, end: int, report: str | None) -> list[dict[str, object]]:
        """What turns one version into another."""

        async def make() -> tuple[list[dict[str, object]], int]:
            output = await self._output("diff", [], [str(start), str(end), *([report] if report is not None else [])])
            return [difference(json.loads(line)) for line in output.splitlines()], 5 * len(output)

        result: list[dict[str, object]] = await self.kept.get(("diff", start, end, report), make)
        return result

    async def log(self) -> list[dict[str, object]]:
        """What `filing log` says of each session, in the order of their openings; the ledger knows who, when and each load."""
        bytes_read = self.office.ledger.follower.bytes

        async def make() -> tuple[list[dict[str, object]], int]:
            lines = await self._lines("log", [], [])
            return [self._session(*line[:6]) for line in lines if line[0] is not None], 400 * len(lines)

        result: list[dict[str, object]] = await self.kept.get(("log", bytes_read), make)
        return result

    def _session(
        self, number: int, kind: str, opened: int, end: list[object] | None, staged: int, met: int | None
    ) -> dict[str, object]:
        who = self.office.opener(number)
        return {
            "session": number,
            "user": who.user if who else None,
            "time": who.time if who else None,
            "kind": kind,
            "opened": opened,
            "end": end,
            "staged": staged,
            "met": met,
        }

    async def picture(self, first: int) -> bytes:
        """The picture of at most 200 sessions, from one on."""
        bytes_read = self.office.ledger.follower.bytes

        async def make() -> tuple[bytes, int]:
            picture = await self._output("log", ["--svg", "--first", str(first)], [])
            return picture, len(picture)

        result: bytes = await self.kept.get(("picture", first, bytes_read), make)
        return result

    async def _lines(self, command: str, options: list[str], rest: list[str]) -> list[list[Any]]:
        return [json.loads(line) for line in (await self._output(command, options, rest)).splitlines()]

    async def _output(self, command: str, options: list[str], rest: list[str]) -> bytes:
        """What `filing COMMAND OPTIONS JOURNAL REST` prints."""
        if self.queued >= MOST_QUEUED:
            raise Problem("busy")
        self.queued += 1
        try:
            async with self.turns:
                return await self._run(command, options, rest)
        finally:
            self.queued -= 1

    async def _run(self, command: str, options: list[str], rest: list[str]) -> bytes:
        settings = self.office.settings
        if any("\0" in word for word in rest):
            raise Problem("no-report", "no command takes a name with a null; ask for the current version")
        process = await asyncio.create_subprocess_exec(
            *[settings.filing, command, *options, "--", str(settings.journal), *rest],
            stdin=asyncio.subprocess.DEVNULL,
            stdout=asyncio.subprocess.PIPE,
            stderr=asyncio.subprocess.PIPE,
        )
        try:
            output, fault = await asyncio.wait_for(process.communicate(), TIMEOUT)
        except asyncio.TimeoutError:
            process.kill()
            await process.wait()
            raise Problem("too-slow") from None
        if process.returncode:
            raise view_problem(fault.decode("utf-8", "replace").strip())
        return output


def view_problem(fault: str) -> Problem:
    """The problem that a fault of a view is."""
    if fault.startswith("filing: no report "):
        return Problem("no-report")
    if fault.startswith("filing: no version "):
        return Problem("no-version")
    return Problem("fault", fault)


def difference(line: list[Any]) -> dict[str, object]:
    """A line of `filing diff` as an object."""
    kind, name, *rest = line
    members: dict[str, object] = {"kind": kind, "report": name}
    if kind == "declared":
        members |= {"from": rest[0], "to": rest[1]}
    elif kind in ("added", "removed"):
        members |= {"id": rest[0], "to" if kind == "added" else "from": rest[1]}
    elif kind == "changed":
        members |= {"id": rest[0], "from": rest[1], "to": rest[2]}
    return members
