"""Durable amendments of one fact: `filing` with a journal, SQLite and PostgreSQL by turns, each over files of its own in
one folder.

Clients are loops in Python. One that waits has its reply before it sends the next amendment; sixteen at once are
sixteen amendments on their way. To `filing` an amendment is three lines over a pipe (open, add or remove, commit). To
the others it is one prepared statement that commits by itself: SQLite, in the process of its client, in WAL mode with
synchronous=FULL; PostgreSQL over a socket, isolation serializable, else as `initdb` leaves it, sixteen by sixteen
connections. What failed to serialize is sent again.
"""
import ctypes
import ctypes.util
import os
import shutil
import signal
import sqlite3
import statistics
import subprocess
import time
from contextlib import ExitStack
from functools import partial
from pathlib import Path
from typing import Any, Callable, Iterator, NamedTuple, Optional, Protocol

import works
from measuring import reports
from measuring.taken import Otherwise

AT_ONCE = 16
FACTS = 1_000
COMMITS = 400  # in a turn


class Change(NamedTuple):
    """A fact comes, or goes again."""

    name: str
    fact: Optional[str]

    @staticmethod
    def of(number: int, client: int = 0) -> "Change":
        own = FACTS + client * 10**6 + number // 2
        return Change(works.name(own), None if number % 2 else reports.fact(own))


class Way(Protocol):
    """What makes amendments durable."""

    def amend(self, numbers: range) -> None:
        ...

    def end(self) -> None:
        ...


class Filing:
    """The program over pipes, with a journal of its own."""

    def __init__(self, command: list[str], journal: Path) -> None:
        words = [*command, "--journal", str(journal)]
        self.process = subprocess.Popen(words, bufsize=0, stdin=subprocess.PIPE, stdout=subprocess.PIPE)
        assert self.process.stdin and self.process.stdout
        self.given, self.replies = self.process.stdin, self.process.stdout
        self.ask([works.load(FACTS)], b"loaded")

    def ask(self, lines: list[str], last: bytes) -> None:
        """Sends lines, and waits for the reply to each. The last one has this word."""
        self.given.write("".join(f"{line}\n" for line in lines).encode())
        told = b""
        while told.count(b"\n") < len(lines):
            part = self.replies.read(65536)
            if not part:
                raise Otherwise("the program with a journal has ended")
            told += part
        if last not in told.split(b"\n")[-2]:
            raise Otherwise(f"an amendment got {told[-200:]!r}")

    def amend(self, numbers: range) -> None:
        changes = [Change.of(number) for number in numbers]
        lines = []
        for name, fact in changes:
            change = f'["add","s","r1","{name}",{fact}]' if fact else works.line("remove", "s", "r1", name)
            lines += [works.line("open", "s", "amend"), change, works.line("commit", "s")]
        self.ask(lines, b"committed")

    def end(self) -> None:
        self.given.close()
        if self.process.wait():
            raise Otherwise(f"the program with a journal ended with {self.process.returncode}")


class Sqlite:
    """A table of facts in SQLite."""

    def __init__(self, path: Path) -> None:
        self.base = sqlite3.connect(path, isolation_level=None)
        modes = [
            self.base.execute(f"PRAGMA {words}").fetchone()
            for words in ("journal_mode=WAL", "synchronous=FULL", "synchronous")
        ]
        if modes != [("wal",), None, (2,)]:
            raise Otherwise(f"SQLite has another mode: {modes}")
        self.base.execute("CREATE TABLE fact (report TEXT, id TEXT, fact TEXT, PRIMARY KEY (report, id)) WITHOUT ROWID")
        self.base.execute("BEGIN")
        self.base.executemany(
            "INSERT INTO fact VALUES ('r1', ?, ?)", [(works.name(it), reports.fact(it)) for it in range(FACTS)]
        )
        self.base.execute("COMMIT")

    def amend(self, numbers: range) -> None:
        for name, fact in map(Change.of, numbers):
            if fact:
                done = self.base.execute("INSERT INTO fact VALUES (?, ?, ?)", ("r1", name, fact))
            else:
                done = self.base.execute("DELETE FROM fact WHERE report = ? AND id = ?", ("r1", name))
            if done.rowcount != 1:
                raise Otherwise("SQLite changed another number of rows")

    def end(self) -> None:
        self.base.close()


class Connection:
    """A connection to PostgreSQL by libpq."""

    RESULT = ("PQconnectdb", "PQexec", "PQprepare", "PQgetResult")
    TEXT = ("PQerrorMessage", "PQcmdTuples", "PQresultErrorField", "PQparameterStatus")
    SQLSTATE = ord("C")
    INSERT, DELETE = b"INSERT INTO fact VALUES ($1, $2, $3)", b"DELETE FROM fact WHERE report = $1 AND id = $2"

    def __init__(self, folder: Path) -> None:
        self.pq = ctypes.CDLL(ctypes.util.find_library("pq"))
        for name in self.RESULT + self.TEXT:
            getattr(self.pq, name).restype = ctypes.c_void_p if name in self.RESULT else ctypes.c_char_p
        self.held = ctypes.c_void_p(self.pq.PQconnectdb(f"host={folder} user=bench dbname=postgres".encode()))

    def ready(self) -> bool:
        return self.pq.PQstatus(self.held) == 0

    def ask(self, words: str) -> None:
        self.came(self.pq.PQexec(self.held, words.encode()))

    def prepare(self) -> None:
        for name, words in ((b"add", self.INSERT), (b"remove", self.DELETE)):
            self.came(self.pq.PQprepare(self.held, name, words, 0, None))

    def send(self, change: Change) -> None:
        words = [it.encode() for it in ("r1", *change) if it]
        values = (ctypes.c_char_p * len(words))(*words)
        self.pq.PQsendQueryPrepared(self.held, b"add" if change.fact else b"remove", len(words), values, None, None, 0)

    def told(self) -> bool:
        """Whether what was sent has changed a row. It is to be sent again where it was not serializable."""
        rows = []
        while result := self.pq.PQgetResult(self.held):
            rows.append(self.came(result))
        return rows == [b"1"]

    def came(self, result: int) -> Optional[bytes]:
        """How many rows a result has changed, or nothing where it was not serializable."""
        held = ctypes.c_void_p(result)
        state, rows = self.pq.PQresultErrorField(held, self.SQLSTATE), self.pq.PQcmdTuples(held)
        if state not in (None, b"40001"):
            raise Otherwise(f"PostgreSQL: {self.pq.PQerrorMessage(self.held).decode()}")
        self.pq.PQclear(held)
        return None if state else rows

    def end(self) -> None:
        self.pq.PQfinish(self.held)


class Postgres:
    """A PostgreSQL server of its own in a folder, and so many connections to it."""

    @staticmethod
    def programs() -> Optional[Path]:
        """The folder of the newest server's programs, where one is installed and libpq too."""
        found = sorted(Path("/usr/lib/postgresql").glob("*/bin"), key=lambda path: int(path.parent.name))
        return found[-1] if found and ctypes.util.find_library("pq") else None

    def __init__(self, programs: Path, folder: Path, clients: int) -> None:
        folder.mkdir()
        user = "postgres" if os.geteuid() == 0 else None  # it refuses to be run by root
        if user:
            shutil.chown(folder, user)
        words: dict[str, Any] = {"user": user, "stdout": subprocess.DEVNULL, "stderr": subprocess.STDOUT, "cwd": folder}
        if subprocess.run(
            [programs / "initdb", "-D", folder / "data", "-A", "trust", "-U", "bench"], **words
        ).returncode:
            raise Otherwise("PostgreSQL could make no database in this folder")
        settings = {
            "listen_addresses": "",
            "unix_socket_directories": folder,
            "default_transaction_isolation": "serializable",
        }
        given = [word for name, value in settings.items() for word in ("-c", f"{name}={value}")]
        self.server = subprocess.Popen([programs / "postgres", "-D", folder / "data", *given], **words)
        self.clients: list[Connection] = []
        try:
            first = self.connected(folder)
            first.ask("CREATE TABLE fact (report text, id text, fact text, PRIMARY KEY (report, id))")
            rows = ",".join(f"('r1','{works.name(it)}','{reports.fact(it)}')" for it in range(FACTS))
            first.ask(f"INSERT INTO fact VALUES {rows}")
            self.clients += [first, *(self.connected(folder) for _ in range(clients - 1))]
            for client in self.clients:
                client.prepare()
        except BaseException:
            self.end()
            raise

    def connected(self, folder: Path) -> Connection:
        for _ in range(200):
            connection = Connection(folder)
            if connection.ready():
                return connection
            connection.end()
            time.sleep(0.1)
        raise Otherwise("PostgreSQL did not start")

    def amend(self, numbers: range) -> None:
        """Each connection has a change of its own on the way."""
        left = {client: Change.of(numbers[0] // len(self.clients), at) for at, client in enumerate(self.clients)}
        while left:
            for client, change in left.items():
                client.send(change)
            left = {client: change for client, change in left.items() if not client.told()}

    def end(self) -> None:
        for client in self.clients:
            client.end()
        self.server.send_signal(signal.SIGINT)  # a fast shutdown
        self.server.wait()


class Synced:
    """A file that only grows: what the disk makes of one write at its end and a sync, with no program behind it."""

    def __init__(self, path: Path) -> None:
        self.file, self.at = os.open(path, os.O_RDWR | os.O_CREAT), 0

    def amend(self, numbers: range) -> None:
        for number in numbers:
            data = reports.fact(number).encode()
            self.at += os.pwrite(self.file, data, self.at)
            os.fdatasync(self.file)

    def end(self) -> None:
        os.close(self.file)


def kind_of(folder: Path) -> str:
    """The file system on which a folder is."""
    device = os.stat(folder).st_dev
    for line in Path("/proc/self/mountinfo").read_text().splitlines():
        words = line.split()
        if words[2] == f"{os.major(device)}:{os.minor(device)}":
            return words[words.index("-") + 1]
    return "unknown"


def ways(command: list[str], folder: Path) -> Iterator[tuple[str, int, Callable[[], Way]]]:
    """The name of each way, how many amendments it has on their way, and what makes it."""
    programs = Postgres.programs()
    yield "SQLite, a client that waits", 1, lambda: Sqlite(folder / "waits.db")
    if programs:
        yield "PostgreSQL, serializable, a client that waits", 1, partial(
            Postgres, programs, folder / "waits-server", 1
        )
    yield "`filing`, a client that waits", 1, lambda: Filing(command, folder / "waits.journal")
    if programs:
        yield f"PostgreSQL, serializable, {AT_ONCE} at once", AT_ONCE, partial(
            Postgres, programs, folder / "at-once-server", AT_ONCE
        )
    yield f"`filing`, {AT_ONCE} at once", AT_ONCE, lambda: Filing(command, folder / "at-once.journal")
    yield "a write at the end of a file and a sync", 1, lambda: Synced(folder / "synced")


def rates(command: list[str], folder: Path, turns: int) -> dict[str, list[float]]:
    """Amendments a second in each turn. The first turn is not counted: files are short, and nobody has made a checkpoint."""
    found: dict[str, list[float]] = {}
    with ExitStack() as ends:
        made = []
        for says, many, make in ways(command, folder):
            way = make()
            ends.callback(way.end)
            made.append((says, many, way))
        for turn in range(turns + 1):
            for says, many, way in made:
                began = time.perf_counter()
                for first in range(turn * COMMITS, (turn + 1) * COMMITS, many):
                    way.amend(range(first, first + many))
                found.setdefault(says, []).append(COMMITS / (time.perf_counter() - began))
    return {says: its[1:] for says, its in found.items()}


def table(command: list[str], folder: Path, turns: int) -> str:
    """Medians of amendments a second, with the least and the greatest, and their ratios to the first row."""
    found = rates(command, folder, turns)
    base = statistics.median(next(iter(found.values())))
    lines = [f"| Durable amendments of one fact, on {kind_of(folder)} | A second | Beside SQLite |", "|---|---|---|"]
    for says, its in found.items():
        middle = statistics.median(its)
        lines.append(f"| {says} | {middle:,.0f} ({min(its):,.0f} to {max(its):,.0f}) | {middle / base:.2f} |")
    return "\n".join(lines)
