"""What the server is told by its command line."""

from __future__ import annotations

import argparse
import os
import shutil
from dataclasses import dataclass
from pathlib import Path

MEBIBYTE = 1 << 20
BUILT = Path(__file__).resolve().parents[2] / "crates" / "filing" / "out" / "filing"


@dataclass(frozen=True)
class Settings:
    """Each setting is an option of `server/run` of the same name."""

    journal: Path
    filing: str
    numeric: Path | None = None
    every_reply: bool = False
    bind: str = "127.0.0.1"
    port: int = 8417
    hosts: tuple[str, ...] = ()
    user_header: str | None = None
    unix: Path | None = None
    clients: int = 1024
    sessions: int = 1000
    idle: float = 1800.0
    body: int = 64 * MEBIBYTE
    unread: int = 32 * MEBIBYTE
    stall: float = 30.0

    @property
    def notes(self) -> Path:
        """The file of who and when, beside the journal."""
        return self.journal.with_name(self.journal.name + ".notes")

    @property
    def program(self) -> list[str]:
        """The words that start the program on the journal."""
        numeric = ["--numeric", str(self.numeric)] if self.numeric else []
        every = ["--every-reply"] if self.every_reply else []
        return [self.filing, "run", *numeric, *every, "--journal", str(self.journal)]


def find_filing() -> str | None:
    """The program `filing`: $FILING, else the one that the repository has built, else the one on the path."""
    if named := os.environ.get("FILING"):
        return named
    return str(BUILT) if BUILT.is_file() else shutil.which("filing")


def parser() -> argparse.ArgumentParser:
    words = argparse.ArgumentParser(
        prog="server/run",
        description="Starts filing on a journal, and a server before it.",
        formatter_class=argparse.ArgumentDefaultsHelpFormatter,
    )
    words.add_argument("journal", type=Path, metavar="JOURNAL", help="the journal of the office")
    words.add_argument("--port", type=int, default=8417, help="port of HTTP; 0 takes a free one")
    words.add_argument("--bind", default="127.0.0.1", metavar="ADDRESS", help="address of HTTP")
    words.add_argument(
        "--host",
        action="append",
        default=[],
        metavar="NAME",
        help="a name that requests may call this server by, as HOST or HOST:PORT",
    )
    words.add_argument("--user-header", metavar="NAME", help="the header in which a proxy says who asks")
    words.add_argument("--unix", type=Path, metavar="PATH", help="a Unix socket that takes lines")
    words.add_argument("--numeric", type=Path, metavar="FILE", help="the numeric table of a new journal")
    words.add_argument("--every-reply", action="store_true", help="each reply waits until its entry is kept")
    words.add_argument("--clients", type=int, default=1024, help="connections at once, at most")
    words.add_argument("--sessions", type=int, default=1000, help="open sessions of a client, at most")
    words.add_argument(
        "--idle", type=float, default=1800.0, metavar="SECONDS", help="a session ends after so long without a line"
    )
    words.add_argument(
        "--body", type=int, default=64 * MEBIBYTE, metavar="BYTES", help="length of a line or a body, at most"
    )
    words.add_argument(
        "--unread", type=int, default=32 * MEBIBYTE, metavar="BYTES", help="replies that a client has not read, at most"
    )
    words.add_argument(
        "--stall",
        type=float,
        default=30.0,
        metavar="SECONDS",
        help="a client that reads or asks nothing is dropped after so long",
    )
    return words


def read_settings(arguments: list[str] | None = None) -> Settings:
    """The settings that these words give; ends the process where they are wrong."""
    words = parser()
    told = words.parse_args(arguments)
    filing = find_filing()
    if filing is None:
        words.error("there is no program filing: build it by (cd crates/filing && rt run), or name it in $FILING")
    for name in ("clients", "sessions", "body", "unread"):
        if getattr(told, name) < 1:
            words.error(f"--{name} has to be 1 or more")
    return Settings(
        journal=told.journal.absolute(),
        filing=filing,
        numeric=told.numeric,
        every_reply=told.every_reply,
        bind=told.bind,
        port=told.port,
        hosts=tuple(told.host),
        user_header=told.user_header,
        unix=told.unix,
        clients=told.clients,
        sessions=told.sessions,
        idle=told.idle,
        body=told.body,
        unread=told.unread,
        stall=told.stall,
    )
