"""An office to try: `server/run` on a journal of its own, with clients of each interface."""

from __future__ import annotations

import contextlib
import io
import json
import os
import re
import signal
import socket
import subprocess
import sys
import time
from dataclasses import dataclass
from http.client import HTTPConnection, HTTPResponse
from pathlib import Path
from typing import Any, Callable, Iterator

import pytest

SERVER = Path(__file__).resolve().parents[1]
sys.path.insert(0, str(SERVER))

from filing_server.settings import find_filing  # noqa: E402
from filing_server.verify import main as verify_main  # noqa: E402

WAIT = 60.0
INFO = {"documentType": "https://xbrl.org/2021/xbrl-json", "namespaces": {"ex": "http://e.org/t"}}


def until(is_so: Callable[[], Any], what: str, seconds: float = WAIT) -> Any:
    """Waits until something is so, and gives what was found."""
    end = time.monotonic() + seconds
    while time.monotonic() < end:
        if found := is_so():
            return found
        time.sleep(0.02)
    raise AssertionError(f"it never came: {what}")


def fact(concept: str, value: str | None, **dimensions: str) -> dict[str, Any]:
    return {"value": value, "dimensions": {"concept": f"ex:{concept}", **dimensions}}


def report(facts: dict[str, Any] | None = None, allowed: str | None = None) -> dict[str, Any]:
    features = {"features": {"xbrl:allowedDuplicates": allowed}} if allowed else {}
    return {"documentInfo": INFO | features, "facts": facts or {}}


class LineClient:
    """A client of the Unix socket, which keeps a transcript where it is asked to."""

    def __init__(self, path: Path, transcript: Path | None = None) -> None:
        self.socket = socket.socket(socket.AF_UNIX)
        self.socket.settimeout(WAIT)
        self.socket.connect(str(path))
        self.replies = self.socket.makefile("rb")
        self.transcript = transcript.open("ab") if transcript else None

    def send(self, *lines: Any) -> list[bytes]:
        """Sends lines, each a value or the bytes of it, and gives those that get a reply."""
        sent = [line if isinstance(line, bytes) else json.dumps(line).encode() for line in lines]
        self.socket.sendall(b"".join(line + b"\n" for line in sent))
        return [line for line in sent if line.strip(b" \t\r")]

    def reply(self) -> Any:
        line = self.replies.readline()
        if not line.endswith(b"\n"):
            raise ConnectionError("the server has ended the connection")
        return json.loads(line)

    def ask(self, *lines: Any) -> list[Any]:
        """The replies to lines that are sent at once."""
        return [self._kept(line) for line in self.send(*lines)]

    def _kept(self, line: bytes) -> Any:
        if self.transcript:
            self.transcript.write(line + b"\n")
            self.transcript.flush()
        reply = self.reply()
        if self.transcript:
            self.transcript.write(json.dumps(reply).encode() + b"\n")
            self.transcript.flush()
        return reply

    def close(self) -> None:
        self.replies.close()
        self.socket.close()
        if self.transcript:
            self.transcript.close()


@dataclass
class Answer:
    """An answer of HTTP."""

    status: int
    headers: dict[str, str]
    body: bytes

    @property
    def json(self) -> Any:
        return json.loads(self.body)

    @property
    def word(self) -> Any:
        assert self.headers["content-type"].startswith("application/problem+json"), self
        return self.json["word"]


class Office:
    """A running server."""

    def __init__(self, folder: Path, *options: str, header: str | None = None) -> None:
        self.folder = folder
        self.journal = folder / "journal"
        self.unix = folder / "socket"
        self.options = options
        self.header = header
        self.start()

    def start(self) -> None:
        words = [str(SERVER / "run"), "--port", "0", "--unix", str(self.unix), *self.options, str(self.journal)]
        self.errors = (self.folder / "errors").open("ab")
        self.process = subprocess.Popen(words, stdout=subprocess.PIPE, stderr=self.errors, start_new_session=True)
        assert self.process.stdout is not None
        self.url = self.process.stdout.readline().decode().strip()
        found = re.fullmatch(r"http://127\.0\.0\.1:(\d+)/", self.url)
        assert found, (self.url, self.said())
        self.port = int(found[1])

    def said(self) -> str:
        return (self.folder / "errors").read_text()

    def stop(self, by: signal.Signals = signal.SIGTERM) -> int:
        """Ends the server, and gives its status."""
        self.process.send_signal(by)
        status = self.process.wait(WAIT)
        assert self.process.stdout is not None
        self.process.stdout.close()
        self.errors.close()
        return status

    def client(self, transcript: Path | None = None) -> LineClient:
        return LineClient(self.unix, transcript)

    def request(self, method: str, path: str, body: Any = None, **headers: str) -> Answer:
        """One request; a body that is no bytes goes as JSON."""
        named = {name.replace("_", "-"): value for name, value in headers.items()}
        if body is not None:
            named = {"Content-Type": "application/json"} | named
            body = json.dumps(body).encode() if isinstance(body, (dict, list)) else body
        with contextlib.closing(HTTPConnection("127.0.0.1", self.port, timeout=WAIT)) as connection:
            connection.request(method, path, body, named)
            return answered(connection.getresponse())

    def get(self, path: str, **headers: str) -> Answer:
        return self.request("GET", path, **headers)

    def load(self, name: str, body: Any, **headers: str) -> Answer:
        return self.request("PUT", f"/reports/{name}", body, **headers)

    def amend(self, body: Any, **headers: str) -> Answer:
        return self.request("POST", "/amendments", body, **headers)

    def log(self) -> list[Any]:
        """The last sessions. Entries are kept at the latest with the next commit, so one is made."""
        assert self.amend({}).status == 200
        sessions: list[Any] = self.get("/log").json["sessions"][1:]
        return sessions

    def program(self) -> int:
        """The process of filing."""
        children = Path(f"/proc/{self.process.pid}/task/{self.process.pid}/children")
        found: int = until(lambda: [int(pid) for pid in children.read_text().split()], "filing runs")[0]
        return found

    def entries(self) -> list[Any]:
        return [json.loads(line) for line in self.get("/journal").body.splitlines() if line.startswith(b"[")]


def answered(response: HTTPResponse) -> Answer:
    return Answer(response.status, {name.lower(): value for name, value in response.getheaders()}, response.read())


def run_filing(*words: object) -> str:
    done = subprocess.run([str(find_filing()), *map(str, words)], capture_output=True, text=True, timeout=60)
    return done.stdout.strip()


def verify(journal: Path, *transcripts: Path, options: tuple[str, ...] = ()) -> tuple[int, str]:
    """The status and the output of server/verify."""
    said = io.StringIO()
    with contextlib.redirect_stdout(said):
        status = verify_main([*options, str(journal), *map(str, transcripts)])
    return status, said.getvalue()


@pytest.fixture(scope="session", autouse=True)
def built() -> None:
    if find_filing() is None:
        pytest.exit("there is no program filing: build it by (cd crates/filing && rt run), or name it in $FILING", 2)


@pytest.fixture
def start(tmp_path: Path) -> Iterator[Callable[..., Office]]:
    """Starts offices, which are ended behind the test."""
    started: list[Office] = []

    def begin(*options: str, folder: Path = tmp_path) -> Office:
        started.append(Office(folder, *options))
        return started[-1]

    yield begin
    for office in started:
        if office.process.poll() is None:
            office.stop()
        with contextlib.suppress(ProcessLookupError):
            os.killpg(office.process.pid, 0)


@pytest.fixture
def office(start: Callable[..., Office]) -> Office:
    return start()


@pytest.fixture(scope="module")
def shared(tmp_path_factory: pytest.TempPathFactory) -> Iterator[Office]:
    """One office for the tests of a module that do not end it."""
    running = Office(tmp_path_factory.mktemp("office"))
    yield running
    assert running.stop() == 0
