"""A day of clients with kills of the server and of filing: nothing acknowledged is lost, and transcripts verify.

KILLS=100 server/check -k kills is a longer day.
"""

from __future__ import annotations

import json
import os
import random
import signal
import threading
import time
from pathlib import Path
from typing import Any, Callable

from conftest import LineClient, Office, fact, report, run_filing, until, verify

CLIENTS = 12
KILLS = int(os.environ.get("KILLS", "6"))
PACE = 0.02


class Clerk(threading.Thread):
    """A client that amends again and again. A connection that ends is followed by another, with a transcript of its own."""

    def __init__(self, office: Callable[[], Office], number: int, folder: Path, done: threading.Event) -> None:
        super().__init__(daemon=True)
        self.office, self.number, self.folder, self.done = office, number, folder, done
        self.random = random.Random(number)
        self.transcripts: list[Path] = []
        self.told: dict[str, str | None] = {}
        self.unknown: set[str] = set()
        self.commits = 0
        self.fault: BaseException | None = None

    def run(self) -> None:
        try:
            while not self.done.is_set():
                try:
                    self.connect()
                except OSError:
                    time.sleep(0.05)
        except BaseException as fault:  # told by the test
            self.fault = fault

    def connect(self) -> None:
        path = self.folder / f"{self.number}.{len(self.transcripts)}"
        client = LineClient(self.office().unix, path)
        self.transcripts.append(path)
        try:
            while not self.done.is_set():
                self.amend(client)
                time.sleep(self.random.random() * PACE)
        finally:
            client.close()

    def amend(self, client: LineClient) -> None:
        """One amendment of a fact of one's own, and some readings."""
        name, value = f"c{self.number}-{self.random.randrange(5)}", str(self.random.random())
        opened, _, found = client.ask(["open", "s", "amend"], ["declared", "s", "r1"], ["get", "s", "r1", name])
        if opened == ["refused", "restarting"]:
            raise ConnectionError
        assert opened == ["opened"]
        removes = [["remove", "s", "r1", name]] if found != ["none"] else []
        self.unknown.add(name)
        *_, end = client.ask(*removes, ["add", "s", "r1", name, fact(f"C{self.number}", value)], ["commit", "s"])
        assert end[0] == "committed", end
        self.commits += 1
        self.unknown.discard(name)
        self.told[name] = value


def keyed(office: Callable[[], Office], done: threading.Event, told: list[Any]) -> None:
    """Amendments under keys, each repeated until it is answered."""
    number = 0
    while not done.is_set():
        body = {"adds": [{"report": "r1", "id": f"k{number}", "fact": fact("K", str(number))}]}
        while True:
            try:
                answer = office().amend(body, Idempotency_Key=f"key-{number}")
            except OSError:
                time.sleep(0.05)
                continue
            if answer.status == 200:
                told.append(answer.json)
                break
            assert answer.word == "restarting", answer.json
            time.sleep(0.05)
        number += 1
        time.sleep(PACE)


def test_nothing_acknowledged_is_lost(start: Callable[..., Office], tmp_path: Path) -> None:
    offices = [start()]
    assert offices[0].client(tmp_path / "first").ask(["load", "r1", report()]) == [["loaded", 1]]
    done, keys = threading.Event(), list[Any]()
    clerks = [Clerk(lambda: offices[-1], number, tmp_path, done) for number in range(CLIENTS)]
    one = threading.Thread(target=keyed, args=(lambda: offices[-1], done, keys), daemon=True)
    for thread in (*clerks, one):
        thread.start()
    chance = random.Random(7)
    for kill in range(KILLS):
        before = sum(clerk.commits for clerk in clerks)
        until(lambda: sum(clerk.commits for clerk in clerks) > before + 10, "clients go on")
        time.sleep(chance.random() * 0.2)
        if kill % 2:
            os.kill(offices[-1].program(), signal.SIGKILL)
        else:
            offices[-1].process.kill()
            offices[-1].process.wait()
            offices.append(start())
    before = sum(clerk.commits for clerk in clerks)
    until(lambda: sum(clerk.commits for clerk in clerks) > before + 20, "clients go on")
    done.set()
    for thread in (*clerks, one):
        thread.join(30)
        assert not thread.is_alive()
    assert [clerk.fault for clerk in clerks] == [None] * CLIENTS
    assert len(keys) == len({it["version"] for it in keys}) and keys
    facts = offices[-1].get("/reports/r1").json["facts"]
    for clerk in clerks:
        for name, value in clerk.told.items():
            assert name in clerk.unknown or facts[name]["value"] == value
    assert {f"k{number}" for number in range(len(keys))} <= set(facts)
    versions = offices[-1].get("/versions?limit=1000").json["versions"]
    assert all(it["user"] for it in versions)
    assert offices[-1].stop() == 0
    assert run_filing("verify", offices[-1].journal) == '["lawful"]'
    transcripts = [path for clerk in clerks for path in clerk.transcripts if path.stat().st_size]
    status, said = verify(offices[-1].journal, tmp_path / "first", *transcripts, options=("--crashed",))
    assert status == 0, said
    assert json.loads(run_filing("show", offices[-1].journal).splitlines()[0])[1] == versions[0]["version"]
