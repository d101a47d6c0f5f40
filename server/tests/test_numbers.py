"""Drawn lines of several clients at once: each gets its reply, and the server's numbers of sessions are those of the journal."""

from __future__ import annotations

import json
import random
from concurrent.futures import ThreadPoolExecutor
from pathlib import Path
from typing import Any, Callable

from conftest import Office, fact, report, run_filing, verify

NAMES = ["s", "t", "", "a/1", "root/1", 'q"', "ä"]
LINES = 400


def drawn(chance: random.Random) -> bytes:
    """A line that mostly is one; some have a byte changed, a part dropped, or another spelling."""
    name, number = chance.choice(NAMES), chance.randrange(20)
    line: list[Any] = chance.choice(
        [
            ["open", name, chance.choice(["amend", "amend", "review", "write"])],
            ["get", name, "r1", f"f{number}"],
            ["cell", name, "r1", {"concept": f"ex:C{number}"}],
            ["page", name, "r1", f"ex:C{number}", True, None, 5],
            ["add", name, "r1", f"f{number}", fact(f"C{number}", "v")],
            ["remove", name, "r1", f"f{number}"],
            ["declared", name, "r1"],
            ["declare", name, "r1", chance.choice(["all", "none", "some"])],
            ["commit", name],
            ["close", name],
            ["export", "r1"],
            ["load", f"r{number}", report()],
        ]
    )
    if chance.random() < 0.1:
        line = line[: chance.randrange(len(line))] + [chance.choice([None, 5, name, {}, []])]
    text = json.dumps(line, ensure_ascii=chance.random() < 0.5).encode()
    if chance.random() < 0.1:
        at = chance.randrange(len(text))
        text = text[:at] + bytes([chance.randrange(11, 256)]) + text[at + 1 :]
    if chance.random() < 0.05:
        text = text.replace(b"o", b"\\u006f", 1)
    return text


def client_of(office: Office, seed: int, transcript: Path) -> None:
    chance = random.Random(seed)
    client = office.client(transcript)
    for _ in range(LINES // 20):
        client.ask(*(drawn(chance) for _ in range(20)))
    client.close()


def amender(office: Office) -> list[Any]:
    """Amendments of HTTP meanwhile: each says which session made which version."""
    told = []
    for number in range(40):
        answer = office.amend({"adds": [{"report": "own", "id": f"f{number}", "fact": fact("A", str(number))}]})
        assert answer.status == 200, answer.json
        told.append(answer.json)
    return told


def test_numbers_are_those_of_the_journal(start: Callable[..., Office], tmp_path: Path) -> None:
    office = start()
    assert office.load("own", report()).status == 201
    transcripts = [tmp_path / f"t{seed}" for seed in range(4)]
    with ThreadPoolExecutor(6) as pool:
        clients = [pool.submit(client_of, office, seed, path) for seed, path in enumerate(transcripts)]
        told = pool.submit(amender, office).result()
        for client in clients:
            client.result()
    assert office.amend({}).status == 200  # what waits is kept with it
    sessions = {it["session"]: it for it in office.get("/log?limit=1000").json["sessions"]}
    for answer in told:
        session = sessions[answer["session"]]
        assert session["end"] == ["committed", answer["version"]] and session["user"] == "guest"
    assert "guest" not in {it["user"] for it in sessions.values() if it["kind"] == "review"}
    assert sum(it["user"] == "guest" for it in sessions.values()) == len(told) + 1
    assert office.stop() == 0
    assert run_filing("verify", office.journal) == '["lawful"]'
    status, said = verify(office.journal, *transcripts)
    assert status == 0, said
