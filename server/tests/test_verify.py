"""server/verify: what a client was told is in the journal, and lies are found."""

from __future__ import annotations

import json
import subprocess
from pathlib import Path
from typing import Any, Callable

import pytest
from conftest import SERVER, Office, fact, report, verify


def a_day(office: Office, folder: Path) -> tuple[Path, Path]:
    """The transcripts of two clients of whom one meets a conflict, on a journal that is then closed."""
    one, other = folder / "anna", folder / "ben"
    anna, ben = office.client(one), office.client(other)
    text = json.dumps(report({"f": {"value": "x", "decimals": None, "more": 1, "dimensions": {"concept": "ex:A"}}}))
    anna.ask(
        ["load", "r1", text], ["load", "r1", text], ["load", "r2", {"documentInfo": {}}], b"no json", ["export", "r1"]
    )
    anna.ask(["open", "s", "amend"])
    ben.ask(["open", "s", "amend"], ["open", "s", "amend"], ["open", "left", "review"], ["get", "left", "r1", "f"])
    anna.ask(["cell", "s", "r1", {"concept": "ex:B"}], ["cell", "s", "r1", {"concept": 5}])
    ben.ask(["cell", "s", "r1", {"concept": "ex:C"}])
    anna.ask(["add", "s", "r1", "n", {"value": "suit", "zz": 1, "dimensions": {"concept": "ex:C"}}])
    anna.ask(
        ["add", "s", "r1", "m", fact("C", "x") | {"decimals": 1.5}],
        ["add", "s", "r1", "m", {"value": "v", "dimensions": {"concept": "zz:C"}}],
    )
    anna.ask(["commit", "s"], ["commit", "s"])
    ben.ask(
        ["add", "s", "r1", "o", fact("B", "suit")],
        ["commit", "s"],
        ["open", "s", "review"],
        ["page", "s", "r1", "ex:C", True, None, 5],
        ["close", "s"],
    )
    anna.ask(["open", "s", "amend"], ["remove", "s", "r1", "n"])
    for client in (anna, ben):
        client.close()
    assert office.stop() == 0
    return one, other


def test_what_was_told_is_found(office: Office, tmp_path: Path) -> None:
    transcripts = a_day(office, tmp_path)
    status, said = verify(office.journal, *transcripts)
    assert status == 0, said
    assert said.startswith("7 sessions and loads looked for, 0 not found\n") and "seal" in said
    assert verify(office.journal, *transcripts, transcripts[0])[0] == 1  # nothing is found twice
    lines = transcripts[0].read_bytes().splitlines(keepends=True)
    transcripts[0].write_bytes(b"".join(lines[:-1]))  # a reply that did not come
    assert verify(office.journal, *transcripts)[0] == 0


LIES: list[tuple[str, bytes, bytes]] = [
    ("a reply is changed", b'["cell", "empty", []]', b'["cell", "single", ["n"]]'),
    ("a commit is told with another number", b'["committed", 2]', b'["committed", 3]'),
    ("a fact is changed on its way", b'"suit"', b'"suits"'),
    ("a fact of a load is changed on its way", b'\\"x\\"', b'\\"y\\"'),
    ("a load is told that was refused", b'["name-taken"]', b'["loaded", 2]'),
    ("a commit is told that met a conflict", b'["conflict", 2', b'["committed", 4'),
    ("a reading is told that was not made", b'["page", ["n"], false]', b'["page", [], false]'),
    (
        "a fact is told to a session that is open still",
        b'["fact", {"dimensions": {"concept": "ex:A"}, "value": "x"}]',
        b'["none"]',
    ),
]


@pytest.fixture(scope="module")
def told(tmp_path_factory: pytest.TempPathFactory) -> tuple[Path, list[Path]]:
    folder = tmp_path_factory.mktemp("told")
    office = Office(folder)
    return office.journal, list(a_day(office, folder))


@pytest.mark.parametrize("lie, told_as, found_as", LIES, ids=[lie for lie, _, _ in LIES])
def test_lies_are_found(
    told: tuple[Path, list[Path]], tmp_path: Path, lie: str, told_as: bytes, found_as: bytes
) -> None:
    """Each transcript has what an honest server told; changed, it is what a client of a liar has."""
    journal, transcripts = told
    changed, count = [], 0
    for path in transcripts:
        text = path.read_bytes()
        count += text.count(told_as)
        changed.append(tmp_path / path.name)
        changed[-1].write_bytes(text.replace(told_as, found_as))
    assert count > 0, lie
    status, said = verify(journal, *changed)
    assert status == 1 and ("no session" in said or "no entry" in said), said


def test_a_commit_that_was_not_sent_is_found(told: tuple[Path, list[Path]], tmp_path: Path) -> None:
    journal, transcripts = told
    lie = tmp_path / "lie"
    lie.write_bytes(transcripts[0].read_bytes() + b'["commit","s"]\n["committed",3]\n')
    status, said = verify(journal, lie, transcripts[1])
    assert status == 1 and "committed" in said
    assert verify(journal, lie, transcripts[1], options=("--crashed",))[0] == 1  # a commit is kept whatever was killed


def test_a_session_that_a_crash_took_is_counted(told: tuple[Path, list[Path]], tmp_path: Path) -> None:
    journal, transcripts = told
    more = tmp_path / "more"
    more.write_bytes(b'["open","v","review"]\n["opened"]\n["get","v","r1","zz"]\n["none"]\n["close","v"]\n["closed"]\n')
    assert verify(journal, more)[0] == 1
    status, said = verify(journal, more, options=("--crashed",))
    assert status == 0 and "1 without a commit not kept" in said


def test_a_forged_journal_is_refused(told: tuple[Path, list[Path]], tmp_path: Path) -> None:
    journal, transcripts = told
    forged = tmp_path / "forged"
    forged.write_bytes(journal.read_bytes().replace(b'["committed",2]', b'["committed",3]'))
    status, said = verify(forged, *transcripts)
    assert status == 4 and "damaged" in said


def test_the_command(told: tuple[Path, list[Path]]) -> None:
    journal, transcripts = told
    done = subprocess.run(
        [str(SERVER / "verify"), str(journal), *map(str, transcripts)], capture_output=True, text=True
    )
    assert done.returncode == 0 and ", 0 not found\n" in done.stdout


def test_a_live_journal_verifies(start: Callable[..., Office], tmp_path: Path) -> None:
    office: Any = start()
    client = office.client(tmp_path / "anna")
    client.ask(
        ["load", "r1", report()], ["open", "s", "amend"], ["add", "s", "r1", "f", fact("A", "a")], ["commit", "s"]
    )
    assert verify(office.journal, tmp_path / "anna")[0] == 0
