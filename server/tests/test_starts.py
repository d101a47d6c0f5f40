"""Starting and stopping: one journal, one server, and both end in order."""

from __future__ import annotations

import json
import os
import signal
import subprocess
from pathlib import Path
from typing import Callable

import pytest
from conftest import SERVER, WAIT, Office, fact, report, run_filing, until
from filing_server.settings import find_filing


@pytest.mark.parametrize("by", [signal.SIGINT, signal.SIGTERM])
def test_a_signal_stops_both(start: Callable[..., Office], by: signal.Signals) -> None:
    office = start()
    program = office.program()
    client = office.client()
    client.send(
        ["load", "r1", report()], ["open", "s", "amend"], ["add", "s", "r1", "f", fact("A", "a")], ["commit", "s"]
    )
    assert client.reply() == ["loaded", 1]
    assert office.stop(by) == 0
    assert [client.reply() for _ in range(3)] == [["opened"], ["staged"], ["committed", 2]]
    assert not Path(f"/proc/{program}").exists() and not office.unix.exists()
    assert office.journal.read_bytes().endswith(b'"}\n\n')


def test_a_signal_of_the_terminal_reaches_the_server_alone(office: Office) -> None:
    assert os.getpgid(office.program()) != os.getpgid(office.process.pid)


def refused(office: Office, *options: str) -> str:
    words = [str(SERVER / "run"), "--port", "0", *options]
    done = subprocess.run(words, capture_output=True, text=True, timeout=60)
    assert done.returncode != 0 and done.stdout == ""
    return done.stderr


def test_there_is_no_second_writer(office: Office, tmp_path: Path) -> None:
    assert "another server has this journal" in refused(office, str(office.journal))
    assert office.get("/seal").json["version"] == 0


def test_a_port_in_use_is_told_and_leaves_the_journal(office: Office, tmp_path: Path) -> None:
    words = [str(SERVER / "run"), "--port", str(office.port), str(tmp_path / "other")]
    done = subprocess.run(words, capture_output=True, text=True, timeout=60)
    assert done.returncode == 1 and "address already in use" in done.stderr
    assert json.loads(run_filing("seal", tmp_path / "other"))[1:4] == [1, 0, 0]


def test_a_journal_that_is_damaged_is_not_served(office: Office, tmp_path: Path) -> None:
    bad = tmp_path / "bad"
    bad.write_bytes(office.journal.read_bytes().replace(b'"batch":0', b'"batch":1'))
    assert "filing: journal, line 3" in refused(office, str(bad))
    bad.write_bytes(b'[1,["open","amend"],["closed"]]\n\n')
    assert "filing: not a journal" in refused(office, str(bad))
    assert "write fault" in refused(office, str(tmp_path))


def test_wrong_words_are_told(office: Office, tmp_path: Path) -> None:
    assert "usage" in refused(office)
    assert "--clients has to be 1 or more" in refused(office, "--clients", "0", str(tmp_path / "j"))


def test_the_place_of_a_killed_server_is_taken_over(start: Callable[..., Office]) -> None:
    office = start()
    program = office.program()
    os.kill(office.process.pid, signal.SIGKILL)
    office.process.wait(WAIT)
    assert office.unix.exists()
    until(lambda: not Path(f"/proc/{program}").exists(), "filing ends by itself")
    again = start()
    assert again.client().ask(["load", "r1", report()]) == [["loaded", 1]]


def test_a_killed_program_is_started_again(start: Callable[..., Office]) -> None:
    office = start()
    assert office.client().ask(["load", "r1", report()]) == [["loaded", 1]]
    os.kill(office.program(), signal.SIGKILL)
    until(lambda: "filing was killed by signal 9, and is started again" in office.said(), "it is started again")
    until(lambda: office.amend({}).status == 200, "it goes on")
    assert office.client().ask(["load", "r1", report()]) == [["name-taken"]]


def test_a_program_that_is_killed_again_and_again_is_left(start: Callable[..., Office]) -> None:
    office = start()
    for _ in range(6):
        program = office.program()
        os.kill(program, signal.SIGKILL)
        until(lambda: not Path(f"/proc/{program}").exists() or office.process.poll(), "it is gone")
    assert office.process.wait(WAIT) == 128 + 9
    assert office.said().count("is started again") == 5


ENDS = """#!/bin/sh
[ "$1" = run ] || exec "$REAL" "$@"
while read line; do
    case $line in *open*) exit 3 ;; esac
    echo '["bad-line"]'
done
"""


def test_any_other_end_of_the_program_ends_the_server(
    start: Callable[..., Office], tmp_path: Path, monkeypatch: pytest.MonkeyPatch
) -> None:
    program = tmp_path / "ends"
    program.write_text(ENDS)
    program.chmod(0o755)
    (tmp_path / "journal").write_bytes(b"\n")
    monkeypatch.setenv("REAL", str(find_filing()))
    monkeypatch.setenv("FILING", str(program))
    office = start()
    client = office.client()
    assert client.ask(b"x") == [["bad-line"]]
    client.send(["open", "s", "review"])
    with pytest.raises(ConnectionError):
        client.reply()
    assert office.process.wait(WAIT) == 3
