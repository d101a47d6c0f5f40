"""Looks in a journal for what a client was told: its sessions with their steps and replies, and its loads.

    server/verify [--crashed] JOURNAL TRANSCRIPT..

A transcript has each line that was sent, blank ones aside, and behind it the line of its reply; the last reply may be missing.
First `filing verify` has to find the journal lawful. Then each session of a transcript has to be a session of the journal, with
the same steps and replies in their order and no two for one, and each load an entry. What is not found is printed.

Where the program was killed, sessions that committed nothing may be missing, since only loads and commits are kept before their
replies: with --crashed these are counted, and are no faults. The status is 1 where something is not found, and 4 where the
journal is not lawful. At the end stands the seal of the journal, which clients look for in each other's: `filing verify --seal`.
"""

from __future__ import annotations

import argparse
import collections
import json
import subprocess
import sys
from dataclasses import dataclass, field
from pathlib import Path
from typing import Any, Iterator

from .journal import Follower
from .lines import decode
from .settings import find_filing

UNREAD = frozenset({"bad-line", "bad-report", "name-in-use", "no-session", "refused"})
"""Replies to lines that took no step."""
BY_NAMES = frozenset({"unbound-prefix", "misplaced", "not-a-number", "too-large", "decimals-out-of-range"})
"""Words for a fact that was refused by the names of its report, in a step; by any other it was refused in reading."""
MEMBERS = ("dimensions", "value", "decimals", "links")


def normal_fact(fact: Any) -> Any:
    """A fact as an entry has it: unknown members are passed over, and so are decimals that are null or beside a null value."""
    if not isinstance(fact, dict):
        return fact
    kept = {name: fact[name] for name in MEMBERS if name in fact}
    if kept.get("decimals") is None or kept.get("value") is None:
        kept.pop("decimals", None)
    return kept


def normal_report(report: Any) -> Any:
    """A report as an entry has it, from an object or from its text."""
    if isinstance(report, str):
        report = decode(report.removeprefix("\ufeff"))
    if not isinstance(report, dict):
        return report
    facts = report.get("facts", {})
    return {
        "documentInfo": report.get("documentInfo"),
        "facts": {name: normal_fact(fact) for name, fact in facts.items()} if isinstance(facts, dict) else facts,
    }


def text_of(step: list[Any], reply: Any) -> str:
    """A step with its reply as a text that is the same for the same step."""
    if step[0] == "add" and len(step) == 4:
        step = [*step[:3], normal_fact(step[3])]
    elif step[0] == "load" and len(step) == 3:
        step = [*step[:2], normal_report(step[2])]
    return json.dumps([step, reply], sort_keys=True)


@dataclass
class Told:
    """What a transcript says: loads, sessions that ended, and sessions that did not end in it."""

    loads: list[str] = field(default_factory=list)
    ended: list[tuple[str, ...]] = field(default_factory=list)
    begun: list[tuple[str, ...]] = field(default_factory=list)


def is_step(line: list[Any], reply: list[Any]) -> bool:
    """Whether a line with this reply left an entry."""
    if reply[0] in UNREAD or line[0] == "export":
        return False
    return reply[0] != "bad-fact" or (line[0] == "add" and reply[-1] in BY_NAMES)


def pairs(text: bytes) -> Iterator[tuple[list[Any], list[Any]]]:
    """The lines that were answered, with their replies; no JSON was answered by a step."""
    lines = [line for line in text.split(b"\n") if line.strip(b" \t\r")]
    for line, reply in zip(lines[::2], lines[1::2]):
        try:
            told: Any = decode(reply)
            sent: Any = decode(line)
        except ValueError:
            continue
        if isinstance(sent, list) and len(sent) > 1 and is_step(sent, told):
            yield sent, told


def read_transcript(text: bytes) -> Told:
    told, mine = Told(), dict[str, list[str]]()
    for (kind, name, *rest), reply in pairs(text):
        if kind == "load":
            told.loads.append(text_of([kind, name, *rest], reply))
            continue
        if kind == "open":
            if name in mine:  # the server has ended it since
                told.begun.append(tuple(mine.pop(name)))
            mine[name] = []
        if name not in mine:
            told.begun.append((text_of([kind, *rest], reply),))  # a reply of a session that was never opened
            continue
        mine[name].append(text_of([kind, *rest], reply))
        if kind in ("commit", "close"):
            told.ended.append(tuple(mine.pop(name)))
    told.begun += [tuple(steps) for steps in mine.values()]
    return told


class Journal:
    """The entries of a journal, of which each is found once."""

    def __init__(self, lines: list[bytes]) -> None:
        self.loads: collections.Counter[str] = collections.Counter()
        steps: dict[int, list[str]] = collections.defaultdict(list)
        for line in lines:
            number, step, reply = json.loads(line)
            if number is None:
                self.loads[text_of(step, reply)] += 1
            else:
                steps[number].append(text_of(step, reply))
        self.sessions: collections.Counter[tuple[str, ...]] = collections.Counter(
            tuple(told) for told in steps.values()
        )

    def take_load(self, load: str) -> bool:
        self.loads[load] -= 1
        return self.loads[load] >= 0

    def take_session(self, steps: tuple[str, ...]) -> bool:
        self.sessions[steps] -= 1
        return self.sessions[steps] >= 0

    def take_beginning(self, steps: tuple[str, ...]) -> bool:
        """A session that begins so: its end is not in the transcript."""
        for session, count in self.sessions.items():
            if count > 0 and session[: len(steps)] == steps:
                self.sessions[session] -= 1
                return True
        return False


def is_kept(steps: tuple[str, ...]) -> bool:
    """Whether a session was told a commit, and so is in the journal whatever was killed."""
    return '["committed"' in steps[-1] and json.loads(steps[-1])[1][0] == "committed"


def missing(journal: Journal, told: list[Told], is_crashed: bool) -> Iterator[tuple[str, bool]]:
    """What is not found, and whether that is a fault. Whole sessions are looked for before those that only begin."""
    for it in told:
        for load in it.loads:
            if not journal.take_load(load):
                yield f"no entry of the journal is the load {shortened(load)}", '["loaded"' in load or not is_crashed
        for steps in it.ended:
            if not journal.take_session(steps):
                fault = is_kept(steps) or not is_crashed
                yield f"no session has these {len(steps)} steps and replies: .. {shortened(steps[-1])}", fault
    for it in told:
        for steps in it.begun:
            if not journal.take_beginning(steps):
                yield f"no session begins with these {len(steps)} steps and replies: .. {shortened(steps[-1])}", not is_crashed


def shortened(text: str) -> str:
    return text if len(text) <= 300 else f"{text[:140]} .. {text[-140:]}"


def judge(filing: str, journal: Path) -> str:
    """The verdict of `filing verify`."""
    return subprocess.run([filing, "verify", "--", str(journal)], capture_output=True, text=True).stdout.strip()


def main(arguments: list[str] | None = None) -> int:
    words = argparse.ArgumentParser(prog="server/verify", description="Looks in a journal for what clients were told.")
    words.add_argument("journal", type=Path, metavar="JOURNAL")
    words.add_argument(
        "transcripts",
        type=Path,
        nargs="+",
        metavar="TRANSCRIPT",
        help="each line that was sent, and its reply behind it",
    )
    words.add_argument(
        "--crashed", action="store_true", help="the program was killed: sessions without a commit may be missing"
    )
    given = words.parse_args(arguments)
    filing = find_filing()
    if filing is None:
        words.error("there is no program filing: build it, or name it in $FILING")
    follower = Follower(given.journal)
    entries = [line for line in follower.new_lines() if line.startswith(b"[")]
    verdict = judge(filing, given.journal)
    if verdict != '["lawful"]':
        print(f"{given.journal} is no lawful journal: {verdict}")
        return 4
    told = [read_transcript(path.read_bytes()) for path in given.transcripts]
    faults = unkept = 0
    for what, is_fault in missing(Journal(entries), told, given.crashed):
        faults, unkept = faults + is_fault, unkept + (not is_fault)
        if is_fault:
            print(what)
    count = sum(len(it.loads) + len(it.ended) + len(it.begun) for it in told)
    crashed = f", {unkept} without a commit not kept" if given.crashed else ""
    print(f"{count} sessions and loads looked for, {faults} not found{crashed}")
    print(f"journal: {follower.batches} batches, {follower.entries} entries, seal {follower.seal}")
    return 1 if faults else 0


if __name__ == "__main__":
    sys.exit(main())
