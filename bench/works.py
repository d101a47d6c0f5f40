"""The scripts of the works that are measured. They are drawn from fixed seeds, so each run has the same ones."""
import itertools
import json
import random
from typing import Iterator

from measuring import reports

CONCEPTS = 200
SESSIONS = 8
REPORTS = 4


def line(*parts: object) -> str:
    return json.dumps(parts, separators=(",", ":"))


def load(facts: int, number: int = 1) -> str:
    return reports.load(facts, number)[0][0]


def add(session: str, report: str, name: str, number: int, value: int = 0) -> str:
    return f'["add","{session}","{report}","{name}",{reports.fact(number, value)}]'


def page(session: str, report: str, number: int) -> str:
    """A page of the facts that have the concept and the period of this one."""
    dimensions = json.loads(reports.fact(number))["dimensions"]
    return line("page", session, report, dimensions["concept"], dimensions["period"], None, 20)


def cell(session: str, report: str, number: int) -> str:
    return line("cell", session, report, json.loads(reports.fact(number))["dimensions"])


def name(number: int) -> str:
    return f"f{number:08}"


# ---- one script


def loaded(facts: int) -> Iterator[str]:
    """A load, and a review that reads a hundred facts."""
    draws = random.Random(facts)
    yield load(facts)
    yield line("open", "v", "review")
    yield from (line("get", "v", "r1", name(draws.randrange(facts))) for _ in range(100))


def exported(facts: int) -> Iterator[str]:
    yield load(facts)
    yield line("export", "r1")


def steps(draws: random.Random, session: int, conflicts: str, facts: int) -> list[str]:
    """What a session asks and changes on a report: three facts, a page, a cell, and two facts that get another value."""

    def drawn() -> int:
        if conflicts == "no":  # each session has concepts of its own
            return draws.randrange(facts // SESSIONS) * SESSIONS + session
        hot = facts // 100 if conflicts == "some" else 10  # half of all falls on these
        return draws.randrange(hot if draws.random() < 0.5 else facts)

    own, report = f"s{session}", f"r{draws.randrange(REPORTS) + 1}"
    found = [line("get", own, report, name(drawn())) for _ in range(3)]
    found += [page(own, report, drawn()), cell(own, report, drawn())]
    for number in (drawn(), drawn()):
        found += [
            line("remove", own, report, name(number)),
            add(own, report, name(number), number, draws.randrange(10**6)),
        ]
    return found


def amended(rounds: int, conflicts: str, facts: int = 10_000) -> Iterator[str]:
    """Rounds of eight sessions that are open at once, whose lines come mixed and whose commits come in any order."""
    draws = random.Random(rounds)
    yield from (load(facts, number) for number in range(1, REPORTS + 1))
    for _ in range(rounds):
        order = list(range(SESSIONS))
        yield from (line("open", f"s{session}", "amend") for session in order)
        left = [steps(draws, session, conflicts, facts) for session in order]
        while left := [its for its in left if its]:
            yield draws.choice(left).pop(0)
        draws.shuffle(order)
        yield from (line("commit", f"s{session}") for session in order)


def exchanged(facts: int, commits: int) -> Iterator[str]:
    """Commits of four changes: two facts leave, drawn from all, and two new ones come."""
    draws = random.Random(facts)
    held = list(range(facts))
    for number in range(commits):
        changes = []
        for new in (facts + 2 * number, facts + 2 * number + 1):
            at = draws.randrange(facts)
            changes += [line("remove", "s", "r1", name(held[at])), add("s", "r1", name(new), new)]
            held[at] = new
        yield from (line("open", "s", "amend"), *changes, line("commit", "s"))


def committed(facts: int, commits: int) -> Iterator[str]:
    return itertools.chain([load(facts)], exchanged(facts, commits))


def reviewed(facts: int, commits: int) -> Iterator[str]:
    """A review that is open all the while reads twenty times behind each commit."""
    draws = random.Random(facts)
    readings = [
        lambda it: line("get", "v", "r1", name(it)),
        lambda it: cell("v", "r1", it),
        lambda it: page("v", "r1", it),
    ]
    yield load(facts)
    yield line("open", "v", "review")
    for _ in range(commits):
        number = draws.randrange(facts)
        changes = line("remove", "s", "r1", name(number)), add("s", "r1", name(number), number, 1)
        yield from (line("open", "s", "amend"), *changes, line("commit", "s"))
        yield from (reading(draws.randrange(facts)) for reading in draws.choices(readings, [3, 1, 1], k=20))


def added(facts: int, additions: int) -> Iterator[str]:
    """One commit of so many additions."""
    yield load(facts)
    yield line("open", "s", "amend")
    yield from (add("s", "r1", name(number), number) for number in range(facts, facts + additions))
    yield line("commit", "s")


# ---- scripts side by side


def amending(facts: int, rounds: int, script: int, report: int, reads: int) -> Iterator[str]:
    """One of several scripts: it loads its report, amends it by four additions each time, and reads it in a review."""
    draws = random.Random(script)
    yield load(facts, report)
    new = itertools.count(facts + script * 10**6)
    for _ in range(rounds):
        yield line("open", "s", "amend")
        yield from (line("get", "s", f"r{report}", name(draws.randrange(facts))) for _ in range(2))
        yield from (add("s", f"r{report}", name(number), number) for number in itertools.islice(new, 4))
        yield line("commit", "s")
        yield line("open", "v", "review")
        for _ in range(reads):
            number = draws.randrange(facts)
            yield line("get", "v", f"r{report}", name(number)) if draws.random() < 0.7 else page(
                "v", f"r{report}", number
            )
        yield line("close", "v")
