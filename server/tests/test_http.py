"""HTTP: reports, versions, amendments and their problems."""

from __future__ import annotations

import concurrent.futures
import hashlib
import json
from typing import Any, Callable
from urllib.parse import quote

import pytest
from conftest import INFO, Office, fact, report, run_filing
from filing_server.http import Interface
from filing_server.openapi import paths


def reads(report_name: str, name: str, found: Any) -> dict[str, Any]:
    return {"line": ["get", report_name, name], "reply": ["none"] if found is None else ["fact", found]}


def adds(report_name: str, name: str, what: Any) -> list[dict[str, Any]]:
    return [{"report": report_name, "id": name, "fact": what}]


def test_a_day_of_one_report(start: Callable[..., Office], tmp_path: Any) -> None:
    office = start()
    assert office.get("/reports").json == {"version": 0, "reports": []}
    facts = {"f1": fact("A", "a", period="2024"), "f2": fact("B", None, period="2025"), "f3": fact("A", "Zwei Ä")}
    assert office.load("r1", report(facts)).json == {"outcome": "loaded", "version": 1}
    assert office.load("r1", report()).word == "name-taken"
    changed = fact("A", "b", period="2024")
    body = {
        "reads": [reads("r1", "f1", facts["f1"]), {"line": ["declared", "r1"], "reply": ["declared", "all"]}],
        "removes": [{"report": "r1", "id": "f1"}],
        "adds": adds("r1", "f1", changed) + adds("r1", "f4", fact("D", "d")),
        "declares": [{"report": "r1", "word": "none"}],
    }
    assert office.amend(body).json == {"outcome": "committed", "version": 2, "session": 1}
    assert office.amend(body).json["found"] == ["fact", {"dimensions": changed["dimensions"], "value": "b"}]
    assert office.get("/reports").json["reports"] == [{"name": "r1", "facts": 4, "declared": "none"}]
    assert office.get("/reports?at=1").json == {
        "version": 1,
        "reports": [{"name": "r1", "facts": 3, "declared": "all"}],
    }
    whole = office.get("/reports/r1")
    assert whole.headers["filing-version"] == "2" and whole.json["facts"]["f1"]["value"] == "b"
    assert office.get("/reports/r1?at=1").json == report(facts)
    assert [it["kind"] for it in office.get("/diff/1/2").json["differences"]] == ["declared", "changed", "added"]
    assert office.get("/diff/2/2?report=r1").json["differences"] == []
    assert [it["version"] for it in office.get("/versions").json["versions"]] == [2, 1]
    version = office.get("/versions/2").json
    assert (version["user"], version["session"], version["reports"], version["changes"]) == ("guest", 1, ["r1"], 3)
    history = office.get("/reports/r1/facts/f1/history").json["history"]
    assert [(it["version"], it["change"], it["fact"]["value"], it["user"]) for it in history] == [
        (1, "loaded", "a", "guest"),
        (2, "changed", "b", "guest"),
    ]
    assert [(it["session"], it["end"]) for it in office.get("/log").json["sessions"]] == [(1, ["committed", 2])]
    assert b"<svg" in office.get("/log.svg").body and office.get("/log.svg").headers["content-type"] == "image/svg+xml"
    journal = office.get("/journal").body
    seal = office.get("/seal").json
    assert office.get(f"/journal?from={len(journal) - 5}").body == journal[-5:]
    assert office.get(f"/journal?from={len(journal) + 5}").body == b""
    copy = tmp_path / "copy"
    copy.write_bytes(journal)
    told = [seal[name] for name in ("batches", "entries", "version", "sha256")]
    assert json.loads(run_filing("seal", copy)) == ["sealed", *told]
    assert office.stop() == 0
    kept = (tmp_path / "journal").read_bytes()  # the session that met a conflict is kept at the end
    assert kept.startswith(journal) and b'\n[2,["close"],["closed"]]\n' in kept[len(journal) :]
    assert run_filing("verify", "--seal", seal["sha256"], office.journal) == '["lawful"]'
    again = start()
    assert again.get("/journal").body == kept[:-1]
    assert again.get("/versions").json["versions"][0] == version
    assert again.get("/reports/r1").json["facts"]["f4"]["value"] == "d"


def test_the_journal_has_names_and_times_too(start: Callable[..., Office], tmp_path: Any) -> None:
    office = start()
    client = office.client()
    client.ask(
        ["load", "r1", report()], ["open", "s", "amend"], ["add", "s", "r1", "f", fact("A", "a")], ["commit", "s"]
    )
    noted = office.get("/versions").json["versions"]
    assert office.stop() == 0
    (tmp_path / "journal.notes").unlink()
    again = start()
    commit, load = again.get("/versions").json["versions"]
    assert (commit["user"], load["user"]) == (noted[0]["user"], None)
    assert commit["time"][:10] == load["time"][:10] == noted[0]["time"][:10]
    assert [it["user"] for it in again.log()] == [commit["user"]]


def test_facts_are_searched(shared: Office) -> None:
    facts = {f"f{n:03}": fact(f"C{n % 4}", f"value {n}", period=str(2000 + n % 5)) for n in range(250)} | {
        "Z": fact("C9", "ÄRGER, here")
    }
    assert shared.load("search", report(facts)).status == 201
    got = shared.get("/reports/search/facts").json
    assert (got["found"], got["of"], got["more"], len(got["facts"]), got["facts"][0]["id"]) == (
        251,
        251,
        True,
        100,
        "Z",
    )
    next_page = shared.get(f"/reports/search/facts?after={got['facts'][-1]['id']}&limit=1000").json
    assert [it["id"] for it in got["facts"] + next_page["facts"]] == sorted(facts)
    assert shared.get("/reports/search/facts?concept=ex:C1&period=2001").json["found"] == len(
        [n for n in range(250) if n % 4 == 1 and n % 5 == 1]
    )
    assert [it["id"] for it in shared.get("/reports/search/facts?period=").json["facts"]] == ["Z"]
    assert [it["id"] for it in shared.get("/reports/search/facts?text=" + quote("ärger C9")).json["facts"]] == ["Z"]
    assert shared.get("/reports/search/facts?text=nowhere").json["facts"] == []


@pytest.mark.parametrize(
    "name",
    [
        "a/b",
        "a b",
        "ä€",
        "<script>alert(1)</script>",
        '"',
        "--at",
        "-",
        "100%",
        "%2f",
        "?x=1#y",
        "\U0001f600",
        "a\\b",
        "..a",
        "\u202eabc",
    ],
)
def test_hostile_names_are_names(shared: Office, name: str) -> None:
    path = quote(name, safe="")
    assert shared.load(path, report({name: fact("A", name)})).status == 201
    version = shared.get(f"/reports/{path}").headers["filing-version"]
    assert shared.get(f"/reports/{path}/facts").json["facts"][0] == {"id": name, "fact": fact("A", name)}
    assert shared.get(f"/reports/{path}/facts/{path}/history").json["id"] == name
    body = {"reads": [reads(name, name, fact("A", name))], "removes": [{"report": name, "id": name}]}
    assert shared.amend(body).json["outcome"] == "committed"
    assert shared.get(f"/reports/{path}?at={version}").json["facts"] == {name: fact("A", name)}
    last = shared.get("/seal").json["version"]
    assert shared.get(f"/diff/{version}/{last}?report={path}").json["differences"][0]["id"] == name


def test_conflicts_and_refusals_have_their_thing(shared: Office) -> None:
    assert shared.load("refusals", report({"f": fact("A", "a")}, "none")).status == 201
    stale = shared.amend(
        {"reads": [reads("refusals", "f", fact("A", "old"))], "adds": adds("refusals", "g", fact("B", "b"))}
    )
    assert (stale.status, stale.word, stale.json["thing"]) == (409, "conflict", ["id", "refusals", "f"])
    assert stale.json["found"] == ["fact", {"dimensions": {"concept": "ex:A"}, "value": "a"}]
    cell = {"line": ["cell", "refusals", {"concept": "ex:A"}], "reply": ["cell", "empty", []]}
    assert shared.amend({"reads": [cell]}).json["thing"] == ["cell", "refusals", {"concept": "ex:A"}]
    page = {"line": ["page", "refusals", "ex:A", True, None, 10], "reply": ["page", [], False]}
    assert shared.amend({"reads": [page]}).json["thing"] == ["range", "refusals", "ex:A", True, None, None]
    twice = shared.amend({"adds": adds("refusals", "g", fact("A", "a"))})
    assert (twice.status, twice.word, twice.json["reply"]) == (
        409,
        "disallowed",
        ["disallowed", "refusals", "complete", ["f", "g"]],
    )
    assert "duplicates" in twice.json["title"]
    taken = shared.amend({"adds": adds("refusals", "f", fact("B", "b"))})
    assert (taken.word, taken.json["line"][:3]) == ("taken", ["add", "refusals", "f"])
    assert shared.amend({"removes": [{"report": "refusals", "id": "g"}]}).word == "none"
    assert shared.amend({"removes": [{"report": "nowhere", "id": "g"}]}).status == 404
    bad = shared.amend({"adds": adds("refusals", "g", {"value": "1", "dimensions": {"concept": "zz:A"}})})
    assert (bad.status, bad.word, bad.json["detail"]) == (422, "bad-fact", "a name has no prefix that the report binds")
    load = shared.load("bad", {"documentInfo": INFO, "facts": {"f": {"dimensions": {"concept": "zz:A"}, "value": "x"}}})
    assert (load.status, load.word, load.json["reply"]) == (
        422,
        "bad-report",
        ["bad-report", "bad-fact", "f", "unbound-prefix"],
    )
    assert "prefix" in load.json["detail"]
    assert shared.load("bad", report({"a": fact("A", "x"), "b": fact("A", "x")}, "none")).word == "disallowed"
    assert shared.load("bad", b"no json").json["reply"] == ["bad-report", "not-json"]
    assert shared.load("bad", b"\xff").word == "bad-report"
    assert shared.get("/reports/refusals/facts").json["found"] == 1


def test_a_key_makes_a_repeated_request_one(start: Callable[..., Office], tmp_path: Any) -> None:
    office = start()
    office.load("r1", report())
    body = {"adds": adds("r1", "f", fact("A", "a"))}
    first = office.amend(body, Idempotency_Key="k")
    again = office.amend(body, Idempotency_Key="k")
    assert first.json == again.json == {"outcome": "committed", "version": 2, "session": 1}
    assert "idempotent-replayed" not in first.headers and again.headers["idempotent-replayed"] == "true"
    assert office.amend({"adds": []}, Idempotency_Key="k").word == "key-reused"
    assert office.amend(body, Idempotency_Key="other").word == "taken"
    other = {"adds": [it for number in range(3000) for it in adds("r1", f"g{number}", fact("B", "b"))]}
    with concurrent.futures.ThreadPoolExecutor(8) as pool:
        asked = [pool.submit(office.amend, other, Idempotency_Key="many") for _ in range(8)]
        many = [it.result().json for it in asked]
    assert {it["version"] for it in many} == {3}
    assert office.stop() == 0
    later = start()  # the journal says what became of it
    assert later.amend(body, Idempotency_Key="k").json == first.json
    assert later.amend({"adds": []}, Idempotency_Key="k").word == "key-reused"
    assert later.get("/seal").json["version"] == 3
    later.process.kill()
    later.process.wait()
    last = start()
    assert last.amend(body, Idempotency_Key="k").json == first.json
    assert last.amend(other, Idempotency_Key="many").json == many[0]


def test_a_key_whose_session_was_not_kept_is_free(start: Callable[..., Office], tmp_path: Any) -> None:
    """A server was killed behind the note of a key; the journal then gives the number of its session to another."""
    body = json.dumps({"adds": adds("r1", "f", fact("A", "a"))}).encode()
    note = ["session", 1, "guest", "2026-01-01T00:00:00Z", "k", hashlib.sha256(body).hexdigest()]
    (tmp_path / "journal.notes").write_text(json.dumps(note) + "\n")
    office = start()
    office.load("r1", report())
    assert office.client().ask(["open", "s", "amend"], ["commit", "s"]) == [["opened"], ["committed", 2]]
    assert office.amend(body, Idempotency_Key="k").json == {"outcome": "committed", "version": 3, "session": 2}
    assert "guest" not in {it["user"] for it in office.get("/log").json["sessions"] if it["session"] == 1}


def test_who_asks_is_whom_the_proxy_says(start: Callable[..., Office]) -> None:
    office = start("--user-header", "X-Remote-User", "--host", "office.example")
    assert office.load("r1", report()).word == "no-user"
    assert office.load("r1", report(), X_Remote_User="a\x07b").word in ("bad-user", "bad-request")
    assert office.load("r1", report(), X_Remote_User="x" * 65).word == "bad-user"
    assert office.load("r1", report(), X_Remote_User="anna", Host="office.example").status == 201
    assert (
        office.amend({"adds": adds("r1", "f", fact("A", "a"))}, X_Remote_User="ben", Idempotency_Key="k").status == 200
    )
    other = office.amend({"adds": adds("r1", "g", fact("B", "a"))}, X_Remote_User="carla", Idempotency_Key="k")
    assert other.json["version"] == 3  # keys are each user's own
    assert [it["user"] for it in office.get("/versions").json["versions"]] == ["carla", "ben", "anna"]
    assert office.get("/log").json["sessions"][0]["user"] == "carla"
    assert office.get("/reports", Host="other.example").word == "another-origin"


def test_bodies_and_requests_are_bounded(start: Callable[..., Office]) -> None:
    office = start("--body", "10000")
    assert office.load("r1", b"x" * 10001).word == "too-large"
    assert office.request("POST", "/amendments", (b"x" * 5000 for _ in range(3))).word == "too-large"
    assert office.amend(json.dumps({"adds": adds("r1", "f", "x" * 20000)}).encode()).word == "too-large"
    assert office.load("r1", report()).status == 201


def test_the_description_has_each_path(shared: Office) -> None:
    told = shared.get("/openapi.json").json
    described = {(method.upper(), path) for path, methods in told["paths"].items() for method in methods}
    served = {(method, path) for method, path, _ in Interface.routes(object.__new__(Interface))}
    assert described == served and set(told["paths"]) == set(paths())
    references = {
        part.split("/")[-1].rstrip('"')
        for part in json.dumps(told).split('"$ref": ')[1:]
        for part in [part.split(",")[0].rstrip("}] ")]
    }
    assert references <= set(told["components"]["schemas"])


def test_views_of_a_live_journal_are_sound(shared: Office) -> None:
    """Views are computed while commits come; none of them fails or departs."""
    shared.load("busy", report())
    client = shared.client()

    def write() -> None:
        for number in range(40):
            replies = client.ask(
                ["open", "s", "amend"], ["add", "s", "busy", f"f{number}", fact("A", "a")], ["commit", "s"]
            )
            assert replies[2][0] == "committed"

    with concurrent.futures.ThreadPoolExecutor(2) as pool:
        writing = pool.submit(write)
        while not writing.done():
            version = shared.get("/reports").json["version"]
            assert shared.get(f"/reports/busy/facts?at={version}").status == 200
            assert shared.get(f"/diff/{max(0, version - 1)}/{version}").status == 200
            assert shared.get("/log?limit=5").status == 200
        writing.result()
    assert shared.get("/reports/busy/facts").json["found"] == 40
