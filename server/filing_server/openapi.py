"""The description of the HTTP interface, as OpenAPI 3.0."""

from __future__ import annotations

from typing import Any

from .problems import OWN, STATUS
from .settings import Settings

Part = dict[str, Any]


def ref(name: str) -> Part:
    return {"$ref": f"#/components/schemas/{name}"}


def listed(items: Part) -> Part:
    return {"type": "array", "items": items}


def members(**parts: Part) -> Part:
    return {"type": "object", "properties": parts, "required": list(parts)}


TEXT: Part = {"type": "string"}
WHOLE: Part = {"type": "integer", "minimum": 0}
MAYBE_TEXT: Part = {"type": "string", "nullable": True}
MAYBE_WHOLE: Part = {"type": "integer", "nullable": True}
TRUTH: Part = {"type": "boolean"}
ANY: Part = {}

SCHEMAS: dict[str, Part] = {
    "Fact": {
        "type": "object",
        "description": "A fact as xBRL-JSON has it.",
        "properties": {
            "value": MAYBE_TEXT,
            "decimals": {"type": "integer"},
            "dimensions": {"type": "object", "additionalProperties": MAYBE_TEXT},
            "links": {"type": "object"},
        },
        "required": ["dimensions"],
    },
    "Report": members(name=TEXT, facts=WHOLE, declared=TEXT),
    "Version": members(
        version=WHOLE,
        kind={"enum": ["load", "commit"]},
        session=MAYBE_WHOLE,
        user=MAYBE_TEXT,
        time=MAYBE_TEXT,
        reports=listed(TEXT),
        changes=WHOLE,
    ),
    "Difference": {
        "type": "object",
        "properties": {
            "kind": {"enum": ["report", "no-report", "declared", "added", "removed", "changed"]},
            "report": TEXT,
            "id": TEXT,
            "from": ANY,
            "to": ANY,
        },
        "required": ["kind", "report"],
    },
    "Session": members(
        session=WHOLE,
        user=MAYBE_TEXT,
        time=MAYBE_TEXT,
        kind={"enum": ["review", "amend"]},
        opened=WHOLE,
        end={"type": "array", "items": {}, "nullable": True},
        staged=WHOLE,
        met=MAYBE_WHOLE,
    ),
    "Amendment": {
        "type": "object",
        "description": "One amendment: readings, which have to be answered as before, then removals, additions, declared words.",
        "properties": {
            "reads": listed(members(line={"type": "array", "items": {}}, reply={"type": "array", "items": {}})),
            "removes": listed(members(report=TEXT, id=TEXT)),
            "adds": listed(members(report=TEXT, id=TEXT, fact=ref("Fact"))),
            "declares": listed(members(report=TEXT, word={"enum": ["none", "complete", "consistent", "all"]})),
        },
        "additionalProperties": False,
    },
    "Committed": members(outcome=TEXT, version=WHOLE, session=WHOLE),
    "Loaded": members(outcome=TEXT, version=WHOLE),
    "Seal": members(batches=WHOLE, entries=WHOLE, version=WHOLE, sha256=TEXT),
    "Problem": {
        "type": "object",
        "description": "Problem details: `word` is the program's for a refusal or the server's own, `reply` the program's reply.",
        "properties": {
            "type": TEXT,
            "title": TEXT,
            "status": WHOLE,
            "detail": TEXT,
            "word": {"type": "string", "enum": sorted(STATUS.keys() | OWN.keys())},
            "reply": {"type": "array", "items": {}},
            "version": WHOLE,
            "thing": {"type": "array", "items": {}},
            "line": {"type": "array", "items": {}},
            "expected": {"type": "array", "items": {}},
            "found": {"type": "array", "items": {}},
            "session": WHOLE,
        },
        "required": ["type", "title", "status", "word"],
    },
}


def content(schema: Part, kind: str = "application/json") -> Part:
    return {"content": {kind: {"schema": schema}}}


def query(name: str, schema: Part, says: str) -> Part:
    return {"name": name, "in": "query", "schema": schema, "description": says}


AT = query("at", WHOLE, "the number of a version; the current one where it is missing")
BEFORE = query("before", WHOLE, "only those before this number")
LIMIT = query("limit", {"type": "integer", "minimum": 1, "maximum": 1000, "default": 100}, "how many at most")
KEY = {
    "name": "Idempotency-Key",
    "in": "header",
    "schema": {"type": "string", "maxLength": 128},
    "description": "a repeated request under this key is one amendment",
}


def operation(says: str, answer: Part, *parameters: Part, status: str = "200", body: Part | None = None) -> Part:
    told: Part = {
        "summary": says,
        "parameters": list(parameters),
        "responses": {
            status: {"description": says} | answer,
            "default": {"description": "a problem"} | content(ref("Problem"), "application/problem+json"),
        },
    }
    if body:
        told["requestBody"] = {"required": True} | content(body)
    return told


def paths() -> dict[str, Part]:
    """Each path with its methods."""
    return {
        "/reports": {
            "get": operation(
                "the reports of a version", content(members(version=WHOLE, reports=listed(ref("Report")))), AT
            )
        },
        "/reports/{name}": {
            "get": operation("a report of a version, in xBRL-JSON", content({"type": "object"}), AT),
            "put": operation(
                "loads a report under a free name", content(ref("Loaded")), status="201", body={"type": "object"}
            ),
        },
        "/reports/{name}/facts": {
            "get": operation(
                "facts of a report, in byte order of their identifiers",
                content(
                    members(
                        version=WHOLE,
                        facts=listed(members(id=TEXT, fact=ref("Fact"))),
                        more=TRUTH,
                        found=WHOLE,
                        of=WHOLE,
                    )
                ),
                query("concept", TEXT, "this concept alone"),
                query("period", TEXT, "this period alone; an empty one asks for facts without a period"),
                query("text", TEXT, "each of these words is in the fact"),
                query("after", TEXT, "only identifiers greater than this"),
                LIMIT,
                AT,
            )
        },
        "/reports/{name}/facts/{id}/history": {
            "get": operation(
                "each version that put, changed or removed a fact, with who and when",
                content(
                    members(
                        report=TEXT,
                        id=TEXT,
                        history=listed(
                            {
                                "allOf": [
                                    ref("Version"),
                                    members(change=TEXT, fact={"nullable": True, "allOf": [ref("Fact")]}),
                                ]
                            }
                        ),
                    )
                ),
            )
        },
        "/versions": {
            "get": operation(
                "versions, the last first",
                content(members(version=WHOLE, versions=listed(ref("Version")))),
                BEFORE,
                LIMIT,
            )
        },
        "/versions/{number}": {"get": operation("a version: who made it, and when", content(ref("Version")))},
        "/diff/{from}/{to}": {
            "get": operation(
                "what turns one version into another",
                content(members(**{"from": WHOLE, "to": WHOLE, "differences": listed(ref("Difference"))})),
                query("report", TEXT, "this report alone"),
            )
        },
        "/log": {
            "get": operation(
                "sessions, the last first", content(members(sessions=listed(ref("Session")), of=WHOLE)), BEFORE, LIMIT
            )
        },
        "/log.svg": {
            "get": operation(
                "a picture of at most 200 sessions",
                content(TEXT, "image/svg+xml"),
                query("first", WHOLE, "the first session"),
            )
        },
        "/journal": {
            "get": operation(
                "the acknowledged bytes of the journal",
                content(TEXT, "application/x-ndjson"),
                query("from", WHOLE, "an offset"),
            )
        },
        "/seal": {
            "get": operation("the seal of the acknowledged journal: its last mark's digest", content(ref("Seal")))
        },
        "/events": {
            "get": operation(
                "each version as it comes, by server-sent events named version", content(TEXT, "text/event-stream")
            )
        },
        "/lines": {"get": operation("a WebSocket: each line of a message is answered by a message", {}, status="101")},
        "/amendments": {
            "post": operation("takes one amendment whole", content(ref("Committed")), KEY, body=ref("Amendment"))
        },
        "/openapi.json": {"get": operation("this description", content({"type": "object"}))},
    }


def description(settings: Settings) -> Part:
    """The whole description. Parts of a path in braces are its parameters."""
    told = paths()
    for path, methods in told.items():
        names = [part[1:-1] for part in path.split("/") if part.startswith("{")]
        for method in methods.values():
            method["parameters"] += [{"name": name, "in": "path", "required": True, "schema": TEXT} for name in names]
    return {
        "openapi": "3.0.3",
        "info": {"title": "The office's server before filing", "version": "0.1.0", "x-body-bytes": settings.body},
        "paths": told,
        "components": {"schemas": SCHEMAS},
    }
