"""Errors as problem details (RFC 7807), with the program's word and what it means."""

from __future__ import annotations

import json
import re
import subprocess

from aiohttp import web

OWN = {
    "bad-report": "the report is refused",
    "bad-fact": "the fact is refused",
    "no-version": "there is no version of this number",
    "no-fact": "no version has a fact of this identifier in this report",
    "not-found": "nothing is at this path",
    "not-allowed": "this path does not take this method",
    "bad-request": "the request is not what the description of the interface asks for",
    "not-json-type": "the body has to come as application/json",
    "too-large": "the body is longer than this server takes",
    "too-deep": "the body nests more than 100 deep",
    "no-user": "the request does not say whose it is",
    "bad-user": "a user is named by 1 to 64 printing characters",
    "another-origin": "the request comes from a page of another origin, or by a name that this server does not have",
    "key-reused": "another amendment was sent under this key",
    "too-many-clients": "as many clients as this server takes are connected",
    "busy": "as many views as this server computes at once are waited for",
    "restarting": "the program ended before its reply: what became of the request is not known. Repeat it with the same key",
    "too-slow": "the body did not come in time, or the program took too long",
    "fault": "the server failed",
}

STATUS = {
    "bad-line": 400,
    "no-report": 404,
    "no-version": 404,
    "no-fact": 404,
    "not-found": 404,
    "not-allowed": 405,
    "too-slow": 408,
    "conflict": 409,
    "disallowed": 409,
    "name-taken": 409,
    "taken": 409,
    "none": 409,
    "too-large": 413,
    "not-json-type": 415,
    "bad-report": 422,
    "bad-fact": 422,
    "too-deep": 422,
    "key-reused": 422,
    "no-user": 401,
    "another-origin": 403,
    "too-many-clients": 503,
    "busy": 503,
    "restarting": 503,
    "fault": 500,
}


class Problem(Exception):
    """A refusal: its word, and what further members tell of it."""

    def __init__(self, word: str, detail: str | None = None, **members: object) -> None:
        super().__init__(word)
        self.word = word
        self.detail = detail
        self.members = members

    @property
    def status(self) -> int:
        return STATUS.get(self.word, 400)


class Words:
    """What each word means, as `filing words` says it."""

    def __init__(self, filing: str) -> None:
        text = subprocess.run([filing, "words"], capture_output=True, text=True, check=True).stdout
        self.lists: list[dict[str, str]] = []
        for part in text.split("\n\n"):
            found = re.findall(r"^  ([a-z-]+)  +(.+(?:\n {8,}.+)*)", part, re.MULTILINE)
            self.lists.append({word: re.sub(r"\s+", " ", meaning) for word, meaning in found})

    def meaning(self, word: str, place: int = 0) -> str | None:
        """What a word of a line means, of a report where the place is 1, and of a fact where it is 2."""
        return self.lists[place].get(word) if place < len(self.lists) else None

    def explained(self, reply: list[object]) -> str | None:
        """What a refusal means: its word, and the words of the report and of the fact behind it."""
        parts, place = [], 0
        if reply[:1] == ["bad-report"]:
            parts.append(self.meaning(str(reply[1]), 1))
            place = 3 if reply[1] == "bad-fact" else 0
        elif reply[:1] == ["bad-fact"]:
            place = 1
        if place:
            parts.append(self.meaning(str(reply[place]), 2))
        told = [part for part in parts if part]
        return "; ".join(told) or self.meaning(str(reply[0]))


def problem_response(problem: Problem, words: Words) -> web.Response:
    title = OWN.get(problem.word) or words.meaning(problem.word) or problem.word
    body = {"type": f"urn:filing:{problem.word}", "title": title, "status": problem.status, "word": problem.word}
    reply = problem.members.get("reply")
    detail = problem.detail or (words.explained(reply) if isinstance(reply, list) else None)
    if detail:
        body["detail"] = detail
    headers = {"Retry-After": "2"} if problem.status == 503 else {}
    return web.Response(
        body=json.dumps(body | problem.members).encode(),
        status=problem.status,
        content_type="application/problem+json",
        headers=headers,
    )


def of_reply(reply: list[object]) -> Problem:
    """The problem that a refusal of the program is."""
    return Problem(str(reply[0]), reply=reply)
