"""What a client's line is, and how it is sent on under a private name.

Only lines that are what they seem pass. The kind has to be spelled plainly: `["\\u006fpen", ..]` is a line to filing, and none
here, so no spelling reaches a session of another client.
"""

from __future__ import annotations

import enum
import json
import re
from dataclasses import dataclass
from typing import Any

SPACE = rb"[ \t\r]*"
TEXT = rb'"[^"\\]*+(?:\\.[^"\\]*+)*+"'
HEAD = re.compile(SPACE + rb"\[" + SPACE + rb'"([a-z]+)"' + SPACE + rb"," + SPACE + rb"(" + TEXT + rb")", re.DOTALL)
STRING = re.compile(TEXT, re.DOTALL)
NO_BRACKETS = bytes(set(range(256)) - set(b"[]{}"))

CALLS = frozenset({"get", "cell", "page", "add", "remove", "declared", "declare"})
ENDS = frozenset({"commit", "close"})
MOST_DEEP = 100
"""Levels of a line or a report. An entry of the journal nests deeper than its line, and JSON is read 127 levels deep."""

BAD = b'["no line of a client"]'
"""What is sent in place of a line that must not pass. Its reply is ["bad-line"]."""


class Kind(enum.Enum):
    """What a line does to the names of sessions."""

    OPEN = "opens a session"
    CALL = "belongs to a session"
    END = "ends a session"
    LOAD = "loads a report"
    EXPORT = "prints a report"
    BAD = "is no line of a client"


@dataclass(frozen=True, slots=True)
class Line:
    """A line of a client: its kind, and where it has a session, the client's name for it."""

    kind: Kind
    word: str = ""
    name: str = ""
    rest: bytes = b""

    def under(self, session: bytes) -> bytes:
        """The line as it is sent on, with this text for the name of the session."""
        return b'["' + self.word.encode() + b'",' + session + self.rest


NO_LINE = Line(Kind.BAD, rest=BAD)


def no_constant(text: str) -> object:
    raise ValueError(f"{text} is no JSON")


def finite(text: str) -> float:
    number = float(text)
    if number in (float("inf"), float("-inf")):
        raise ValueError(f"{text} is beyond a number of 64 bits")
    return number


DECODER = json.JSONDecoder(parse_constant=no_constant, parse_float=finite)
ENCODER = json.JSONEncoder(ensure_ascii=False, separators=(",", ":"), allow_nan=False)


def decode(text: bytes | str) -> object:
    """The JSON value that filing would read. Fails with ValueError where filing finds no JSON."""
    try:
        value: object = DECODER.decode(text if isinstance(text, str) else text.decode())
    except RecursionError:
        raise ValueError("nests too deep") from None
    return value


def encode(value: object) -> bytes:
    """Compact JSON. Fails with ValueError for a text that is no Unicode."""
    return ENCODER.encode(value).encode()


def is_blank(line: bytes) -> bool:
    """A blank line gets no reply."""
    return not line.strip(b" \t\r")


def depth(text: bytes) -> int:
    """How many levels of arrays and objects this JSON text has."""
    level = most = 0
    for byte in STRING.sub(b"", text).translate(None, NO_BRACKETS):
        level += 1 if byte in b"[{" else -1
        most = max(most, level)
    return most


def is_too_deep(text: bytes) -> bool:
    return text.count(b"[") + text.count(b"{") > MOST_DEEP and depth(text) > MOST_DEEP


def read_line(line: bytes) -> Line:
    """What the line is. A line that is not what it seems is no line of a client."""
    head = HEAD.match(line)
    if head is None or is_too_deep(line):
        return NO_LINE
    word, rest = head[1].decode(), line[head.end() :]
    try:
        name = str(decode(head[2]))
        name.encode()
        if word in CALLS:
            return Line(Kind.CALL, word, name, rest)
        if word == "open" or word in ENDS:
            return read_bounds(word, name, line)
        if word == "load":
            return NO_LINE if is_deep_text(line, rest) else Line(Kind.LOAD, word, name, line)
    except ValueError:
        return NO_LINE
    return Line(Kind.EXPORT, word, name, line) if word == "export" else NO_LINE


def read_bounds(word: str, name: str, line: bytes) -> Line:
    """A line that opens or ends a session is written anew, so that what becomes of the name is known before the reply."""
    parts: Any = decode(line)
    if word == "open" and parts in ([word, name, "review"], [word, name, "amend"]):
        return Line(Kind.OPEN, word, name, b"," + encode(parts[2]) + b"]")
    if word in ENDS and parts == [word, name]:
        return Line(Kind.END, word, name, b"]")
    return NO_LINE


def is_deep_text(line: bytes, rest: bytes) -> bool:
    """Whether a load has its report as a text that nests too deep."""
    if not rest.lstrip(b" \t\r,").startswith(b'"'):
        return False
    if rest.count(b"[") + rest.count(b"{") + rest.count(b"\\u") <= MOST_DEEP:
        return False
    parts = decode(line)
    return isinstance(parts, list) and len(parts) == 3 and isinstance(parts[2], str) and is_too_deep(parts[2].encode())
