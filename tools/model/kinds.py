"""Kinds of replies: their words without names, facts and numbers, behind the word of the line."""
from pathlib import Path

from model.repository import KINDS, read_json

LISTED = Path(__file__).with_name("kinds.txt").read_text(encoding="utf-8").splitlines()
VERBS = {*KINDS, "load", "open", "commit", "close", "export"}


def range_words(period, upto):
    periods = {True: "any period", None: "no period"}.get(period, "a period")
    return f"range, {periods}" + ("" if upto is None else ", cut")


def details(reply):
    """What stands behind the first word of a reply, as far as it is a kind."""
    word, rest = reply[0], reply[1:]
    if word in ("bad-fact", "cell", "declared"):
        return rest[:1]
    if word == "bad-report":
        return [rest[0], *rest[2:]]
    if word == "disallowed":
        return [rest[1]]
    if word == "page":
        return ["cut" if rest[1] else "whole"]
    if word == "conflict":
        thing = rest[1]
        return [range_words(thing[3], thing[5]) if thing[0] == "range" else thing[0]]
    return []


def kind_of(line, reply):
    """The kind of a reply to a line, both as they are written."""
    read = read_json(line)
    asked = read[0][0] if read and isinstance(read[0], list) and read[0] else None
    words = read_json(reply)[0]
    words = " ".join([words[0], *details(words)])
    return f"{asked}: {words}" if isinstance(asked, str) and asked in VERBS else words
