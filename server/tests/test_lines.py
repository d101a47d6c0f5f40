"""What is a line of a client, and how it is sent on."""

from __future__ import annotations

import json

import pytest
from filing_server.lines import MOST_DEEP, Kind, depth, is_blank, read_line


def nested(levels: int) -> str:
    return '{"a":' * levels + "1" + "}" * levels


@pytest.mark.parametrize(
    "text, kind, sent",
    [
        ('["open","s","amend"]', Kind.OPEN, '["open","anna/7","amend"]'),
        (' [ "open" , "s" , "review" ] \r', Kind.OPEN, '["open","anna/7","review"]'),
        ('["commit","s"]', Kind.END, '["commit","anna/7"]'),
        ('["close", "s" ]', Kind.END, '["close","anna/7"]'),
        ('["get","s","r1","f1"]', Kind.CALL, '["get","anna/7","r1","f1"]'),
        ('\t["get" ,"s" , 5]', Kind.CALL, '["get","anna/7" , 5]'),
        (
            '["add","s","r1","f",{"value":"1.50","decimals":-0}]',
            Kind.CALL,
            '["add","anna/7","r1","f",{"value":"1.50","decimals":-0}]',
        ),
    ],
)
def test_a_line_goes_on_under_a_private_name(text: str, kind: Kind, sent: str) -> None:
    line = read_line(text.encode())
    assert (line.kind, line.name) == (kind, "s")
    assert line.under(b'"anna/7"').decode().rstrip() == sent


@pytest.mark.parametrize("name", ["a", "ä", 'a"b', "a\\", "1/2", "", "\u2028", "\U0001f600", "a\u0000b"])
def test_names_are_read_whatever_their_spelling(name: str) -> None:
    for ascii_only in (True, False):
        text = json.dumps(["get", name, "r1", "f1"], ensure_ascii=ascii_only).encode()
        assert read_line(text).name == name


@pytest.mark.parametrize(
    "text",
    [
        '["\\u006fpen","s","amend"]',
        '["op\\u0065n","s","amend"]',
        '["open","s","\\u0061mend"',
        '["open","s","amend",1]',
        '["open","s"]',
        '["open","s","write"]',
        '["open",["s"],"amend"]',
        '["commit","s","s"]',
        '["commit"]',
        '["get"]',
        '["get",7,"r1","f1"]',
        '["get","\\ud800","r1","f1"]',
        '["get","a\nb","r1","f1"]',
        '["get","unended',
        '["shutdown","s"]',
        '["load",7,{}]',
        '{"open":"s"}',
        "open s amend",
        "\ufeff" + '["open","s","amend"]',
        '[["open","s","amend"]]',
        "null",
        "[",
        '["add","s","r1","f",' + nested(MOST_DEEP) + "]",
        '["load","r1",' + nested(MOST_DEEP) + "]",
        json.dumps(["load", "r1", nested(MOST_DEEP + 1)]),
        '["load","r1","' + "\\u007b" * 101 + '"]',
    ],
)
def test_what_is_not_what_it_seems_is_no_line(text: str) -> None:
    assert read_line(text.encode("utf-8", "surrogatepass")).kind is Kind.BAD


def test_bytes_that_are_no_text_are_no_line() -> None:
    assert read_line(b'["get","\xff","r1","f1"]').kind is Kind.BAD
    assert read_line(b"\x00\x01\x02").kind is Kind.BAD


@pytest.mark.parametrize("text", ["", " ", "\t\r ", "\r"])
def test_blank_lines(text: str) -> None:
    assert is_blank(text.encode())


def test_a_form_feed_makes_no_blank_line() -> None:
    assert not is_blank(b"\x0c")


def test_depth_counts_no_brackets_in_texts() -> None:
    assert depth(b'["[[[[\\"[[",{"a":["]]"]}]') == 3
    assert read_line(json.dumps(["load", "r1", "[" * 90 + "]" * 90]).encode()).kind is Kind.LOAD
    assert read_line(json.dumps(["add", "s", "r1", "f", {"value": "[" * 5000}]).encode()).kind is Kind.CALL


def test_long_lines_are_read_in_time() -> None:
    text = json.dumps(
        ["load", "r1", json.dumps({"facts": {f"f{n}": {"value": 'a"b' * 20} for n in range(20000)}})]
    ).encode()
    assert len(text) > 2_000_000
    assert read_line(text).kind is Kind.LOAD
