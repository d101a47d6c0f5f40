"""Numerals, intervals, pairs, classes, what a report allows, and names: each by what scripts are told of it."""
import random

from model.repository import MOST_DIGITS, MOST_PLACES, WORDS, units
from model.script import Script, expect, fact, load, written

# Numerals with the number of each, and texts that are refused.
NUMERALS = {
    "0": "0", "-0.0": "0", "+0": "0", "000": "0", "1": "1", "+.5": "0.5", "-.5": "-0.5", "5.": "5", "-12.5": "-12.5",
    "0001.5000000000000000": "1.5", "0.000000000000001": "0.000000000000001", "0.000000000001": "0.000000000001",
    "0.0000000000001": "0.0000000000001", "-.0000000000000010000": "-0.000000000000001", " \t1.5\r\n": "1.5",
    "\n\n-7 ": "-7", "99999999999999999999.999999999999999": "99999999999999999999.999999999999999",
    "-0099999999999999999999.9999999999999990": "-99999999999999999999.999999999999999",
    "10000000000000000000": "10000000000000000000",
}  # fmt: skip
TOO_LARGE = [
    "100000000000000000000", "-123456789012345678901.5", "0.0000000000000001", "1.1234567890123456",
    "100000000000000000000.0000000000000001",
]  # fmt: skip
NO_NUMERALS = [
    "", " ", ".", "+", "-", "-.", "+-1", "- 1", "1 5", "1-", "1.2.3", "1..2", "1E3", "1e3", "1,5", "0x1f", "INF", "NaN",
    "\u0660\u0661", "\uff11", "\u00a01", "1\u2009", "\f1", "1\u000b", "\u22121", "100000000000000000000x",
]  # fmt: skip
ROUNDED = [
    ("0", 15), ("1000", -3), ("2000", -3), ("1500.000000000000001", None), ("0", None), ("0", 13), ("0", 0), ("10", -1),
    ("-12.5", 1), ("-99999999999999999999.999999999999999", -20), ("99999999999999999999.999999999999999", 15), ("3", 2),
]  # fmt: skip


def numeral_scripts():
    """What each numeral is: beside its own number and the next one; and what is refused, by its word."""
    script = Script("numerals beside the same number, and beside the next one")
    script.say(load("r1", {}))
    script.say(["open", "s", "amend"])
    for at, (text, number) in enumerate(NUMERALS.items()):
        plain, place = units(number), f"p{at}"
        other = plain + 1 if plain <= 0 else plain - 1
        for name, value in (("a", text), ("b", written(plain))):
            script.say(["add", "s", "r1", name + place, fact(value, ex_n=place)])
        script.say(["cell", "s", "r1", {"concept": "ex:Assets", "ex:n": place}])
        expect(script, f'["cell","complete",["a{place}","b{place}"]]')
        script.say(["add", "s", "r1", "c" + place, fact(written(other), ex_n=place)])
        script.say(["cell", "s", "r1", {"concept": "ex:Assets", "ex:n": place}])
        expect(script, f'["cell","inconsistent",["a{place}","b{place}","c{place}"]]')
    for word, texts in (("too-large", TOO_LARGE), ("not-a-number", NO_NUMERALS)):
        for text in texts:
            script.say(["add", "s", "r1", "x", fact(text)])
            expect(script, f'["bad-fact","{word}"]')
    for decimals in (16, -21, 2**63 - 1, -(2**63)):
        script.say(["add", "s", "r1", "x", fact("0", decimals)])
        expect(script, '["bad-fact","decimals-out-of-range"]')
        script.say(["add", "s", "r1", "x", fact("x", decimals)])
        expect(script, '["bad-fact","not-a-number"]')
    return [script]


def interval_scripts():
    """The ends of what each rounded number stands for, and what numbers are to one another, one way and the other."""
    script = Script("numbers at both ends of an interval, and beyond")
    script.say(load("r1", {}))
    script.say(["open", "s", "amend"])
    bound = 10 ** (MOST_DIGITS + MOST_PLACES)
    for at, (text, decimals) in enumerate(ROUNDED):
        half = 0 if decimals is None else 10 ** (MOST_PLACES - decimals)
        low, high = -(-(2 * units(text) - half) // 2), (2 * units(text) + half) // 2
        for turn, number in enumerate((low - 1, low, high, high + 1)):
            if abs(number) >= bound:
                continue
            place = f"p{at}-{turn}"
            script.say(["add", "s", "r1", "a" + place, fact(text, decimals, ex_n=place)])
            script.say(["add", "s", "r1", "b" + place, fact(written(number), ex_n=place)])
            script.say(["cell", "s", "r1", {"concept": "ex:Assets", "ex:n": place}])
            word = "inconsistent" if turn in (0, 3) else "complete" if half == 0 else "consistent"
            expect(script, f'["cell","{word}",["a{place}","b{place}"]]')
    return [script, pair_script()]


VALUES = [
    (None, None), ("0", None), ("-0.0", None), (" 0", None), ("1.0", 1), ("1.00", 1), ("1", 1), ("1.00", 2), ("5", None),
    ("5", 0), ("6", None), ("10", -1), ("14", None), ("15.000000000000001", None), ("1000", -3), ("2000", -3),
    ("1500", None), ("1500.000000000000001", None),
]  # fmt: skip


def pair_script():
    """Each value beside each other one, under two identifiers one way and under two the other."""
    script = Script("each value beside each other one, from both sides")
    script.say(load("r1", {}))
    script.say(["open", "s", "amend"])
    for at, one in enumerate(VALUES):
        for turn, other in enumerate(VALUES[: at + 1]):
            kinds = set()
            for place, facts in (("p", (one, other)), ("q", (other, one))):
                place = f"{place}{at}-{turn}"
                for name, value in zip("ab", facts):
                    script.say(["add", "s", "r1", name + place, fact(*value, ex_n=place)])
                script.say(["cell", "s", "r1", {"concept": "ex:Assets", "ex:n": place}])
                kinds.add(script.told().split('"')[3])
            assert len(kinds) == 1
    return script


CELLS = {
    "empty": [],
    "single": [("6", None)],
    "complete": [("6", None), ("6.0", None), ("+6", None)],
    "consistent": [("1.0", 1), ("1", 1), ("1.0", 2)],
    "inconsistent": [("10", -1), ("6", None), ("14", None)],
}


def allowed_scripts():
    """Each class beside each word that a report may declare: at a load, at a commit, and declared in a session."""
    script = Script("each class beside each word that a report declares")
    for word in WORDS:
        for kind, values in CELLS.items():
            name = f"{word}-{kind}"
            facts = {f"f{at}": fact(*value) for at, value in enumerate(values)}
            beside = {"g": fact("1", ex_n="b"), **facts}
            script.say(load(name, beside, word))
            script.say(load(name + "-amended", {}, word))
            for at, listed in facts.items():
                script.say(["open", "s", "amend"])
                script.say(["add", "s", name + "-amended", at, listed])
                script.say(["commit", "s"])
            script.say(load(name + "-declared", facts))
            script.say(["open", "s", "amend"])
            script.say(["declare", "s", name + "-declared", word])
            script.say(["commit", "s"])
            script.say(["export", name + "-declared"])
    return [script]


def name_script(seed):
    """Reports under many names, loaded in a drawn order.

    Each is found by its own name, and only by sessions that opened after its load, which is a conflict for those that
    have read that it was not there.
    """
    script, draw = Script("reports under many names"), random.Random(f"{seed} names")
    names = ["", "a", "aa", "ab", "a\u0000", "b", "ba", "\u00e9", "~", "\U0001f4d8"] + [f"r{at:02}" for at in range(50)]
    draw.shuffle(names)
    for at, name in enumerate(names):
        script.say(["open", "before", "amend"])
        script.say(["get", "before", name, "f"])
        script.say(load(name, {"f": fact(str(at)), "g": fact(None)}))
        script.say(["get", "before", name, "f"])
        script.say(["commit", "before"])
        script.say(["open", "s", "amend"])
        for other in [name, *draw.sample(names, 2)]:
            script.say(["get", "s", other, "f"])
        script.say(["remove", "s", name, "g"])
        script.say(["commit", "s"])
    script.say(load(names[0], {}))
    for name in sorted(names):
        script.say(["export", name])
    return script


# Values of which some two are complete, some are consistent in pairs alone, and most are neither.
NEAR_VALUES = [
    (None, None), ("10", -1), ("10.0", -1), ("10", None), ("6", None), ("14", None), ("12", 0), ("12.5", None), ("13", 0),
    ("20", -1), ("15", None), ("0", -2), ("-50", -2),
]  # fmt: skip


def cell_script(seed):
    """Drawn reports of few cells: whether each is loaded, and what each of its cells is."""
    script, draw = Script(f"drawn reports of seed {seed}, and their cells"), random.Random(f"{seed} cells")
    for turn in range(300):
        facts, name = {}, f"r{turn}"
        for at in draw.sample("abcdefg", draw.randrange(8)):
            dims = {"ex_n": draw.choice(["p", "q"])} if draw.random() < 0.3 else {}
            facts[at] = fact(*draw.choice(draw.choice([NEAR_VALUES, NEAR_VALUES[1:4]])), **dims)
        script.say(load(name, facts, draw.choice(["all", "all", *WORDS])))
        if name in script.repository.reports:
            script.say(["open", "s", "review"])
            for dims in ({}, {"ex:n": "p"}, {"ex:n": "q"}):
                script.say(["cell", "s", name, {"concept": "ex:Assets", **dims}])
            script.say(["close", "s"])
    return script
