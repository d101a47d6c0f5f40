"""Lines of which scripts are drawn: of every kind, good ones and such as are refused for each cause."""
import random
import re

from model.repository import DOCUMENT_TYPE, FEATURE, WORDS, Number, compact


def json_text(draw, value):
    """A value as JSON with spaces, members in any order, and escapes that need not be."""

    def space():
        return draw.choice([""] * 21 + [" ", "  ", "\t"])

    if isinstance(value, dict):
        members = list(value.items())
        draw.shuffle(members)
        inside = ",".join(
            space() + json_text(draw, name) + space() + ":" + json_text(draw, part) for name, part in members
        )
        return space() + "{" + inside + space() + "}" + space()
    if isinstance(value, list):
        return space() + "[" + ",".join(json_text(draw, part) for part in value) + "]" + space()
    if isinstance(value, str) and value != SESSION:
        plain = re.fullmatch("[ -~]*", value) and draw.random() < 0.3 and len(value) < 100
        characters = [f"\\u{ord(one):04x}" if plain and draw.random() < 0.1 else compact(one)[1:-1] for one in value]
        return space() + '"' + "".join(characters) + '"' + space()
    return space() + (value if value == SESSION else compact(value)) + space()


# What stands in a line for the name of a session.
SESSION = "%"
LOADED = ["r1", "r2", "r2", 'r"\u00e9\\', 'r"\u00e9\\']
ASKED_REPORTS = ["r1"] * 16 + ["r2"] * 3 + ['r"\u00e9\\']
FEW_IDS = ["f1"] * 4 + ["f2"] * 3 + ["f3"] * 2 + ["\tf"]
BOTH_NAMESPACES = {"ex": "http://e.org/t", "iso4217": "http://e.org/c"}
LINES_THAT_ARE_NONE = [
    "[", "[]", "{}", "null", "nonsense", '"open"', "[1]", '["open"]', '["open","s1"]', '["open","s1","Review"]',
    '["open","s1","amend",1]', '["open",1,"amend"]', '["open","s1",null]', '["get","s1","r1"]', '["get","s1","r1",null]',
    '["get","s1","r1","f1","f2"]', '["add","s1","r1","f1"]', '["add","s1","r1","f1",[]]', '["add","s1","r1","f1","x"]',
    '["add","s1","r1","f1",{},1]', '["commit"]', '["commit","s1","s2"]', '["close",null]', '["close",["s1"]]',
    '["load","r1"]', '["load","r1",[]]', '["load","r1",null]', '["load",1,{}]', '["load","r1",{},1]', '["export"]',
    '["export",1]', '["export","r1","r2"]', '["Open","s1","amend"]', '["remove","s1","r1"]', '["remove","s1","r1",1]',
    '["remove","s1","r1","f1",null]', '["cell","s1","r1"]', '["cell","s1","r1",[]]', '["cell","s1","r1",{},1]',
    '["page","s1","r1","ex:Name",true,null]', '["page","s1","r1","ex:Name",true,null,0]',
    '["page","s1","r1","ex:Name",true,null,1001]', '["page","s1","r1","ex:Name",true,null,1.0]',
    '["page","s1","r1","ex:Name",true,null,-1]', '["page","s1","r1","ex:Name",true,null,null]',
    '["page","s1","r1","ex:Name",false,null,1]', '["page","s1","r1","ex:Name",true,true,1]',
    '["page","s1","r1",null,true,null,1]', '["page","s1","r1","ex:Name",true,null,1,1]', '["declared","s1"]',
    '["declared","s1","r1","none"]', '["declare","s1","r1"]', '["declare","s1","r1","some"]', '["commit","s1"] x',
    '\ufeff["commit","s1"]', "\f",
]  # fmt: skip
BYTES_THAT_ARE_NONE = [b'["\xff\xfe"]', b'["commit","s1\xc3"]']


class Lines:
    """Lines of each kind, of which scripts are made. They have few names, so that sessions meet."""

    def __init__(self, seed):
        self.random, self.rows = random.Random(f"{seed} lines"), []

    def one_of(self, *all_of_them):
        return self.random.choice(all_of_them)

    def put(self, kind, line):
        text = line if isinstance(line, bytes) else json_text(self.random, line).encode()
        self.rows.append(kind.encode() + b" " + text)

    def text_fact(self):
        dims = {"concept": self.one_of("ex:Name", "ex:Name", "ex:Name", "ex:Note")}
        if self.random.random() < 0.4:
            dims["period"] = "2024"
        if self.random.random() < 0.14:
            dims["ex:Segment"] = self.one_of("a", None)
        made = {"dimensions": dims, "value": self.one_of("Acme", "Acme", "Bolt", "", None)}
        if self.random.random() < 0.2:
            made["links"] = self.one_of({"l": {"g": ["f2", Number("1")]}}, {})
        if self.random.random() < 0.2:
            made["decimals"] = None
        if self.random.random() < 0.06:
            made["note"] = [Number("1.5")]
        return made

    def number_fact(self):
        made = self.text_fact()
        made["dimensions"]["concept"] = self.one_of("ex:Assets", "ex:Assets", "ex:Assets", "ex:Cash")
        if self.random.random() < 0.14:
            made["dimensions"]["unit"] = "iso4217:EUR"
        made["value"] = self.one_of("100", "100", "100.0", " +100. ", "104", "99.5", "150", "-0", None)
        decimals = self.one_of("", "", "0", "-1", "-1", "-2", "2", "null")
        made.pop("decimals", None)
        if decimals:
            made["decimals"] = None if decimals == "null" else Number(decimals)
        return made

    def good_fact(self):
        return self.number_fact() if self.random.random() < 0.33 else self.text_fact()

    def bad_dims(self, dims):
        """The same dimensions with one thing that is refused in reading, of which a cell is told too."""
        return [
            dict(dims, concept=None),
            {name: text for name, text in dims.items() if name != "concept"},
            dict(dims, **{"ex:Segment": "a" * 4097}),
            dict(dims, period=Number("7")),
        ]

    def bad_facts(self):
        """Facts that are refused, each for something else."""
        text, number = self.text_fact(), self.number_fact()
        dims = text["dimensions"]
        yield from (dict(text, dimensions=dict(dims, concept=name)) for name in ("zz:Name", "Name", ":Name", "ex:", ""))
        yield from (dict(text, dimensions=bad) for bad in [dict(dims, unit="iso4217:EUR"), *self.bad_dims(dims)])
        yield from (dict(text, value=value) for value in (Number("7"), [], True))
        yield from (
            {name: part for name, part in text.items() if name != missing} for missing in ("value", "dimensions")
        )
        yield from (dict(text, links=links) for links in (None, [], "l", Number("0")))
        yield from (dict(text, links={"l": links}) for links in (Number("1.5"), [{"g": Number("1e40")}]))
        yield dict(text, value="Acme", decimals=Number("0"))
        yield from (dict(number, value=value) for value in ("abc", "", ".", "1e", "INF", "1e20"))
        yield from (dict(number, value=value) for value in ("123456789012345678901", "0.1234567890123456"))
        decimals = ("16", "-21", "9223372036854775807", "1.5", "9223372036854775808", "1e2")
        yield from (dict(number, value="100", decimals=Number(text)) for text in decimals)
        for period in (None, Number("7")):
            yield dict(number, decimals=Number("99"), dimensions={"concept": "zz:Name", "period": period})

    def fact(self, one_in):
        return self.random.choice(list(self.bad_facts())) if self.random.random() < 1 / one_in else self.good_fact()

    def info(self):
        features = self.one_of(*({FEATURE: word} for word in [*WORDS, "consistent"]), {}, None)
        info = {"documentType": DOCUMENT_TYPE, "namespaces": BOTH_NAMESPACES}
        if features is not None:
            info["features"] = features
        if self.random.random() < 0.25:
            info["note"] = [Number("1"), {"b": Number("2"), "a": Number("-3")}]
        return info

    def bad_infos(self):
        """What is refused of a report before its facts."""
        info, some = self.info(), {FEATURE: "some"}
        yield from (dict(info, documentType=text) for text in ("x", Number("7"), None))
        yield {name: part for name, part in info.items() if name != "documentType"}
        yield from (dict(info, features={FEATURE: word}) for word in ("some", None, Number("1")))
        yield from (dict(info, features=features) for features in (Number("7"), None, []))
        yield from (dict(info, namespaces=names) for names in (Number("7"), {"ex": Number("7")}, None, []))
        yield dict(info, namespaces={"ex": "http://e.org/t", "e2": "http://e.org/t"})
        yield from (dict(info, namespaces=names) for names in ({}, {"ab": "http://e.org/t"}))
        notes = (Number("1.5"), [{"a": Number("1e3")}], Number("18446744073709551616"))
        yield from (dict(info, note=note) for note in notes)
        yield dict(info, documentType="x", features=some)
        yield dict(info, features=some, namespaces=Number("7"), note=Number("1.5"))

    def bad_reports(self):
        """Reports that are refused, each for something else."""
        good = {"documentInfo": self.info(), "facts": {"f1": self.good_fact()}}
        yield from (dict(good, documentInfo=info) for info in [*self.bad_infos(), None, []])
        yield {"facts": good["facts"]}
        yield from (dict(good, facts=facts) for facts in (None, [], Number("7"), {"f2": []}))
        yield from (dict(good, facts={"f1": self.good_fact(), "f2": bad, "f3": bad}) for bad in self.bad_facts())

    def report(self, one_in):
        if self.random.random() < 1 / one_in:
            return self.random.choice(list(self.bad_reports()))
        facts = {self.one_of("f1", "f2", "f3", "f4", "f5"): self.good_fact() for _ in range(self.random.randrange(7))}
        return {"documentInfo": self.info(), "facts": facts} if facts else {"documentInfo": self.info()}

    def either(self, report):
        """A report, or the text of one."""
        if self.random.random() < 0.75:
            return report
        text = ("\ufeff" if self.random.random() < 0.2 else "") + json_text(self.random, report)
        return self.one_of(*[text] * 13, text + "}", text[:-1], text + "\n")

    def put_load(self, kind, names, report):
        self.put(kind, ["load", self.random.choice(names), self.either(report)])

    def put_about(self, kind, word, *rest):
        self.put(kind, [word, SESSION, self.random.choice(ASKED_REPORTS), *rest])

    def put_cell(self, kind):
        dims = self.good_fact()["dimensions"]
        if self.random.random() < 0.75:
            dims = {name: text for name, text in dims.items() if name in ("concept", "period")}
        self.put_about(kind, "cell", self.random.choice(self.bad_dims(dims)) if self.random.random() < 0.06 else dims)

    def put_page(self, kind):
        concept = self.one_of("ex:Name", "ex:Name", "ex:Name", "ex:Name", "ex:Assets", "ex:Assets", "Name")
        period = self.one_of(True, True, None, None, "2024", "2024", "2024", "2025")
        after, limit = self.one_of(None, None, None, "f1", "f2", ""), self.one_of("1", "1", "1", "2", "3", "10", "1000")
        self.put_about(kind, "page", concept, period, after, Number(limit))

    def put_declaration(self, kind):
        self.put_about(kind, "declare", self.one_of("none", "none", "complete", "consistent", "consistent", "all"))

    def put_asking(self):
        turn, name = self.random.randrange(45), self.random.choice(FEW_IDS)
        if turn < 4:
            self.put_about("ask", "get", name)
        elif turn < 10:
            self.put_cell("ask")
        elif turn < 19:
            self.put_page("ask")
        elif turn < 32:
            self.put_about("ask", "add", name, self.fact(9))
        elif turn < 41:
            self.put_about("ask", "remove", name)
        elif turn < 43:
            self.put_about("ask", "declared")
        else:
            self.put_declaration("ask")

    def put_apart(self):
        turn = self.random.randrange(5)
        if turn < 2:
            self.put("apart", ["export", self.random.choice(ASKED_REPORTS)])
        elif turn < 4:
            self.put("apart", self.one_of(*BYTES_THAT_ARE_NONE, *(text.encode() for text in LINES_THAT_ARE_NONE)))
        else:
            self.put("apart", self.one_of(b"", b" ", b"\t \r", b"\r"))

    def large_name(self):
        return f"f{self.random.randrange(300):03}"

    def put_large_load(self):
        """A load of up to 300 facts that is accepted."""
        facts = {self.large_name(): self.good_fact() for _ in range(self.random.randrange(60, 400))}
        info = {"documentType": DOCUMENT_TYPE, "namespaces": BOTH_NAMESPACES, "features": {FEATURE: "all"}}
        self.put("largeload", ["load", "r1", {"documentInfo": info, "facts": facts}])

    def put_large(self):
        turn = self.random.randrange(18)
        if turn < 7:
            self.put_about("large", "add", self.large_name(), self.fact(40))
        elif turn < 8:
            self.put_about("large", "get", self.large_name())
        elif turn < 10:
            self.put_cell("large")
        elif turn < 12:
            self.put_page("large")
        elif turn < 13:
            self.put_declaration("large")
        else:
            self.put_about("large", "remove", self.large_name())

    def drawn(self):
        for kind in ["amend"] * 6 + ["review"]:
            self.put("open", ["open", SESSION, kind])
        for word in ["commit"] * 5 + ["close"]:
            self.put("end", [word, SESSION])
        for _ in range(250):
            self.put_load("first", ["r1"], self.report(16))
        for _ in range(150):
            self.put_load("load", LOADED, self.report(16))
            self.put_apart()
        for report in self.bad_reports():
            self.put_load("load", LOADED, report)
        for bad in self.bad_facts():
            self.put_about("ask", "add", self.random.choice(FEW_IDS), bad)
        for dims in self.bad_dims({"concept": "ex:Name"}):
            self.put_about("ask", "cell", dims)
        for _ in range(900):
            self.put_asking()
        for _ in range(8):
            self.put_large_load()
        for _ in range(300):
            self.put_large()
        return self.rows
