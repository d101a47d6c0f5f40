"""Drawn scripts of several sessions at once."""
import random

from model.repository import WORDS, Number, Refused, compact, fit, least_disallowed, read_fact
from model.script import INFO, SCRIPT_NUMERIC, Script, load

CONCEPTS = ["ex:Assets", "ex:Name", "ex:Other", "ex:Wide"]
DRAWN_VALUES = ["10", "10.0", "6", "14", "12.5", "100", "-3", "0"]
BAD = [
    '["get","s0","r1"]', '["page","s0","r1","ex:Name",false,null,1]', "[", '["page","s0","r1","ex:Name",true,null,1001]',
    '["declare","s0","r1","some"]', '["add","s0","r1","f1",[]]', '["open","s0","Amend"]', '["load","r1",7]',
    '["cell","s0","r1",{"concept":1}]',
]  # fmt: skip
REFUSED = [
    {"value": "1", "dimensions": {"concept": "zz:Name"}},
    {"value": "1", "decimals": Number("0"), "dimensions": {"concept": "ex:Name"}},
    {"value": "x", "dimensions": {"concept": "ex:Assets"}},
    {"value": "1", "decimals": Number("16"), "dimensions": {"concept": "ex:Assets"}},
    {"value": "1", "decimals": Number("1.5"), "dimensions": {"concept": "ex:Assets"}},
    {"value": "1", "dimensions": {"concept": "ex:Name", "period": None}},
    {"value": "1", "dimensions": {}},
    {"dimensions": {"concept": "ex:Name"}},
]


class Drawing:
    """A script that is drawn: of so many identifiers, and so many lines."""

    def __init__(self, seed, number, ids, lines):
        self.random, self.ids, self.lines = random.Random(f"{seed} {number}"), ids, lines
        self.script = Script(f"drawn script {number} of seed {seed}, of {ids} identifiers")

    def one_of(self, *all_of_them):
        return self.random.choice(all_of_them)

    def name(self):
        """Half of them are few, so that sessions meet."""
        return f"f{self.random.randrange(self.random.choice([self.ids, 5])):03}"

    def known_name(self):
        """Of a fact that is there, most often."""
        facts = self.script.repository.reports["r1"]["facts"]
        return self.random.choice(sorted(facts)[:8]) if facts and self.random.random() < 0.7 else self.name()

    def known_dims(self):
        facts = self.script.repository.reports["r1"]["facts"]
        if facts and self.random.random() < 0.7:
            return facts[self.random.choice(sorted(facts)[:8])]["dims"]
        return self.dims()

    def dims(self):
        dims = {"concept": self.random.choice(CONCEPTS)}
        if self.random.random() < 0.5:
            dims["period"] = self.one_of("2023", "2024")
        if dims["concept"] == "ex:Wide":
            dims["ex:Place"] = self.one_of(None, "", "north", "south", "east")
        return dims

    def fact(self):
        if self.random.random() < 0.04:
            return self.random.choice(REFUSED)
        dims = self.dims()
        made = {"dimensions": dims, "value": self.one_of("a", "a", "b", None)}
        if dims["concept"] == "ex:Assets":
            made["value"] = self.one_of(None, *DRAWN_VALUES)
            decimals = self.one_of(None, None, "-1", "0", "-2", "1")
            if decimals is not None:
                made["decimals"] = Number(decimals)
        if self.random.random() < 0.1:
            made["links"] = {"note": {"group": [self.name(), Number("1")]}}
        return made

    def facts(self, count, allowed):
        """Facts of a report that mostly obeys."""
        report = {"allowed": allowed, "facts": {}}
        made = {}
        for _ in range(count):
            name, value = f"f{self.random.randrange(self.ids):03}", self.fact()
            try:
                report["facts"][name] = fit(read_fact(value), INFO["namespaces"], SCRIPT_NUMERIC)
                kept = least_disallowed(report, [report["facts"][name]]) is None or self.random.random() < 0.002
            except Refused:
                kept = self.random.random() < 0.01
            if kept:
                made[name] = value
            else:
                report["facts"].pop(name, None)
                made.pop(name, None)
        return made

    def load(self, name, most):
        allowed = self.one_of("all", "all", "all", "consistent", *WORDS)
        report = load(name, self.facts(self.random.randrange(most // 2, most + 1), allowed), allowed)[2]
        self.script.say(["load", name, compact(report) if self.random.random() < 0.2 else report])

    def session(self):
        names = list(self.script.repository.sessions)
        return self.random.choice(names) if names and self.random.random() < 0.98 else "s9"

    def amending(self):
        """One that amends, most often."""
        names = [name for name, session in self.script.repository.sessions.items() if session.kind == "amend"]
        return self.random.choice(names) if names and self.random.random() < 0.95 else self.session()

    def report(self):
        return "r1" if self.random.random() < 0.9 else self.one_of("r2", "r3")

    def question(self):
        words = [self.session(), self.report()]
        verb = self.one_of("get", "cell", "cell", "page", "page", "declared")
        if verb == "get":
            return [verb, *words, self.known_name()]
        if verb == "cell":
            return [verb, *words, self.known_dims()]
        if verb == "declared":
            return [verb, *words]
        after = self.one_of(None, None, self.name(), self.name())
        limit = Number(str(self.one_of(1, 2, 3, 10, 50, 1000)))
        return [verb, *words, self.random.choice(CONCEPTS), self.one_of(True, True, None, "2023", "2024"), after, limit]

    def amendment(self):
        words = [self.amending(), self.report()]
        verb = self.random.choices(["add", "remove", "declare"], [12, 9, 1])[0]
        if verb == "declare":
            return [verb, *words, self.one_of("consistent", "all", "all", *WORDS)]
        if verb == "remove":
            return [verb, *words, self.known_name()]
        return [verb, *words, self.name(), self.fact()]

    def line(self):
        open_ones = len(self.script.repository.sessions)
        kind = self.random.choices(
            ["open", "commit", "close", "amend", "ask", "load", "export", "bad"],
            [36 if open_ones < 4 else 4, 8, 1, 32, 34, 1, 1, 1],
        )[0]
        if kind == "open" or not open_ones:
            return ["open", f"s{self.random.randrange(8)}", self.one_of("amend", "amend", "amend", "amend", "review")]
        if kind == "load":
            return self.load(self.one_of("r1", "r2", "r3"), 12)
        if kind == "export":
            return ["export", self.one_of("r2", "r3", "r4")]
        if kind == "bad":
            return self.random.choice(BAD)
        if kind in ("commit", "close"):
            return [kind, self.amending() if kind == "commit" else self.session()]
        return self.question() if kind == "ask" else self.amendment()

    def drawn(self):
        while "r1" not in self.script.repository.reports:
            self.load("r1", self.ids)
        for _ in range(self.lines):
            line = self.line()
            if line is not None:
                self.script.say(line)
        return self.script
