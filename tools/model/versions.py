"""Versions that are made one after another, and questions of any of them, as scripts."""
import random

from model.repository import WORDS, Number, read_json
from model.script import Script, load
from model.sessions import CONCEPTS


def facts_in(file):
    """Facts of a file, each on a line behind its name, as JSON values."""
    return [read_json(line.split(" ", 1)[1])[0] for line in file.read_text().splitlines()]


class Versions:
    """A script that makes versions one after another, and asks any of them.

    Each version is asked by a session that opened at it, the older ones as often as the newest. A stamp is asked by a
    commit that has read a thing some versions before: it is told the last version that touched the thing, or passes.
    """

    def __init__(self, known, seed, number, ids):
        self.random, self.ids, self.known = random.Random(f"{seed} {number} versions"), ids, known
        self.script = Script(f"drawn versions {number} of seed {seed}, of {ids} identifiers")
        self.repository, self.views, self.readers = self.script.repository, [], []

    def one_of(self, *all_of_them):
        return self.random.choice(all_of_them)

    def name(self):
        return f"f{self.random.randrange(self.ids):03}"

    def report(self):
        return self.random.choice(["r1"] * 9 + ["r2", "r3", "r4"])

    def fact(self):
        return self.random.choice(self.known)

    def dims(self):
        return self.fact()["dimensions"]

    def range(self):
        """A concept, a period and an identifier, of those that are there or not."""
        period = self.one_of(True, None, "2023", "2024", "2020")
        return [self.one_of(*CONCEPTS, "ex:None"), period, self.name() if self.random.random() < 0.67 else None]

    def view(self):
        """A session opens at the current version, by which it is asked."""
        name = f"v{self.repository.number}"
        self.script.say(["open", name, "review"])
        self.views.append(name)

    def load(self, name, most):
        """A load, of which the report may be refused, and then is loaded where it allows all."""
        facts = {self.name(): self.fact() for _ in range(self.random.randrange(most + 1))}
        for word in (self.random.choice(WORDS), "all"):
            if name not in self.repository.reports:
                self.script.say(load(name, facts, word))
        self.view()

    def edits(self, most):
        """What is put, removed or declared in turn, of reports that are there."""
        edits = []
        for _ in range(1 + self.random.randrange(most)):
            report, at = self.random.choice(sorted(self.repository.reports)), self.name()
            kind = self.random.choices(["put", "remove", "declare"], [7, 4, 1])[0]
            edits.append(
                (
                    kind,
                    report,
                    {"put": (at, self.fact()), "remove": (at,), "declare": (self.random.choice(WORDS),)}[kind],
                )
            )
        return edits

    def stage(self, kind, report, rest):
        there = self.repository.sessions["s"].copy[report]["facts"]
        if kind == "put" and rest[0] in there:
            self.script.say(["remove", "s", report, rest[0]])
        self.script.say(["add" if kind == "put" else kind, "s", report, *rest])

    def change(self, edits):
        """A session makes edits, is asked for what waits, and commits. The report of a cell that is not allowed, if any."""
        self.script.say(["open", "s", "amend"])
        for edit in edits:
            self.stage(*edit)
        report = self.report()
        self.script.say(["get", "s", report, self.name()])
        self.script.say(["cell", "s", report, self.dims()])
        self.script.say(["page", "s", report, *self.range(), Number(self.one_of("1", "10", "1000"))])
        self.script.say(["declared", "s", report])
        self.script.say(["commit", "s"])
        told = read_json(self.script.told())[0]
        return told[1] if told[0] == "disallowed" else None

    def commit(self, most, is_mended):
        """The next version, where each report with a cell that is not allowed comes to allow all; or none."""
        edits = self.edits(most)
        refused = self.change(edits)
        while refused and is_mended:
            edits.append(("declare", refused, ("all",)))
            refused = self.change(edits)
        self.view()

    def read(self, number):
        """A session opens that reads one thing, to be asked later who touched it."""
        name = f"t{number}"
        self.script.say(["open", name, "amend"])
        self.readers.append(name)
        report = self.report()
        kind = self.one_of("get", "get", "cell", "cell", "page", "page", "page", "declared")
        rest = {"get": lambda: [self.name()], "cell": lambda: [self.dims()], "declared": list, "page": self.page}[
            kind
        ]()
        self.script.say([kind, name, report, *rest])

    def page(self):
        return [*self.range(), Number(self.one_of("1", "2", "5", "20", "1000"))]

    def ask(self):
        if self.readers and self.random.random() < 0.4:
            return self.script.say(["commit", self.readers.pop(self.random.randrange(len(self.readers)))])
        kind, name, report = (
            self.one_of("get", "cell", "cell", "page", "page", "declared", "export"),
            self.random.choice(self.views),
            self.report(),
        )
        if kind == "export":
            return self.script.say([kind, report if self.ids < 100 else self.one_of("r2", "r3", "r4")])
        rest = {"get": lambda: [self.name()], "cell": lambda: [self.dims()], "declared": list, "page": self.page}[
            kind
        ]()
        return self.script.say([kind, name, report, *rest])

    def drawn(self, most, is_mended, questions):
        """The script: nine loads and commits, with questions after each commit."""
        self.script.say(["open", "v0", "review"])
        self.views.append("v0")
        self.read(0)
        self.load("r1", self.ids if is_mended else 3)
        if self.ids == 400:
            self.commit(600, is_mended)
        for turn in range(8):
            for number in range(9):
                self.read(9 * turn + number + 1)
            if turn in (1, 4):
                self.load(f"r{2 if turn == 1 else 3}", 3)
            self.commit(most, is_mended)
            for _ in range(questions):
                self.ask()
        for name in self.readers:
            self.script.say(["commit", name])
        return self.script
