"""Drawn shapes: reports, cells, orders, commits, readings and reviews, as they come. No commit is refused in any of them."""
import random
from typing import NamedTuple

from measuring.lines import add, commit, fact, load

SIZE = 4_000


class Plan(NamedTuple):
    loaded: str  # no facts, a thousand, or as many as are changed
    cells: str  # how many cells the facts are in
    layout: str  # how neighbours by identifier lie in cells
    order: str  # the order of identifiers in which facts are changed
    change: str  # facts are added, or take the place of loaded ones in their cells
    group: int  # changes of a commit, 0 where one commit has all
    allowed: str  # duplicates that the report declares
    reading: str  # what is read before each change
    sessions: str  # one after another, or all open at once
    review: str  # a review that is open all the while, or one after each commit

    def title(self):
        return ", ".join(f"{name} {it}" for name, it in self._asdict().items())

    def script(self, size):
        count = {"1": 1, "2": 2, "7": 7, "each": size}[self.cells]
        cell_of = list(range(size)) if self.layout != "blocks" else [it * count // size for it in range(size)]
        if self.layout == "drawn":
            random.Random(size).shuffle(cell_of)
        concepts = [f"N{it % count}" for it in cell_of]
        loaded = {"none": 0, "1000": min(1000, size), "all": size}[self.loaded]
        yield load([(f"f{it:06}", concepts[it]) for it in range(loaded)], self.allowed)
        return (yield from self.amendments(self.numbers(size), concepts))

    def numbers(self, size):
        numbers = list(range(size))
        if self.order == "falling":
            numbers.reverse()
        if self.order == "drawn":
            random.Random(-size).shuffle(numbers)
        return numbers

    def amendments(self, numbers, concepts):
        group = self.group or len(numbers) or 1
        parts = [numbers[at : at + group] for at in range(0, len(numbers), group)]
        at_once = self.sessions == "at once"
        if self.review == "one":
            yield '["open","v","review"]', '["opened"]'
        if at_once:
            for part in range(len(parts)):
                yield f'["open","s{part}","amend"]', '["opened"]'
            for part, its in enumerate(parts):
                yield from self.changes(f"s{part}", its, concepts)
        for part, its in enumerate(parts):
            if not at_once:
                yield f'["open","s{part}","amend"]', '["opened"]'
                yield from self.changes(f"s{part}", its, concepts)
            yield commit(part + 2, f"s{part}")
            if self.review == "each":
                yield f'["open","v{part}","review"]', '["opened"]'
        if self.review == "one":
            yield '["get","v","r1","g000000"]', '["none"]'

    def changes(self, session, numbers, concepts):
        for number in numbers:
            yield from self.read(session, number, concepts)
            if self.change == "replace":
                yield f'["remove","{session}","r1","f{number:06}"]', '["staged"]'
            # Where no duplicates are allowed, an added fact has a cell of its own.
            concept = f"M{number}" if self.allowed == "none" and self.change == "add" else concepts[number]
            yield add(f"g{number:06}", concept, session)

    def read(self, session, number, concepts):
        if self.reading == "absent":
            yield f'["get","{session}","r1","h{number:06}"]', '["none"]'
        if self.reading == "present":
            found = f'["fact",{fact(concepts[number])}]' if self.loaded == "all" else '["none"]'
            yield f'["get","{session}","r1","{"f" if self.loaded == "all" else "h"}{number:06}"]', found
        if self.reading == "cell":
            yield f'["cell","{session}","r1",{{"concept":"ex:C{number}"}}]', '["cell","empty",[]]'
        if self.reading == "page":
            yield f'["page","{session}","r1","ex:Empty",true,"h{number:06}",5]', '["page",[],false]'


def plan(draw):
    change = draw.choice(["add", "replace"])
    cells = draw.choice(["1", "2", "7", "each"])
    alone = cells == "each"
    return Plan(
        loaded="all" if change == "replace" else draw.choice(["none", "1000", "all"]),
        cells=cells,
        layout=draw.choice(["in turn", "blocks", "drawn"]),
        order=draw.choice(["rising", "falling", "drawn"]),
        change=change,
        group=draw.choice([0, 1, 4, 64]),
        allowed=draw.choice(["complete", "consistent", "all"] + ["none"] * alone),
        reading=draw.choice(["none", "absent", "present", "cell", "page"]),
        sessions=draw.choice(["in turn", "at once"]),
        review=draw.choice(["none", "one", "each"]),
    )


def shapes(seed, count):
    """So many drawn plans of this seed, each with its name."""
    for number in range(count):
        yield f"drawn {seed}.{number}", plan(random.Random(f"{seed} {number}"))
