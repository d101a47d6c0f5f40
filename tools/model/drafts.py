"""Scripts that are put together of lines of each kind, with few names of sessions, so that sessions meet."""
import random

from model.lines import SESSION
from model.repository import compact
from model.script import SCRIPT_NUMERIC, Script

NAMES = ["s1", "s2", "s 3", '"\u00e9\\']
LINE_NUMERIC = SCRIPT_NUMERIC | {("http://e.org/t", "Cash")}


def by_kind(rows):
    """Lines by their kinds, of rows that have each behind its kind and a space."""
    kinds = {}
    for row in rows:
        kind, line = row.decode(errors="surrogateescape").split(" ", 1)
        kinds.setdefault(kind, []).append(line)
    return kinds


class Draft:
    """A script that is drawn of lines by their kinds: of a large report, or of small ones."""

    def __init__(self, kinds, seed, number, is_large):
        self.random, self.kinds, self.is_large = random.Random(f"{seed} {number} draft"), kinds, is_large
        large = "a large report" if is_large else "small reports"
        self.script = Script(f"draft {number} of seed {seed}, of {large}", LINE_NUMERIC)
        self.sessions = self.script.repository.sessions

    def name(self, is_open):
        """The name of a session that is open, or that is not; now and then any."""
        names = [name for name in NAMES if (name in self.sessions) == is_open]
        return self.random.choice(names if names and self.random.random() < 0.96 else NAMES)

    def asked(self, name):
        return len(self.sessions[name].calls) if name in self.sessions else 0

    def name_for(self, kind):
        """The name of which a line of a kind is: of those that end, mostly one of which much was asked."""
        names = [self.name(kind != "open") for _ in range(2 if kind == "end" else 1)]
        return max(names, key=self.asked)

    def put(self, kind, count=1):
        for _ in range(count):
            line = self.random.choice(self.kinds[kind]).replace(SESSION, compact(self.name_for(kind)))
            self.script.say_text(line + ("\r" if self.random.random() < 0.06 else ""))

    def next_kind(self):
        if len(self.sessions) < 3 and self.random.random() < 0.5:
            return "open"
        asking = "large" if self.is_large else "ask"
        return self.random.choices(["open", "end", "load", "apart", asking], [6, 6, 2, 3, 47])[0]

    def drawn(self):
        """Loads, openings, lines of all kinds, and ends of sessions that are still open."""
        self.put("largeload", int(self.is_large))
        self.put("first", 3)
        self.put("load", self.random.randrange(3))
        self.put("open", self.random.randrange(5))
        for _ in range(100 if self.is_large else self.random.randrange(22, 55)):
            self.put(self.next_kind())
        self.put("end", self.random.randrange(2, 5))
        return self.script

    def drawn_to_meet(self):
        """A script for a thread: a load, openings, some lines, most of which ask, and ends of sessions."""
        self.put("first")
        self.put("open", 2)
        for _ in range(self.random.randrange(3, 8)):
            self.put(*self.random.choices(["open", "end", "apart", "ask"], [1, 2, 1, 8]))
        self.put("end", 2)
        return self.script
