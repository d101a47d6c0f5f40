"""Scripts with their replies, and the reports and facts that they have."""
from model.repository import DOCUMENT_TYPE, FEATURE, MOST_PLACES, Number, Repository, compact, reply_text

NUMERIC = {("http://e.org/t", "Assets")}
SCRIPT_NUMERIC = NUMERIC | {("http://example.com/taxonomy", "Assets"), ("http://example.com/taxonomy", "Margin")}
INFO = {"documentType": DOCUMENT_TYPE, "namespaces": {"ex": "http://e.org/t"}}


def written(number):
    """The numeral of a number of units."""
    whole, places = divmod(abs(number), 10**MOST_PLACES)
    return ("-" if number < 0 else "") + f"{whole}.{places:0{MOST_PLACES}}"


def fact(value, decimals=None, **dims):
    """A fact of a concept as a JSON value."""
    dims = {"concept": "ex:Assets", **{name.replace("_", ":"): text for name, text in dims.items()}}
    accuracy = {} if decimals is None else {"decimals": Number(str(decimals))}
    return {"dimensions": dims, "value": value, **accuracy}


def load(name, facts, allowed="all", info=INFO):
    declared = dict(info, features={FEATURE: allowed})
    return ["load", name, {"documentInfo": declared, "facts": facts}]


def is_blank(line):
    return not line.strip(" \t\r")


class Script:
    """Lines with their replies."""

    def __init__(self, title, numeric=frozenset(SCRIPT_NUMERIC)):
        self.rows, self.repository = ["# " + title], Repository(numeric)

    def say(self, line):
        self.say_text(line if isinstance(line, str) else compact(line))

    def say_text(self, text):
        """Says a line, which is answered where it is not blank."""
        self.rows += [text] if is_blank(text) else [text, "=> " + reply_text(self.repository.line(text))]

    def told(self):
        return self.rows[-1][3:]

    def lines(self):
        """What is said, with blank lines."""
        return [row for row in self.rows[1:] if not row.startswith("=> ")]

    def asked(self):
        """What is answered."""
        return [line for line in self.lines() if not is_blank(line)]

    def replies(self):
        return [row[3:] for row in self.rows if row.startswith("=> ")]

    def whole(self):
        """The rows, with the number of steps behind them."""
        return [*self.rows, f"= {len(self.repository.history)}"]


def expect(script, *told):
    assert script.told() in told, (script.rows[-2:], told)
