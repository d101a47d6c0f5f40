"""Shapes that spread out: over many reports, names and dimensions, and in no order."""
import random

from measuring.lines import INFO, OPENED, commit, fact, load

REPORTS = 500


def small(number):
    """The load of a report with one fact, the first report being number 1."""
    return f'["load","r{number}",{{{INFO % ""},"facts":{{"f":{fact("Name")}}}}}]', f'["loaded",{number}]'


def added(report, name, version):
    """A commit of one fact into a report."""
    yield OPENED
    yield f'["add","s","{report}","{name}",{fact("Name")}]', '["staged"]'
    yield commit(version)


def reports_in_turn(size):
    """So many commits of one fact each, on 500 reports in turn."""
    for number in range(REPORTS):
        yield small(number + 1)
    for number in range(size):
        yield from added(f"r{number % REPORTS + 1}", f"g{number}", REPORTS + number + 1)


def reports(size):
    """So many reports, and a commit into each."""
    for number in range(size):
        yield small(number + 1)
    for number in range(size):
        yield from added(f"r{number + 1}", "g", size + number + 1)


def shuffled(size):
    """A load of so many facts, each in a cell of its own, whose identifiers and cells come in no order."""
    numbers = list(range(size))
    random.Random(size).shuffle(numbers)
    yield load([(f"f{number:06}", f"N{number * 7919 % 1_000_003}") for number in numbers], "none")


def dimensions(size):
    """Two facts that have so many dimensions each, and a reading of their cell."""
    listed = ",".join(f'"ex:D{number:06}":"v"' for number in range(size))
    dims = f'{{"concept":"ex:N"{"," * (size > 0)}{listed}}}'
    its = f'{{"dimensions":{dims},"value":"1"}}'
    yield f'["load","r1",{{{INFO % ""},"facts":{{"f":{its},"g":{its}}}}}]', '["loaded",1]'
    yield '["open","v","review"]', '["opened"]'
    yield f'["cell","v","r1",{dims}]', '["cell","complete",["f","g"]]'


def namespaces(size):
    """A report that binds so many prefixes, with a fact by each, and a commit of as many."""
    spaces = ",".join(f'"p{number}":"http://e.org/{number}"' for number in range(size))
    info = f'"documentInfo":{{"documentType":"https://xbrl.org/2021/xbrl-json","namespaces":{{{spaces}}}}}'
    its = [f'{{"dimensions":{{"concept":"p{number}:N"}},"value":"1"}}' for number in range(size)]
    listed = ",".join(f'"f{number}":{it}' for number, it in enumerate(its))
    yield f'["load","r1",{{{info},"facts":{{{listed}}}}}]', '["loaded",1]'
    yield OPENED
    for number, it in enumerate(its):
        yield f'["add","s","r1","g{number}",{it}]', '["staged"]'
    yield commit(2)


def declared(size):
    """A report of so many facts in half as many cells, whose declared word is changed by twenty commits."""
    yield load([(f"f{number:06}", f"N{number // 2}") for number in range(size)])
    for number in range(20):
        yield OPENED
        yield f'["declare","s","r1","{("complete", "consistent")[number % 2]}"]', '["staged"]'
        yield commit(number + 2)
