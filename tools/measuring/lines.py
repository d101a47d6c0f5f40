"""Lines of scripts with their replies, and the shapes of long scripts that are made of them."""
import json

INFO = '"documentInfo":{"documentType":"https://xbrl.org/2021/xbrl-json","namespaces":{"ex":"http://e.org/t"}%s}'
OPENED = '["open","s","amend"]', '["opened"]'


def fact(concept, value="1"):
    return f'{{"dimensions":{{"concept":"ex:{concept}"}},"value":"{value}"}}'


def load(facts, allowed=None):
    """The load of a report with these facts, of pairs of an identifier and a concept, and with what it allows."""
    listed = ",".join(f'"{name}":{fact(concept)}' for name, concept in facts)
    declared = f',"features":{{"xbrl:allowedDuplicates":"{allowed}"}}' if allowed else ""
    return f'["load","r1",{{{INFO % declared},"facts":{{{listed}}}}}]', '["loaded",1]'


def add(name, concept, session="s"):
    return f'["add","{session}","r1",{json.dumps(name)},{fact(concept)}]', '["staged"]'


def commit(version, session="s"):
    return f'["commit","{session}"]', f'["committed",{version}]'


def staged(size):
    """One session stages so many facts, reads a page of them, and commits."""
    yield load([])
    yield OPENED
    for number in range(size):
        yield add(f"f{number}", f"N{number % 1000}")
    yield '["page","s","r1","ex:N1",null,null,1]', '["page",["f1"],' + ("true" if size > 1001 else "false") + "]"
    yield commit(2)


def sessions(size):
    """So many sessions are open at once; each then reads a fact, adds one, and closes."""
    yield load([("f", "Name")])
    for number in range(size):
        yield f'["open","s{number}","amend"]', '["opened"]'
    for number in range(size):
        yield f'["get","s{number}","r1","f"]', f'["fact",{fact("Name")}]'
        yield add("g", "Name", f"s{number}")
    for number in range(size):
        yield f'["close","s{number}"]', '["closed"]'


def versions(size):
    """So many versions of a report of 1,000 facts are each kept by a review, which at the end reads what it has and has not."""
    yield load([(f"f{number}", f"N{number}") for number in range(1000)])
    for number in range(size):
        yield OPENED
        yield add(f"g{number}", f"M{number}")
        yield commit(number + 2)
        yield f'["open","v{number}","review"]', '["opened"]'
    for number in range(size):
        yield f'["get","v{number}","r1","g{number}"]', f'["fact",{fact(f"M{number}")}]'
        yield f'["get","v{number}","r1","g{number + 1}"]', '["none"]'
        yield f'["close","v{number}"]', '["closed"]'


def lines(size):
    """A script of so many lines: sessions of eight lines over a report of 1,000 facts."""
    yield load([(f"f{number}", f"N{number}") for number in range(1000)])
    for number in range(size // 8):
        at, old = number % 1000, number - 1000 if number >= 1000 else 1
        yield OPENED
        yield f'["get","s","r1","f{at}"]', f'["fact",{fact(f"N{at}", old)}]'
        yield f'["cell","s","r1",{{"concept":"ex:N{at}"}}]', f'["cell","single",["f{at}"]]'
        yield f'["page","s","r1","ex:N{at}",null,null,5]', f'["page",["f{at}"],false]'
        yield f'["remove","s","r1","f{at}"]', '["staged"]'
        yield f'["add","s","r1","f{at}",{fact(f"N{at}", number)}]', '["staged"]'
        yield f'["add","s","r1","f{at}",{fact(f"N{at}")}]', '["taken"]'
        yield commit(number + 2)


def text(size):
    """One line, a load whose one fact has a value of so many bytes."""
    yield f'["load","r1",{{{INFO % ""},"facts":{{"f":{fact("Name", "x" * size)}}}}}]', '["loaded",1]'


def word(size):
    """One line of so many bytes that is no JSON."""
    yield "x" * size, '["bad-line"]'


def arrays(size):
    """One line, which asks for an array of so many empty ones."""
    yield f'["get","s",[{",".join(["[]"] * size)}]]', '["bad-line"]'


def rubbish(size):
    """So many short lines that are no JSON."""
    for _ in range(size):
        yield "x", '["bad-line"]'
