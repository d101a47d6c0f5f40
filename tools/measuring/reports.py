"""Scripts of reports as filers have them, some 270 bytes a fact: lists of lines with the replies that are due."""
import random

INFO = '{"documentType":"https://xbrl.org/2021/xbrl-json","features":{"xbrl:allowedDuplicates":"consistent"},"namespaces":%s}'
NAMES = (
    '{"ex":"http://e.org/t","iso4217":"http://www.xbrl.org/2003/iso4217","lei":"http://standards.iso.org/iso/17442"}'
)
OPEN = '["open","s","amend"]', '["opened"]'


def fact(number, value=0):
    """A fact of some 270 bytes, each in a cell of its own; every second one is numeric."""
    concept, year, part = number % 200, 2000 + number // 200 % 20, number // 4000
    period = f'"period":"{year}-01-01T00:00:00/{year + 1}-01-01T00:00:00"'
    dims = f'"concept":"ex:Item{concept}","entity":"lei:529900T8BM49AURSDO55","ex:RegionAxis":"ex:Region{part % 50}",'
    dims += f'"ex:SegmentAxis":"ex:Segment{part}"'
    if concept % 2:
        text = f"Disclosure {value} of the reporting entity for the period"
        return f'{{"dimensions":{{{dims},"language":"en",{period}}},"value":"{text}"}}'
    amount = f"{number * 7919 % 10**9}.{value % 100:02}"
    return f'{{"decimals":2,"dimensions":{{{dims},{period},"unit":"iso4217:EUR"}},"value":"{amount}"}}'


def load(count, number=1):
    """The load of a report, the first or a further one."""
    facts = ",".join(f'"f{it:08}":{fact(it)}' for it in range(count))
    return [(f'["load","r{number}",{{"documentInfo":{INFO % NAMES},"facts":{{{facts}}}}}]', f'["loaded",{number}]')]


def amended(version, numbers):
    """A commit in which facts get another value: a removal and an addition each."""
    changed = [OPEN]
    for it in numbers:
        changed.append((f'["remove","s","r1","f{it:08}"]', '["staged"]'))
        changed.append((f'["add","s","r1","f{it:08}",{fact(it, version)}]', '["staged"]'))
    return [*changed, ('["commit","s"]', f'["committed",{version}]')]


def commits(facts, changes, count, first=2):
    draw = random.Random(changes)
    return [it for number in range(count) for it in amended(first + number, draw.sample(range(facts), changes // 2))]


def opened(first, last, used):
    """Sessions that stay open; where they are used, each reads a fact and adds one."""
    for it in range(first, last):
        yield f'["open","s{it}","amend"]', '["opened"]'
        if used:
            yield f'["get","s{it}","r1","f{it % 1000:08}"]', f'["fact",{fact(it % 1000)}]'
            yield f'["add","s{it}","r1","g{it:08}",{fact(10**6 + it)}]', '["staged"]'


def kept(first, last, facts):
    """Commits of two changes, each kept by a review."""
    for it in range(first, last):
        yield from amended(it + 2, [it * 7919 % facts])
        yield f'["open","v{it}","review"]', '["opened"]'


def removed(first, last):
    """Facts with identifiers of their own that come and go, a hundred in a commit."""
    for at in range(first, last, 100):
        yield OPEN
        yield from ((f'["add","s","r1","g{it:08}",{fact(10**6 + it)}]', '["staged"]') for it in range(at, at + 100))
        yield '["commit","s"]', f'["committed",{at // 50 + 2}]'
        yield OPEN
        yield from ((f'["remove","s","r1","g{it:08}"]', '["staged"]') for it in range(at, at + 100))
        yield '["commit","s"]', f'["committed",{at // 50 + 3}]'
