"""Shapes of many commits, behind which old sessions look for what they have read."""
from measuring.lines import OPENED, add, commit, fact, load

READ = 20
# Each of these is more than stands by itself.
SIZES = range(17, 117)


def looking(size, sizes):
    """So many sessions that were opened before commits of these sizes; each reads 20 facts, adds one and is committed."""
    yield load([(f"f{number}", f"N{number}") for number in range(READ)])
    for number in range(size):
        yield f'["open","s{number}","amend"]', '["opened"]'
    for number, many in enumerate(sizes):
        yield OPENED
        for at in range(many):
            yield add(f"g{number}-{at}", f"M{at}")
        yield commit(number + 2)
    for number in range(size):
        for at in range(READ):
            yield f'["get","s{number}","r1","f{at}"]', f'["fact",{fact(f"N{at}")}]'
        yield add(f"h{number}", "Name", f"s{number}")
        yield commit(number + len(sizes) + 2, f"s{number}")


def falling(size):
    """Before each commit one that is a little larger."""
    return looking(size, SIZES[::-1])


def rising(size):
    """Before each commit one that is a little smaller."""
    return looking(size, SIZES)
