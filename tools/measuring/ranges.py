"""Shapes that read pages, of facts that are there, that were, and that only the session has; and sessions that meet."""
from measuring.lines import OPENED, add, commit, fact, load

PAGE = 20


def name(number):
    return f"f{number:06}"


def page_of(session, after, limit, found, more):
    """A page of the concept Name behind a number, with what it has."""
    behind = f'"{name(after)}"' if after is not None else "null"
    listed = ",".join(f'"{it}"' for it in found)
    return (
        f'["page","{session}","r1","ex:Name",true,{behind},{limit}]',
        f'["page",[{listed}],{"true" if more else "false"}]',
    )


def walked(size):
    """A review walks through so many facts of one concept, twenty a page."""
    yield load([(name(number), "Name") for number in range(size)])
    yield '["open","v","review"]', '["opened"]'
    for first in range(0, size, PAGE):
        found = range(first, min(first + PAGE, size))
        yield page_of("v", first - 1 if first else None, PAGE, map(name, found), first + PAGE < size)


def own_pages(size):
    """A session adds so many facts of one concept, and reads a page of them after each."""
    yield load([])
    yield OPENED
    for number in range(size):
        yield add(name(number), "Name")
        yield page_of("s", None, 5, map(name, range(min(number + 1, 5))), number >= 5)
    yield commit(2)


def emptied(size):
    """A session removes so many facts of a concept, the first first, and after each reads a page of those left."""
    yield load([(name(number), "Name") for number in range(size)])
    yield OPENED
    for number in range(size):
        yield f'["remove","s","r1","{name(number)}"]', '["staged"]'
        yield page_of("s", None, 5, map(name, range(number + 1, min(number + 6, size))), number + 6 < size)
    yield commit(2)


def gone(size):
    """So many facts of one concept were removed; then as many commits each read the page where they were."""
    yield load([(name(number), "Name") for number in range(size)])
    yield OPENED
    for number in range(size):
        yield f'["remove","s","r1","{name(number)}"]', '["staged"]'
    yield commit(2)
    for number in range(size):
        yield OPENED
        yield page_of("s", None, 5, [], False)
        yield add(f"g{number}", "Other")
        yield commit(number + 3)


def met(size):
    """So many sessions that are open at once read one fact; a commit changes it, and all others are refused."""
    yield load([("f", "Name")])
    for number in range(size):
        yield f'["open","s{number}","amend"]', '["opened"]'
        yield f'["get","s{number}","r1","f"]', f'["fact",{fact("Name")}]'
        yield add("g", "Name", f"s{number}")
    yield OPENED
    yield '["remove","s","r1","f"]', '["staged"]'
    yield commit(2)
    for number in range(size):
        yield f'["commit","s{number}"]', '["conflict",2,["id","r1","f"]]'


def overtaken(size):
    """A session reads so many facts; as many commits of others come before its own."""
    yield load([(name(number), "Name") for number in range(size)])
    yield '["open","a","amend"]', '["opened"]'
    for number in range(size):
        yield f'["get","a","r1","{name(number)}"]', f'["fact",{fact("Name")}]'
    for number in range(size):
        yield OPENED
        yield add(f"g{number}", "Other")
        yield commit(number + 2)
    yield add("h", "Other", "a")
    yield commit(size + 2, "a")
