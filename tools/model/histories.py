"""Histories with one change, and what is judged of any."""
from model.repository import Repository, compact, read_json

LAWFUL = '["lawful"]'


def changed(draw, history):
    """A history in which a reply becomes that of another line, or a line is left out, or two lines are swapped."""
    lines, place, other = list(history), draw.randrange(len(history)), draw.randrange(len(history))
    kind = draw.choice(["reply", "left out", "swapped"])
    if kind == "reply":
        lines[place] = compact(read_json(lines[place])[0][:2] + read_json(lines[other])[0][2:])
    elif kind == "left out":
        del lines[place]
    else:
        lines[place], lines[other] = lines[other], lines[place]
    return lines


def verdict(lines, numeric):
    """The verdict on lines that are entries: each has to be what is entered where its step is taken."""
    repository = Repository(numeric)
    for place, line in enumerate(lines):
        session, (verb, *rest), _ = read_json(line)[0]
        repository.line(compact([verb, *rest] if verb == "load" else [verb, compact(session), *rest]))
        if repository.history[place:] != [line]:
            return f'["departs",{place}]'
    return LAWFUL


def amendments(history):
    """The words that were answered to the commits of sessions with changes."""
    staged = set()
    for session, step, reply in (read_json(line)[0] for line in history):
        if reply == ["staged"]:
            staged.add(session.text)
        elif step == ["commit"] and session.text in staged:
            yield reply[0]
