"""Whether the replies to scripts in threads are those of some schedule: an order of all lines that keeps each script's own.

The search goes depth first, and leaves a schedule at the first reply that differs. Only loads, openings and commits meet
those of other scripts. Every other line has the same reply wherever its own script has it, so it is taken as soon as it
can be, and no other line in its place.
"""
from itertools import permutations
from typing import NamedTuple

from model.repository import Repository, compact, is_line, read_json, reply_text
from model.script import is_blank

# So many states are looked at.
MOST = 1 << 14
MEETING = {"load", "open", "commit"}
# Replies to these that depend on no other script.
OWN = {'["name-in-use"]', '["no-session"]', '["closed"]'}
BAD_LINE = "null"


class Told(NamedTuple):
    """A line with its reply, and whether it meets those of other scripts."""

    line: str
    reply: str
    meets: bool


class State(NamedTuple):
    """How many lines of each script were taken, at which version each session was opened, and the repository then.

    The first two say what can follow: the replies say which line made which version.
    """

    places: tuple
    opened: frozenset
    repository: Repository


def told(script, text, reply):
    """A line as one script of all lines has it. The number of its script stands before the name of its session."""
    value = read_json(text)
    if value is None or not is_line(value[0]) or value[0][0] == "export":
        return Told(BAD_LINE, reply, False)
    verb, name, *rest = value[0]
    line = text if verb == "load" else compact([verb, f"{script} {name}", *rest])
    return Told(line, reply, verb in MEETING and reply not in OWN)


def told_lines(scripts, replies):
    """The lines of each script with their replies, or none where there are not as many replies as lines."""
    asked = [[line for line in script.split("\n") if not is_blank(line)] for script in scripts]
    *answers, rest = replies.split("\n")
    if rest or len(answers) != sum(map(len, asked)):
        return None
    left = iter(answers)
    return [[told(script, line, next(left)) for line in lines] for script, lines in enumerate(asked)]


def has_reply(repository, line):
    """Takes a line, and says whether it has its own reply."""
    return reply_text(repository.line(line.line)) == line.reply


def next_states(lines, state):
    """What the next line of a script may lead to, where it has its own reply."""
    left = [(script, lines[script][place]) for script, place in enumerate(state.places) if place < len(lines[script])]
    alone = [(script, line) for script, line in left if not line.meets][:1]
    for script, line in alone or left:
        repository = state.repository.twin()
        if has_reply(repository, line):
            places, opened = list(state.places), state.opened
            if line.reply == '["opened"]':
                opened |= {(script, places[script], repository.number)}
            places[script] += 1
            yield State(tuple(places), opened, repository)


def finding(scripts, replies, numeric):
    """What is found of replies: that a schedule explains them, or none, or that too many states were looked at."""
    lines = told_lines(scripts, replies)
    if lines is None:
        return "not explained"
    ends, seen = tuple(map(len, lines)), set()
    states = [State((0,) * len(lines), frozenset(), Repository(numeric))]
    while states:
        state = states.pop()
        if state.places == ends:
            return "explained"
        if state[:2] not in seen:
            if len(seen) == MOST:
                return "undecided"
            seen.add(state[:2])
            states += reversed(list(next_states(lines, state)))
    return "not explained"


def is_of_whole_scripts(scripts, replies, numeric):
    """Whether a schedule explains replies in which scripts are run one after the other."""
    for order in permutations(told_lines(scripts, replies)):
        repository = Repository(numeric)
        if all(has_reply(repository, line) for lines in order for line in lines):
            return True
    return False
