"""Shapes that read things of one hash.

A session finds what it has read by a hash whose keys the program draws, so that nobody can choose such things. These
have one hash by the toolchain's `FoldHasher`, whose seed is fixed: it takes a text by blocks of 16 bytes, and a block
whose first word is the state leaves 0, whatever its second word is. So texts that differ in such a word alone have one
hash, and no search is needed. By another hasher these are plain texts; they tell whether a hash without keys comes
back.
"""
import itertools
import json

from measuring.lines import OPENED, add, commit, load

SEED, MULTIPLIER, WORD = 0x243F6A8885A308D3, 0x9E3779B97F4A7C15, 2**64 - 1
END = b"\xff"
ONE = (1).to_bytes(8, "little")


def folded(a, b):
    return a * b & WORD ^ a * b >> 64


def number_of(data):
    return int.from_bytes(data, "little")


def short(data):
    """Up to eight bytes as one number."""
    size = len(data)
    if size >= 4:
        return number_of(data[:4]) | number_of(data[-4:]) << 32
    return data[0] | data[size // 2] << 8 | data[-1] << 16 if data else 0


def after(writes, state=SEED):
    """The state of the hasher after these writes."""
    for data in writes:
        size = len(data)
        if size <= 8:
            state = folded(state ^ short(data), MULTIPLIER ^ 2 * size)
            continue
        state = state + size & WORD
        for at in [*range(0, size - 16, 16), size - 16]:
            state = folded(number_of(data[at : at + 8]) ^ state, number_of(data[at + 8 : at + 16]) ^ MULTIPLIER)
    return state


def alike(writes, count):
    """So many texts of 32 bytes or more with one hash after these writes. They begin so that the state is a text."""
    state = after(writes)
    for number in itertools.count():
        start = f"{number:016}".encode()
        block = folded(number_of(start[:8]) ^ state + 32 & WORD, number_of(start[8:]) ^ MULTIPLIER)
        try:
            start = (start + block.to_bytes(8, "little")).decode()
            break
        except UnicodeDecodeError:
            continue
    texts = [f"{start}{it:08}" for it in range(count)]
    assert len({after([*writes, it.encode()]) for it in texts}) <= 1
    return texts


def turned(texts):
    """As many texts of the same bytes, with hashes of their own."""
    return [it[-8:] + it[:-8] for it in texts]


def readings(texts, line, reply):
    """One session reads all of these, adds a fact, and commits."""
    yield load([])
    yield OPENED
    for it in texts:
        yield line % json.dumps(it), reply
    yield add("f", "Name")
    yield commit(2)


def ids(texts):
    return readings(texts, '["get","s","r1",%s]', '["none"]')


def cells(texts):
    return readings(texts, '["cell","s","r1",{"concept":"ex:N","ex:D":%s}]', '["cell","empty",[]]')


def ranges(texts):
    return readings(texts, '["page","s","r1","ex:N",true,%s,1]', '["page",[],false]')


# What is hashed before the text: the kind of the thing, its report, and parts of its own.
OF_IDS = [b"\1", b"r1", END]
OF_CELLS = [b"\2", b"r1", END, (2).to_bytes(8, "little"), b"concept", END, ONE, b"ex:N", END, b"ex:D", END, ONE]
OF_RANGES = [b"\3", b"r1", END, b"ex:N", END, b"\0", ONE]


def hashed_ids(size):
    """One session reads so many identifiers of one hash that are not there."""
    return ids(alike(OF_IDS, size))


def other_ids(size):
    return ids(turned(alike(OF_IDS, size)))


def hashed_cells(size):
    """One session reads so many empty cells of one hash."""
    return cells(alike(OF_CELLS, size))


def other_cells(size):
    return cells(turned(alike(OF_CELLS, size)))


def hashed_ranges(size):
    """One session reads so many empty pages of one hash."""
    return ranges(alike(OF_RANGES, size))


def other_ranges(size):
    return ranges(turned(alike(OF_RANGES, size)))
