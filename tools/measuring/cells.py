"""Shapes with many duplicates. Where a report allows `complete` alone, those of a new fact are looked at."""
from measuring.lines import OPENED, add, commit, load

CROWD = 10_000


def cell(size):
    """A cell of so many facts is amended 200 times."""
    yield load([(f"f{number:06}", "Name") for number in range(size)])
    for number in range(200):
        yield OPENED
        yield add(f"g{number}", "Name")
        yield commit(number + 2)


def commits(size, concepts):
    """So many commits of one fact each, of the concepts in turn, on a report that has a cell of 10,000 duplicates."""
    yield load([(f"f{number:06}", "Crowd") for number in range(CROWD)], "complete")
    for number in range(size):
        yield OPENED
        yield add(f"g{number}", concepts(number))
        yield commit(number + 2)


def crowded(size):
    """So many commits of one fact into a cell of 10,000 duplicates."""
    return commits(size, lambda number: "Crowd")


def alone(size):
    """As many commits of one fact into an empty cell each."""
    return commits(size, "N{}".format)


def growing(size):
    """So many commits of one fact, all into one cell, which is empty before."""
    yield load([], "complete")
    for number in range(size):
        yield OPENED
        yield add(f"g{number}", "Crowd")
        yield commit(number + 2)


def two_cells(size, cell_of):
    """Two cells of so many duplicates, and a commit that adds as many facts in the end."""
    yield load([(f"f{number:06}", f"Crowd{number % 2}") for number in range(size)], "complete")
    yield OPENED
    for number in range(size):
        yield add(f"g{number:06}", f"Crowd{cell_of(number)}")
    yield commit(2)


def alternating(size):
    """One commit of so many facts that by their identifiers alternate between two cells, of half as many duplicates each."""
    return two_cells(size, lambda number: number % 2)


def blocks(size):
    """The same, where the facts of one cell come before those of the other."""
    return two_cells(size, lambda number: number * 2 // size)
