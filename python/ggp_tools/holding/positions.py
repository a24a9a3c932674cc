"""Indexes a state and its moves for queries, and caches the results."""

from collections import defaultdict
from collections.abc import Callable, Iterable, Sequence
from operator import itemgetter

from ggp_tools.kif import grouped

from .reading import Term

State = frozenset[Term]
# An index of rows by their values at some positions.
Rows = dict[object, list[Term]]
NONE = ()


def functor_of(term: Term) -> tuple[str, int]:
    """Returns the functor of a term: its first name and its number of members, which is 0 for an atom."""
    return (term, 0) if isinstance(term, str) else (term[0], len(term))


def index_of(rows: Iterable[Term], places: tuple[int, ...]) -> Rows:
    """Groups rows by their values at the indices `places`: by one value, or by a tuple of several values."""
    return grouped(rows, itemgetter(*places))


class Position:
    """A state, with the moves of a turn if they are known. `rows` has the terms of the state by functor. `fixed` has the cached results
    that are the same in every state."""

    def __init__(self, state: State, pairs: Sequence[tuple[str, Term]], rows: dict[tuple[str, int], list[Term]], ask: Callable, fixed: dict) -> None:
        self.state, self.rows, self.ask, self.indexes = state, rows, ask, {}
        self.tables = defaultdict(dict, fixed)
        self.move(pairs)

    def move(self, pairs: Sequence[tuple[str, Term]]) -> None:
        """Sets the moves, and keeps the cached results that do not depend on moves."""
        self.pairs, self.does = pairs, dict(pairs)

    def index(self, number: int, functor: tuple[str, int], places: tuple[int, ...]) -> Callable:
        """Returns an index of the terms of a functor by their values at these indices."""
        lookup = self.indexes.get(number)
        if lookup is None:
            lookup = self.indexes[number] = index_of(self.rows.get(functor, NONE), places).get
        return lookup


class Whole:
    """All derived rows of relations that depend on themselves."""

    def __init__(self, count: int) -> None:
        self.sets, self.lists, self.indexes = [set() for _ in range(count)], [[] for _ in range(count)], {}
        self.queue, self.keys = [], [[] for _ in range(count)]

    def add(self, number: int, row: Term) -> None:
        if row in self.sets[number]:
            return
        self.sets[number].add(row)
        self.lists[number].append(row)
        self.queue.append((number, row))
        for table, key in self.keys[number]:
            table.setdefault(key(row), []).append(row)

    def index(self, number: int, places: tuple[int, ...]) -> Callable:
        """Returns an index of the rows of a relation. New rows are added to the index."""
        table = self.indexes.get((number, places))
        if table is None:
            table = self.indexes[number, places] = index_of(self.lists[number], places)
            self.keys[number].append((table, itemgetter(*places)))
        return table.get

    def close(self, variants: list[list[Callable]]) -> None:
        """Derives all rows. Each new row is passed to all rules that use it."""
        while self.queue:
            number, row = self.queue.pop()
            for variant in variants[number]:
                variant(self, row)
