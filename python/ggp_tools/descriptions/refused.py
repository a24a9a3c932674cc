"""Explains why the referee refuses a ground GDL file. The referee itself reports the place of only one sentence."""

import itertools
from collections.abc import Iterator

from ggp_tools.instantiating.limits import refuse_faults
from ggp_tools.instantiating.rounds import circles
from ggp_tools.gdl import Relations, Rule, all_rules
from ggp_tools.kif import Expression, Refused, expressions, grouped, place_of, quoted, starts, told

MOST_LISTED, MOST_SHOWN = 8, 80


class Sentences:
    """The sentences of a text, with their places."""

    def __init__(self, text: str) -> None:
        self.text, self.starts, self.sentences = text, starts(text), expressions(text)

    def listed(self, numbers: list[int]) -> str:
        """Cites some of the sentences with these numbers, each with its place."""
        cited = [f"{place_of(self.text, self.starts[number])}: {quoted(self.sentences[number], MOST_SHOWN)}" for number in numbers[:MOST_LISTED]]
        more = [f"and {len(numbers) - MOST_LISTED:,} more"] if len(numbers) > MOST_LISTED else []
        return "; ".join(cited + more)


def roles_named_again(sentences: list[Expression]) -> list[list[int]]:
    """For each role that is named more than once, returns the sentences that name this role."""
    naming = (number for number, sentence in enumerate(sentences) if sentence[:1] == ("role",))
    return [numbers for numbers in grouped(naming, sentences.__getitem__).values() if len(numbers) > 1]


def cycles(rules: list[Rule]) -> Iterator[list[int]]:
    """Yields the sentences of each cycle of dependencies."""
    for circle in circles(rules):
        atoms = set(circle)
        yield sorted({rule.sentence for rule in rules if rule.head in atoms and not atoms.isdisjoint(literal.atom for literal in rule.body)})


def why_refused(text: bytes) -> list[str]:
    """Returns the errors in a ground GDL text: a malformed sentence, or the sentences that conflict."""
    try:
        read = Sentences(text.decode("latin-1"))
        rules = all_rules(read.sentences)
    except Refused as why:
        return [] if why.sentence is None else [told(text.decode("latin-1"), why)]
    if not rules:
        return []
    errors = [f"these name the same role: {read.listed(numbers)}" for numbers in roles_named_again(read.sentences)[:MOST_LISTED]]
    errors += [f"these depend on each other: {read.listed(numbers)}" for numbers in itertools.islice(cycles(rules), MOST_LISTED)]
    try:
        refuse_faults(rules)
        Relations(rules).refuse_dependence()
    except Refused as why:
        errors.append(told(read.text, why))
    return errors
