"""Checks the limits of the referee, and finds ground rules that the referee refuses, and rules that derive infinitely many sentences."""

import re
from collections import Counter
from collections.abc import Iterator, Sequence

from ggp_tools.kif import MOST_LEVELS, Expression, Refused, arguments_of, fits, head_of, levels, put, quoted, relation, spelled, variables
from ggp_tools.gdl import SECRET, Rule, cited
from ggp_tools.printable import counted

MOST = {"sentences": 8192, "atomic sentences": 16384, "roles": 16, "moves": 4096, "bytes": 1048576, "levels": MOST_LEVELS}
# The limits of ggp_manager --large.
LARGE = {**MOST, "sentences": 262144, "atomic sentences": 262144, "bytes": 16777216}
# The first comment of a ground GDL file that exceeds the usual limits.
LARGE_NOTE = "large = true: this exceeds the usual limits of ggp_manager, which accepts it with --large"
# The longest argument of a command on Linux, without the final NUL byte.
MOST_IN_A_WORD = 131071
# A sentence of the output, with the number of the sentence of the description that it was made from.
Numbered = tuple[int, Expression]
# The name, the value and the limit of a quantity.
Figure = tuple[str, int, int]
GOAL = re.compile(r"0|[1-9][0-9]?|100")
PAST_GOAL = re.compile(r"[1-9][0-9]{2,}")
# Derived terms of a state become `true`, and derived moves become `does`.
TURNED = {("next", 1): ("true", 1), ("init", 1): ("true", 1), ("legal", 2): ("does", 2)}
WITHOUT_HIGH_GOALS = "if a role would have such a goal value at the end, it gets its other goal value; if it has no other, the match has no goal values"


def without_high_goals(rules: list[Rule]) -> tuple[list[Rule], int]:
    """Removes the rules of goals above 100. Returns the rest and the number of these goals."""
    high = {rule.head for rule in rules if is_high(rule.head)}
    for rule in rules:
        for literal in rule.body:
            if is_high(literal.atom):
                raise Refused(f"{quoted(rule.head)} uses {quoted(literal.atom)}, but a goal is a number from 0 to 100", rule.sentence)
    return [rule for rule in rules if rule.head not in high], len(high)


def is_high(atom: Expression) -> bool:
    return relation(atom) == ("goal", 2) and isinstance(atom[2], str) and bool(PAST_GOAL.fullmatch(atom[2])) and not GOAL.fullmatch(atom[2])


def refuse_faults(rules: list[Rule]) -> None:
    """Refuses everything that the referee refuses in rules: invalid goals, roles with conditions, and a game without roles."""
    for rule in rules:
        for atom in rule.atoms():
            if relation(atom)[0] == "goal" and not (isinstance(atom[2], str) and GOAL.fullmatch(atom[2])):
                raise Refused(f"{quoted(atom)} can be derived, but its goal is not a number from 0 to 100", rule.sentence)
        if rule.head == ("role", "random"):
            raise Refused(f"the role `random` {SECRET}", rule.sentence)
        if relation(rule.head)[0] == "role" and rule.body:
            raise Refused(f"{quoted(rule.head)} is not known before the game", rule.sentence, "make it a fact")
    if not any(relation(rule.head)[0] == "role" for rule in rules):
        raise Refused("there is no role", advice="write (role NAME) for each role")


def atoms_of(expression: Expression) -> Iterator[Expression]:
    """Yields the atomic sentences of a sentence or a literal."""
    if isinstance(expression, tuple) and expression[0] in ("<=", "not", "or", "and"):
        for member in expression[1:]:
            yield from atoms_of(member)
    else:
        yield expression


def figures(written: list[Numbered], size: int) -> Iterator[Figure]:
    """Yields each limited quantity: its name, its value, and the usual limit."""
    heads = dict.fromkeys(head_of(sentence) for _, sentence in written)
    moves = Counter(head[1] for head in heads if relation(head) == ("legal", 2))
    roles = [head[1] for head in heads if relation(head) == ("role", 1)]
    yield "sentences", len(written), MOST["sentences"]
    yield "atomic sentences", len({atom for _, sentence in written for atom in atoms_of(sentence)}), MOST["atomic sentences"]
    yield "roles", len(roles), MOST["roles"]
    for role in roles:
        yield f"moves of {quoted(role)}", moves[role], MOST["moves"]
    yield "bytes", size, MOST["bytes"]
    yield "nested lists", max((levels(sentence) for _, sentence in written), default=0), MOST["levels"]


def costs_of(written: list[Numbered], is_bytes: bool) -> Counter[int]:
    """Returns how many bytes or sentences of the output come from each sentence of the description, without factoring."""
    costs = Counter()
    for number, sentence in written:
        costs[number] += len(spelled(sentence)) + 1 if is_bytes else 1
    return costs


def dearest(costs: Counter[int], sentences: Sequence[Expression], lines: Sequence[int], is_bytes: bool) -> list[str]:
    """Cites the three sentences of the description that cost the most."""
    unit = "byte" if is_bytes else "ground sentence"
    return [f"{cited(number, sentences, lines)}: {counted(round(count), unit)}" for number, count in costs.most_common(3)]


def is_endless(rule: Rule) -> bool:
    """Returns whether a rule derives a larger instance from each of its instances: its conditions match its own head with a variable
    replaced by a larger term, and it has no other conditions."""
    asked = [literal for literal in rule.body if literal.positive and not literal.same]
    if not asked or any(literal.same for literal in rule.body):
        return False
    head, values = rule.head, {}
    key = TURNED.get(relation(head), relation(head))
    # The variables of the head get other names, because the conditions belong to the next instance, which has its own variables.
    head = put(head, {name: name + "'" for name in variables(head)})
    for literal in asked:
        if relation(literal.atom) != key or not all(fits(pattern, term, values) for pattern, term in zip(arguments_of(literal.atom), arguments_of(head))):
            return False
    return any(isinstance(term, tuple) and name + "'" in variables(term) for name, term in values.items())
