"""Parses the sentences of a game description into rules without `or` and `and`, and computes the dependencies between relations."""

import itertools
import math
from collections.abc import Callable, Iterable, Iterator, Mapping, Sequence
from typing import NamedTuple

from ggp_tools.kif import DIGITS, Expression, Refused, Relation, applied, atoms, fresh, head_of, quoted, relation, starts, variables
from ggp_tools.printable import shown

# A sentence becomes one rule for each way to satisfy its `or`s. If there are more than FEW_WAYS, each `or` that can be moved into an
# auxiliary relation is moved there first. A sentence with more than MOST_WAYS remaining ways is refused.
FEW_WAYS, MOST_WAYS = 100, 10000

ARITIES = {"role": 1, "init": 1, "true": 1, "next": 1, "does": 2, "legal": 2, "goal": 2, "terminal": None}
# The relations that define the game. Their rules are in the output even if no body uses them.
GAME = ("role", "init", "next", "legal", "goal", "terminal")
# If a relation depends on another indirectly, the error lists the relations on the path between them, in at most this many characters.
MOST_OF_WAY = 400
NO_RELATIONS = ("<=", "not", "or", "distinct", "and")
SECRET = "belongs to GDL-II, for games with chance or hidden information; here each role sees every move"


class Literal(NamedTuple):
    """An atomic sentence or its negation. If `same` is set, `atom` is a pair of terms, and the literal says whether they are equal."""

    positive: bool
    atom: Expression
    same: bool = False


Body = tuple[Literal, ...]


class Rule(NamedTuple):
    """A rule without `or`: one way to satisfy the `or`s of a sentence."""

    sentence: int
    head: Expression
    body: Body

    def atoms(self) -> tuple[Expression, ...]:
        """Returns the head and the atomic sentences of the body."""
        return (self.head, *(literal.atom for literal in self.body))


def as_read(expression: Expression) -> Expression:
    """Replaces the list `(terminal)`, which some descriptions use, with the atom `terminal`."""
    if isinstance(expression, str):
        return expression
    if expression == ("terminal",):
        return "terminal"
    if expression[:1] in (("<=",), ("not",), ("or",), ("and",)):
        return (expression[0], *map(as_read, expression[1:]))
    return expression


def must_be_term(expression: Expression) -> None:
    if isinstance(expression, tuple):
        if not expression or not isinstance(expression[0], str) or expression[0].startswith("?"):
            raise Refused(f"{quoted(expression)} is not a term")
        for member in expression[1:]:
            must_be_term(member)


def form(name: str, count: int | None) -> str:
    """Returns the form of an atomic sentence with this name and this number of arguments."""
    return name if count is None else f"({' '.join([name] + ['_'] * count)})"


def form_of(name: str) -> str:
    """Returns the form of a GDL sentence or condition with this name, or an empty text if it has several forms."""
    if name in ARITIES:
        return form(name, ARITIES[name])
    return {"not": "(not _)", "distinct": "(distinct _ _)", "or": "(or _ ..) in the body of a rule", "<=": "(<= _ ..) as a whole sentence"}.get(name, "")


def must_be_atomic(atom: Expression, is_head: bool) -> None:
    """Refuses an atom that is not an atomic sentence, or that is not allowed in a head or in a body."""
    if isinstance(atom, str) and atom.startswith("?"):
        raise Refused(f"{quoted(atom)} is not a sentence", advice="a variable is allowed only in the arguments of a sentence")
    must_be_term(atom)
    name, arity = relation(atom)
    if is_head and (name, arity) in (("sees", 2), ("sees", 3)):
        raise Refused(f"`sees` {SECRET}")
    if is_head and atom == ("role", "random"):
        raise Refused(f"the role `random` {SECRET}")
    if name in NO_RELATIONS or ARITIES.get(name, arity) != arity:
        form = form_of(name)
        raise Refused(f"{quoted(atom)} is not a sentence", advice=f"write {form}" if form else "")
    if is_head and name in ("true", "does"):
        advice = "`next` and `init` say what is true in a state" if name == "true" else "`legal` says which moves there are"
        raise Refused(f"{quoted(atom)} can't be a head", advice=advice)
    if not is_head and name in ("init", "next"):
        raise Refused(f"{quoted(atom)} can't be in a body", advice="use `true` for what is true in the state")


def must_be_literal(literal: Expression) -> None:
    match literal:
        case ("not", inner):
            must_be_literal(inner)
        case ("or" | "and", _, *_):
            for inner in literal[1:]:
                must_be_literal(inner)
        case ("distinct", left, right):
            must_be_term(left)
            must_be_term(right)
        case _:
            must_be_atomic(literal, False)


def each_of(ways: list[list[Body]]) -> list[Body]:
    """Returns the ways to satisfy several conditions together. `ways` has, for each condition, the list of the ways to satisfy it."""
    if math.prod(map(len, ways)) > MOST_WAYS:
        raise Refused(f"its `or`s can be satisfied in more than {MOST_WAYS:,} ways", advice="move some of them into a relation with its own rules")
    return [tuple(itertools.chain(*way)) for way in itertools.product(*ways)]


def ways_of(literal: Expression, positive: bool = True) -> list[Body]:
    """Returns the ways to satisfy a literal, or, if `positive` is false, its negation. Each way is a list of literals."""
    match literal:
        case ("not", inner):
            return ways_of(inner, not positive)
        case ("or" | "and", *inners):
            ways = [ways_of(inner, positive) for inner in inners]
            return each_of(ways) if (literal[0] == "and") == positive else list(itertools.chain(*ways))
        case ("distinct", left, right):
            return [(Literal(not positive, (left, right), True),)]
    return [(Literal(positive, literal),)]


def bound_by(body: Body) -> set[str]:
    """Returns the variables of a body that occur in sentences that are not negated."""
    return {name for literal in body if literal.positive and not literal.same for name in variables(literal.atom)}


def must_be_safe(rule: Rule) -> None:
    """Refuses a rule with a variable that no sentence of its body binds."""
    bound = bound_by(rule.body)
    for name in variables(rule.atoms()):
        if name not in bound:
            advice = f"add a condition with {quoted(name)} that is not negated"
            raise Refused(f"{quoted(name)} is unsafe: no positive sentence of the body contains it", advice=advice)


def parted(sentence: Expression) -> tuple[Expression, Expression]:
    """Splits a sentence into its head and its body. Refuses an invalid sentence."""
    if sentence == ("<=",):
        raise Refused("a rule without a head", advice=f"write {form_of('<=')}")
    head, body = head_of(sentence), sentence[2:] if sentence[:1] == ("<=",) else ()
    must_be_atomic(head, True)
    for literal in body:
        must_be_literal(literal)
    return head, body


def rules_of(number: int, sentence: Expression, names: Iterator[str]) -> list[Rule]:
    """Returns the rules of one sentence. If there are too many ways to satisfy its `or`s, each `or` that can be moved into an auxiliary
    relation is moved there. `names` has the names of these relations."""
    head, body = parted(sentence)
    ways, rules = [ways_of(literal) for literal in body], []
    if math.prod(map(len, ways)) > FEW_WAYS:
        for place, alternatives in enumerate(ways):
            bound = dict.fromkeys(name for way in alternatives for literal in way for name in variables(literal.atom))
            if len(alternatives) > 1 and all(bound.keys() <= bound_by(way) for way in alternatives):
                word = next(names)
                part = applied(word, bound)
                rules += [Rule(number, part, way) for way in alternatives]
                ways[place] = [(Literal(True, part),)]
    rules += [Rule(number, head, way) for way in each_of(ways)]
    for rule in rules:
        must_be_safe(rule)
    return rules


def lines_of(text: str) -> list[int]:
    """Returns the line where each sentence of a text begins, counted from 1."""
    counts = (text.count("\n", last, index) for last, index in itertools.pairwise([0, *starts(text)]))
    return [1 + count for count in itertools.accumulate(counts)]


def cited(number: int, sentences: Sequence[Expression], lines: Sequence[int] = ()) -> str:
    """Formats a sentence for error messages. If `lines` are given, the text includes the sentence's line."""
    where = f", line {lines[number]}: " if lines else ", "
    return f"sentence {number}{where}{quoted(sentences[number])}"


def all_rules(sentences: Sequence[Expression], of_one: Callable = rules_of) -> list:
    """Returns the rules of all sentences. If a sentence is refused, the exception has the sentence's number."""
    word = fresh("either", set(atoms(tuple(sentences))), DIGITS)
    rules, names = [], (f"{word}{count}" for count in itertools.count(1))
    for number, sentence in enumerate(sentences):
        try:
            rules += of_one(number, as_read(sentence), names)
        except Refused as why:
            raise Refused(str(why), number, why.advice) from None
    return rules


def refuse_dependence(asks: Mapping[Relation, Iterable[Relation]], source: Callable[[Relation, Relation], int]) -> None:
    """Refuses the dependencies that the referee refuses: `legal`, `goal` and `terminal` must not depend on moves, and `role` and `init`
    must not depend on a state or moves. `source` returns the sentence where one relation uses another."""
    moving, fixed = "let `next` record what the moves did, and read that with `true`", "it must be known before the first state"
    first = [("init", ["true", "does"], fixed), ("role", ["true", "does"], fixed)]
    for name, others, advice in [("legal", ["does"], moving), ("goal", ["does"], moving), ("terminal", ["does"], moving), *first]:
        for other in others:
            if way := way_to((name, ARITIES[name]), (other, ARITIES[other]), asks):
                by = f", through {shown(', '.join(quoted(key[0]) for key in way[1:-1]), MOST_OF_WAY)}" if len(way) > 2 else ""
                raise Refused(f"{name} depends on {other}{by}", source(way[-2], way[-1]), advice)


def way_to(head: Relation, last: Relation, asks: Mapping[Relation, Iterable[Relation]]) -> list[Relation]:
    """Returns a shortest path of dependencies from one relation to another, or an empty list if there is none."""
    before: dict[Relation, Relation | None] = {head: None}
    queue = [head]
    for key in queue:
        others = asks.get(key, ())
        if last in others:
            way = [last]
            while key is not None:
                way.append(key)
                key = before[key]
            return way[::-1]
        for asked in sorted(others, key=str):
            if asked not in before:
                before[asked] = key
                queue.append(asked)
    return []


def reached(asks: Mapping[Relation, Iterable[Relation]], relations: Iterable[Relation]) -> set[Relation]:
    """Returns all relations that `relations` depend on, directly or indirectly. `asks` has the direct dependencies."""
    result, left = set(), list(relations)
    while left:
        for asked in asks.get(left.pop(), ()):
            if asked not in result:
                result.add(asked)
                left.append(asked)
    return result


def components(graph: Mapping[Expression, Iterable[Expression]]) -> list[list[Expression]]:
    """Returns the strongly connected components of a graph, each as a list. Each component comes after the components that it has
    edges to."""
    # Tarjan's algorithm without recursion. The index of a node is its position on the stack. Nodes of finished components have a higher
    # index.
    lows, stack, components_found = {}, [], []
    for start in graph:
        open_nodes = [] if start in lows else [(start, iter(graph[start]), len(stack))]
        while open_nodes:
            node, others, index = open_nodes[-1]
            if node not in lows:
                lows[node] = index
                stack.append(node)
            other = next((other for other in others if other in graph and other not in lows), None)
            if other is not None:
                open_nodes.append((other, iter(graph[other]), len(stack)))
                continue
            open_nodes.pop()
            lows[node] = min([index, *(lows[other] for other in graph[node] if other in graph)])
            if lows[node] == index:
                components_found.append(stack[index:])
                lows.update(dict.fromkeys(stack[index:], len(graph)))
                del stack[index:]
    return components_found


class Relations:
    """The dependencies between the relations of a description. A relation is a name with a number of arguments."""

    def __init__(self, rules: list[Rule]) -> None:
        self.asks, self.denies, self.sources = {}, {}, {}
        for rule in rules:
            for literal in rule.body:
                if not literal.same:
                    head, asked = relation(rule.head), relation(literal.atom)
                    self.asks.setdefault(head, set()).add(asked)
                    self.sources.setdefault((head, asked), rule.sentence)
                    if not literal.positive:
                        self.denies.setdefault(head, set()).add(asked)
        groups = components(self.asks)
        # Relations that depend on each other have the same number.
        self.group = {relation: number for number, group in enumerate(groups) for relation in group}
        self.circular = {relation for group in groups for relation in group if len(group) > 1 or relation in self.asks[relation]}

    def unsettled(self) -> set[Relation]:
        """Returns the relations that the grounder cannot evaluate, because they depend on the state, on moves, or on their own negation."""
        first = {("true", 1), ("does", 2)}
        first |= {head for head, denied in self.denies.items() for other in denied if self.group.get(other) == self.group[head]}
        asked_by = {}
        for head, others in self.asks.items():
            for other in others:
                asked_by.setdefault(other, []).append(head)
        return first | reached(asked_by, first)

    def bearing(self) -> set[Relation]:
        """Returns the relations that define the game, and all relations that those relations depend on."""
        own = [(name, ARITIES[name]) for name in GAME]
        return {*own, ("true", 1), ("does", 2), *reached(self.asks, own)}

    def refuse_dependence(self) -> None:
        refuse_dependence(self.asks, lambda head, asked: self.sources[head, asked])
