"""Writes a GDL text with variables for players. Players' programs may read `base` and `input` in this text."""

from ggp_tools.gdl import Literal, each_of, ways_of
from ggp_tools.instantiating.limits import atoms_of
from ggp_tools.kif import Expression, grouped, head_of, relation, spelled


def text_for_players(sentences: list[Expression], ground_heads: list[Expression]) -> str:
    """Returns one sentence on each line, in canonical text and without `and`. Roles that rules derive become facts, in the order of the
    ground rules. If no sentence mentions `base`, adds a fact for each possible term of a state; if none mentions `input`, adds a fact
    for each possible move. If a sentence mentioned such a relation, the added facts could change the game."""
    mentioned = {relation(atom) for sentence in sentences for atom in atoms_of(sentence)}
    heads = grouped(ground_heads, relation)
    written = [*heads.get(("role", 1), ())]
    written += [plain for sentence in sentences if relation(head_of(sentence)) != ("role", 1) for plain in without_and(sentence)]
    if ("base", 1) not in mentioned:
        terms = [head[1] for head in ground_heads if relation(head) in (("init", 1), ("next", 1))]
        written += [("base", term) for term in dict.fromkeys(terms)]
    if ("input", 2) not in mentioned:
        written += [("input", *head[1:]) for head in dict.fromkeys(heads.get(("legal", 2), ()))]
    return "".join(f"{spelled(expression)}\n" for expression in written)


def without_and(sentence: Expression) -> list[Expression]:
    """Returns equivalent sentences without `and`, which is not part of GDL."""
    if not has_and(sentence):
        return [sentence]
    ways = [ways_of(part) if has_and(part) else [(part,)] for literal in sentence[2:] for part in spliced(literal)]
    return [("<=", sentence[1], *map(as_written, way)) for way in each_of(ways)]


def has_and(expression: Expression) -> bool:
    """Returns whether a sentence or a literal contains `and`."""
    if isinstance(expression, str) or expression[0] not in ("<=", "not", "or", "and"):
        return False
    return expression[0] == "and" or any(map(has_and, expression[1:]))


def spliced(literal: Expression) -> list[Expression]:
    """Returns the members of an `and`, or the literal itself."""
    if literal[0] != "and":
        return [literal]
    return [part for inner in literal[1:] for part in spliced(inner)]


def as_written(literal: Literal | Expression) -> Expression:
    if not isinstance(literal, Literal):
        return literal
    atom = ("distinct", *literal.atom) if literal.same else literal.atom
    return atom if literal.positive != literal.same else ("not", atom)
