"""Unrolls cycles of sentences that depend on each other without negation, for example connected stones.

Such sentences hold if they can be derived. Round 0 has the sentences that can be derived without the others of the cycle, and round n + 1
those that can be derived from the sentences of round n. In a cycle of k sentences, every derivable sentence is derived by round k - 1,
because a derivation needs no sentence twice. In the last round the sentences keep their names. Sentences that no later round uses are left
out. Two kinds of cycles need fewer rounds:

- A transitive relation with two arguments that is derived only from two halves, `r a c` from `r a b` and `r b c`. Each round doubles the
  length of paths, so the logarithm of the number of terms is enough.
- Sentences that are each derived from one other sentence, under further conditions that are the same whichever sentence this is, for
  example that the cell has a stone. A shortest path has at most two sentences of each clique, because any sentence of a clique can be
  derived directly from any other."""

from collections.abc import Iterator
from operator import attrgetter, itemgetter

from ggp_tools.kif import Expression, Refused, atoms, fresh, grouped, quoted
from ggp_tools.gdl import Literal, Rule, components
from ggp_tools.printable import counted

# The rules of each sentence.
RulesFor = dict[Expression, list[Rule]]
MOST_RULES = 2_000_000
# An error lists at most this many sentences of a cycle.
MOST_NAMED = 6


def circles(rules: list[Rule]) -> list[list[Expression]]:
    """Returns the cycles: sets of sentences that depend on each other, or single sentences that depend on themselves."""
    graph = {}
    for rule in rules:
        graph.setdefault(rule.head, {}).update(dict.fromkeys(literal.atom for literal in rule.body))
    return [component for component in components(graph) if len(component) > 1 or component[0] in graph[component[0]]]


def is_halved(circle: list[Expression], rules_for: RulesFor) -> bool:
    """Returns whether the cycle is one relation with two arguments that is derived only from two halves, and from any two halves. If a rule
    had further conditions, some pairs of halves would have no rule, and paths that avoid these pairs would need more rounds."""
    if any(isinstance(atom, str) or len(atom) != 3 or atom[0] != circle[0][0] for atom in circle):
        return False
    members = set(circle)
    for atom in circle:
        for rule in rules_for[atom]:
            inner = [literal.atom for literal in rule.body if literal.atom in members]
            if inner and atom not in inner and not (len(rule.body) == 2 == len(inner) and halves(atom, *inner)):
                return False
    return has_all_halves(circle, rules_for)


def has_all_halves(circle: list[Expression], rules_for: RulesFor) -> bool:
    """Checks all pairs of sentences of the cycle that are the halves of a third sentence. Returns whether this sentence is always in the
    cycle, and always has a rule that derives it from the two. If not, some paths do not consist of halves."""
    begun, bodies, members = grouped(circle, itemgetter(1)), {}, set(circle)
    for half in circle:
        for other in begun.get(half[2], ()):
            whole = (half[0], half[1], other[2])
            if whole in (half, other):
                continue
            if whole not in bodies:
                bodies[whole] = {frozenset(literal.atom for literal in rule.body) for rule in rules_for.get(whole, ())}
            if whole not in members or frozenset((half, other)) not in bodies[whole]:
                return False
    return True


def halves(whole: Expression, first: Expression, second: Expression) -> bool:
    ends = whole[1], whole[2]
    return any((front[1], back[2]) == ends and front[2] == back[1] for front, back in ((first, second), (second, first)))


def last_round(circle: list[Expression], rules_for: RulesFor) -> int:
    """Returns the number of the last round that may derive a new sentence."""
    if is_halved(circle, rules_for):
        return (len({term for atom in circle for term in atom[1:]}) - 1).bit_length()
    steps = steps_of(circle, rules_for)
    if steps is None:
        return len(circle) - 1
    return sum(min(2, len(clique)) for clique in cliques(circle, steps)) - 1


def steps_of(circle: list[Expression], rules_for: RulesFor) -> dict[Expression, set[Expression]]:
    """Returns, for each sentence, the sentences that it can be derived from. Returns None if a rule uses several sentences of the cycle,
    or if the further conditions are not always the same."""
    members, steps = set(circle), {}
    for atom in circle:
        conditions = {}
        for rule in rules_for[atom]:
            own = inner(rule, members)
            if len(own) > 1:
                return None
            for other in own - {atom}:
                conditions.setdefault(other, set()).add(frozenset(literal for literal in rule.body if literal.atom != other))
        if len(set(map(frozenset, conditions.values()))) > 1:
            return None
        steps[atom] = set(conditions)
    return steps


def cliques(circle: list[Expression], steps: dict[Expression, set[Expression]]) -> list[list[Expression]]:
    """Splits the sentences into sets where each sentence can be derived from every other one."""
    left, cliques_found = dict.fromkeys(circle), []
    while left:
        clique = [next(iter(left))]
        for atom in left:
            if all(atom in steps[other] and other in steps[atom] for other in clique):
                clique.append(atom)
        cliques_found.append(clique)
        for atom in clique:
            del left[atom]
    return cliques_found


def refuse_denial(circle: list[Expression], rules_for: RulesFor) -> None:
    members = set(circle)
    for atom in circle:
        for rule in rules_for[atom]:
            for literal in rule.body:
                if not literal.positive and literal.atom in members:
                    words = f"a cycle: {quoted(atom)} depends on itself through the negation of {quoted(literal.atom)}"
                    if others := [quoted(other) for other in circle if other not in (atom, literal.atom)]:
                        words += f", with {', '.join(others[:MOST_NAMED])}" + (f" and {len(others) - MOST_NAMED:,} more" if len(others) > MOST_NAMED else "")
                    raise Refused(words, rule.sentence, "use `true` to ask for one of these in the previous state")


def alive(circle: list[Expression], rules_for: RulesFor, last: int) -> list[set[Expression]]:
    """Returns, for each round, the sentences that can be derived in it."""
    members, rounds = set(circle), [set()]
    for _ in range(last + 1):
        below = rounds[-1]
        rounds.append({atom for atom in circle if any(inner(rule, members) <= below for rule in rules_for[atom])})
        if rounds[-1] == below:
            rounds += [below] * (last + 2 - len(rounds))
            break
    return rounds[1:]


def inner(rule: Rule, members: set[Expression]) -> set[Expression]:
    """Returns the sentences of a cycle that a rule uses."""
    return {literal.atom for literal in rule.body if literal.atom in members}


def layers(circle: list[Expression], rules_for: RulesFor, last: int, word: str) -> Iterator[Rule]:
    """Yields the rules of all rounds of a cycle. The first rule of a sentence keeps the place of its first original rule, even if that rule is left
    out, because the order of legal moves depends on it."""
    members, lives = set(circle), alive(circle, rules_for, last)

    def named(count: int, atom: Expression) -> Expression:
        return atom if count == last else (word, str(count), atom)

    wanted = lives[last]
    for count in range(last, -1, -1):
        below = lives[count - 1] if count else set()
        asked_below = set()
        for atom in circle:
            place = min(rule.sentence for rule in rules_for[atom]) if count == last else None
            for rule in rules_for[atom] if atom in wanted else ():
                own = inner(rule, members)
                if own <= below and atom not in own:
                    body = tuple(Literal(literal.positive, named(count - 1, literal.atom)) if literal.atom in own else literal for literal in rule.body)
                    yield Rule(rule.sentence if place is None else place, named(count, atom), body)
                    asked_below |= own
                    place = None
        wanted = asked_below


def unrolled(rules: list[Rule]) -> tuple[list[Rule], list[tuple[Expression, int, int]]]:
    """Returns the rules without cycles, and for each cycle a sentence of the cycle, the size of the cycle, and its last round."""
    cycles = circles(rules)
    if not cycles:
        return rules, []
    rules_for = grouped(rules, attrgetter("head"))
    word = fresh("round", {name for rule in rules for name in atoms(rule.head)})
    in_circles = {atom for cycle in cycles for atom in cycle}
    made, summary = [rule for rule in rules if rule.head not in in_circles], []
    for cycle in cycles:
        refuse_denial(cycle, rules_for)
        last = last_round(cycle, rules_for)
        summary.append((cycle[0], len(cycle), last))
        if len(made) + last * sum(len(rules_for[atom]) for atom in cycle) > MOST_RULES:
            why = f"its {last + 1:,} rounds have more than {MOST_RULES:,} rules"
            raise Refused(f"a cycle of {counted(len(cycle), 'sentence')}, such as {quoted(cycle[0])}: {why}")
        made += layers(cycle, rules_for, last, word)
    return made, summary
