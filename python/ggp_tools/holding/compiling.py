"""Compiles rules to Python functions. For each relation, and each set of arguments that a query gives, there is one function.

If a query gives all arguments, the function returns whether the sentence is true. Otherwise it returns the missing arguments of all
answers, without duplicates. Results are cached for each position. Relations that depend on themselves are derived completely, bottom-up
from the facts."""

from collections.abc import Callable, Iterable, Iterator, Sequence

from ggp_tools.kif import Relation, is_variable, quoted, variables

from . import positions
from .planning import Sizes, is_known, is_test
from .positions import Position, State, functor_of
from .reading import DOES, TRUE, Asked, Condition, Either, NotFollowed, Rule, Same, Term, is_built, low, variables_of
from .relations import Relations

# The Python expression for each bound variable.
Bound = dict[str, str]
# Python allows at most twenty nested blocks.
MOST_DEPTH = 12


class GoesRound(NotFollowed):
    """A sentence depends on itself through a negation."""


def tuple_text(members: Iterable[str]) -> str:
    members = list(members)
    return "(" + ", ".join(members) + ("," if len(members) == 1 else "") + ")"


def key_text(members: list[str]) -> str:
    return members[0] if len(members) == 1 else tuple_text(members)


def term_text(term: Term, bound: Bound) -> str:
    """Returns a Python expression for a term whose variables are bound."""
    if isinstance(term, str):
        return bound[term] if term.startswith("?") else repr(term)
    return tuple_text(term_text(part, bound) for part in term)


class Program:
    """The functions of a description. Each is compiled when it is first used."""

    def __init__(self, relations: Relations, sizes: Sizes) -> None:
        self.relations, self.sizes = relations, sizes
        self.made, self.waiting, self.count = {}, [], 0
        self.space = {"NONE": (), "ONE": (0,), "Whole": positions.Whole, "BUSY": object(), "GoesRound": GoesRound, "low": low}

    def function(self, relation: Relation, known: tuple[bool, ...]) -> Callable:
        """Returns the function of a relation for queries that give the arguments in `known`."""
        name = self.name(relation, known)
        while self.waiting:
            waiting, self.waiting = self.waiting, []
            exec(compile("\n".join([make() for make in waiting]), "<rules>", "exec"), self.space)
        return self.space[name]

    def name(self, relation: Relation, known: tuple[bool, ...]) -> str:
        if (relation, known) not in self.made:
            self.made[relation, known] = name = self.fresh("f")
            self.waiting.append(lambda: Asking(self, name, relation, known).source())
        return self.made[relation, known]

    def circle(self, relation: Relation) -> tuple[str, int]:
        """Returns the name of the function that derives the cycle of this relation, and the relation's index in that cycle."""
        circle = self.relations.circles[relation]
        if circle not in self.made:
            self.made[circle] = name = self.fresh("c")
            self.waiting.append(lambda: Circle(self, name, circle).source())
        return self.made[circle], circle.index(relation)

    def fresh(self, letter: str) -> str:
        self.count += 1
        return f"{letter}{self.count}"

    def constant(self, value: object) -> str:
        name = self.fresh("k")
        self.space[name] = value
        return name

    def table(self, key: tuple, is_timely: bool) -> int:
        """Returns the number of a table of results. If `is_timely` is set, the results are valid for one position only, otherwise for all."""
        number = self.relations.tables.setdefault(key, len(self.relations.tables))
        if not is_timely:
            self.relations.fixed.setdefault(number, {})
        return number

    def facts(self, relation: Relation, places: tuple[int, ...] | None) -> str:
        """Returns the name of a table with all facts of a relation. If there are `places`, returns the name of an index of the facts by
        these arguments."""
        key = "facts", relation, places
        if key not in self.made:
            rows = self.relations.facts.get(relation, {})
            value = positions.index_of(rows, places).get if places else rows if places is None else list(rows)
            self.made[key] = self.constant(value)
        return self.made[key]

    def position(self, state: State, pairs: Sequence[tuple[str, Term]], rows: dict) -> Position:
        return positions.Position(state, pairs, rows, self.function, self.relations.fixed)


class Lines:
    """Lines of Python code. `place` is the indentation, and `depth` is the number of nested loops."""

    def __init__(self, program: Program, extra: str = "") -> None:
        self.program, self.lines, self.helpers, self.extra = program, [], [], extra

    def put(self, place: int, text: str) -> None:
        self.lines.append("    " * place + text)

    def fresh(self) -> str:
        return self.program.fresh("v")

    def text(self) -> str:
        return "\n".join([*(line for helper in self.helpers for line in helper), *self.lines]) + "\n"

    # ---- Terms -----------------------------------------------------------------------------------

    def match(self, place: int, pattern: Term, value: str, bound: Bound) -> None:
        """Writes lines that skip the answer if a value does not match the pattern. Binds the variables of the pattern."""
        if is_variable(pattern) and pattern not in bound:
            bound[pattern] = value
        elif is_known(pattern, bound):
            self.put(place, f"if {value} != {term_text(pattern, bound)}: continue")
        else:
            functor = "" if is_variable(pattern[0]) else f" or {value}[0] != {pattern[0]!r}"
            self.put(place, f"if type({value}) is not tuple or len({value}) != {len(pattern)}{functor}: continue")
            for index, member in enumerate(pattern):
                if index or is_variable(member):
                    self.part(place, member, f"{value}[{index}]", bound)

    def part(self, place: int, pattern: Term, value: str, bound: Bound) -> None:
        """Writes lines that match a part of a term. If the part is used more than once, it is assigned to a variable."""
        if not is_known(pattern, bound):
            name = self.fresh()
            self.put(place, f"{name} = {value}")
            value = name
        self.match(place, pattern, value, bound)

    def targets(self, patterns: Sequence[Term], bound: Bound) -> tuple[list[str], list[tuple[Term, str]]]:
        """Returns variables for the parts of an answer, and the patterns that these variables must still match."""
        names, rest = [], []
        for pattern in patterns:
            names.append(self.fresh())
            if is_variable(pattern) and pattern not in bound:
                bound[pattern] = names[-1]
            else:
                rest.append((pattern, names[-1]))
        return names, rest

    # ---- Conditions without unbound variables ----------------------------------------------------

    def test(self, condition: Condition, bound: Bound) -> str:
        """Returns an expression that is true if a condition holds."""
        if isinstance(condition, Either):
            return "(" + " or ".join("(" + (" and ".join(self.test(inner, bound) for inner in way) or "True") + ")" for way in condition.ways) + ")"
        if isinstance(condition, Same):
            left, right = (term_text(argument, bound) for argument in condition.arguments)
            return f"{left} {'==' if condition.positive else '!='} {right}"
        query = self.asked(condition.relation, condition.arguments, bound)
        return query if condition.positive else f"not {query}"

    def cost(self, condition: Condition) -> int:
        """Returns the cost of a test. Tests with lower costs run first."""
        if isinstance(condition, Asked):
            return 3 if condition.relation in self.program.relations.rules else 1
        return 2 if isinstance(condition, Either) else 0

    def texts(self, relation: tuple, arguments: list, bound: dict[str, str]) -> list[str]:
        """Returns expressions for the arguments of a query. If the relation depends on its own negation, terms may grow, so `low` limits their depth."""
        may_grow = relation in self.program.relations.denying
        pairs = [(argument, term_text(argument, bound)) for argument in arguments]
        return [f"low({text})" if may_grow and is_built(argument) else text for argument, text in pairs]

    def asked(self, relation: Relation, arguments: Sequence[Term], bound: Bound) -> str:
        texts = self.texts(relation, arguments, bound)
        if relation == TRUE:
            return f"({texts[0]} in D.state)"
        if relation == DOES:
            return f"(D.does.get({texts[0]}) == {texts[1]})"
        if relation in self.program.relations.circles:
            whole, number = self.whole(relation)
            return f"({tuple_text(texts)} in {whole}.sets[{number}])"
        if relation in self.program.relations.rules:
            return f"{self.program.name(relation, (True,) * len(texts))}({', '.join(['D', *texts])})"
        return f"({tuple_text(texts)} in {self.program.facts(relation, None)})"

    def whole(self, relation: Relation) -> tuple[str, int]:
        """Returns an expression for all derived rows of a cycle, and the relation's index in the cycle."""
        name, number = self.program.circle(relation)
        return ("W" if self.extra == f"W{name}" else f"{name}(D)"), number

    # ---- Conditions that bind variables ----------------------------------------------------------

    def loop(self, place: int, condition: Asked, bound: Bound) -> None:
        """Begins a loop over the answers of a condition."""
        relation, arguments = condition.relation, condition.arguments
        if relation == TRUE:
            self.loop_over_terms(place, arguments[0], bound)
        elif relation == DOES:
            self.loop_over_moves(place, arguments, bound)
        else:
            self.loop_over_answers(place, relation, arguments, bound)

    def loop_over_terms(self, place: int, pattern: Term, bound: Bound) -> None:
        if is_variable(pattern):
            bound[pattern] = self.fresh()
            self.put(place, f"for {bound[pattern]} in D.state:")
            return
        if is_variable(pattern[0]):
            raise NotFollowed(f"{quoted(pattern)} is not a term")
        functor = functor_of(pattern)
        places = tuple(at for at, member in enumerate(pattern) if at and is_known(member, bound))
        rows = f"D.rows.get({functor!r}, NONE)"
        if places:
            key = ("index", functor, places)
            number = self.program.made.setdefault(key, len(self.program.made))
            rows = f"D.index({number}, {functor!r}, {places!r})({key_text([term_text(pattern[at], bound) for at in places])}, NONE)"
        self.loop_over_rows(place, rows, pattern, (0, *places), bound)

    def loop_over_rows(self, place: int, rows: str, patterns: Sequence[Term], known: tuple[int, ...], bound: Bound) -> None:
        """Begins a loop over rows. The parts at the indices `known` are known to match."""
        names, rest = self.targets([pattern for at, pattern in enumerate(patterns) if at not in known], bound)
        left = iter(names)
        self.put(place, f"for {tuple_text('_' if at in known else next(left) for at in range(len(patterns)))} in {rows}:")
        for pattern, name in rest:
            self.match(place + 1, pattern, name, bound)

    def loop_over_moves(self, place: int, arguments: Sequence[Term], bound: Bound) -> None:
        role, move = arguments
        name = self.fresh()
        if is_known(role, bound):
            self.put(place, f"for {name} in (D.does.get({term_text(role, bound)}),):")
            self.put(place + 1, f"if {name} is None: continue")
        else:
            other = self.fresh()
            self.put(place, f"for {other}, {name} in D.pairs:")
            self.match(place + 1, role, other, bound)
        self.match(place + 1, move, name, bound)

    def loop_over_answers(self, place: int, relation: Relation, arguments: Sequence[Term], bound: Bound) -> None:
        known = tuple(at for at, argument in enumerate(arguments) if is_known(argument, bound))
        texts = self.texts(relation, [arguments[at] for at in known], bound)
        relations = self.program.relations
        if relation in relations.circles:
            whole, number = self.whole(relation)
            rows = f"{whole}.index({number}, {known!r})({key_text(texts)}, NONE)" if known else f"{whole}.lists[{number}]"
        elif relation in relations.rules:
            name = self.program.name(relation, tuple(at in known for at in range(len(arguments))))
            free = [argument for at, argument in enumerate(arguments) if at not in known]
            names, rest = self.targets(free, bound)
            self.put(place, f"for {names[0] if len(names) == 1 else tuple_text(names)} in {name}({', '.join(['D', *texts])}):")
            for pattern, name in rest:
                self.match(place + 1, pattern, name, bound)
            return
        else:
            rows = f"{self.program.facts(relation, known)}({key_text(texts)}, NONE)" if known else self.program.facts(relation, ())
        self.loop_over_rows(place, rows, arguments, known, bound)

    # ---- Bodies ----------------------------------------------------------------------------------

    def body(self, place: int, conditions: Iterable[Condition], bound: Bound, finish: "Finish") -> None:
        """Writes the lines that check all conditions in the cheapest order. `finish` writes the lines that run for each way to satisfy them."""
        left, depth = list(conditions), 0
        while True:
            for test in sorted((condition for condition in left if is_test(condition, bound)), key=self.cost):
                self.put(place, f"if not {self.test(test, bound)}: continue")
                left.remove(test)
            if not left:
                finish.write(self, place, bound)
                return
            groups = apart(left, bound)
            if len(groups) > 1:
                self.product(place, groups, bound, finish)
                return
            if depth and not finish.is_test and all(name in bound for name in finish.names):
                self.put(place, f"if {finish.is_written(bound)} or not {self.helper(left, bound, TRUTH)}: continue")
                finish.write(self, place, bound)
                return
            if depth == MOST_DEPTH:
                call = self.helper(left, bound, finish)
                self.put(place, f"if {call}: return True" if finish.is_test else call)
                return
            best = self.least(left, bound)
            left.remove(best)
            self.loop(place, best, bound)
            place, depth = place + 1, depth + 1

    def least(self, conditions: Iterable[Condition], bound: Bound) -> Asked:
        """Returns the condition that has the fewest answers."""
        binding = [condition for condition in conditions if isinstance(condition, Asked) and condition.positive]
        return min(binding, key=lambda condition: self.program.sizes.answers(condition, bound))

    def product(self, place: int, groups: list[list[Condition]], bound: Bound, finish: "Finish") -> None:
        """Writes the lines that check groups of conditions. No two groups share an unbound variable, so each group is checked only once."""
        answers = []
        for group in sorted(groups, key=lambda group: self.program.sizes.answers(self.least(group, bound), bound)):
            own = {name for condition in group for name in variables_of(condition)}
            names = [name for name in finish.names if name in own and name not in bound]
            if not names:
                self.put(place, f"if not {self.helper(group, bound, TRUTH)}: continue")
                continue
            rows = self.fresh()
            self.put(place, f"{rows} = {self.helper(group, bound, Answer(names), '{}')}")
            self.put(place, f"if not {rows}: continue")
            answers.append((names, rows))
        for names, rows in answers:
            bound.update((name, self.fresh()) for name in names)
            self.put(place, f"for {key_text([bound[name] for name in names])} in {rows}:")
            place += 1
        finish.write(self, place, bound)

    def helper(self, left: list[Condition], bound: Bound, finish: "Finish", answers: str = "F") -> str:
        """Returns a call of a new function that checks conditions. Depending on `finish`, the function either returns whether the
        conditions can be satisfied, or adds their answers to the given ones and returns all of them."""
        name, needed = self.program.fresh("h"), {variable for condition in left for variable in variables_of(condition)} | set(finish.names)
        live = {variable: text for variable, text in bound.items() if variable in needed}
        inner, names = Lines(self.program, self.extra), {variable: self.program.fresh("v") for variable in live}
        parameters = ["D", *(["W"] if self.extra else []), *(["F"] if isinstance(finish, Answer) else [])]
        inner.put(0, f"def {name}({', '.join([*parameters, *names.values()])}):")
        inner.put(1, "for _ in ONE:")
        inner.body(2, left, dict(names), finish)
        inner.put(1, "return F" if isinstance(finish, Answer) else "return False")
        self.helpers += [*inner.helpers, inner.lines]
        return f"{name}({', '.join([answers if word == 'F' else word for word in parameters] + list(live.values()))})"


def apart(conditions: Iterable[Condition], bound: Bound) -> list[list[Condition]]:
    """Groups conditions so that different groups have no unbound variables in common."""
    groups = []
    for condition in conditions:
        names, group, others = variables_of(condition).keys() - bound.keys(), [condition], []
        for other_names, other in groups:
            if names & other_names:
                names, group = names | other_names, other + group
            else:
                others.append((other_names, other))
        groups = [*others, (names, group)]
    return [group for _, group in groups]


class Truth:
    """The result is whether there is a way to satisfy all conditions."""

    is_test, names = True, ()

    def write(self, lines: Lines, place: int, bound: Bound) -> None:
        lines.put(place, "return True")


TRUTH = Truth()


class Answer:
    """The result is a set of terms."""

    is_test = False

    def __init__(self, terms: Sequence[Term]) -> None:
        self.terms, self.names = terms, list(variables(terms))

    def key(self, bound: Bound) -> str:
        return key_text([term_text(term, bound) for term in self.terms])

    def is_written(self, bound: Bound) -> str:
        return f"{self.key(bound)} in F"

    def write(self, lines: Lines, place: int, bound: Bound) -> None:
        lines.put(place, f"F[{self.key(bound)}] = None")


class Derived:
    """The result is added to the rows of a relation of a cycle."""

    is_test = False

    def __init__(self, number: int, terms: Sequence[Term]) -> None:
        self.number, self.terms, self.names = number, terms, list(variables(terms))

    def row(self, bound: Bound) -> str:
        return tuple_text(f"low({term_text(term, bound)})" if is_built(term) else term_text(term, bound) for term in self.terms)

    def is_written(self, bound: Bound) -> str:
        return f"{self.row(bound)} in W.sets[{self.number}]"

    def write(self, lines: Lines, place: int, bound: Bound) -> None:
        lines.put(place, f"W.add({self.number}, {self.row(bound)})")


# What to do when all conditions of a body hold.
Finish = Truth | Answer | Derived


class Asking:
    """Writes the function of a relation for queries that give certain arguments."""

    def __init__(self, program: Program, name: str, relation: Relation, known: tuple[bool, ...]) -> None:
        self.program, self.name, self.relation, self.known = program, name, relation, known
        self.parameters = [f"p{at}" for at, is_given in enumerate(known) if is_given]
        self.is_test = all(known)

    def source(self) -> str:
        relations, lines = self.program.relations, Lines(self.program)
        if self.is_plain():
            return "\n".join(self.plain(lines)) + "\n"
        lines.put(0, f"def _{self.name}({', '.join(['D', *([] if self.is_test else ['F']), *self.parameters])}):")
        if self.relation in relations.circles:
            names = tuple(f"?{at}" for at in range(len(self.known)))
            self.put_rule(lines, names, [Asked(True, self.relation, names)])
        else:
            if self.relation in relations.facts:
                self.put_facts(lines)
            for rule in relations.rules.get(self.relation, ()):
                self.put_rule(lines, rule.arguments, rule.body)
        lines.put(1, "return False" if self.is_test else "return F")
        return lines.text() + "\n".join(self.kept()) + "\n"

    def is_plain(self) -> bool:
        """Returns whether the rules have no variables, so that the relation is true if one of several tests holds."""
        relations = self.program.relations
        rules = () if self.known or self.relation in relations.circles or self.relation in relations.denying else relations.rules.get(self.relation, ())
        return bool(rules) and all(is_test(condition, {}) for rule in rules for condition in rule.body)

    def plain(self, lines: Lines) -> Iterator[str]:
        ways = ["True"] * bool(self.program.relations.facts.get(self.relation))
        ways += [" and ".join(lines.test(test, {}) for test in sorted(rule.body, key=lines.cost)) for rule in self.program.relations.rules[self.relation]]
        number = self.program.table((self.relation, self.known), True)
        yield f"def {self.name}(D):"
        yield f"    R = D.tables.get({number})"
        yield f"    if R is None: D.tables[{number}] = R = {' or '.join(ways)}"
        yield "    return R"

    def put_facts(self, lines: Lines) -> None:
        """Writes the lines for the facts of the relation."""
        if self.is_test:
            lines.put(1, f"if {tuple_text(self.parameters)} in {self.program.facts(self.relation, None)}: return True")
            return
        places = tuple(at for at, is_given in enumerate(self.known) if is_given)
        rows = self.program.facts(self.relation, places)
        lines.put(1, f"for R in {f'{rows}({key_text(self.parameters)}, NONE)' if places else rows}:")
        lines.put(2, f"F[{key_text([f'R[{at}]' for at, is_given in enumerate(self.known) if not is_given])}] = None")

    def put_rule(self, lines: Lines, arguments: Sequence[Term], body: tuple[Condition, ...]) -> None:
        """Writes the lines of a rule. The known arguments must match the head of the rule."""
        bound = {}
        lines.put(1, "for _ in ONE:")
        for at, argument in enumerate(arguments):
            if self.known[at]:
                lines.match(2, argument, f"p{at}", bound)
        free = tuple(argument for at, argument in enumerate(arguments) if not self.known[at])
        lines.body(2, body, bound, TRUTH if self.is_test else Answer(free))

    def kept(self) -> Iterator[str]:
        """Yields the lines of the function that caches results."""
        number = self.program.table((self.relation, self.known), self.relation in self.program.relations.timely)
        words, key = ["D", *self.parameters], key_text(self.parameters) if self.parameters else "0"
        yield f"def {self.name}({', '.join(words)}):"
        yield f"    T = D.tables[{number}]"
        yield f"    R = T.get({key})"
        yield "    if R is None:"
        if self.relation in self.program.relations.denying:
            yield f"        T[{key}] = BUSY"
        call = f"_{self.name}({', '.join(words)})" if self.is_test else f"list(_{self.name}({', '.join(['D', '{}', *self.parameters])}))"
        yield f"        T[{key}] = R = {call}"
        if self.relation in self.program.relations.denying:
            why = f"a sentence of `{quoted(self.relation[0])}` depends on itself through a negation"
            yield f"    if R is BUSY: raise GoesRound({why!r})"
        yield "    return R"


class Circle:
    """Writes the function that derives all rows of a cycle of relations."""

    def __init__(self, program: Program, name: str, circle: tuple[Relation, ...]) -> None:
        self.program, self.name, self.circle = program, name, circle

    def source(self) -> str:
        relations, lines = self.program.relations, Lines(self.program, f"W{self.name}")
        variants = [[] for _ in self.circle]
        lines.put(0, f"def _{self.name}(D, W):")
        lines.put(1, "pass")
        for number, relation in enumerate(self.circle):
            for row in relations.facts.get(relation, ()):
                lines.put(1, f"W.add({number}, {tuple_text(term_text(term, {}) for term in row)})")
            for rule in relations.rules[relation]:
                if not self.asked_in(rule.body):
                    lines.put(1, "for _ in ONE:")
                    lines.body(2, rule.body, {}, Derived(number, rule.arguments))
        for number, relation in enumerate(self.circle):
            for rule in relations.rules[relation]:
                for at in self.asked_in(rule.body):
                    self.put_variant(lines, number, rule, at, variants)
        return lines.text() + "\n".join(self.kept(variants)) + "\n"

    def asked_in(self, body: Sequence[Condition]) -> list[int]:
        return [at for at, condition in enumerate(body) if isinstance(condition, Asked) and condition.relation in self.circle]

    def put_variant(self, lines: Lines, number: int, rule: Rule, at: int, variants: list[list[str]]) -> None:
        """Writes a function for one rule. It takes a new row for the condition at this index, and derives everything that follows from the
        row by this rule."""
        name, asked, bound = self.program.fresh("d"), rule.body[at], {}
        variants[self.circle.index(asked.relation)].append(name)
        lines.put(0, f"def {name}(D, W, R):")
        lines.put(1, "for _ in ONE:")
        for place, argument in enumerate(asked.arguments):
            lines.part(2, argument, f"R[{place}]", bound)
        lines.body(2, [*rule.body[:at], *rule.body[at + 1 :]], bound, Derived(number, rule.arguments))

    def kept(self, variants: list[list[str]]) -> Iterator[str]:
        number = self.program.table(self.circle, any(relation in self.program.relations.timely for relation in self.circle))
        lists = ", ".join("[" + ", ".join(f"lambda W, R: {name}(D, W, R)" for name in names) + "]" for names in variants)
        yield f"def {self.name}(D):"
        yield f"    T = D.tables[{number}]"
        yield "    W = T.get(0)"
        yield "    if W is None:"
        yield f"        T[0] = W = Whole({len(self.circle)})"
        yield f"        _{self.name}(D, W)"
        yield f"        W.close([{lists}])"
        yield "    return W"
