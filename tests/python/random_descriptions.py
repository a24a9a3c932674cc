"""Random small GDL texts with variables. Each has facts, recursive relations, states with nested terms, moves, and nested negations and
`or`s. Each description is grounded in four forms, which must describe the same game. Three matches are played with one form. With the other
forms, the same answers must give the same records. Each record is checked against the description."""

import random

from ggp_tools.holding.following import Following
from ggp_tools.holding.game import Game
from ggp_tools.instantiating import making
from ggp_tools.kif import Expression, Refused, applied, spelled
from ground_matches import differs, instantiated, played, played_again

FORMS = [(how, is_split) for how in (making.NEVER, making.ALWAYS) for is_split in (False, True)]
MATCHES, MOST_TURNS = 3, 12
CONSTANTS = ("0", "1", "a")
ROLES = ("ann", "bob", "cid")
# The kinds of arguments: constants, lists with constants, roles, and moves.
PLAIN, AROUND, ROLE, MOVE = range(4)
# The facts, terms of the state and moves, with the kinds of their arguments.
FACTS = {"e": (PLAIN, PLAIN), "c": (PLAIN,), "h": (PLAIN, AROUND)}
TERMS = {"s": (), "u": (), "p": (PLAIN,), "q": (PLAIN, PLAIN), "k": (AROUND,), "of": (ROLE, PLAIN), "did": (ROLE, MOVE)}
MOVES = {"noop": (), "m": (PLAIN,), "n": (PLAIN, PLAIN), "j": (AROUND,)}
Kinds = tuple[int, ...]


class Body:
    """The literals of a rule so far, and the variables of each kind that they bind."""

    def __init__(self, dice: random.Random) -> None:
        self.dice, self.literals, self.bound = dice, [], {kind: [] for kind in (PLAIN, AROUND, ROLE, MOVE)}

    def constant(self, kind: int, roles: tuple[str, ...]) -> Expression:
        if kind == PLAIN:
            return self.dice.choice(CONSTANTS)
        if kind == AROUND:
            return ("g", self.term(PLAIN, roles))
        if kind == ROLE:
            return self.dice.choice(roles)
        name = self.dice.choice(list(MOVES))
        return applied(name, [self.term(place, roles) for place in MOVES[name]])

    def term(self, kind: int, roles: tuple[str, ...]) -> Expression:
        """Returns a term whose variables are bound."""
        return self.dice.choice(self.bound[kind]) if self.bound[kind] and self.dice.random() < 0.9 else self.constant(kind, roles)

    def asked(self, source: "Source", roles: tuple[str, ...]) -> Expression:
        """Returns a sentence of a relation; the sentence may bind further variables."""
        arguments = []
        for kind in source.kinds:
            chance = self.dice.random()
            if chance < 0.1:
                arguments.append(self.constant(kind, roles))
            elif chance < 0.5 and self.bound[kind]:
                arguments.append(self.dice.choice(self.bound[kind]))
            else:
                arguments.append(f"?{'xgrm'[kind]}{len(self.bound[kind])}")
                self.bound[kind].append(arguments[-1])
        return source.sentence(arguments)


class Source:
    """A possible condition of a body: a relation, a term of the state, or a move of a role."""

    def __init__(self, name: str, kinds: Kinds, around: str = "") -> None:
        self.name, self.kinds, self.around = name, kinds, around

    def sentence(self, arguments: list[Expression]) -> Expression:
        if self.around == "does" or self.around == "legal":
            return (self.around, arguments[0], applied(self.name, arguments[1:]) if self.name else arguments[1])
        inner = applied(self.name, arguments)
        return (self.around, inner) if self.around else inner


class Describing:
    """One random description."""

    def __init__(self, seed: int) -> None:
        self.dice = random.Random(seed)
        self.roles = ROLES[: self.dice.randint(1, 3)]
        self.sentences: list[Expression] = [("role", role) for role in self.roles]

    def text(self) -> str:
        still = self.add_facts()
        state = [Source(name, kinds, "true") for name, kinds in TERMS.items()]
        lasting = self.add_relations("d", [*still, *state])
        self.add_first_state(still)
        self.add_moves([*still, *state, *lasting])
        moves = [Source(name, (ROLE, *kinds), "does") for name, kinds in MOVES.items()] + [Source("", (ROLE, MOVE), "does")]
        passing = self.add_relations("v", [*still, *state, *lasting, *moves], 3)
        self.add_next([*still, *state, *lasting, *passing, *moves])
        legal = [Source(name, (ROLE, *kinds), "legal") for name, kinds in MOVES.items()]
        self.add_end([*still, *state, *lasting, *legal])
        if self.dice.random() < 0.3:
            self.dice.shuffle(self.sentences)
        return "".join(f"{spelled(sentence)}\n" for sentence in self.sentences)

    def add_facts(self) -> list[Source]:
        """Adds facts, and relations that depend only on facts."""
        for name, kinds in FACTS.items():
            for _ in range(self.dice.randint(2, 6)):
                fact = (name, *(Body(self.dice).constant(kind, self.roles) for kind in kinds))
                self.sentences.append(fact if self.dice.random() < 0.95 else ("<=", fact))
        found = [*(Source(name, kinds) for name, kinds in FACTS.items()), Source("role", (ROLE,))]
        return [*found, *self.add_relations("f", found, 2)]

    def add_relations(self, word: str, known: list[Source], count: int = 4) -> list[Source]:
        """Adds relations that use the known ones, earlier ones of this kind, and sometimes themselves or the next one."""
        found: list[Source] = []
        made = [Source(f"{word}{at}", tuple(self.dice.choice((PLAIN, PLAIN, AROUND, ROLE)) for _ in range(self.dice.choice((0, 1, 1, 2, 2))))) for at in range(count)]
        at = 0
        while at < count:
            group = made[at : at + self.dice.choice((1, 1, 2))]
            is_circle = self.dice.random() < 0.6
            for source in group:
                for number in range(self.dice.randint(2, 4) if is_circle else self.dice.randint(1, 3)):
                    self.add_rule(source, [*known, *found], group if is_circle and number else [])
            found += group
            at += len(group)
        return found

    def add_rule(self, head: Source, known: list[Source], circle: list[Source] = ()) -> None:
        """Adds a rule: first conditions that bind variables, then negations and `or`s over bound variables."""
        body = Body(self.dice)
        for _ in range(1 if circle else self.dice.randint(1, 3)):
            body.literals.append(body.asked(self.dice.choice(known), self.roles))
        for source in circle:
            if self.dice.random() < 0.7:
                body.literals.append(body.asked(source, self.roles))
        for _ in range(self.dice.choice((0, 0, 1) if circle else (0, 0, 1, 1, 2))):
            body.literals.append(self.condition(body, known))
        if self.dice.random() < 0.2:
            self.dice.shuffle(body.literals)
        arguments = [body.term(kind, self.roles) for kind in head.kinds]
        self.sentences.append(("<=", head.sentence(arguments), *body.literals))

    def condition(self, body: Body, known: list[Source], depth: int = 0) -> Expression:
        """Returns a condition that uses only bound variables."""
        kind = self.dice.random()
        if kind < 0.25 and depth < 2:
            inner = [self.condition(body, known, depth + 1) for _ in range(self.dice.randint(1, 3))]
            return (self.dice.choice(("or", "or", "and")), *inner)
        if kind < 0.4:
            place = self.dice.choice((PLAIN, PLAIN, AROUND, ROLE))
            return ("distinct", body.term(place, self.roles), body.term(place, self.roles))
        if kind < 0.5 and depth < 2:
            return ("not", self.condition(body, known, depth + 1))
        source = self.dice.choice(known)
        asked = source.sentence([body.term(place, self.roles) for place in source.kinds])
        return ("not", asked) if self.dice.random() < 0.6 else asked

    def add_first_state(self, still: list[Source]) -> None:
        for name, kinds in TERMS.items():
            for _ in range(self.dice.randint(1, 3)):
                self.sentences.append(("init", applied(name, [Body(self.dice).constant(kind, self.roles) for kind in kinds])))
        self.add_rule(Source("p", (PLAIN,), "init"), still)

    def add_moves(self, known: list[Source]) -> None:
        rules = [("<=", ("legal", "?r", "noop"), ("role", "?r"))] if self.dice.random() < 0.9 else []
        if self.dice.random() < 0.5:
            self.sentences += rules
        for name, kinds in MOVES.items():
            for _ in range(self.dice.randint(1, 2)):
                self.add_rule(Source(name, (ROLE, *kinds), "legal"), known)
        if rules and rules[0] not in self.sentences:
            self.sentences += rules

    def add_next(self, known: list[Source]) -> None:
        for name, kinds in TERMS.items():
            for _ in range(self.dice.randint(1, 2)):
                self.add_rule(Source(name, kinds, "next"), known)
            if self.dice.random() < 0.7:
                names = [f"?{'xgrm'[kind]}{at}" for at, kind in enumerate(kinds)]
                term, body = applied(name, names), Body(self.dice)
                for at, kind in enumerate(kinds):
                    body.bound[kind].append(names[at])
                self.sentences.append(("<=", ("next", term), ("true", term), self.condition(body, known)))
        if self.dice.random() < 0.2:
            self.sentences.append(("<=", ("next", "?t"), ("true", "?t"), ("does", self.roles[0], "noop")))

    def add_end(self, known: list[Source]) -> None:
        for _ in range(self.dice.randint(0, 2)):
            body = [self.condition(Body(self.dice), known) for _ in range(self.dice.randint(2, 4))]
            self.sentences.append(("<=", "terminal", *body))
        for role in self.roles:
            test = self.condition(Body(self.dice), known)
            self.sentences += [("<=", ("goal", role, "100"), test), ("<=", ("goal", role, "0"), ("not", test))]
        if self.dice.random() < 0.3:
            self.add_rule(Source("goal", (ROLE,), ""), known)
            head = self.sentences.pop()
            self.sentences.append((head[0], (*head[1], self.dice.choice(("50", "100"))), *head[2:]))


def described(seed: int) -> str:
    return Describing(seed).text()


class Tried:
    """One description under test: its forms, the number of turns played, and the errors."""

    def __init__(self, seed: int) -> None:
        self.text, self.turns = described(seed), 0
        self.fault = self.look(seed)

    def look(self, seed: int) -> str | None:
        """Tests a description. Returns the error, or None."""
        try:
            first, *others = [instantiated(self.text, *form) for form in FORMS]
        except Refused as why:
            # The grounder takes a long time for some joins, especially on a busy computer.
            return None if str(why).startswith("stopped after ") else f"refused: {why}"
        following = Following(Game(self.text))
        for number in range(MATCHES):
            record = played(first, seed * MATCHES + number, MOST_TURNS)
            self.turns += len(record["moves"])
            for form, other in zip(FORMS[1:], others):
                if played_again(other, record) != record:
                    return f"match {number}: {form} is another game than {FORMS[0]}"
            if words := differs(following, record):
                return f"match {number}: {words}"
        return None
