"""A plain interpreter of GDL with variables, for `compare` and for a player of examples/players. It does not ground the rules, but answers
a query top-down, rule by rule, according to the definition of truth in the standard. The interpreter is an oracle: it shares no code with
the program or with `python`.

A query is an atomic sentence that may have variables. The answers are the true sentences without variables that match the query. Rules are
safe, so each answer of a rule has a value for each variable. If a query comes up again while it is being answered, its relation is
recursive, and from then on the interpreter derives the whole relation bottom-up from the facts. If a query could come up again with larger
terms, the interpreter derives its relation bottom-up from the beginning."""

import re

# The relations of a state and of the moves of a turn.
GIVEN = {("true", 2), ("does", 3)}


def read(text):
    """Parses the expressions of a KIF text, in lower case. An atom becomes a string, and a list becomes a tuple."""
    levels = [[]]
    for word in re.sub(r";.*", "", text.lower()).replace("(", " ( ").replace(")", " ) ").split():
        if word == "(":
            levels.append([])
        elif word == ")":
            done = tuple(levels.pop())
            levels[-1].append(done)
        else:
            levels[-1].append(word)
    (whole,) = levels
    return whole


def is_variable(term):
    return isinstance(term, str) and term[0] == "?"


def is_ground(term):
    return not is_variable(term) if isinstance(term, str) else all(map(is_ground, term))


def with_values(term, values):
    if isinstance(term, str):
        return values.get(term, term) if term[0] == "?" else term
    return tuple([with_values(member, values) for member in term])


def fitted(pattern, term, values):
    """Returns the values of the variables that make the pattern equal to the term, or None. The term has no variables."""
    if isinstance(pattern, str):
        if pattern[0] != "?":
            return values if pattern == term else None
        if pattern in values:
            return values if values[pattern] == term else None
        return {**values, pattern: term}
    if isinstance(term, str) or len(term) != len(pattern):
        return None
    for part, inner in zip(pattern, term):
        values = fitted(part, inner, values)
        if values is None:
            return None
    return values


def narrowed(head, question, values):
    """Returns the values that the query gives to the variables of a rule's head. If the head cannot match the query, returns None."""
    if is_variable(question):
        return values
    if isinstance(head, str):
        return fitted(head, question, values) if not is_variable(head) or is_ground(question) else values
    if isinstance(question, str) or len(question) != len(head):
        return None
    for part, asked in zip(head, question):
        values = narrowed(part, asked, values)
        if values is None:
            return None
    return values


def key_of(question, names):
    """Returns the query with numbered variables, so that equivalent queries are equal."""
    if isinstance(question, str):
        return names.setdefault(question, f"?{len(names)}") if question[0] == "?" else question
    return tuple([key_of(part, names) for part in question])


def name_of(sentence):
    """Returns the relation of a sentence: its name and the number of its arguments, which is None for an atom."""
    return (sentence, 0) if isinstance(sentence, str) else (sentence[0], len(sentence))


def asked_in(literal):
    """Yields the sentences in a literal."""
    match literal:
        case ("not", inner):
            yield from asked_in(inner)
        case ("or" | "and", *inners):
            for inner in inners:
                yield from asked_in(inner)
        case ("distinct", _, _):
            pass
        case _:
            yield literal


def names_in(literal):
    """Yields the relations in a literal."""
    return map(name_of, asked_in(literal))


def leaves(term, path=()):
    """Yields the atoms of a term that are not variables, each with its path."""
    if isinstance(term, str):
        if term[0] != "?":
            yield path, term
    else:
        for place, part in enumerate(term):
            yield from leaves(part, (*path, place))


def leaf_at(term, path):
    for place in path:
        if isinstance(term, str) or place >= len(term):
            return None
        term = term[place]
    return term if isinstance(term, str) else None


class Facts:
    """Sentences without variables, indexed by the atoms at their paths."""

    def __init__(self, facts):
        self.all, self.by_name, self.by_place = set(), {}, {}
        for fact in facts:
            if fact not in self.all:
                self.all.add(fact)
                self.by_name.setdefault(name_of(fact), []).append(fact)

    def fitting(self, question):
        """Returns the facts that match a query."""
        if is_ground(question):
            return [question] if question in self.all else []
        some = self.by_name.get(name_of(question), ())
        for path, leaf in leaves(question):
            fewer = self.at(name_of(question), path).get(leaf, ()) if path != (0,) else some
            some = fewer if len(fewer) < len(some) else some
        return [fact for fact in some if fitted(question, fact, {}) is not None]

    def at(self, name, path):
        if (name, path) not in self.by_place:
            index = self.by_place[name, path] = {}
            for fact in self.by_name.get(name, ()):
                index.setdefault(leaf_at(fact, path), []).append(fact)
        return self.by_place[name, path]


class GoesRound(Exception):
    """A query of this relation came up again while the interpreter was answering it."""


class Look:
    """The true sentences of one state, with the moves of one turn."""

    def __init__(self, game, facts):
        self.game, self.known, self.facts, self.open = game, {}, Facts(facts), set()

    def answers(self, question):
        """Returns the answers to a query, without duplicates."""
        name = name_of(question)
        if name in GIVEN:
            return self.facts.fitting(question)
        if name not in self.game.rules:
            return self.game.facts.fitting(question)
        known = self.game.fixed if name in self.game.timeless else self.known
        if name in self.game.looping:
            return self.whole(self.game.circles[name], known).fitting(question)
        key = key_of(question, {})
        if key in known:
            return known[key]
        if key in self.open:
            raise GoesRound(name)
        self.open.add(key)
        known[key] = list(dict.fromkeys(self.derived(key, name)))
        self.open.discard(key)
        return known[key]

    def whole(self, circle, known):
        """Returns all true sentences of recursive relations. Derives sentences until no new one follows."""
        if circle not in known:
            known[circle], count = Facts(fact for name in sorted(circle) for fact in self.game.facts.by_name.get(name, ())), -1
            try:
                while len(known[circle].all) > count:
                    count = len(known[circle].all)
                    asked = [(name, head) for name in sorted(circle) for head, _ in self.game.rules[name]]
                    more = [answer for name, head in asked for answer in self.derived(head, name)]
                    known[circle] = Facts([*known[circle].all, *more])
            except GoesRound:
                # Incomplete results must be removed, because the results of a cycle that does not depend on the state are used again after
                # this query.
                del known[circle]
                raise
        return known[circle]

    def derived(self, question, name):
        yield from self.game.facts.fitting(question)
        for head, body in self.game.rules.get(name, ()):
            values = narrowed(head, question, {})
            if values is not None:
                for found in self.all_values(body, values):
                    answer = with_values(head, found)
                    if fitted(question, answer, {}) is not None:
                        yield answer

    def all_values(self, body, values):
        """Yields the values of the variables that make all literals of a body true. A negation is evaluated when all its variables have
        values."""
        if not body:
            yield values
            return
        literal, rest = with_values(body[0], values), body[1:]
        match literal:
            case ("or", *inners):
                for inner in inners:
                    yield from self.all_values((inner, *rest), values)
            case ("and", *inners):
                yield from self.all_values((*inners, *rest), values)
            case ("not", _) | ("distinct", _, _) if not is_ground(literal):
                yield from self.all_values((*rest, literal), values)
            case ("not", inner):
                if not any(True for _ in self.all_values((inner,), {})):
                    yield from self.all_values(rest, values)
            case ("distinct", left, right):
                if left != right:
                    yield from self.all_values(rest, values)
            case _:
                for answer in self.answers(literal):
                    yield from self.all_values(rest, fitted(literal, answer, values))

    def holds(self, sentence):
        return bool(self.answers(sentence))


def grouped(asks):
    """Groups the relations that have rules by mutual dependence. Each group comes after the groups that it depends on."""
    # This is Tarjan's algorithm, with a list of open nodes instead of recursion, because a chain may be long.
    groups, places, lowest, path, done = [], {}, {}, [], set()
    for first in asks:
        calls = [] if first in places else [(first, iter(asks[first]))]
        while calls:
            name, more = calls[-1]
            if name not in places:
                places[name] = lowest[name] = len(places)
                path.append(name)
            asked = next((other for other in more if other in asks), None)
            if asked is None:
                calls.pop()
                if calls:
                    lowest[calls[-1][0]] = min(lowest[calls[-1][0]], lowest[name])
                if lowest[name] == places[name]:
                    groups.append({name})
                    while path[-1] != name:
                        groups[-1].add(path.pop())
                    path.pop()
                    done |= groups[-1]
            elif asked not in places:
                calls.append((asked, iter(asks[asked])))
            elif asked not in done:
                lowest[name] = min(lowest[name], places[asked])
    return groups


class Game:
    """The game of a description. A state is the set of its terms. A joint move has a move for each role."""

    def __init__(self, text):
        self.rules, self.fixed, self.legals, facts = {}, {}, [], []
        for number, sentence in enumerate(read(text) if isinstance(text, str) else text):
            is_rule = sentence[0] == "<="
            head, body = (sentence[1], sentence[2:]) if is_rule else (sentence, ())
            head, *body = map(as_atom, (head, *body))
            if head[0] == "legal":
                self.legals.append((number, head, tuple(body)))
            if is_rule and body:
                self.rules.setdefault(name_of(head), []).append((head, tuple(body)))
            else:
                facts.append(head)
        self.facts = Facts(facts)
        self.asks = {
            name: {asked for _, body in rules for literal in body for asked in names_in(literal)} for name, rules in self.rules.items()
        }
        groups = grouped(self.asks)
        self.timeless = self.rules.keys() - self.timely(groups)
        self.circles, self.roles = self.found_circles(groups), []
        self.looping = {name for name, circle in self.circles.items() if self.can_grow(circle)}
        self.roles = [head[1] for head in self.asked((), (), lambda look: look.answers(("role", "?role")))]

    def timely(self, groups):
        """Returns the relations that depend on the state or the moves."""
        result = set(GIVEN)
        for group in groups:
            if any(not result.isdisjoint(self.asks[name]) for name in group):
                result |= group
        return result

    def found_circles(self, groups):
        """Returns, for each recursive relation, the set of relations in the relation's cycle. A relation that negates itself is not
        included."""
        circles = {}
        for group in groups:
            circle = frozenset(name for name in group if len(group) > 1 or name in self.asks[name])
            bodies = [body for name in circle for _, body in self.rules[name]]
            if not any(denied in circle for body in bodies for literal in body for denied in denied_in(literal)):
                circles.update(dict.fromkeys(circle, circle))
        return circles

    def can_grow(self, circle):
        """Returns whether a query could come up again with ever larger terms."""
        asked = [sentence for name in circle for _, body in self.rules[name] for literal in body for sentence in asked_in(literal)]
        return any(not (is_variable(argument) or is_ground(argument)) for sentence in asked if name_of(sentence) in circle for argument in sentence[1:])

    def asked(self, state, joint, work):
        """Answers a query in a state. If a relation turns out to be recursive, starts the answer again."""
        does = [("does", role, move) for role, move in zip(self.roles, joint)] if joint else []
        while True:
            try:
                return work(Look(self, [("true", term) for term in state] + does))
            except GoesRound as round_one:
                (name,) = round_one.args
                if name not in self.circles:
                    raise
                self.looping |= self.circles[name]

    def initial(self):
        return self.asked((), (), lambda look: frozenset(term for _, term in look.answers(("init", "?term"))))

    def next(self, state, joint):
        return self.asked(state, joint, lambda look: frozenset(term for _, term in look.answers(("next", "?term"))))

    def view(self, state, more=None):
        """Returns the legal moves and the goals of each role as sets, whether the game has ended, and, if `more` is given, its result."""

        def seen(look):
            legal = [{move for _, _, move in look.answers(("legal", role, "?move"))} for role in self.roles]
            goals = [{value for _, _, value in look.answers(("goal", role, "?value"))} for role in self.roles]
            result = legal, goals, look.holds("terminal")
            return (*result, more(look)) if more else result

        return self.asked(state, (), seen)


def as_atom(literal):
    """Replaces `(terminal)`, which is another way to write `terminal`."""
    if literal == ("terminal",):
        return "terminal"
    return (literal[0], *map(as_atom, literal[1:])) if literal[0] in ("not", "or", "and") else literal


def denied_in(literal, is_denied=False):
    """Yields the relations that are negated."""
    match literal:
        case ("not", inner):
            yield from denied_in(inner, not is_denied)
        case ("or" | "and", *inners):
            for inner in inners:
                yield from denied_in(inner, is_denied)
        case _ if is_denied:
            yield from names_in(literal)
