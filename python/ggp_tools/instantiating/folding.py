"""Factors ground rules into fewer and shorter sentences for the same game.

Rules with the same head that differ in only one literal are repeatedly merged into one rule with an `or`. A sentence that is used once or only
renames another is inlined, and a formula that many sentences share becomes a sentence, if this makes the text smaller. If there are still too many
sentences, sentences with the same head are joined, and further sentences are inlined, the cheapest in bytes first.

The meaning of sentences never changes, so states, moves, goals and ends stay the same. The first sentence of a head keeps its place, so the
order of roles and of legal moves stays the same too.
"""

import itertools
import math
from collections import Counter, defaultdict
from collections.abc import Callable, Iterable, Iterator, Mapping, Sequence
from typing import NamedTuple

from .formulas import FALSE, TRUE, Formulas
from ggp_tools.kif import DIGITS, Expression, Refused, atoms, fresh, relation
from ggp_tools.gdl import GAME, Rule

# A body: the numbers of its formulas.
Formed = frozenset[int]
# The maximum nesting of joined sentences.
MOST_DEEP = 48
ROUNDS = 30
# A lower bound for the bytes of a sentence with a condition, if its names are as short as the names of parts.
LEAST_BYTES = 24


# In all tested games, factoring took at least MORE_WORK times as much work as first estimated. If sentences must be inlined, the text becomes shorter
# by a factor of at most SHORTER.
MORE_WORK, SHORTER = 1.5, 2


class Hopeless(Refused):
    """The game exceeds a limit however it is factored, or factoring it takes more work than allowed."""


class Target(NamedTuple):
    """The maximum numbers of sentences, bytes and steps of work. About 30,000 steps take a second of processor time."""

    sentences: int
    bytes: int
    work: float = math.inf


class Folded:
    """The game as formulas: the bodies of each head, each a set of formulas that must all be true. `origins` says, for each body, how many
    of its bytes come from each sentence of the description. Parts have no entries in `origins`: the bytes of a part are divided in the
    same proportions as those of the bodies that use it."""

    def __init__(self, rules: list[Rule]) -> None:
        self.formulas, self.bodies, self.sources = Formulas(), {}, {}
        self.origins = defaultdict(lambda: defaultdict(Counter))
        moves = {}
        for rule in rules:
            if relation(rule.head) == ("legal", 2):
                moves.setdefault(rule.head[1], {})[("does", *rule.head[1:])] = None
        roles = [rule.head[1] for rule in rules if relation(rule.head) == ("role", 1)]
        self.formulas.set_moves({role: moves.get(role, {}) for role in roles})
        made = self.formulas
        for rule in rules:
            head = made.atom(rule.head)
            self.sources.setdefault(head, rule.sentence)
            literals = [made.atom(literal.atom) if literal.positive else made.no(made.atom(literal.atom)) for literal in rule.body]
            body, bodies = made.body(literals), self.bodies.setdefault(head, [])
            if body is not None:
                if body not in self.origins[head]:
                    bodies.append(body)
                self.origins[head][body][rule.sentence] += self.sentence_size(head, body)
        self.own = {head for head in self.bodies if relation(made.nodes[head][1])[0] in GAME}
        self.word = fresh("part", {name for rule in rules for name in atoms(rule.head)}, DIGITS)
        self.part_count, self.cache, self.most_work = 0, {}, math.inf

    def of_bodies(self, head: int, make: Callable) -> object:
        """Computes a value from the bodies of a head. The value is cached until the bodies change."""
        bodies, key = self.bodies[head], (head, make)
        if key not in self.cache or self.cache[key][0] is not bodies:
            if self.formulas.work > self.most_work:
                raise Hopeless(f"factoring takes more than {self.most_work:,} steps")
            self.cache[key] = bodies, make(bodies)
        return self.cache[key][1]

    # ---- Sizes -----------------------------------------------------------------------------------

    def sentence_size(self, head: int, body: Iterable[int]) -> int:
        size = self.formulas.sizes[head]
        return size + 1 if not body else size + 6 + sum(self.formulas.sizes[formula] + 1 for formula in body)

    def sentences(self) -> int:
        return sum(map(len, self.bodies.values()))

    def bytes(self) -> int:
        return sum(self.sentence_size(head, body) for head, bodies in self.bodies.items() for body in bodies)

    # ---- Origins ---------------------------------------------------------------------------------

    def costs(self, is_bytes: bool) -> Counter[int]:
        """Returns how many bytes or sentences of the output come from each sentence of the description."""
        costs, asked_by, known = Counter(), self.asked_by(), {}
        for head, bodies in self.bodies.items():
            for body in bodies:
                cost = self.sentence_size(head, body) if is_bytes else 1
                own = scaled(self.origins[head][body], cost) if head in self.origins else scaled(self.of_part(head, asked_by, known), cost)
                for sentence, share in own.items():
                    costs[sentence] += share
        return costs

    def asked_by(self) -> dict[int, list[tuple[int, Formed]]]:
        """Returns, for each part, the bodies that use it, with their heads."""
        users = defaultdict(list)
        for head, bodies in self.bodies.items():
            for body in bodies:
                for part in self.atoms_in(body):
                    if part in self.bodies and part not in self.origins:
                        users[part].append((head, body))
        return users

    def of_part(self, part: int, asked_by: dict[int, list[tuple[int, Formed]]], known: dict[int, Counter[int]]) -> Counter[int]:
        """Returns the origins of a part: the origins of the bodies that use the part."""
        if part not in known:
            known[part] = Counter()
            for head, body in asked_by[part]:
                known[part].update(self.origins[head][body] if head in self.origins else self.of_part(head, asked_by, known))
        return known[part]

    def take_origins(self, head: int, body: Formed, new: Formed, by: dict[int, int]) -> None:
        """Records the origins of a body whose heads were replaced with formulas. The added bytes come from the rules of these heads."""
        own = self.origins[head][new]
        own.update(scaled(self.origins[head][body], self.sentence_size(head, body)))
        grown = self.sentence_size(head, new) - self.sentence_size(head, body)
        placed = [atom for atom in self.atoms_in(body) if atom in by] if grown > 0 else []
        sizes = sum(self.formulas.sizes[by[atom]] for atom in placed)
        for atom in placed if sizes else ():
            whose = sum(self.origins[atom].values(), Counter())
            own.update(scaled(whose, grown * self.formulas.sizes[by[atom]] / sizes))

    def rewrite(self, head: int, bodies: list[Formed]) -> None:
        """Replaces each body of a head with an equivalent one."""
        if head in self.origins:
            origins = self.origins.pop(head)
            for old, new in zip(self.bodies[head], bodies):
                self.origins[head][new].update(origins[old])
        self.bodies[head] = bodies

    # ---- Sentences of one head -------------------------------------------------------------------

    def merge(self) -> None:
        for head, bodies in self.bodies.items():
            if len(bodies) > 1 and self.cache.get((head, merged)) is not bodies:
                self.bodies[head] = self.cache[head, merged] = merged(bodies, self.formulas, self.origins[head])

    def settle(self) -> None:
        """Replaces heads that are always or never true with constants."""
        while True:
            known = {head: TRUE for head, bodies in self.bodies.items() if frozenset() in bodies and head not in self.own}
            known |= {head: FALSE for head, bodies in self.bodies.items() if not bodies}
            if not known:
                return
            self.put(known)

    def put(self, by: dict[int, int]) -> None:
        """Replaces heads with formulas, and removes these heads."""
        for head in by:
            del self.bodies[head]
            self.own.discard(head)
        known = dict(by)
        for head, bodies in self.bodies.items():
            if self.below(head).isdisjoint(by):
                continue
            unique = {}
            for body in bodies:
                parts = [self.formulas.replaced(formula, known, True) for formula in body]
                new = body if all(part == formula for part, formula in zip(parts, body)) else self.formulas.body(parts)
                if new is not None:
                    unique[new] = None
                    if new != body:
                        self.take_origins(head, body, new, by)
            self.bodies[head] = [frozenset()] if frozenset() in unique else list(unique)
        for head in by:
            self.origins.pop(head, None)

    def factored(self, bodies: list[Formed], depth: int = 0) -> int:
        """Returns one formula that is true if one of the bodies is true. Formulas that bodies share are factored out."""
        if frozenset() in bodies:
            return TRUE
        if len(bodies) == 1:
            return self.formulas.all(bodies[0])
        counts = Counter(formula for body in bodies for formula in body)
        shared, count = max(counts.items(), key=lambda pair: (pair[1] * self.formulas.sizes[pair[0]] if pair[1] > 1 else 0, -pair[0]))
        if count == 1 or depth > 6:
            return self.formulas.any([self.formulas.all(body) for body in bodies])
        rest = self.factored([body - {shared} for body in bodies if shared in body], depth + 1)
        shared_part = self.formulas.all([shared, rest])
        others = [body for body in bodies if shared not in body]
        return self.formulas.any([shared_part, self.factored(others, depth + 1)]) if others else shared_part

    def join(self, most: int) -> None:
        """Joins all sentences of a head into one, for the cheapest heads first, until there are at most `most` sentences. Sentences that
        become shorter are always joined."""
        costs = []
        for head, bodies in self.bodies.items():
            if len(bodies) > 1:
                formula = self.factored(bodies)
                size = self.sentence_size(head, self.formulas.body([formula]) or ())
                grown = size - sum(self.sentence_size(head, body) for body in bodies)
                if self.formulas.depths[formula] < MOST_DEEP:
                    costs.append((grown / (len(bodies) - 1), head, formula))
        count = self.sentences()
        for grown, head, formula in sorted(costs):
            if grown > 0 and count <= most:
                break
            count -= len(self.bodies[head]) - 1
            joined, origins = self.formulas.body([formula]), self.origins.pop(head)
            for body in self.bodies[head]:
                self.origins[head][joined].update(scaled(origins[body], self.sentence_size(head, body)))
            self.bodies[head] = [joined]

    # ---- Inlining --------------------------------------------------------------------------------

    def uses(self) -> list[int]:
        """Returns, for each formula, how often it occurs in the text."""
        counts = [0] * len(self.formulas.nodes)
        for bodies in self.bodies.values():
            for body in bodies:
                for formula in body:
                    counts[formula] += 1
        for number in range(len(counts) - 1, -1, -1):
            for member in self.formulas.members(number) if counts[number] else ():
                counts[member] += counts[number]
        return counts

    def below(self, head: int) -> set[int]:
        """Returns the heads that a head's sentences use."""
        return self.of_bodies(head, self.atoms_below)

    def atoms_below(self, bodies: list[Formed]) -> set[int]:
        return self.atoms_in(formula for body in bodies for formula in body)

    def atoms_in(self, formulas: Iterable[int]) -> set[int]:
        """Returns the atomic sentences in formulas."""
        atoms_found, seen, open_formulas = set(), set(), list(formulas)
        while open_formulas:
            formula = open_formulas.pop()
            if formula in seen:
                continue
            seen.add(formula)
            if self.formulas.nodes[formula][0] == "atom":
                atoms_found.add(formula)
            open_formulas += self.formulas.members(formula)
        return atoms_found

    def place_in(self, most: int) -> None:
        """Inlines sentences if this makes the text smaller, or while there are more than `most` sentences."""
        for _ in range(ROUNDS):
            costs = sorted(self.costs_of_placing())
            count, by, taken = self.sentences(), {}, set()
            for grown, head, formula, below in costs:
                if grown > 0 and count <= most:
                    break
                if head not in taken and taken.isdisjoint(below & self.bodies.keys()) and by.keys().isdisjoint(below):
                    by[head] = formula
                    taken |= {head, *below}
                    count -= len(self.bodies[head])
            if not by:
                return
            self.put(by)
            self.merge()
            self.settle()

    def must_have_room(self, target: Target) -> None:
        """Refuses a game early if factoring cannot bring it within a target. The sentences of the game's own relations cannot be inlined.
        So other sentences must be inlined until there are few enough. Inlining them later can only cost more bytes than now."""
        if len(self.own) > target.sentences:
            raise Hopeless(f"at least {len(self.own):,} sentences, but at most {target.sentences:,} are allowed")
        many = len(self.bodies) - target.sentences
        costs = sorted(cost for cost, *_ in self.costs_of_placing()) if self.sentences() > target.sentences else []
        if many > 0 and len(costs) < many:
            raise Hopeless(f"at least {len(self.bodies) - len(costs):,} sentences, but at most {target.sentences:,} are allowed")
        least = sum(costs[:many]) + LEAST_BYTES * target.sentences
        if many > 0 and least > target.bytes:
            inlined = f"{many:,} of {len(self.bodies):,} sentences must be inlined"
            raise Hopeless(f"{inlined}, which gives at least {least:,} bytes, but at most {target.bytes:,} are allowed")
        if costs and MORE_WORK * self.formulas.work > target.work:
            raise Hopeless(f"factoring takes more than {target.work:,} steps")
        if costs:
            self.must_be_short(target)

    def must_be_short(self, target: Target) -> None:
        """Refuses a game that is so long that the allowed work is unlikely to bring it within the target."""
        if target.work < math.inf and self.bytes() > SHORTER * target.bytes:
            raise Hopeless(f"about {self.bytes() // SHORTER:,} bytes, but at most {target.bytes:,} are allowed")

    def fold(self, target: Target) -> None:
        """Factors the game, and brings it within the target if possible."""
        self.most_work = target.work
        self.place_in(self.sentences())
        if self.sentences() > target.sentences:
            self.join(target.sentences)
            self.must_be_short(target)
            self.place_in(target.sentences)
        self.shorten()
        self.share_bodies(target.sentences)
        self.share(target.sentences)
        if self.bytes() > target.bytes:
            self.rename()

    def is_within(self, target: Target) -> bool:
        return self.sentences() <= target.sentences and self.bytes() <= target.bytes

    def costs_of_placing(self) -> Iterator[tuple[int, int, int, set[int]]]:
        """Yields each head that can be inlined, with the bytes that inlining costs, its formula, and the heads that it uses."""
        uses, sizes, depths = self.uses(), self.formulas.sizes, self.formulas.depths
        deepest = max((depths[formula] for bodies in self.bodies.values() for body in bodies for formula in body), default=0)
        for head, bodies in self.bodies.items():
            if head not in self.own:
                formula = self.of_bodies(head, self.factored)
                if deepest + depths[formula] < MOST_DEEP:
                    gone = sum(self.sentence_size(head, body) for body in bodies)
                    yield uses[head] * (sizes[formula] - sizes[head]) - gone, head, formula, self.below(head)

    # ---- Common parts ----------------------------------------------------------------------------

    def shorten(self) -> None:
        """Replaces each formula with its shortest form."""
        known = {}
        for head, bodies in self.bodies.items():
            self.rewrite(head, [self.shortest_body(body, known) for body in bodies])

    def shortest_body(self, body: Formed, known: dict[int, int]) -> Formed:
        for formula in body:
            if formula not in known:
                known[formula] = self.formulas.shortest(formula)
        formulas = {known[formula] for formula in body}
        denied = [self.formulas.nodes[formula][1] for formula in formulas if self.formulas.nodes[formula][0] == "not"]
        if len(denied) > 1:
            formulas = {formula for formula in formulas if self.formulas.nodes[formula][0] != "not"}
            formulas.add(self.formulas.no(self.formulas.listed(self.formulas.alternatives(denied))))
        return frozenset(formulas)

    def share_bodies(self, most: int) -> None:
        """Turns each body that several sentences share into a separate sentence, if this makes the text smaller, as long as there are fewer
        than `most` sentences."""
        counts = Counter(body for bodies in self.bodies.values() for body in bodies if len(body) > 1)
        name_size, gains = len(self.word) + 4, []
        for place, (body, count) in enumerate(counts.items()):
            size = sum(self.formulas.sizes[formula] + 1 for formula in body) - 1
            gains.append(((count - 1) * size - (count + 1) * name_size - 7, -place, body))
        best = sorted((gain for gain in gains if gain[0] > 0), key=lambda gain: gain[:2], reverse=True)[: max(most - self.sentences(), 0)]
        names = {body: self.new_part() for _, _, body in best}
        for head, bodies in self.bodies.items():
            self.rewrite(head, [frozenset([names[body]]) if body in names else body for body in bodies])
            for body in bodies:
                if body in names:
                    self.sources.setdefault(names[body], self.sources[head])
        self.bodies.update({name: [body] for body, name in names.items()})

    def new_part(self) -> int:
        self.part_count += 1
        return self.formulas.atom(f"{self.word}{self.part_count}")

    def share(self, most: int) -> None:
        """Turns each formula that several sentences share into a separate sentence, if this makes the text smaller, as long as there are
        fewer than `most` sentences."""
        refs = Counter(formula for bodies in self.bodies.values() for body in bodies for formula in body)
        nodes, sizes = self.formulas.nodes, self.formulas.sizes
        for number in range(len(nodes) - 1, -1, -1):
            if refs[number]:
                refs.update(self.formulas.members(number))
        name_size = len(self.word) + 4
        gains = [
            ((count - 1) * sizes[formula] - (count + 1) * name_size - 7, formula)
            for formula, count in refs.items()
            if count > 1 and nodes[formula][0] in ("or", "not")
        ]
        allowed = most - self.sentences()
        chosen = [formula for gain, formula in sorted(gains, key=lambda pair: (-pair[0], pair[1])) if gain > 0][: max(allowed, 0)]
        if chosen:
            self.name_parts(sorted(chosen))

    def rename(self) -> None:
        """Gives short names to relations that are not the game's own, if this makes the text smaller."""
        uses, by = self.uses(), {}
        for head, bodies in self.bodies.items():
            name_size, size = len(self.word) + 4, self.formulas.sizes[head]
            if head not in self.own and size > name_size and uses[head] + len(bodies) > 1:
                by[head] = self.new_part()
        known = dict(by)
        for head, bodies in list(self.bodies.items()):
            self.rewrite(head, [self.renamed(body, known) for body in bodies])
            bodies = self.bodies.pop(head)
            if head in by and head in self.origins:
                self.origins[by[head]] = self.origins.pop(head)
            self.sources[by.get(head, head)] = self.sources[head]
            self.bodies[by.get(head, head)] = bodies

    def renamed(self, body: Iterable[int], known: dict[int, int]) -> Formed:
        return frozenset(self.formulas.replaced(formula, known, False) for formula in body)

    def name_parts(self, chosen: list[int]) -> None:
        """Gives each of these formulas a sentence, the smaller ones first. Replaces the formula with the name of its sentence wherever it
        occurs."""
        known, made = {}, {}
        for number in chosen:
            name = self.new_part()
            made[name] = [self.renamed([number], known)]
            known[number] = name
        for head, bodies in self.bodies.items():
            source = self.sources[head]
            self.rewrite(head, [self.renamed(body, known) for body in bodies])
            for formula in itertools.chain(*self.bodies[head]):
                if formula in made:
                    self.sources.setdefault(formula, source)
        for name in made:
            self.sources.setdefault(name, min(self.sources.values()))
        self.bodies.update(made)

    # ---- Output ----------------------------------------------------------------------------------

    def written(self) -> Iterator[tuple[int, Expression]]:
        """Yields each sentence with the number of the sentence that it was made from."""
        for head, bodies in self.bodies.items():
            atom = self.formulas.nodes[head][1]
            for body in bodies:
                sentence = ("<=", atom, *map(self.formulas.expression, sorted(body))) if body else atom
                yield self.sources[head], sentence


def scaled(shares: Mapping[int, float], size: float) -> dict[int, float]:
    """Scales shares so that they add up to a size."""
    total = sum(shares.values())
    return {sentence: share * size / total for sentence, share in shares.items()} if total else {}


def merged(bodies: list[Formed], formulas: Formulas, origins: dict[Formed, Counter[int]]) -> list[Formed]:
    """As long as two bodies differ in only one literal, merges them into one body with an `or`. A merged body has the origins of all bodies
    that it was made from."""
    while True:
        groups, known = {}, set(bodies)
        for body in bodies:
            for literal in body:
                groups.setdefault(body - {literal}, []).append((body, literal))
        used, new = set(), []
        for rest, members in sorted(groups.items(), key=lambda group: -len(group[1])):
            members = [member for member in members if member[0] not in used]
            if rest in known and rest not in used:
                used.update(body for body, _ in members)
            elif len(members) > 1:
                used.update(body for body, _ in members)
                new.append(formulas.body([*rest, formulas.any([literal for _, literal in members])]))
                origins[new[-1]] += sum((origins[body] for body, _ in members), Counter())
        if not used:
            return bodies
        bodies = list(dict.fromkeys([body for body in bodies if body not in used] + new))
        if frozenset() in bodies:
            return [frozenset()]


def begun(rules: list[Rule]) -> Folded:
    """Returns the game with the rules of each head merged."""
    game = Folded(rules)
    game.settle()
    game.merge()
    game.settle()
    return game


def folded(rules: list[Rule], targets: Sequence[Target]) -> Folded:
    """Factors the game to within the first target that it can reach. Each target is larger than the previous one. Refuses a game that can
    reach no target."""
    game, why = None, None
    for target in targets:
        game = game or begun(rules)
        try:
            game.must_have_room(target)
        except Hopeless as hopeless:
            why = hopeless
            continue
        try:
            game.fold(target)
        except Hopeless as hopeless:
            game, why = None, hopeless
            continue
        if target is targets[-1] or game.is_within(targets[-1]):
            return game
        game = None
    raise why
