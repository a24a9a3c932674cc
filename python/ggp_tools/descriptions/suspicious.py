"""Finds sentences that the referee accepts but that are suspicious. A sentence that may be correct is not reported. If a sentence has
variables, and its ground sentences are unknown, the sentence counts as correct."""

import difflib
import itertools
import math
import time
from collections import Counter
from collections.abc import Iterable, Iterator, Sequence
from operator import attrgetter, itemgetter
from typing import NamedTuple

from ggp_tools.descriptions.loading import NoDescription, sentence_starts
from ggp_tools.gdl import ARITIES, GAME, SECRET, as_read, form, must_be_atomic, must_be_literal, reached
from ggp_tools.kif import (
    TOKEN, Expression, Refused, Relation, blanked, expressions, grouped, head_of, is_variable, place_of, quoted, relation, spelled, variables,
)
from ggp_tools.printable import counted, shown
from ggp_tools.referee import MOST_OF_MOVE

# The relations that no rule needs to use, and the relations whose first argument is a role.
OWN = {*((name, ARITIES[name]) for name in GAME), ("base", 1), ("input", 2)}
OF_ROLES = {("legal", 2), ("does", 2), ("goal", 2)}
# The relations that are checked in the ground rules.
KNOWN = {("role", 1), ("legal", 2), ("goal", 2), ("terminal", None)}
# The keywords of GDL, each with its number of arguments: None for an atom, "any" if any number is allowed.
HEADS = {**{name: ARITIES[name] for name in GAME}, "base": 1, "input": 2, "<=": "any"}
CONDITIONS = {"role": 1, "true": 1, "does": 2, "legal": 2, "goal": 2, "terminal": None, "not": 1, "distinct": 2, "or": "any"}
# Words that authors often write instead of these keywords, apart from misspellings.
OFTEN = {
    "<=": "=> <- -> :- <== ==> =< >= <=> < = if".split(),
    "init": "initial initially start".split(),
    "role": "player players".split(),
    "terminal": "end final".split(),
    "true": "holds is".split(),
    "does": "do did move".split(),
    "distinct": "different differ neq != /= <>".split(),
    "not": "~ ! no".split(),
    "or": "| ||".split(),
}
# The least similarity of two words that count as alike, the maximum lengths of a quoted sentence and of the list of lines, and the maximum
# number of names to compare.
ALIKE, MOST_SHOWN, MOST_LINES, MOST_COMPARED = 0.75, 80, 100, 20_000
MOST_LISTED = 3
TOO_LONG = f"no player can make this move: its text is longer than {MOST_OF_MOVE:,} bytes"
# The path to an expression inside a sentence: the indices of members.
Way = tuple[int, ...]
NOT_ALL = "the rest was not checked"


class TimeIsOver(Exception):
    """The time limit of the search has been reached."""


class Part(NamedTuple):
    """An atomic sentence of a description: the number of the sentence that contains it, and its path in that sentence."""

    sentence: int
    way: Way
    atom: Expression


class Finding(NamedTuple):
    """A suspicious part. Findings of the same kind are reported in one line."""

    part: Part
    words: str
    kind: tuple


def conditions(literal: Expression, way: Way) -> Iterator[tuple[Way, Expression]]:
    """Yields each atomic sentence of a literal with its path."""
    match literal:
        case ("not", inner):
            yield from conditions(inner, (*way, 1))
        case ("or" | "and", *inners):
            for number, inner in enumerate(inners, 1):
                yield from conditions(inner, (*way, number))
        case ("distinct", _, _):
            pass
        case _:
            yield way, literal


def may_be(left: Expression, right: Expression) -> bool:
    """Returns whether two terms can be equal for some values of their variables."""
    if isinstance(left, str) or isinstance(right, str):
        return left == right or is_variable(left) or is_variable(right)
    return len(left) == len(right) and all(map(may_be, left, right))


def places(atom: Expression, way: Way = ()) -> Iterator[tuple[Way, object]]:
    """Yields each path in an atomic sentence with its value: an atom, the length of a list, or None for a variable."""
    if isinstance(atom, str):
        yield way, None if atom.startswith("?") else atom
        return
    yield way, len(atom)
    for number, member in enumerate(atom):
        yield from places(member, (*way, number))


def without_names(term: Expression) -> Expression:
    """Replaces all variables of a term with the same variable."""
    if isinstance(term, str):
        return "?" if term.startswith("?") else term
    return tuple(map(without_names, term))


class Index:
    """Indexes atomic sentences by the values at their paths."""

    def __init__(self, atoms: Iterable[Expression]) -> None:
        self.table = {}
        for atom in atoms:
            for place in places(atom):
                self.table.setdefault(place, []).append(atom)

    def alike(self, atom: Expression) -> Iterable[Expression]:
        """Returns the sentences that may equal `atom`, judging by one path: the path where the fewest sentences agree with `atom`."""
        # If a sentence has a variable at the path or above it, any value may be there.
        groups = (
            [self.table.get((way[:length], None), ()) for length in range(len(way) + 1)] + [self.table.get((way, word), ())]
            for way, word in places(atom) if word is not None
        )
        return itertools.chain(*min(groups, key=lambda group: sum(map(len, group)), default=()))


class Atoms:
    """Groups atomic sentences by their relations."""

    def __init__(self, atoms: Iterable[Expression]) -> None:
        self.plain, self.open = {}, {}
        for atom in dict.fromkeys(atoms):
            (self.open if variables(atom) else self.plain).setdefault(relation(atom), {})[atom] = None
        self.indexes, self.answers = {}, {}

    def relations(self) -> set[Relation]:
        return {*self.plain, *self.open}

    def like(self, atom: Expression) -> Iterator[Expression]:
        """Yields the sentences that can be equal to `atom`. If `atom` itself is one of these sentences, it comes first."""
        key, is_open = relation(atom), bool(variables(atom))
        if not is_open and atom in self.plain.get(key, ()):
            yield atom
        for name, atoms in (("open", self.open), ("plain", self.plain))[: 1 + is_open]:
            if key in atoms:
                if (name, key) not in self.indexes:
                    self.indexes[name, key] = Index(atoms[key])
                yield from (candidate for candidate in self.indexes[name, key].alike(atom) if may_be(candidate, atom))

    def may_give(self, atom: Expression) -> bool:
        """Returns whether one of the sentences can be equal to `atom`."""
        asked = without_names(atom)
        if asked not in self.answers:
            self.answers[asked] = next(self.like(asked), None) is not None
        return self.answers[asked]


class Description:
    """A text with its atomic sentences: heads and conditions, and the relations that use them."""

    def __init__(self, text: bytes) -> None:
        self.text = blanked(text.decode("latin-1"))
        self.starts, self.is_well_formed = sentence_starts(text), True
        self.heads, self.conditions, self.asks, self.secrets = [], [], {}, {}
        for number, sentence in enumerate(expressions(text.decode("latin-1"))):
            self.read(number, as_read(sentence))

    def read(self, number: int, sentence: Expression) -> None:
        is_rule = sentence[:1] == ("<=",)
        if not sentence or (is_rule and len(sentence) < 2):
            self.is_well_formed = False
            return
        part, body = Part(number, (1,) if is_rule else (), head_of(sentence)), sentence[2:] if is_rule else ()
        asked = [Part(number, *pair) for at, literal in enumerate(body, 2) for pair in conditions(literal, (at,))]
        try:
            for literal in body:
                must_be_literal(literal)
            must_be_atomic(part.atom, True)
        except Refused as why:
            # A ground GDL file may use these words, but they do not have their GDL-II meaning.
            if SECRET not in str(why):
                self.is_well_formed = False
                return
            self.secrets[part] = str(why)
        self.heads.append(part)
        self.conditions += asked
        self.asks.setdefault(relation(part.atom), set()).update(relation(part.atom) for part in asked)

    def needed(self) -> set[Relation]:
        """Returns the relations that define the game, and the relations that these depend on."""
        return OWN | reached(self.asks, OWN)

    def told_places(self, parts: list[Part]) -> dict[tuple[int, Way], str]:
        """Returns the line and the column of each part, by sentence and path."""
        places_found = {}
        for number, of_sentence in grouped(parts, itemgetter(0)).items():
            for way, at in member_starts(self.text, self.starts[number], {part.way for part in of_sentence}).items():
                places_found[number, way] = place_of(self.text, at)
        return places_found


def member_starts(text: str, at: int, ways: set[tuple]) -> dict[tuple, int]:
    """Returns the indices where the members at these paths of a sentence begin."""
    indices, way = {}, []
    for token in TOKEN.finditer(text, at):
        if token[0] == ")":
            way.pop()
        elif tuple(way) in ways:
            indices[tuple(way)] = token.start()
        if token[0] == "(":
            way.append(0)
        elif way:
            way[-1] += 1
        if not way or len(indices) == len(ways):
            break
    return indices


def meant(atom: Expression, words: dict[str, int | str | None], names: Sequence[str] = ()) -> str | None:
    """Returns the GDL keyword or the name that an author probably meant by this relation, according to its spelling and its number of
    arguments. Returns None if there is no such word."""
    name, count = relation(atom)
    if len(name) > MOST_SHOWN:
        return None
    fits = [word for word, wanted in words.items() if wanted in (count, "any") or (wanted, count) == (None, 0)]
    fits = [word for word in fits if word != name]
    for word in fits:
        if name in OFTEN.get(word, ()):
            return word
    matches = difflib.get_close_matches(name, [*(word for word in fits if word.isalpha()), *names], 1, ALIKE)
    return matches[0] if matches else None


def shown_form(name: str, count: int | None) -> str:
    return shown(form(name, count), MOST_SHOWN)


def listed(name: str, counts: Sequence[int | None]) -> str:
    """Returns the forms of the relation `name` with the numbers of arguments in `counts`. If there are many forms, returns only the first
    few."""
    return " and ".join([f"`{shown_form(name, count)}`" for count in counts[:MOST_LISTED]] + ["others"] * (len(counts) > MOST_LISTED))


def is_too_long(move: Expression) -> bool:
    """Returns whether a move is longer than any answer that the desk accepts, so that no player can make the move."""
    return len(spelled(move)) > MOST_OF_MOVE


def by_name(relations: Iterable[Relation]) -> dict[str, list[int | None]]:
    """Returns, for each name, the numbers of arguments of the relations with this name."""
    return {name: [count for _, count in group] for name, group in grouped(sorted(relations, key=str), itemgetter(0)).items()}


class Search:
    """Searches a description for suspicious sentences. `ground` is the text of its ground rules, if it was accepted."""

    def __init__(self, description: Description, ground: bytes | None, until: float) -> None:
        self.description, self.until, self.said, self.parts = description, until, {}, grouped(description.heads, attrgetter("atom"))
        self.heads = Atoms(head.atom for head in description.heads)
        self.asked = Atoms(part.atom for part in description.conditions)
        self.terms = Atoms(("true", head.atom[1]) for head in description.heads if relation(head.atom) in (("init", 1), ("next", 1)))
        self.needed, self.known, self.compared = description.needed(), self.heads, 0
        self.counts, self.needed_counts = by_name(self.heads.relations()), by_name(self.needed)
        self.names = grouped((found for found in sorted(self.heads.relations(), key=str) if len(found[0]) <= MOST_SHOWN), itemgetter(1))
        self.facts = set()
        if ground is not None:
            sentences = expressions(ground.decode("latin-1"))
            heads = (sentence for sentence in map(head_of, sentences) if relation(sentence) in KNOWN)
            self.known, self.facts = Atoms(heads), {sentence for sentence in sentences if sentence[:1] != ("<=",)}

    def findings(self) -> Iterator[Finding]:
        """Yields the findings. If a sentence is malformed, only misspelt heads are reported, because other findings may depend on this
        sentence."""
        for part, why in self.description.secrets.items():
            yield Finding(part, why, ("secret", relation(part.atom)))
        for part in self.description.heads:
            finding = self.of_head(part)
            if finding and (self.description.is_well_formed or finding.kind[0] == "misspelt"):
                yield finding
        if self.description.is_well_formed:
            yield from filter(None, map(self.of_condition, self.description.conditions))
            yield from self.of_instances()
            yield from self.of_roles()

    def look_at_clock(self) -> None:
        if time.monotonic() > self.until:
            raise TimeIsOver

    def of_head(self, part: Part) -> Finding | None:
        self.look_at_clock()
        key = relation(part.atom)
        if key in OWN:
            return self.of_role(part) or self.of_move(part) or self.of_term(part)
        if key in self.needed or part in self.description.secrets:
            return None
        if key not in self.said:
            self.said[key] = self.of_unneeded(part)
        return self.said[key]._replace(part=part)

    def of_unneeded(self, part: Part) -> Finding:
        """Returns the finding for a head that the game does not need."""
        key = relation(part.atom)
        word = meant(part.atom, HEADS)
        if word:
            words = f"`{key[0]}` is not a GDL keyword, and the game does not use it; did you mean `{word}`?"
            return Finding(part, words, ("misspelt", key[0]))
        words, others = f"the game does not use `{shown_form(*key)}`", self.needed_counts.get(key[0])
        return Finding(part, words + (f", only for {listed(key[0], others)}" if others else ""), ("unused", key))

    def of_role(self, part: Part) -> Finding | None:
        if relation(part.atom) not in OF_ROLES or self.known.may_give(("role", part.atom[1])):
            return None
        return Finding(part, f"{quoted(part.atom[1], MOST_SHOWN)} is not a role", ("role", part.atom[1]))

    def of_move(self, part: Part) -> Finding | None:
        if relation(part.atom) != ("legal", 2) or not is_too_long(part.atom[2]):
            return None
        return Finding(part, TOO_LONG, ("long", relation(part.atom[2])))

    def of_term(self, part: Part) -> Finding | None:
        if relation(part.atom) not in (("init", 1), ("next", 1)) or self.asked.may_give(("true", part.atom[1])):
            return None
        return Finding(part, f"no condition uses the term {quoted(part.atom[1], MOST_SHOWN)}", ("unasked", relation(part.atom[1])))

    def of_condition(self, part: Part) -> Finding | None:
        self.look_at_clock()
        key, atom = relation(part.atom), part.atom
        if finding := self.of_role(part):
            return finding
        if key == ("true", 1):
            is_given, words = self.terms.may_give(atom), f"no `init` and no `next` gives the term {quoted(atom[1], MOST_SHOWN)}"
            return None if is_given else Finding(part, words, ("true", relation(atom[1])))
        if key == ("does", 2):
            is_given, words = self.heads.may_give(("legal", *atom[1:])), "no `legal` gives this move"
            return None if is_given else Finding(part, words, ("does", atom[1], relation(atom[2])))
        if self.heads.may_give(atom):
            return None
        if ("as a condition", key) not in self.said:
            self.said["as a condition", key] = self.of_missing(part)
        return self.said["as a condition", key]._replace(part=part)

    def of_missing(self, part: Part) -> Finding:
        """Returns the finding for a condition that no head can satisfy."""
        name, count = key = relation(part.atom)
        counts, words = self.counts.get(name, ()), f"`{shown_form(*key)}` has no rule and no fact"
        if count in counts:
            return Finding(part, "no rule and no fact gives this", ("never", key))
        if counts:
            words += f", only {listed(name, counts)}"
        elif word := meant(part.atom, CONDITIONS, self.names_like(count)):
            words += f"; did you mean `{word}`?"
        return Finding(part, words, ("undefined", key))

    def names_like(self, count: int | None) -> list[str]:
        """Returns the names of the relations with this number of arguments. Comparing names is slow, so the list is empty after too many
        comparisons."""
        names = [name for number in ((count,) if count else (None, 0)) for name, _ in self.names.get(number, ())]
        self.compared += len(names)
        return names if self.compared <= MOST_COMPARED else []

    def of_instances(self) -> Iterator[Finding]:
        """Yields findings for instances whose move is too long, and for facts about names that are not roles. Other instances are not
        reported, because they may never hold."""
        for name in ("legal", "goal"):
            for atom in self.known.plain.get((name, 2), ()):
                self.look_at_clock()
                if name == "legal" and is_too_long(atom[2]):
                    yield from self.of_instance(atom, TOO_LONG, ("long", relation(atom[2])))
                if atom in self.facts and not self.known.may_give(("role", atom[1])):
                    words = f"{quoted(atom[1], MOST_SHOWN)} is not a role, but a fact of the ground rules has it"
                    yield from self.of_instance(atom, words, ("role", atom[1]))

    def of_instance(self, atom: Expression, words: str, kind: tuple) -> Iterator[Finding]:
        """Yields the finding for a ground atom. If only one head can give this atom, the finding has the place of that head."""
        parts = [] if atom in self.parts else [part for head in self.heads.like(atom) for part in self.parts[head]]
        if parts:
            is_sure = len(parts) == 1
            yield Finding(parts[0]._replace(atom=atom) if is_sure else None, words if is_sure else f"{words}: {quoted(atom, MOST_SHOWN)}", kind)

    def of_roles(self) -> Iterator[Finding]:
        """Yields a finding for each role without legal moves or goals, and a finding if no match can end."""
        for atom in self.known.plain.get(("role", 1), ()):
            self.look_at_clock()
            for name in ("legal", "goal"):
                if not self.known.may_give((name, atom[1], "?it")):
                    part = next((self.parts[head][0] for head in self.heads.like(atom)), None)
                    yield Finding(part, f"no sentence gives the role {quoted(atom[1], MOST_SHOWN)} a `{name}`", ("lacks", name, atom))
        if not self.known.may_give("terminal"):
            yield Finding(None, "no sentence gives `terminal`, so no match can finish", ("terminal",))


class Suspicions(NamedTuple):
    """A line for each suspicious sentence, and the reason why the check is incomplete. If the check is complete, the reason is an empty text."""

    lines: list
    cut: str


def suspicions(text: bytes, ground: bytes | None = None, seconds: float = math.inf) -> Suspicions:
    """Returns the suspicious sentences of a description in the order of the text. `ground` is the text of its ground rules, if it was accepted. The
    search stops after the time limit."""
    findings, why = [], ""
    try:
        description = Description(text)
        search = Search(description, ground, time.monotonic() + seconds)
        for finding in search.findings():
            findings.append(finding)
    except (Refused, NoDescription):
        return Suspicions([], NOT_ALL)
    except TimeIsOver:
        why = f"the search for suspicious sentences was stopped after {seconds:,} s: {NOT_ALL}"
    return Suspicions(lines_of(description, findings), why or ("" if description.is_well_formed else NOT_ALL))


def lines_of(description: Description, findings: list[Finding]) -> list[str]:
    """Returns a line for each kind of finding, with the place of the first finding of this kind."""
    counts, firsts = Counter(finding.kind for finding in findings), {}
    for finding in sorted(findings, key=lambda finding: finding.part[:2] if finding.part else (len(description.starts), ())):
        firsts.setdefault(finding.kind, finding)
    shown_ones = list(firsts.values())[:MOST_LINES]
    places_of_parts, lines = description.told_places([finding.part for finding in shown_ones if finding.part]), []
    for finding in shown_ones:
        more = f" (and {counts[finding.kind] - 1:,} more like this)" if counts[finding.kind] > 1 else ""
        lines.append(f"{places_of_parts[finding.part[:2]]}: {finding.words}: {quoted(finding.part.atom, MOST_SHOWN)}{more}" if finding.part else finding.words)
    return lines + ([f"and {counted(len(firsts) - MOST_LINES, 'more line')}"] if len(firsts) > MOST_LINES else [])
