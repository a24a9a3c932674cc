"""Grounds a description step by step, and reports what was done."""

import math
import time
from typing import NamedTuple

from . import folding, gringo, grounding, limits, rounds
from .splitting import split
from ggp_tools.kif import Expression, Refused, expressions, quoted, relation, spelled
from ggp_tools.printable import counted
from ggp_tools.streams import report
from ggp_tools.timed import Late, limited
from ggp_tools.gdl import Relations, Rule, all_rules, as_read, cited, lines_of

# When to factor a game: only if it would otherwise exceed a limit, always, or never.
WHERE_NEEDED, ALWAYS, NEVER = "where needed", "always", "never"
FOLDABLE = ("sentences", "atomic sentences", "bytes")
# A longer game is factored if possible, even if it is within the limits of --large, because every process that loads it needs memory for all of it.
LONG = {"sentences": 65536, "bytes": 4194304}
# A quantity is far above its limit if it is more than this many times the limit.
FAR = 4
# The maximum work of factoring a game to within the usual limits, about twenty seconds of processor time. It is counted in steps, so that the
# result is the same on every machine.
MOST_WORK = 400_000
# After this many seconds, intermediate results are reported immediately.
SOON = 2
# If a description has at most this many ground rules, it is tried unchanged first, because this gives the best result, and factoring it takes
# only seconds.
FEW_INSTANCES = 1 << 16


class Form(NamedTuple):
    """One form of a description: its rules, the maximum number of ground rules, and notes."""

    rules: list[Rule]
    most: int
    notes: tuple[str, ...] = ()


def forms(rules: list[Rule], is_whole: bool, is_split: bool) -> list[Form]:
    """Returns the forms in the order of the attempts: the unchanged description if it has few ground rules, the description with
    split rules, and the unchanged description with any number of ground rules. If only one form is requested, returns only that form."""
    whole, parts = Form(rules, gringo.MOST_INSTANCES), split(rules)
    if is_whole or len(parts) == len(rules):
        return [whole]
    note = f"split: {counted(len(parts) - len(rules), 'part')} of rules became auxiliary relations, so that each rule has fewer variables"
    parted = Form(parts, gringo.MOST_INSTANCES, (note,))
    return [parted] if is_split else [whole._replace(most=FEW_INSTANCES), parted, whole]


class Written(NamedTuple):
    """A ground GDL text: its sentences, each with the number of the sentence that it was made from; its text; the limited quantities;
    the notes at its top; the factored game, if any; and whether the large limits apply."""

    sentences: list
    text: str
    figures: list
    notes: list
    game: object = None
    is_large: bool = False

    def as_large(self) -> "Written":
        """Returns the same description with the large limits, and with a note about the large limits."""
        text = f"; {limits.LARGE_NOTE}\n{self.text}"
        figures = [(name, len(text) if name == "bytes" else count, limits.LARGE.get(name, most)) for name, count, most in self.figures]
        return self._replace(text=text, figures=figures, notes=[limits.LARGE_NOTE, *self.notes], is_large=True)

    def is_long(self) -> bool:
        return any(count > LONG.get(name, count) for name, count, _ in self.figures)

    def past(self) -> list[limits.Figure]:
        """Returns the quantities that exceed their limits."""
        return [(name, count, most) for name, count, most in self.figures if count > most]

    def is_far_past(self) -> bool:
        """Returns whether no other form of the game is likely to be within the limits. Forms differ by a factor of about three at most."""
        return any(count > FAR * most for _, count, most in self.past())


class Making:
    """Grounds one description within the usual limits of the referee. If that is impossible or takes too long, grounds it within the large
    limits. With `is_large`, does not try the usual limits."""

    def __init__(self, text: str, seconds: int, folding_wanted: str, is_split: bool = False, is_large: bool = False) -> None:
        self.text, self.seconds, self.wanted, self.is_split, self.is_large = text, seconds, folding_wanted, is_split, is_large
        self.sentences, self.lines, self.rules, self.grounder, self.work = [], [], [], None, "reading it"
        self.notes, self.best, self.hopeless, self.known, self.count = [], None, None, [], 0

    def run(self) -> str:
        """Returns the ground GDL text, or refuses the description. The limit of processor time applies to this process and to the grounder
        separately."""
        self.began = time.monotonic()
        try:
            with limited(self.seconds):
                return self.made()
        except Late:
            why = f"stopped after {self.seconds:g} s, {self.work}"
        if not self.best:
            raise Refused(self.explained(why))
        return self.reported(self.best)

    def made(self) -> str:
        self.sentences = [as_read(expression) for expression in expressions(self.text)]
        self.lines = lines_of(self.text)
        self.rules = all_rules(self.sentences)
        relations = Relations(self.rules)
        relations.refuse_dependence()
        bearing = relations.bearing()
        rules = [rule for rule in self.rules if relation(rule.head) in bearing]
        is_whole = self.wanted == NEVER and not self.is_split
        return self.reported(self.first_within(forms(rules, is_whole, self.is_split)))

    def first_within(self, tried: list[Form]) -> Written:
        """Returns the first form that is within the limits. If no form is within the limits, returns the last form."""
        done = []
        for form in tried:
            if any(form.rules is rules for rules in done) or (self.best and self.best.is_far_past()):
                break
            try:
                self.best = self.written(self.ground_rules_of(form))
            except gringo.TooMany as why:
                if form is tried[-1] and not self.best and not self.hopeless:
                    raise Refused(self.explained(str(why))) from None
                continue
            except folding.Hopeless as why:
                if why is not self.hopeless:
                    self.hopeless = folding.Hopeless(self.explained(str(why)))
                done.append(form.rules)
                continue
            if not self.best.past():
                break
            done.append(form.rules)
        if not self.best:
            raise Refused(f"nothing is written, because this exceeds the limit however it is factored: {self.hopeless}")
        return self.best

    def ground_rules_of(self, form: Form) -> list[Rule]:
        """Returns the ground rules of a form, without cycles."""
        self.notes, self.known = list(form.notes), []
        rules = self.ground(gringo.LogicProgram(form.rules, Relations(form.rules).unsettled()), form.most)
        if self.hopeless and 2 * len(rules) > self.count:
            raise self.hopeless
        self.count = len(rules)
        self.work = "unrolling its cycles"
        rules, cycles = rounds.unrolled(rules)
        if cycles:
            # From here on, the reason is too many rounds, not too many ground rules.
            self.grounder = None
            rules = grounding.in_order(grounding.needed(rules))
            self.note_circles([cycle for cycle in cycles if cycle[1] > 1])
            self.know(f"{counted(len(rules), 'ground sentence')}, because {self.notes[-1] if self.notes else 'cycles are unrolled'}")
        limits.refuse_faults(rules)
        self.ground_rules = rules
        return rules

    def note_circles(self, circles: list[tuple[Expression, int, int]]) -> None:
        if circles:
            atom, count, last = max(circles, key=lambda circle: circle[1])
            largest = f"the largest, of {counted(count, 'sentence')} with {quoted(atom)}, in {counted(last + 1, 'round')}"
            self.notes.append(f"{counted(len(circles), 'cycle', 'of sentences is', 'of sentences are')} unrolled, {largest}")

    def ground(self, program: gringo.LogicProgram, most: int) -> list[Rule]:
        self.work = "finding the ground rules"
        self.grounder = gringo.Grounder(program, most, self.seconds)
        try:
            instances = self.grounder.instances()
        except gringo.TooMany:
            raise
        except gringo.TooSlow:
            raise Late from None
        except Refused as why:
            raise Refused(self.explained(str(why))) from None
        self.work = "putting them in order"
        rules = grounding.needed(grounding.ground(program.kept, instances))
        first = next((rule.sentence for rule in rules if limits.is_high(rule.head)), None)
        rules, high = limits.without_high_goals(rules)
        if high:
            self.notes.append(f"goals above 100 are left out ({high:,}, the first from {self.cited(first)}): {limits.WITHOUT_HIGH_GOALS}")
        rules = grounding.in_order(rules)
        self.know(counted(len(rules), "ground sentence"))
        return rules

    def know(self, words: str) -> None:
        """Stores a fact about a form. If the run has already taken long, also reports the fact immediately."""
        self.known.append(words)
        if time.monotonic() - self.began > SOON:
            report(f"  after {time.monotonic() - self.began:.0f} s: {words}")

    def explained(self, why: str) -> str:
        """Adds the known facts about the ground rules to a reason."""
        why = "; ".join([why, *self.known])
        rule = next(filter(limits.is_endless, self.rules), None)
        # Terms can only grow if the sentence has ground rules.
        if rule and self.grounder and self.grounder.lists_in(rule) > spelled(self.sentences[rule.sentence]).count("("):
            why = f"there are infinitely many ground rules: {why}; ever larger terms come from {self.cited(rule.sentence)}"
        if self.grounder and (largest := self.grounder.largest()):
            why += f"; the most ground rules, {largest[1]:,}, come from {self.cited(largest[0])}"
        return why

    def cited(self, number: int) -> str:
        return cited(number, self.sentences, self.lines)

    # ---- Output ----------------------------------------------------------------------------------

    def written(self, rules: list[Rule]) -> Written:
        """Returns the ground GDL text that these rules make. Leaves it unfactored if it is within the usual limits. If factoring it to
        within the usual limits takes too much work, but it is within the large limits, leaves it unfactored unless it is long and can be
        made shorter."""
        plain = self.as_written([(rule.sentence, grounding.sentence_of(rule)) for rule in rules])
        can_stay = self.wanted == WHERE_NEEDED and not plain.past()
        is_short = self.is_large and not plain.is_long() or not plain.is_large
        if self.wanted == NEVER or can_stay and is_short or any(name not in FOLDABLE for name, _, _ in plain.past()):
            return plain
        if can_stay:
            # This is the result if the time runs out.
            self.best = plain
        self.work = "factoring it"
        usual, short, large = ((limits.MOST, MOST_WORK), (LONG, math.inf), (limits.LARGE, math.inf))
        targets = [*([] if self.is_large else [usual]), *([short] if plain.is_long() else []), *([] if can_stay else [large])]
        try:
            game = folding.folded(rules, [folding.Target(most["sentences"], most["bytes"], work) for most, work in targets])
        except folding.Hopeless:
            if can_stay:
                return plain
            raise
        folded = list(game.written())
        size = sum(len(spelled(sentence)) + 1 for _, sentence in plain.sentences)
        self.notes.append(f"factored: {counted(len(rules), 'ground sentence')} of {size:,} bytes became {len(folded):,}")
        result = self.as_written(folded)._replace(game=game)
        return plain if can_stay and result.past() else result

    def as_written(self, sentences: list[limits.Numbered]) -> Written:
        text = text_of(sentences, self.notes)
        written = Written(sentences, text, list(limits.figures(sentences, len(text))), [*self.notes])
        return written.as_large() if any(name in FOLDABLE for name, _, _ in written.past()) else written

    def reported(self, written: Written) -> str:
        """Reports the result and the limits. Returns the text of the result, or refuses the result if it exceeds a limit."""
        report(f"ggp-instantiate: {counted(len(self.sentences), 'sentence')} became {counted(len(written.sentences), 'ground sentence')} in {time.monotonic() - self.began:.2f} s")
        for note in written.notes:
            report(f"  {note}")
        wide = max(len(name) for name, _, _ in written.figures)
        for name, count, most in written.figures:
            report(f"  {name:{wide}} {count:>9,} of {most:>9,}" + (": ABOVE THE LIMIT" if count > most else ""))
        if limits.MOST_IN_A_WORD < len(written.text) and not written.past():
            report(f"  this is too long for one argument of a command on Linux, which has at most {limits.MOST_IN_A_WORD:,} bytes")
        if past := written.past():
            is_bytes = past[0][0] == "bytes"
            costs = written.game.costs(is_bytes) if written.game else limits.costs_of(written.sentences, is_bytes)
            for line in limits.dearest(costs, self.sentences, self.lines, is_bytes):
                report(f"  largest: {line}")
            listed = "; ".join(f"{count:,} {name}, but at most {most:,} are allowed" for name, count, most in past)
            raise Refused(f"nothing is written, because this exceeds the limit: {listed}")
        return written.text


def text_of(written: list[limits.Numbered], notes: list[str]) -> str:
    return "".join([*(f"; {note}\n" for note in notes), *(f"{spelled(sentence)}\n" for _, sentence in written)])
