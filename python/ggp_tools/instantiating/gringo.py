"""Writes programs for the grounder gringo, runs gringo, and reads the ground rules."""

import math
import os
import re
import resource
import signal
import subprocess
from collections import Counter
from collections.abc import Iterable, Iterator

from ggp_tools.kif import MOST_LEVELS, Expression, Refused, Relation, arguments_of, levels, relation, variables
from ggp_tools.gdl import GAME, Literal, Rule

# The limits of the grounder's memory, and of the number of ground rules.
MEMORY, MOST_INSTANCES = 2 << 30, 1_000_000


class LogicProgram:
    """The input of the grounder. Relations are p0, p1, .., the instances of kept rules are i0, i1, .., and terms are quoted strings and
    tuples, so that they can contain every KIF atom."""

    def __init__(self, rules: list[Rule], unsettled: set[Relation]) -> None:
        self.unsettled, self.numbers = unsettled, {}
        self.kept, self.sources, self.names, self.derived, lines = [], {}, {}, set(), []
        for rule in rules:
            lines += self.lines_of(rule)
        lines += [
            f"{self.name(('true', 1))}(T) :- {self.name(('init', 1))}(T).",
            f"{self.name(('true', 1))}(T) :- {self.name(('next', 1))}(T).",
            f"{self.name(('does', 2))}(R,M) :- {self.name(('role', 1))}(R), {self.name(('legal', 2))}(R,M).",
        ]
        self.text = "\n".join(lines) + "\n"

    def name(self, key: Relation) -> str:
        return f"p{self.numbers.setdefault(key, len(self.numbers))}"

    def is_settled(self, literal: Literal) -> bool:
        return literal.same or relation(literal.atom) not in self.unsettled

    def lines_of(self, rule: Rule) -> list[str]:
        """Returns the lines of a rule. A relation that the grounder can evaluate is derived exactly. For any other relation, the rules derive
        everything that may be true, so negations of it are dropped."""
        names = {name: f"V{k}" for k, name in enumerate(variables(rule.atoms()))}
        body = [self.literal(literal, names) for literal in rule.body if literal.positive or self.is_settled(literal)]
        if relation(rule.head)[0] not in GAME and relation(rule.head) not in self.unsettled:
            # Errors cite the relation's first rule with conditions, or its first fact if it has no such rule.
            source = self.name(relation(rule.head))
            if source not in self.sources or (body and source not in self.derived):
                self.sources[source] = rule.sentence
            if body:
                self.derived.add(source)
            return [rule_line(self.atom(rule.head, names), body)]
        shown = [literal for literal in rule.body if not self.is_settled(literal)]
        needed = variables((rule.head, *(literal.atom for literal in shown)))
        # If two ways to satisfy a sentence differ only in settled literals, they share their instances.
        kept = Rule(rule.sentence, rule.head, tuple(shown))
        name = self.names.setdefault(kept, f"i{len(self.kept)}")
        instance = applied(name, [names[name] for name in needed])
        if name in self.sources:
            return [rule_line(instance, body)]
        self.sources[name] = rule.sentence
        self.kept.append((kept, needed))
        return [rule_line(instance, body), rule_line(self.atom(rule.head, names), [instance])]

    def literal(self, literal: Literal, names: dict[str, str]) -> str:
        if literal.same:
            left, right = literal.atom
            return f"{term_text(left, names)} {'=' if literal.positive else '!='} {term_text(right, names)}"
        return ("" if literal.positive else "not ") + self.atom(literal.atom, names)

    def atom(self, atom: Expression, names: dict[str, str]) -> str:
        return applied(self.name(relation(atom)), [term_text(argument, names) for argument in arguments_of(atom)])


def applied(name: str, arguments: list[str]) -> str:
    return f"{name}({','.join(arguments)})" if arguments else name


def rule_line(head: str, body: list[str]) -> str:
    return f"{head} :- {', '.join(body)}." if body else f"{head}."


def term_text(term: Expression, names: dict[str, str]) -> str:
    if isinstance(term, str):
        return names.get(term) or '"' + term.replace("\\", "\\\\").replace('"', '\\"') + '"'
    return "(" + ",".join(term_text(member, names) for member in term) + ("," if len(term) == 1 else "") + ")"


def term_list(text: str) -> list[str]:
    """Parses a list of terms in the grounder's output."""
    lists = [[]]
    for token in re.findall(r'"(?:[^"\\]|\\.)*"|[()]', text):
        if token == "(":
            lists.append([])
        elif token == ")":
            closed = tuple(lists.pop())
            lists[-1].append(closed)
        else:
            lists[-1].append(re.sub(r"\\(.)", r"\1", token[1:-1]) if "\\" in token else token[1:-1])
    return lists[0]


class TooMany(Refused):
    """There are too many ground rules."""


class TooSlow(Refused):
    """The grounder has reached its time limit."""


class Grounder:
    """One run of gringo. It ends when all ground rules have been read, when a limit is exceeded, or when an exception is raised, for example
    by the timer."""

    def __init__(self, program: LogicProgram, most: int = MOST_INSTANCES, seconds: float = math.inf) -> None:
        self.program, self.most, self.seconds, self.counts, self.lists = program, most, seconds, Counter(), {}

    def instances(self) -> list[tuple[int, list[str]]]:
        """Returns the ground rules, each as the number of the kept rule and the terms for the variables of that rule."""
        # A file in memory.
        with open(os.memfd_create("program"), "w+") as program:
            program.write(self.program.text)
            program.seek(0)
            pipes = {"stdin": program, "stdout": subprocess.PIPE, "stderr": subprocess.PIPE}
            try:
                run = subprocess.Popen(["gringo", "--text", "--warn=none"], **pipes, text=True, preexec_fn=lambda: limit_process(self.seconds))
            except FileNotFoundError:
                raise Refused("gringo is not installed") from None
        try:
            instances = list(self.read(run.stdout))
            errors, status = run.stderr.read(), run.wait()
        finally:
            run.kill()
            run.wait()
        if status == -signal.SIGXCPU:
            raise TooSlow(f"gringo took more than {self.seconds:g} s")
        if "bad_alloc" in errors or status < 0:
            raise Refused(f"gringo ran out of memory: its limit is {MEMORY >> 30} GiB")
        if status:
            raise Refused(f"gringo refuses it: {' '.join(errors.split())[:300]}")
        return instances

    def read(self, lines: Iterable[str]) -> Iterator[tuple[int, list[str]]]:
        kept = 0
        for line in lines:
            name, _, rest = line.partition("(")
            name, lists = name.strip().rstrip("."), line.count("(")
            self.counts[name] += 1
            self.lists[name] = max(lists, self.lists.get(name, 0))
            arguments = rest.rpartition(")")[0]
            if lists > MOST_LEVELS and max(map(levels, term_list(arguments)), default=0) > MOST_LEVELS:
                raise Refused(f"a term is nested more than {MOST_LEVELS} lists deep")
            # An unfinished line means that gringo was stopped.
            if line.startswith("i") and line.endswith("\n"):
                kept += 1
                if kept > self.most:
                    raise TooMany(f"there are more than {self.most:,} ground rules")
                yield int(name[1:]), term_list(arguments)

    def lists_in(self, rule: Rule) -> int:
        """Returns the number of lists in the largest sentence that gringo derived for the relation of the rule."""
        return self.lists.get(self.program.name(relation(rule.head)), 0)

    def largest(self) -> tuple[int, ...]:
        """Returns the number of the sentence that has the most ground rules so far, and the number of these rules; or None."""
        by_sentence = Counter()
        for name, count in self.counts.items():
            if name in self.program.sources:
                by_sentence[self.program.sources[name]] += count
        return by_sentence.most_common(1)[0] if by_sentence else None


def limit_process(seconds: float) -> None:
    """Limits the memory and the processor time of this process."""
    resource.setrlimit(resource.RLIMIT_AS, (MEMORY, MEMORY))
    if seconds < math.inf:
        most = math.ceil(seconds)
        # At the soft limit, the process gets SIGXCPU, which shows the reason. At the hard limit, it would only be killed.
        resource.setrlimit(resource.RLIMIT_CPU, (most, most + 1))
