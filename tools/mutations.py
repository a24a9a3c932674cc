"""Reads and applies the mutations of the crates. A mutation is a wrong change to the code; because of the contracts, the prover must refuse the
changed code. The gate tries the mutations in crates/NAME/must-fail, which use the toolchain's format. All other mutations are in
tests/mutations/NAME.txt. Each has a name, the file that it changes, the old text and the new text, each on one line:

    bell_rings_twice: src/bell.rt
      - count += 1;
      + count += 2;

The old text occurs once in the file. Further pairs of texts may follow, each applied to the result of the earlier ones; '  @ src/other.rt' before a
pair names another file. A row that begins with '#' is a comment."""
import os
import re
from collections.abc import Iterator
from dataclasses import dataclass, field
from pathlib import Path

from crates import TOP

PLACE = re.compile(r"^(note: )?(?:\./)?((?:src|specs|proofs)/\S+?):(\d+)(?::\d+)?: (.*)")
FUNCTION = re.compile(r"fn (\S+): (?:no proof|not proved)(.*)")
# The prover's messages about a name in a proof file that the mutated goals no longer contain.
LOST = re.compile(r"has no field|has no `|has no constructor|is not in scope|is no name|was not admitted|can be named from here")
FALSE = re.compile(r"allow values at which this goal is false")
HEAD = re.compile(r"(\w+): (src/\S+)")


class MutationError(ValueError):
    """A mutation that cannot be read or applied. The message says where, and why."""


@dataclass
class Mutation:
    """A named change of a crate: pairs of an old and a new text, each pair with its file, and the place where the mutation is written."""

    crate: str
    name: str
    place: str
    pairs: list[tuple[str, str, str]] = field(default_factory=list)

    def __str__(self) -> str:
        return f"{self.crate}/{self.name}"

    def applied(self, top: str = TOP) -> dict[str, str]:
        """Returns the changed files' texts, by their paths in the crate."""
        texts: dict[str, str] = {}
        for file, old, new in self.pairs:
            path = Path(top, "crates", self.crate, file)
            if file not in texts and not path.is_file():
                raise MutationError(f"{self.place}: {self.name}: {path.relative_to(top)} does not exist")
            text = texts.get(file) or path.read_text(encoding="utf-8")
            if text.count(old) != 1:
                raise MutationError(f"{self.place}: {self.name}: the old text occurs {text.count(old)} times in {file}, expected once: {old.strip()}")
            texts[file] = text.replace(old, new)
        return texts


def gated(crate: str, path: Path, top: str) -> Mutation:
    """Reads a mutation from a file of crates/NAME/must-fail: rows 'file: FILE', 'old: TEXT' and 'new: TEXT'."""
    mutation, file, old = Mutation(crate, path.stem, str(path.relative_to(top))), "", ""
    for row in path.read_text(encoding="utf-8").splitlines():
        word, _, text = row.partition(":")
        text = text.removeprefix(" ")
        if word == "file":
            file = text
        elif word == "old":
            old = text
        elif word == "new" and file and old:
            mutation.pairs.append((file, old, text))
            old = ""
        else:
            raise MutationError(f"{mutation.place}: expected 'file: FILE', 'old: TEXT' and 'new: TEXT', found {row!r}")
    if old or not mutation.pairs:
        raise MutationError(f"{mutation.place}: expected pairs of 'old: TEXT' and 'new: TEXT'")
    return mutation


def listed(crate: str, path: Path, top: str) -> list[Mutation]:
    """Reads the mutations of a file of tests/mutations."""
    mutations: dict[str, Mutation] = {}
    file = old = ""
    for number, row in enumerate(path.read_text(encoding="utf-8").splitlines(), 1):
        place = f"{path.relative_to(top)}:{number}"
        head = HEAD.fullmatch(row)
        if head and not old and head[1] not in mutations:
            mutations[head[1]], file = Mutation(crate, head[1], place), head[2]
        elif mutations and row.startswith("  @ ") and not old:
            file = row[4:]
        elif mutations and row.startswith("  - ") and not old:
            old = row[4:]
        elif old and (row.startswith("  + ") or row == "  +"):
            mutations[[*mutations][-1]].pairs.append((file, old, row[4:]))
            old = ""
        elif row and not row.startswith("#"):
            raise MutationError(f"{place}: expected 'NAME: src/FILE' with a new name, then '  - OLD' and '  + NEW', found {row!r}")
    for mutation in mutations.values():
        if not mutation.pairs:
            raise MutationError(f"{mutation.place}: {mutation.name}: expected '  - OLD' and '  + NEW'")
    return [*mutations.values()]


def mutations_of(crate: str, top: str = TOP) -> list[Mutation]:
    """Returns the mutations of a crate: first the mutations that the gate tries, then all other mutations."""
    gate_mutations = [gated(crate, path, top) for path in sorted(Path(top, "crates", crate, "must-fail").glob("*.edit"))]
    path = Path(top, "tests/mutations", f"{crate}.txt")
    return gate_mutations + (listed(crate, path, top) if path.is_file() else [])


def errors_in(crates: list[str], top: str = TOP) -> Iterator[str]:
    """Yields the error of each mutation that cannot be read or applied."""
    for crate in crates:
        try:
            crate_mutations = mutations_of(crate, top)
        except MutationError as error:
            yield str(error)
            continue
        for mutation in crate_mutations:
            try:
                mutation.applied(top)
            except MutationError as error:
                yield str(error)


def reason(lines: list[str]) -> tuple[str, str]:
    """Returns the prover's reason for a refusal as one word, and the line of its output that gives the reason."""
    lost, unfit, opened, last = {}, [], [], ""
    for line in lines:
        place = PLACE.match(line)
        if FALSE.search(line):
            return "false", line if place else f"{last} / {line}"
        if not place:
            continue
        last = line
        # proofs/MODULE/../FUNCTION/Answers.antt
        directory = os.path.dirname(place[2])
        if place[2].startswith("proofs/") and place[4].startswith("error"):
            if LOST.search(line):
                lost.setdefault(directory, line)
            else:
                unfit.append((directory, line))
        elif place[2].startswith("src/"):
            opened.append(line)
    # If a function's answers name removed things, its goals are open only because the goals have new names.
    lost_names = {os.path.basename(name) for name in lost}
    failed = [matched for matched in map(FUNCTION.match, lines) if matched and "it calls" not in matched[2]]
    own = [matched[1] for matched in failed if matched[1].split("::")[-1] not in lost_names]
    unfit = [line for directory, line in unfit if directory not in lost]
    if own and opened:
        return "goal", f"{opened[0]}  [{own[0]}]"
    if unfit:
        return "answer", unfit[0]
    if own:
        return "goal", own[0]
    if lost:
        return "names", next(iter(lost.values()))
    return "bad", lines[-1] if lines else "nothing was printed"
