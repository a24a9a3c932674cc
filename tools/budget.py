"""Estimates the proof cost of each crate: the megabytes that a check of it generates. The estimate counts the functions and their steps in the
library that `rt ci` builds, so it is the same on every machine."""
import json
import os
from collections.abc import Iterator
from dataclasses import dataclass, field

from crates import TOP, with_below

MEASURED = f"{TOP}/bin/budget.json"
BUDGET = f"{TOP}/tools/budget.txt"
HEAD = """\
# The proof cost of each crate in megabytes; then of all crates, and of the longest chain of crates that use one another, each with its aim.
# `tools/budget --write` writes this file.
"""
TOTALS = {"in_all": "in all", "longest_chain": "longest chain"}
# These numbers were fitted to full checks of 27 libraries of 24 to 393 MB. The error is usually about 6%, and at most 20%. A step costs more for each
# type parameter of its function.
OF_A_FUNCTION, OF_A_STEP, OF_A_PARAMETER = 0.80, 0.0031, 0.00068
# Declarations in traits cost nothing.
DECLARED = "+decl"
# The allowed ratio of a crate, and of a total, to its budget.
LEEWAY, LEEWAY_OF_TOTALS = 1.1, 1.03

Sizes = dict[str, int]


@dataclass
class Budget:
    """The contents of tools/budget.txt: the budget of each crate and of each total, in megabytes, and the aims of the totals."""

    crates: Sizes
    totals: Sizes = field(default_factory=dict)
    aims: Sizes = field(default_factory=dict)


def steps_in(body: object) -> int:
    """Returns the number of steps of a compiled function: the leaves of its tree, and the keys of the mappings in the tree."""
    count, queue = 0, [body]
    while queue:
        part = queue.pop()
        count += len(part) if isinstance(part, dict) else not isinstance(part, list)
        queue += part.values() if isinstance(part, dict) else part if isinstance(part, list) else ()
    return count


def size_of(name: str, top: str) -> int | None:
    """Returns the megabytes of the crate's library below a directory, or None if there is no library."""
    try:
        with open(f"{top}/crates/{name}/out/rlib/{name}.rlib/toolchain/mir.json", encoding="utf-8") as file:
            functions = [function for path, function in json.load(file) if not path.endswith(DECLARED)]
        return round(sum(OF_A_FUNCTION + (OF_A_STEP + OF_A_PARAMETER * len(it["generics"]["types"])) * steps_in(it["body"]) for it in functions))
    except (OSError, ValueError, KeyError, TypeError):
        return None


def read_measured(file: str = MEASURED) -> Sizes:
    """Returns the sizes that were measured last."""
    try:
        with open(file, encoding="utf-8") as stream:
            return json.load(stream)
    except (OSError, ValueError):
        return {}


def keep_measured(sizes: Sizes, file: str = MEASURED) -> None:
    os.makedirs(os.path.dirname(file), exist_ok=True)
    with open(file, "w", encoding="utf-8") as stream:
        json.dump(sizes, stream, indent=1)


def read_budget(file: str = BUDGET) -> Budget:
    with open(file, encoding="utf-8") as lines:
        rows = {words[0]: [*map(int, words[1:])] for line in lines if (words := line.partition("#")[0].split())}
    totals = {name: rows.pop(name) for name in TOTALS if name in rows}
    return Budget({name: row[0] for name, row in rows.items()}, {name: row[0] for name, row in totals.items()}, {name: row[1] for name, row in totals.items()})


def write_budget(budget: Budget, file: str = BUDGET) -> None:
    totals = (f"{name} {figure} {budget.aims[name]}\n" for name, figure in budget.totals.items())
    with open(file, "w", encoding="utf-8") as stream:
        stream.writelines([HEAD, *(f"{name} {figure}\n" for name, figure in budget.crates.items()), *totals])


def totals_of(sizes: Sizes, known: dict[str, list[str]]) -> Sizes:
    """Returns the megabytes of all crates, and of the longest chain of crates that use one another."""
    chains: Sizes = {}
    for name in with_below([*known], known):
        chains[name] = sizes.get(name, 0) + max((chains[dep] for dep in known[name]), default=0)
    return {"in_all": sum(sizes.values()), "longest_chain": max(chains.values(), default=0)}


def above(sizes: Sizes, budget: Budget, known: dict[str, list[str]]) -> list[str]:
    """Returns the crates and totals that exceed their budgets or have no budget."""
    totals = totals_of(sizes, known)
    crates = [name for name, size in sizes.items() if size > LEEWAY * budget.crates.get(name, 0)]
    return crates + [name for name, size in totals.items() if size > LEEWAY_OF_TOTALS * budget.totals.get(name, 0)]


def table(sizes: Sizes, budget: Budget, known: dict[str, list[str]]) -> Iterator[str]:
    """Yields a row for each crate and each total, with its size and its budget."""
    figures, wrong = {**budget.crates, **budget.totals}, above(sizes, budget, known)
    for name, size in {**sizes, **totals_of(sizes, known)}.items():
        figure = figures.get(name)
        change = f"{100 * size / figure - 100:+.0f}%" if figure else "no figure"
        aim = f", aim {budget.aims[name]}" if name in budget.aims else ""
        yield f"{TOTALS.get(name, name):22} {size:6} of {figure or 0:6} MB, {change}{aim}{': ABOVE ITS BUDGET' if name in wrong else ''}"
