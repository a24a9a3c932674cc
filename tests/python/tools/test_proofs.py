"""How the tools parse the output of `rt ci`, and the budget of the proofs."""
import json
import pathlib

import pytest
from budget import OF_A_FUNCTION, OF_A_PARAMETER, OF_A_STEP, Budget, above, read_budget, size_of, steps_in, table, totals_of, write_budget
from crates import rows
from progress import Progress
from proofs import Proofs, Waits

LINES = """\
rt: low is kept: an earlier run on this machine proved the same files over the same libraries
== wide
fn wide::one: proved
logic=proved functions=12 may-wait=2 sum=0123 native=nat
rt: wide proved
rt: wide: its tests are proved
rt: wide: trying its must-fail edits (1)
rt: must-fail wide/one: refused, as it must be: fn wide::one
rt: note: a note
== middle
fn middle::one: not proved
logic=not-proved
rt: middle NOT PROVED
rt: FAILED: middle
2 passed, 1 failed
"""
# Two crates on a third one, and one that uses none.
KNOWN = {"low": [], "wide": ["low"], "high": ["low", "wide"], "beside": []}


def read(text: str, top: str, waiting: str) -> Proofs:
    found = rows(f"low:\nwide may_wait={waiting}: low\nmiddle: wide\n")
    proofs = Proofs(top, Progress(dict.fromkeys(found, 1.0), 1), Waits(found))
    for line in text.splitlines(keepends=True):
        proofs.read(line)
    return proofs


def test_each_crate_ends_once_and_the_last_lines_of_what_is_not_proved_are_printed(tmp_path: pathlib.Path, capsys: pytest.CaptureFixture) -> None:
    proofs = read(LINES, str(tmp_path), "2")
    assert (proofs.last_line, proofs.has_failed, proofs.waits.errors) == ("2 passed, 1 failed\n", True, [])
    printed = [line.partition(";")[0] for line in capsys.readouterr().out.splitlines()]
    assert printed == [
        "[ 1/3] low: proved before, and not changed since",
        "[ 2/3] wide: proved, 12 functions",
        "rt: wide: its tests are proved",
        "rt: note: a note",
        "== middle",
        "fn middle::one: not proved",
        "logic=not-proved",
        "rt: middle NOT PROVED",
        "[ 3/3] middle: NOT PROVED",
        "rt: FAILED: middle",
    ]


def test_as_many_functions_may_wait_as_the_list_of_crates_says(tmp_path: pathlib.Path) -> None:
    assert read(LINES, str(tmp_path), "1").waits.errors == ["wide: 2 functions may wait, but crates.txt says 1"]


def test_the_libraries_are_measured(tmp_path: pathlib.Path) -> None:
    def function(steps: int, parameters: int) -> dict:
        return {"body": ["Return"] * steps, "generics": {"types": [{}] * parameters}}

    file = tmp_path / "crates/wide/out/rlib/wide.rlib/toolchain/mir.json"
    file.parent.mkdir(parents=True)
    file.write_text(json.dumps([["wide::one", function(10_000, 2)], ["wide::two", function(1_000, 0)], ["wide::three+decl", function(90_000, 0)]]))
    wanted = round(2 * OF_A_FUNCTION + 11_000 * OF_A_STEP + 20_000 * OF_A_PARAMETER)
    assert read(LINES, str(tmp_path), "2").sizes == {"wide": wanted}
    assert size_of("low", str(tmp_path)) is None
    assert steps_in({"a": [1, {"b": "c"}], "d": []}) == 5


def test_totals_are_of_all_crates_and_of_the_longest_chain() -> None:
    assert totals_of({"low": 5, "wide": 7, "high": 11, "beside": 20}, KNOWN) == {"in_all": 43, "longest_chain": 23}
    # The crate of a program has no library, and therefore no size. A chain of crates still passes through it.
    assert totals_of({"low": 5, "high": 11}, KNOWN) == {"in_all": 16, "longest_chain": 16}


@pytest.mark.parametrize(
    ("sizes", "wrong"),
    [
        ({"low": 110, "wide": 100}, []),
        ({"low": 111, "wide": 100}, ["low"]),
        ({"low": 100, "new": 1}, ["new"]),
        ({"low": 109, "wide": 109, "high": 109, "beside": 85}, ["longest_chain"]),
    ],
)
def test_what_is_above_the_budget(sizes: dict[str, int], wrong: list[str]) -> None:
    budget = Budget({"low": 100, "wide": 100, "high": 100, "beside": 100}, {"in_all": 400, "longest_chain": 300})
    assert above(sizes, budget, KNOWN) == wrong


def test_the_budget_is_written_and_read_again(tmp_path: pathlib.Path) -> None:
    budget, file = Budget({"low": 10, "wide": 20}, {"in_all": 30, "longest_chain": 30}, {"in_all": 25, "longest_chain": 20}), str(tmp_path / "budget.txt")
    write_budget(budget, file)
    assert read_budget(file) == budget
    said = [*table({"low": 12, "wide": 20}, budget, KNOWN)]
    assert said[0].split() == "low 12 of 10 MB, +20%: ABOVE ITS BUDGET".split()
    assert said[-1].split() == "longest chain 32 of 30 MB, +7%, aim 20: ABOVE ITS BUDGET".split()
