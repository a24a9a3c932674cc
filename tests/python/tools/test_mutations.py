"""How mutations of the crates are written and applied, and why the prover refuses one."""
from pathlib import Path

import pytest
from mutations import MutationError, errors_in, mutations_of, reason

SOURCE = "fn one() -> u8 {\n    1\n}\nfn two() -> u8 {\n    2\n}\n"


@pytest.fixture
def top(tmp_path: Path) -> Path:
    for directory in ("crates/low/src", "crates/low/must-fail", "tests/mutations"):
        (tmp_path / directory).mkdir(parents=True)
    for file in ("lib", "other"):
        (tmp_path / f"crates/low/src/{file}.rt").write_text(SOURCE, encoding="utf-8")
    return tmp_path


def listed(top: Path, text: str) -> list[dict[str, str]]:
    """Returns the mutations of a text for the crate `low`."""
    (top / "tests/mutations/low.txt").write_text(text, encoding="utf-8")
    return [mutation.applied(str(top)) for mutation in mutations_of("low", str(top))]


def error(top: Path, text: str) -> str:
    (top / "tests/mutations/low.txt").write_text(text, encoding="utf-8")
    return ", ".join(errors_in(["low"], str(top)))


def test_each_mutation_replaces_one_line_with_its_spaces(top):
    text = "# two mutations\none_is_three: src/lib.rt\n  -     1\n  +     3\ntwo_is_gone: src/lib.rt\n  -     2\n  +\n"
    assert listed(top, text) == [{"src/lib.rt": SOURCE.replace("    1", "    3")}, {"src/lib.rt": SOURCE.replace("    2", "")}]


def test_a_further_pair_applies_to_what_the_first_made_or_to_another_file(top):
    text = "wrong: src/lib.rt\n  -     1\n  +     3\n  -     3\n  +     4\n  @ src/other.rt\n  -     2\n  +     5\n"
    assert listed(top, text) == [{"src/lib.rt": SOURCE.replace("    1", "    4"), "src/other.rt": SOURCE.replace("    2", "    5")}]


def test_the_mutations_of_the_gate_come_first(top):
    (top / "crates/low/must-fail/gated.edit").write_text("file: src/lib.rt\nold:     1\nnew:     3\n", encoding="utf-8")
    (top / "tests/mutations/low.txt").write_text("wrong: src/lib.rt\n  -     1\n  +     3\n", encoding="utf-8")
    assert [str(mutation) for mutation in mutations_of("low", str(top))] == ["low/gated", "low/wrong"]
    (top / "crates/low/must-fail/gated.edit").write_text("file: src/lib.rt\nold:     1\n", encoding="utf-8")
    with pytest.raises(MutationError, match="gated.edit: expected pairs"):
        mutations_of("low", str(top))


@pytest.mark.parametrize(
    "text, message",
    [
        ("wrong: src/lib.rt\n  - u8\n  + u16\n", "low.txt:1: wrong: the old text occurs 2 times in src/lib.rt, expected once: u8"),
        ("wrong: src/gone.rt\n  - 1\n  + 2\n", "low.txt:1: wrong: crates/low/src/gone.rt does not exist"),
        ("wrong: src/lib.rt\n", "low.txt:1: wrong: expected '  - OLD' and '  + NEW'"),
        ("wrong: src/lib.rt\n  + 2\n", "low.txt:2: expected 'NAME: src/FILE'"),
        ("wrong: src/lib.rt\n  - 1\n  + 2\nwrong: src/lib.rt\n", "low.txt:4: expected 'NAME: src/FILE' with a new name"),
    ],
)
def test_a_mutation_that_cannot_be_applied_is_reported_with_its_place(top, text, message):
    assert error(top, text).startswith(f"tests/mutations/{message}")


@pytest.mark.parametrize(
    "word, lines",
    [
        ("false", ["src/lib.rt:2:5: error: `one`: open", "the facts allow values at which this goal is false", "fn one: not proved"]),
        ("goal", ["src/lib.rt:2:5: error: `one`: open", "fn one: not proved"]),
        ("names", ["proofs/one/Answers.antt:3:1: error: `step` is not in scope", "fn one: not proved"]),
        ("answer", ["proofs/one/Answers.antt:3:1: error: expected another type"]),
    ],
)
def test_the_prover_refuses_for_a_reason(word, lines):
    assert reason([*lines, "logic=not-proved"])[0] == word
