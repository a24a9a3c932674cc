"""The findings of `rt plant` that are not explained."""
import importlib.util
from importlib.machinery import SourceFileLoader

import pytest
from crates import TOP

loader = SourceFileLoader("plants", f"{TOP}/tools/plants")
plants = importlib.util.module_from_spec(importlib.util.spec_from_loader("plants", loader))
loader.exec_module(plants)

SAID = """rt: checking the crate as it stands
proves      src/bits.rt:12 bits::turn_on_after: { 0 }
no-ensures  src/clock.rt:40 Clock<'a, O>::ring()
untested    src/lib.rt:7 take()
plants crate=packed_rules planted-in=9 untested=1 no-ensures=1 proves=1 same=2 refused=30 elsewhere=1 not-judged=0 not-source=4 not-run=0
"""


def test_only_findings_without_an_explanation_are_left():
    assert plants.unexplained("packed_rules", SAID) == ["Clock<'a, O>::ring()"]


@pytest.mark.parametrize("said", ["", SAID.replace("not-run=0", "not-run=2"), SAID.rpartition("plants ")[0]])
def test_a_run_that_did_not_come_to_its_end_has_no_result(said):
    assert plants.unexplained("packed_rules", said) is None


@pytest.mark.parametrize(
    "finding, function",
    [
        ("Pause<'a>::end()", "Pause::end"),
        ("<LockWire<'a, O, L, R> as Wire>::ask: { Err(AskFault::Full) }", "LockWire::ask"),
        ("<Self as Explains>::why()", "Explains::why"),
        ("<Self as fmt::Display>::fmt: { Ok(()) }  (and in 2 more impls)", "Display::fmt"),
        ("files::opened: { self::opened::<F>(files, named, \"\") }", "files::opened"),
    ],
)
def test_a_function_is_named_without_type_parameters_and_traits(finding, function):
    assert plants.function_of(finding) == function
