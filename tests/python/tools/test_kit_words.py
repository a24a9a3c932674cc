"""The functions of the toolchain that the crates' code must not use."""
import importlib.machinery
import importlib.util

import pytest
from crates import TOP


def load() -> object:
    """Loads tools/kit-words as a module."""
    loader = importlib.machinery.SourceFileLoader("kit_words", f"{TOP}/tools/kit-words")
    module = importlib.util.module_from_spec(importlib.util.spec_from_loader("kit_words", loader))
    loader.exec_module(module)
    return module


KIT_WORDS = load()


@pytest.mark.parametrize("word", KIT_WORDS.REFUSED)
def test_each_word_is_found_where_it_is_called_or_imported(word: str) -> None:
    for source, row in ((f"let x = port.calls.{word}();\n", 1), (f"\nuse ends::{word} as seen;\n", 2), (f"Consumer::{word}(\n    &mut port);\n", 1)):
        assert KIT_WORDS.uses_in(source) == [(row, word)]


@pytest.mark.parametrize("source", ["// pop_known would be wrong here.\n", "port.calls.pop(); // not peek_known\n", "my_cached_slots() == slots_cached_slots"])
def test_a_comment_or_another_word_is_not_found(source: str) -> None:
    assert KIT_WORDS.uses_in(source) == []
