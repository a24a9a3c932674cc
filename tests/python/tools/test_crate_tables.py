"""The tables of crates: the first sentence about a crate, the crates that it uses, and where a table goes."""
import unittest

from crate_tables import CRATES, LAYERS, TESTS, comment_of, layers, nearest, purpose, with_layers, with_table

ROW = ("`low`", "", "texts")


class CrateTables(unittest.TestCase):
    def test_a_crate_is_for_what_its_readme_says_first(self) -> None:
        self.assertEqual(purpose("# `low`\n\nTexts, and lists\nof texts. It knows no games.\n\nMore.\n"), "Texts, and lists of texts")

    def test_the_first_comment_says_what_tests_try(self) -> None:
        self.assertEqual(comment_of("//! Tests of games,\n//! packed ones too. Tests alone.\n#![tactic(auto)]\n"), "Tests of games, packed ones too")
        self.assertEqual(comment_of("use a;\n"), "")

    def test_what_is_reached_through_another_one_is_left_out(self) -> None:
        known = {"low": [], "mid": ["low"], "side": [], "top": ["low", "mid", "side"]}
        self.assertEqual(nearest(known["top"], known), ["mid", "side"])

    def test_a_table_gets_its_rows_and_the_rest_stays(self) -> None:
        text = f"Before.\n\n{CRATES}\n|---|---|---|\n| old | a | b |\n\nBehind.\n\n| Other |\n|---|\n"
        wanted = f"Before.\n\n{CRATES}\n|---|---|---|\n| `low` | | texts |\n\nBehind.\n\n| Other |\n|---|\n"
        self.assertEqual(with_table(text, CRATES, [ROW]), wanted)
        self.assertEqual(with_table(wanted, CRATES, [ROW]), wanted)

    def test_a_table_has_as_many_columns_as_its_head(self) -> None:
        self.assertEqual(with_table(f"{TESTS}\n", TESTS, [("`low_tests`", "texts")]), f"{TESTS}\n|---|---|\n| `low_tests` | texts |\n")

    def test_a_crate_stands_above_all_that_it_stands_on(self) -> None:
        known = {"low": [], "mid": ["low"], "side": ["thiserror"], "top": ["low", "mid", "side"], "worked": ["top"]}
        self.assertEqual(layers(known), [["top"], ["mid"], ["low", "side"]])
        text = f"Before.\n\n{LAYERS}\n\n    old\n\nBehind.\n"
        self.assertEqual(with_layers(text, layers(known)), f"Before.\n\n{LAYERS}\n\n    top\n    mid\n    low side\n\nBehind.\n")

    def test_a_text_without_the_table_stays(self) -> None:
        self.assertEqual(with_table("| Other |\n|---|\n", CRATES, [ROW]), "| Other |\n|---|\n")
