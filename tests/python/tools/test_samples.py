"""Code samples in documents, and the crates in cells of the index of guarantees."""
import unittest

from documents import indexed, sources, without_targets


def shown(text):
    """Returns the lines of a text that come from a file. Indented lines are code."""
    lines = [(number, line, line.startswith("    ")) for number, line in enumerate(text.splitlines(), 1)]
    return [*sources(lines)]


class Sources(unittest.TestCase):
    def test_a_sample_follows_the_line_that_names_its_file(self):
        text = "From `crates/low/src/lib.rt`, a call:\n\n    let a = 1;\n\n    a\n"
        self.assertEqual(shown(text), [(3, "let a = 1;", "crates/low/src/lib.rt"), (5, "a", "crates/low/src/lib.rt")])

    def test_other_code_is_no_sample(self):
        self.assertEqual(shown("Run it:\n\n    make\n"), [])
        self.assertEqual(shown("From `a`, with no colon\n\n    a\n"), [])

    def test_a_sample_ends_at_the_next_text(self):
        self.assertEqual(shown("It is from `a`:\n\n    a\n\nBehind it:\n\n    b\n"), [(3, "a", "a")])


class Indexed(unittest.TestCase):
    def test_a_part_names_its_crate(self):
        part = without_targets(" [`Match::state` of `match_book`](../crates/match_book/src/matches.rt): `lawful` ")
        self.assertEqual(indexed(part), ("match_book", "`Match::state`: `lawful`"))

    def test_a_part_without_clauses(self):
        self.assertEqual(indexed("[`copy` of `kif_text`]"), ("kif_text", "`copy`"))

    def test_a_part_of_a_crate_names_none(self):
        self.assertIsNone(indexed("`read_one`: `fault`"))
