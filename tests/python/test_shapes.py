"""The forms of the values of a record's keys, according to docs/RECORDS.md."""

import unittest

from ggp_tools.records import record
from ggp_tools.records.record import is_error, is_expression, is_list, is_text
from support import raised


class Shapes(unittest.TestCase):
    def test_a_folded_canonical_text_of_one_expression(self):
        for text in ("a", "noop", "(a)", "()", "(take 1)", "(f (g a b) () (h))", "!~", "((a) (b))", "(" * 64 + ")" * 64, "(a:b @x [y] {z})"):
            self.assertTrue(is_expression(text), text)

    def test_what_is_none(self):
        for text in (
            "", " ", "a b", "(a) b", "(a)(b)", "(a", "a)", ")(", "( a)", "(a )", "(a  b)", " (a)", "(a) ", "(a(b))", "((a)b)", "(A)", "(a;b)", "(a\tb)", "(a\nb)",
            "(\xe4)", "\x7f", "(a Z)", "(" * 65 + ")" * 65, "())", "(()", "()()", "a\n",
        ):
            self.assertFalse(is_expression(text), text)

    def test_an_error_is_a_word_or_what_was_answered(self):
        for error in ("", "TO", "CE", "RT", "IL ?", "IL a", "IL (take 1)", "IL ()"):
            self.assertTrue(is_error(error), error)
        for error in ("IL", "IL ", "to", "TO ", "IL (a", "IL a b", "IL A", "XL a", "il a", "a", None, 1, ["TO"], ("TO",)):
            self.assertFalse(is_error(error), error)

    def test_the_text_of_an_answer_has_at_most_8192_characters(self):
        self.assertTrue(is_error("IL " + "a" * 8_192))
        self.assertFalse(is_error("IL " + "a" * 8_193))

    def test_a_record_may_have_16_mib_before_its_line_s_end(self):
        for size, end, words in ((1 << 24, b"\n", "it is JSON, but not an object"), (1 << 24, b"", "it is JSON, but not an object"), ((1 << 24) + 1, b"\n", "it is longer than 16 MiB")):
            self.assertEqual(str(raised(record.NoRecord, record.read_record, b"[]".ljust(size) + end)), words, size)

    def test_lists_of_members_and_of_lengths(self):
        self.assertTrue(is_list([], is_text) and is_list(["a"], is_text) and is_list(["a", "b"], is_text, [0, 2]) and is_list([], is_text, [0, 2]))
        for value, lengths in ((("a",), None), ("a", None), ([1], None), (["a", None], None), (["a"], [0, 2]), (["a"], []), (None, None)):
            self.assertFalse(is_list(value, is_text, lengths), value)
