"""KIF: parsing, errors, and the order of the output."""

import unittest

from ggp_tools.kif import (
    DIGITS, MOST_LEVELS, KifFault, Refused, atoms, expressions, fresh, levels, place, place_of, put, relation, spelled, starts, told,
    variables,
)
from support import raised


class Texts(unittest.TestCase):
    def assert_fault(self, text, words, index):
        for read in (expressions, starts):
            why = raised(KifFault, read, text)
            self.assertEqual((str(why), why.index), (words, index))

    def test_atoms_and_lists_in_lower_case(self):
        self.assertEqual(expressions(" A (b\t(C d)\r\n()) e"), ["a", ("b", ("c", "d"), ()), "e"])
        self.assertEqual((expressions(""), expressions(" \n")), ([], []))

    def test_a_comment_ends_with_its_line(self):
        self.assertEqual(expressions("a;b (\n(c ; ) d\n) ;"), ["a", ("c",)])
        self.assert_fault("; (\n)", "a `)` with no open list", 4)

    def test_each_expression_has_its_start(self):
        self.assertEqual(starts("a (b (c) d) ;e\n (f)"), [0, 2, 16])

    def test_parentheses_that_do_not_match_have_their_place(self):
        self.assert_fault("a ) (", "a `)` with no open list", 2)
        self.assert_fault("(a (b) (c", "a list that is not closed", 7)
        self.assert_fault("(a", "a list that is not closed", 0)

    def test_characters(self):
        self.assertEqual(expressions("! ~ \t\r\n"), ["!", "~"])
        self.assertEqual(expressions("À\xa0 \x85B", takes_bytes=True), ["À\xa0", "\x85b"])
        for bad in "\x00\x08\x0b\x1f\x7f\xe9":
            self.assert_fault(f"(a b{bad})", f"a byte that is not a character of KIF: {bad!r}", 4)

    def test_refusals_have_their_place_the_sentence_and_what_to_do(self):
        def words(text, why=None):
            try:
                expressions(text)
            except KifFault as fault:
                why = fault
            return told(text, why)

        self.assertEqual(words("(a)\n (b"), "line 2, column 2: a list that is not closed; add a `)`")
        for text, advice in (
            ("\xff\xfe(\x00", "the file is UTF-16: save it as ASCII"), ("\xe9", "write it in ASCII, or in a comment"),
        ):
            self.assertEqual(words(text).partition("; ")[::2], (f"line 1, column 1: a byte that is not a character of KIF: {text[0]!r}", advice))
        long = "(c " + "d" * 200 + ")"
        self.assertEqual(words(f"(a)\n  (B  b)\n{long}", Refused("why", 1, "do this")), "line 2, column 3: why: (b b); do this")
        self.assertEqual(words(f"(a)\n{long}", Refused("why", 1)), f"line 2, column 1: why: (c {'d' * 157}..")
        self.assertEqual(words("(a)", Refused("why")), "why")

    def test_lists_stand_in_one_another_to_a_limit(self):
        self.assertEqual(MOST_LEVELS, 64)
        deep = "(" * 64 + ")" * 64
        self.assertEqual(levels(expressions(f"{deep} {deep}")[1]), 64)
        why = raised(KifFault, expressions, f"a ({deep})")
        self.assertEqual((str(why), why.index), ("lists are nested more than 64 deep", 2 + 64))

    def test_a_place_is_told_by_line_and_column(self):
        text = "ab\n\ncd"
        self.assertEqual([place_of(text, index) for index in (0, 1, 3, 4, 5)],
                         ["line 1, column 1", "line 1, column 2", "line 2, column 1", "line 3, column 1", "line 3, column 2"])
        self.assertEqual(place_of("\na", 1), "line 2, column 1")


class Expressions(unittest.TestCase):
    DEEP = ("p", "?x", ("f", "a", ("g", "?y", "?x")), "b")

    def test_an_expression_is_spelled_as_it_is_read(self):
        self.assertEqual(spelled(self.DEEP), "(p ?x (f a (g ?y ?x)) b)")
        self.assertEqual(expressions(spelled(self.DEEP)), [self.DEEP])
        self.assertEqual((spelled("a"), spelled(())), ("a", "()"))

    def test_atoms_and_variables_stand_in_their_order(self):
        self.assertEqual(list(atoms(self.DEEP)), ["p", "?x", "f", "a", "g", "?y", "?x", "b"])
        self.assertEqual((variables(self.DEEP), variables("?x"), variables("x?")), (["?x", "?y"], ["?x"], []))

    def test_values_are_put_for_variables(self):
        self.assertEqual(put(self.DEEP, {"?x": ("h", "?y"), "b": "c"}), ("p", ("h", "?y"), ("f", "a", ("g", "?y", ("h", "?y"))), "c"))
        self.assertEqual(put("?z", {"?x": "a"}), "?z")

    def test_a_relation_has_its_number_of_arguments(self):
        self.assertEqual([relation(atom) for atom in ("p", ("p",), ("p", "a"), ("p", ("f", "a"), "b"))], [("p", None), ("p", 0), ("p", 1), ("p", 2)])

    def test_levels_count_lists_in_one_another(self):
        self.assertEqual([levels(expression) for expression in ("a", (), ("a", "b"), ("a", ("b",), "c"), self.DEEP)], [0, 1, 1, 2, 3])

    def test_numbers_come_first_by_their_value_then_words_then_lists(self):
        order = ["0", "007", "7", "9", "10", "100", "a", "a1", "b", "x10", ("10", "b"), ("a", "2"), ("a", "10"), ("a", ("a",))]
        self.assertEqual(sorted(reversed(order), key=place), order)

    def test_a_fresh_word_is_none_of_those_that_are_taken(self):
        self.assertEqual((fresh("w", []), fresh("w", ["w", "w--"]), fresh("w", ["w", "w-"])), ("w", "w-", "w--"))
        taken = ["w1", "w-x", "w--7", "v2"]
        self.assertEqual((fresh("w", taken, DIGITS), fresh("v", ["v", "v2x", "xv2"], DIGITS)), ("w-", "v"))
        self.assertEqual(fresh("w.", ["wx1"], DIGITS), "w.")
