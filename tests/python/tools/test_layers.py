"""Imports of non-public definitions of other crates, and crates that are listed but not used."""
import unittest

from crates import reaching, unmentioned

KNOWN = ("low", "high")


def found(text, path="crates/high/proofs/One.antt"):
    return [*reaching(path, text, KNOWN)]


class Reaching(unittest.TestCase):
    def test_a_lemma_of_another_crate(self):
        self.assertEqual(found("use Rattle.low.proofs.Laws.{one-two, ◌⊕◌, both as own}\n"), [("low.proofs.Laws", name) for name in ("one-two", "◌⊕◌", "both")])
        self.assertEqual(found("ghost use Rattle.low.proofs.Laws.{one};", "crates/high/src/lib.rt"), [("low.proofs.Laws", "one")])
        self.assertEqual(found("use Rattle.low.proofs.Laws\n"), [("low.proofs.Laws", "*")])

    def test_a_name_without_an_import_or_over_two_lines(self):
        self.assertEqual(found("one = (Rattle.low.proofs.Laws.one x)"), [("low.proofs.Laws.one", "*")])
        self.assertEqual(found("use Rattle.low.proofs.Laws.{one,\n  two}\n"), [("low.proofs.Laws", "one"), ("low.proofs.Laws", "two")])

    def test_a_definition_that_another_crate_keeps_to_itself(self):
        self.assertEqual(found("use Rattle.low.specs.Internal.Rows.{row}\n"), [("low.specs.Internal.Rows", "row")])

    def test_a_public_definition_that_rests_on_one_that_is_not(self):
        text = "use Rattle.high.specs.Internal.Rows.{row}\n"
        self.assertEqual(found(text, "crates/high/specs/Open.antt"), [("high.specs.Internal.Rows", "row")])
        for path in ("crates/high/specs/Internal/Other.antt", "crates/high/proofs/One.antt", "crates/high/src/lib.rt"):
            self.assertEqual(found(text, path), [])

    def test_what_is_public_or_the_kits_is_none(self):
        for text in ("use Rattle.low.specs.Open.{one}\n", "use Rattle.std.proofs.Common.{refl}\n", "use Rattle.json.proofs.Laws.{one}\n"):
            self.assertEqual(found(text), [])

    def test_a_comment_is_none(self):
        self.assertEqual(found("-- use Rattle.low.proofs.Laws.{one}\n"), [])


class Unmentioned(unittest.TestCase):
    def test_a_crate_is_mentioned_in_code_or_in_a_proof(self):
        self.assertEqual(unmentioned(["low", "json"], ["use low::Game;\n", "use Rattle.json.specs.Value.{Value}\n"]), [])

    def test_a_crate_that_no_text_mentions(self):
        self.assertEqual(unmentioned(["low", "json"], ["use low::Game;\n"]), ["json"])
        self.assertEqual(unmentioned(["low"], ["use lower::Game;\n"]), ["low"])

    def test_a_comment_is_no_mention(self):
        self.assertEqual(unmentioned(["low"], ["// low\n", "-- as low says\n"]), ["low"])
