"""Parsing of crates.txt, the order of crates, and checksums of their text."""
import os
import tempfile
import unittest
import unittest.mock

import crates
from crates import below, is_current, own_deps, rows, spell, strays, with_below, write_beside

TEXT = """\
# NAME: what it stands on
low: thiserror
wide may_wait=6: rtrb
middle: low json  # beside it
high: middle wide low

not a row
"""


class Rows(unittest.TestCase):
    def test_each_row_has_its_line_and_what_it_stands_on(self):
        found = rows(TEXT)
        self.assertEqual([*found], ["low", "wide", "middle", "high"])
        self.assertEqual(found["wide"], ("wide may_wait=6: rtrb", ["rtrb"]))
        self.assertEqual(found["middle"][1], ["low", "json"])

    def test_libraries_of_the_kit_are_no_crates(self):
        self.assertEqual(own_deps(rows(TEXT)), {"low": [], "wide": [], "middle": ["low"], "high": ["middle", "wide", "low"]})

    def test_the_repository_names_each_crate_behind_what_it_stands_on(self):
        seen = set()
        for name, deps in crates.crates().items():
            self.assertLessEqual(set(deps), seen, name)
            seen.add(name)


class Strays(unittest.TestCase):
    def test_a_folder_of_no_crate_is_named_if_something_is_there(self):
        with tempfile.TemporaryDirectory() as top:
            for name in "low", "gone", "empty/out":
                os.makedirs(f"{top}/edits/{name}")
            for file in "low/one.edit", "gone/two.edit", "readme":
                write(f"{top}/edits/{file}", "")
            self.assertEqual(strays("edits", ["low", "wide"], top), ["gone"])


class Order(unittest.TestCase):
    known = own_deps(rows(TEXT))

    def test_the_lower_ones_come_first(self):
        self.assertEqual(below("high", self.known), ["low", "middle", "wide"])
        self.assertEqual(below("low", self.known), [])

    def test_named_crates_bring_what_they_stand_on_once(self):
        self.assertEqual(with_below(["wide", "middle", "low"], self.known), ["wide", "low", "middle"])


class Programs(unittest.TestCase):
    def test_a_program_is_current_where_it_is_the_one_that_was_made_from_the_text(self):
        with tempfile.TemporaryDirectory() as room, unittest.mock.patch("crates.made_from", lambda: f"text: {room}\n"):
            program = f"{room}/program"
            self.assertFalse(is_current(program, "proved"))
            write(program, "one")
            self.assertFalse(is_current(program, "proved"))
            write_beside(program, "proved", crates.made_from())
            self.assertTrue(is_current(program, "proved"))
            self.assertFalse(is_current(program, "proved", "text: another\n"))
            # A new program replaces the file, as if the build had been interrupted right after this step.
            write(program, "two")
            self.assertFalse(is_current(program, "proved"))
            write(program, "one")
            self.assertTrue(is_current(program, "proved"))
            os.chmod(program, 0o644)
            self.assertFalse(is_current(program, "proved"))

    def test_a_file_that_says_no_sum_is_not_enough(self):
        with tempfile.TemporaryDirectory() as room, unittest.mock.patch("crates.made_from", lambda: "text: one\n"):
            write(f"{room}/program", "one")
            write(f"{room}/program.proved", "text: one\n")
            self.assertFalse(is_current(f"{room}/program", "proved"))


def write(file, text):
    with open(file, "w", encoding="utf-8") as stream:
        stream.write(text)
    os.chmod(file, 0o755)


class Times(unittest.TestCase):
    def test_a_time_is_spelled(self):
        self.assertEqual([spell(seconds) for seconds in (0.4, 59.4, 59.6, 754)], ["0 s", "59 s", "1 min 00 s", "12 min 34 s"])
