"""Selecting unit tests by name: the tests that remain in each crate of tests/unit."""
import os
import tempfile
import unittest

import unit_crates

HELPER = """fn helper() -> u8 {
    1
}
"""
TESTS = """
/// A line of what this says.
#[test]
fn says_one(rt: HostRuntime) -> Result<(), Fail> {
    if helper() == 1 {
        return Ok(());
    }
    Err(Fail)
}

#[test]
fn says_two(
    rt: HostRuntime,
) {
    check(helper());
}
"""


class Named(unittest.TestCase):
    def test_the_module_of_a_file(self):
        files = ("src/lib.rt", "src/bells.rt", "src/bells/rings.rt.test")
        self.assertEqual([unit_crates.module_of(file) for file in files], ["", "bells::", "bells::rings::"])

    def test_the_others_go_with_their_documentation(self):
        text, names = unit_crates.without_other_tests(HELPER + TESTS, "m::", "m::says_t")
        self.assertEqual(names, ["m::says_two"])
        self.assertEqual(text, HELPER + "\n\n" + TESTS[TESTS.index("#[test]\nfn says_two"):])

    def test_all_files_of_the_crate_are_gone_through(self):
        with tempfile.TemporaryDirectory() as room:
            os.makedirs(f"{room}/crates/some/src")
            for file in ("lib.rt", "more.rt"):
                with open(f"{room}/crates/some/src/{file}", "w", encoding="utf-8") as stream:
                    stream.write(TESTS)
            self.assertEqual(sorted(unit_crates.leave_tests(room, "some", "one")), ["more::says_one", "says_one"])
            self.assertEqual(unit_crates.leave_tests(room, "some", "more::"), ["more::says_one"])
            self.assertEqual(unit_crates.leave_tests(room, "some", "says_two"), [])

    def test_each_test_of_the_repository_is_found(self):
        for name in unit_crates.unit_crates():
            for file in unit_crates.files_of(f"{unit_crates.UNIT}/{name}"):
                with open(f"{unit_crates.UNIT}/{name}/{file}", encoding="utf-8") as stream:
                    text = stream.read()
                self.assertEqual(len(unit_crates.TEST.findall(text)), text.count("#[test]"), file)
                self.assertNotIn("#[test]", unit_crates.without_other_tests(text, "", "no name has this")[0], file)
