"""The Debian packages that a package depends on."""
import unittest

from driving.packages import closure, installed, names_in

TEXT = "".join(f"{line}\n" for line in (
    "shell\tbase (>= 2), library:any (= 3), \t",
    "library\t, \t",
    "base\t, no-such | awk\t",
    "mawk\tlibrary, \tawk",
    "other\t, shell\tsome-name (= 1), another",
))


class Installed(unittest.TestCase):
    def test_names_stand_without_versions(self):
        self.assertEqual(names_in("libc6 (>= 2.36), python3:any, mawk | awk [amd64], "), [["libc6"], ["python3"], ["mawk", "awk"]])
        self.assertEqual(names_in(", "), [])

    def test_a_package_comes_with_all_that_it_depends_on(self):
        known = installed(TEXT)
        self.assertEqual(closure(["shell"], known), ["base", "library", "mawk", "shell"])
        self.assertEqual(closure(["library", "mawk"], known), ["library", "mawk"])
        self.assertEqual(known["other"].provides, ["some-name", "another"])
