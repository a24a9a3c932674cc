"""The files that `tools/vendor` does not change in the repository that it copies crates to."""
import os
import pathlib
import subprocess
import tempfile
import unittest

TOP = os.path.dirname(os.path.dirname(os.path.dirname(os.path.dirname(os.path.realpath(__file__)))))
# A crate that uses no other crate.
CRATE = "game_core"


class Vendor(unittest.TestCase):
    def setUp(self):
        self.target = pathlib.Path(self.enterContext(tempfile.TemporaryDirectory()))
        self.folder = self.target / "crates" / CRATE
        self.folder.parent.mkdir()

    def vendor(self, *words):
        return subprocess.run([f"{TOP}/tools/vendor", *(words or [CRATE]), self.target], capture_output=True, text=True)

    def test_a_crate_is_copied_and_replaced(self):
        rows = self.target / "crates.txt"
        rows.write_bytes(b"# caf\xe9\nown: other\n")
        for _ in range(2):
            self.assertEqual(self.vendor().returncode, 0)
        lines = rows.read_bytes().splitlines()
        self.assertEqual((lines[1:], lines[0].startswith(CRATE.encode())), ([b"# caf\xe9", b"own: other"], True))
        self.assertTrue((self.folder / "src").is_dir())

    def test_handles_have_the_words_that_the_crates_need_or_those_under_which_proofs_are_cached(self):
        handles = self.target / "HANDLES"
        for words, wanted in (((CRATE,), "none"), (("call_history",), "Wait"), (("match_workers",), "Threads, Wait"), (("--cached", CRATE), "Threads, Wait, Net")):
            said = self.vendor(*words).stdout.splitlines()
            self.assertEqual(handles.read_text(encoding="utf-8"), f"Handles allowed: {wanted}.\n")
            self.assertEqual(said[-1].startswith("cached proofs: none can be used"), "--cached" not in words)
            handles.unlink()

    def test_handles_that_are_there_are_left_alone(self):
        handles = self.target / "HANDLES"
        handles.write_text("Handles allowed: Wait.\n", encoding="utf-8")
        self.assertEqual(self.vendor().returncode, 0)
        self.assertEqual(handles.read_text(encoding="utf-8"), "Handles allowed: Wait.\n")

    def test_what_has_the_name_of_a_crate_and_is_none_of_these_is_left_alone(self):
        elsewhere = self.target / "elsewhere"
        (elsewhere / "src").mkdir(parents=True)
        (elsewhere / "vendored").touch()
        for make in (self.folder.mkdir, self.folder.touch, lambda: self.folder.symlink_to("nowhere"), lambda: self.folder.symlink_to(elsewhere)):
            make()
            self.assertEqual(self.vendor().returncode, 1)
            self.folder.rmdir() if self.folder.is_dir() and not self.folder.is_symlink() else self.folder.unlink()
        self.assertEqual(sorted(path.name for path in self.target.rglob("*")), ["crates", "elsewhere", "src", "vendored"])

    def test_a_line_for_a_crate_of_their_own_is_left_alone(self):
        rows = self.target / "crates.txt"
        rows.write_text(f"{CRATE}: theirs\n", encoding="utf-8")
        self.assertEqual(self.vendor().returncode, 1)
        self.assertEqual(rows.read_text(encoding="utf-8"), f"{CRATE}: theirs\n")
