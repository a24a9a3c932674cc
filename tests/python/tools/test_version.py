"""The version is the same everywhere."""
import os
import subprocess
import sys
import tempfile
import unittest

TOP = os.path.dirname(os.path.dirname(os.path.dirname(os.path.dirname(os.path.realpath(__file__)))))
FILES = {
    "crates/command_line/src/program.rt": 'pub const VERSION: &str = "{}";\n',
    "CHANGELOG.md": "# Changes\n\n## v{}\n\n## v0.0.1\n",
    "package/__init__.py": 'VERSION = "{}"\n',
    "README.md": "    ggp_manager {}\n",
    "docs/COMPETITION.md": "published with ggp_manager {}, checked by ggp_competition {}\n",
}


def said(versions: dict[str, str]) -> tuple[int, str]:
    """Returns the exit status and the messages for these versions. The default is 1.2.3."""
    with tempfile.TemporaryDirectory() as top:
        for file, form in FILES.items():
            os.makedirs(os.path.dirname(f"{top}/{file}"), exist_ok=True)
            with open(f"{top}/{file}", "w", encoding="utf-8") as written:
                written.write(form.replace("{}", versions.get(file, "1.2.3")))
        look = f"import sys; sys.path.insert(0, {TOP + '/tools'!r}); import runpy; "
        look += f"faults = runpy.run_path({TOP + '/tools/version'!r})['faults']; print(*faults({top!r}), sep='\\n')"
        done = subprocess.run([sys.executable, "-B", "-c", look], capture_output=True, text=True)
        return done.returncode, done.stdout


class Version(unittest.TestCase):
    def test_the_same_everywhere_is_well(self):
        self.assertEqual(said({}), (0, "\n"))

    def test_each_file_that_says_another_is_named(self):
        for file in FILES:
            with self.subTest(file):
                status, words = said({file: "1.2.4"})
                self.assertEqual((status, "1.2.4" in words and "1.2.3" in words), (0, True), words)

    def test_a_place_without_a_version_is_named(self):
        self.assertEqual(said({"README.md": "none"}), (0, "README.md: there is no version\n"))
