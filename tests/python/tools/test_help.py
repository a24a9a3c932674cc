"""Every Python script for people prints its help for --help, and does nothing else."""
import glob
import os
import subprocess
import sys
import unittest

from crates import TOP

FOLDERS = (".ci", "bench", "tests/program", "examples", "tests/oracle", "python", "tools")
# Code that parses a command line, and prints its help.
READERS = ("ArgumentParser(", "arguments(__doc__", "program_of(__doc__)", "reader(__doc__)", "run_test(__doc__", "words_with_program(__doc__)")
# These pass their arguments to modules of `ggp_tools`.
COMMANDS = tuple(sorted(os.path.relpath(path, TOP) for path in glob.glob(f"{TOP}/python/ggp*") if os.path.isfile(path)))
OLDER = "import runpy, sys; sys.version_info = (3, 10, 18); runpy.run_path(sys.argv[1], run_name='__main__')"


def scripts():
    """Returns the text of each script, by its path from the top."""
    found = {}
    for file in (f"{room}/{name}" for folder in FOLDERS for room, _, names in os.walk(f"{TOP}/{folder}") for name in names):
        if os.access(file, os.X_OK):
            with open(file, encoding="utf-8") as stream:
                text = stream.read()
            if "python" in text.partition("\n")[0]:
                found[os.path.relpath(file, TOP)] = text
    return found


class Help(unittest.TestCase):
    def test_each_script_reads_its_words(self):
        found = scripts()
        self.assertGreater(len(found), 40)
        without = [file for file, text in found.items() if not any(reader in text for reader in READERS)]
        self.assertEqual(sorted(without), list(COMMANDS))

    def test_what_a_command_is_for_is_printed(self):
        for file in (*COMMANDS, "examples/players/player.py", "examples/players/interpreting.py"):
            said = subprocess.run([f"{TOP}/{file}", "--help"], stdin=subprocess.DEVNULL, capture_output=True, text=True)
            self.assertEqual((said.returncode, said.stderr), (0, ""), file)
            self.assertIn(f"{os.path.basename(file)} ", said.stdout)

    def test_an_older_python_is_named(self):
        for file in COMMANDS:
            words, found = [sys.executable, "-c", OLDER, f"{TOP}/{file}"], {**os.environ, "PYTHONPATH": f"{TOP}/python"}
            said = subprocess.run(words, env=found, stdin=subprocess.DEVNULL, capture_output=True, text=True)
            name = os.path.basename(file)
            self.assertEqual((said.returncode, said.stderr), (1, f"{name}: this is Python 3.10, but the command needs 3.11 or later\n"))
