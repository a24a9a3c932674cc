"""The package as seen from outside: each command has a launcher and an entry point, and the package contains all modules."""

import os
import pathlib
import re
import subprocess
import tempfile
import tomllib
import unittest

from support import GAMES, TOP, InFolder, program

PYTHON = TOP / "python"
LAUNCHED = re.compile(r"^from (ggp_tools\S*) import main$", re.MULTILINE)
# Scripts that edit the path of modules, or load a module by its path.
BY_PATH = re.compile(r"sys\.path|importlib|SourceFileLoader|runpy")


class Package(unittest.TestCase):
    def test_each_launcher_has_its_entry_point(self):
        scripts = tomllib.loads((PYTHON / "pyproject.toml").read_text())["project"]["scripts"]
        launchers = [path for path in PYTHON.glob("ggp*") if path.is_file()]
        self.assertEqual(scripts, {path.name: f"{LAUNCHED.search(path.read_text())[1]}:main" for path in launchers})

    def test_modules_are_found_by_their_names_alone(self):
        files = [*(PYTHON / "ggp_tools").rglob("*.py"), *(path for path in PYTHON.glob("ggp*") if path.is_file())]
        self.assertGreater(len(files), 40)
        self.assertEqual([path for path in files if BY_PATH.search(path.read_text())], [])


class WithoutPackages(InFolder):
    """A Python without the packages for pages."""

    def setUp(self):
        super().setUp()
        self.room = self.enterContext(tempfile.TemporaryDirectory())
        for name in ("jinja2", "aiohttp", "numpy"):
            pathlib.Path(self.room, f"{name}.py").write_text(f"raise ModuleNotFoundError('missing', name='{name}')\n")

    def ran(self, command, *words):
        done = subprocess.run([PYTHON / command, *words], cwd=self.folder, env={**os.environ, "PYTHONPATH": self.room}, capture_output=True, text=True)
        return done.returncode, done.stderr

    def test_what_makes_no_page_runs_and_what_does_names_the_package(self):
        self.plan([("ann", "h:1"), ("bob", "h:2")], [("countdown", GAMES / "countdown.kif")])
        program_words = "--program", program()
        self.assertEqual(self.ran("ggp_competition", *program_words, "plan"), (0, ""))
        record = GAMES.parent / "records/countdown-3-second_version.record"
        self.assertEqual(self.ran("ggp-explain-record", program(), "--countdown", "3", record), (0, ""))
        for command in (path.name for path in PYTHON.glob("ggp*") if path.is_file()):
            self.assertEqual(self.ran(command, "--help"), (0, ""), command)
        missing = "{}: this command needs the Python module {}: apt-get install python3-{}\n"
        jinja, numpy = (missing.format("ggp_competition", name, name) for name in ("jinja2", "numpy"))
        self.assertEqual(self.ran("ggp_competition", *program_words, "table"), (2, numpy))
        self.assertEqual(self.ran("ggp_competition", *program_words, "pages"), (2, jinja))
        self.assertEqual(self.ran("ggp_competition", *program_words, "serve"), (2, jinja))
        self.assertEqual(self.ran("ggp-show-record", record), (2, missing.format("ggp-show-record", "jinja2", "jinja2")))
        pathlib.Path(self.room, "jinja2.py").unlink()
        self.assertEqual(self.ran("ggp_competition", *program_words, "serve"), (2, numpy))
        pathlib.Path(self.room, "numpy.py").unlink()
        self.assertEqual(self.ran("ggp_competition", *program_words, "table"), (0, ""))
        aiohttp = "ggp_competition: this command needs the Python module aiohttp: apt-get install python3-aiohttp\n"
        self.assertEqual(self.ran("ggp_competition", *program_words, "serve"), (2, aiohttp))
