"""Manual pages and completions are generated from the --help of commands."""
import shutil
import subprocess
import unittest

from crates import TOP
from manuals import bash, page, read_help, zsh

BY_CLAP = """Referees a match

Usage: some run [OPTIONS] <NAME>...

Arguments:
  <NAME>...  The players

Options:
      --start <S>  The seconds for START [default: 10]
      --log        Each message is logged
  -h, --help       Print help
"""
BY_ARGPARSE = """usage: some [-h] [--program FILE] COMMAND ...

What it does, in some `words`.

options:
  -h, --help      show this help message and exit
  --program FILE  the program

commands:
  COMMAND
    plan          writes what's planned
    play          plays

Before. status 0: all is well. 1: it is not.
"""


def some():
    """Returns a help text with a subcommand."""
    found, _ = read_help("some", BY_ARGPARSE)
    found.commands = [read_help("some run", BY_CLAP)[0]]
    return found


class Manuals(unittest.TestCase):
    def test_the_help_of_clap_is_read(self):
        found, within = read_help("some run", BY_CLAP)
        self.assertEqual((found.usage, found.about, within), ("some run [OPTIONS] <NAME>...", ["Referees a match"], []))
        self.assertEqual(found.words[:2], [("<NAME>...", "The players"), ("--start <S>", "The seconds for START [default: 10]")])
        self.assertEqual(list(found.options()), ["--start", "--log", "--help"])

    def test_the_help_of_argparse_is_read(self):
        found, within = read_help("some", BY_ARGPARSE)
        self.assertEqual((found.usage, within), ("some [-h] [--program FILE] COMMAND ...", ["plan", "play"]))
        self.assertEqual(found.options(), {"--help": "show this help message and exit", "--program": "the program"})
        self.assertEqual(found.more, ["Before. status 0: all is well. 1: it is not."])

    def test_a_page_has_all_of_it(self):
        text = page(some(), "1.2.3", ["some", "other"])
        for line in ("some \\- What it does, in some words", ".SH EXIT STATUS", "0: all is well. 1: it is not.", ".B \\-\\-start <S>", "other(1)"):
            self.assertIn(f"{line}\n", text)

    @unittest.skipUnless(shutil.which("groff"), "groff is not installed")
    def test_groff_shows_a_page(self):
        shown = subprocess.run(["groff", "-man", "-Tascii", "-ww"], input=page(some(), "1.2.3", []), capture_output=True, text=True)
        self.assertEqual((shown.returncode, shown.stderr), (0, ""))

    def test_bash_completes(self):
        for words, wanted in ((["some", "r"], ["run"]), (["some", "run", "--s"], ["--start"]), (["some", "--pr"], ["--program"]), (["some", "run", "READ"], ["README.md"])):
            asked = f"{bash(some())}COMP_WORDS=({' '.join(words)}); COMP_CWORD={len(words) - 1}; _some; echo \"${{COMPREPLY[@]}}\""
            done = subprocess.run(["bash", "-c", asked], cwd=TOP, capture_output=True, text=True)
            self.assertEqual((done.stdout.split(), done.stderr), (wanted, ""), words)

    def test_zsh_is_told_of_commands(self):
        self.assertIn("commands=('run:Referees a match')", zsh(some()))

    @unittest.skipUnless(shutil.which("zsh"), "zsh is not installed")
    def test_zsh_reads_what_is_written(self):
        self.assertEqual(subprocess.run(["zsh", "-n"], input=zsh(some()), capture_output=True, text=True).stderr, "")
