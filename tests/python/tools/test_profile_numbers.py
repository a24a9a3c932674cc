"""Limits that an unproved program cannot reach within minutes: the code and docs/COMMANDS.md must have the same numbers."""
import os
import re
import unittest

TOP = os.path.dirname(os.path.dirname(os.path.dirname(os.path.dirname(os.path.realpath(__file__)))))
# The file and the name of a constant; the text around its number in the document; and a file that uses the constant, with the text that
# follows it there.
LIMITS = [
    ("crates/game_commands/src/replaying.rt", "MAX_ACCOUNT", r"a call log, for `replay` \| ([\d,]+) bytes", "crates/game_commands/src/replaying.rt", "- self.text.len();"),
    ("crates/command_faults/src/files.rt", "MAX_LINE", r"a row of `verify --lines`, of `--done` and of `--records` \| ([\d,]+) bytes", "crates/game_commands/src/checking.rt", ") {"),
]


def text_of(file):
    with open(f"{TOP}/{file}", encoding="utf-8") as stream:
        return stream.read()


class Limits(unittest.TestCase):
    def test_the_code_has_the_numbers_of_the_document(self):
        profile = text_of("docs/COMMANDS.md")
        for file, name, words, user, behind in LIMITS:
            said = re.findall(words, profile)
            self.assertEqual(re.findall(rf"\bconst {name}: usize = ([\d_]+);", text_of(file)), [number.replace(",", "_") for number in said], name)
            # That file uses the constant exactly once, as the limit itself.
            self.assertEqual(len(said), 1, name)
            code = "".join(line for line in text_of(user).splitlines(True) if not line.startswith("use "))
            self.assertEqual(re.findall(rf"\b{name}\b *(?!: usize)(.*)", code), [behind], name)
