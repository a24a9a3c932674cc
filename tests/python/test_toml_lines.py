"""Parsing TOML with the line of each value, regardless of the rest of the text."""

import random
import tomllib
import unittest

from ggp_tools.competition.toml_lines import TomlFault, read_toml
from support import raised

TEXT = """# A competition with a [table] in a comment.
name = "cup"   # its "name
hosts = [ "a]", 'b\\[c',  # a comment ]
  "c, d", ]
none = []
lists = [[1, 2],
 ["x"]]
long = \"\"\"a = 1
[x]
\"\\"\\"\"\"\"
literal = '''
name = 'two'
'''
"a name".b = { c = [1], d = 2 }

[form]
kind = "round_robin"

[[games]]
name = "one"
[[games]]  # another
name = "two"
file = 'x y'
[games.more]
key = 1
[form.more]
key = 2
"""
LINES = {
    (): 1,
    ("name",): 2,
    ("hosts",): 3,
    ("hosts", 0): 3,
    ("hosts", 1): 3,
    ("hosts", 2): 4,
    ("none",): 5,
    ("lists",): 6,
    ("lists", 0): 6,
    ("lists", 1): 7,
    ("long",): 8,
    ("literal",): 11,
    ("a name", "b"): 14,
    ("form",): 16,
    ("form", "kind"): 17,
    ("games", 0): 19,
    ("games", 0, "name"): 20,
    ("games", 1): 21,
    ("games", 1, "name"): 22,
    ("games", 1, "file"): 23,
    ("games", 1, "more"): 24,
    ("games", 1, "more", "key"): 25,
    ("form", "more"): 26,
    ("form", "more", "key"): 27,
}
REFUSED = [
    ("a = 1\na = 2\n", 2, "a"),
    ("a = 1\n[a]\n", 2, ""),
    ("a = 01\n", 1, "a"),
    ('\na = "x\n', 2, "a"),
    ("a = [1\n b = 2\n", 2, "b"),
    ("a\n", 1, "a"),
    ("a", 1, "a"),
    ("[a\n", 1, ""),
    ("[t]\n\nb = x\n", 3, "b"),
    ("a = 1\n" + "a." * 100 + "a.a = 1", 2, ""),
    ('a = {b = """\n""", c' + ".c" * 101 + " = 1}", 2, ""),
    ("a . " * 101 + "a = 1", 1, ""),
    ('"a".' * 101 + "a = 1", 1, ""),
    ("[" + "a . " * 20_000 + "a]", 1, ""),
    ('"a"' + "." + '"a".' * 20_000 + "a = 1", 1, ""),
    ('a = "' + '\\"' * 200_000 + "." * 200, 1, "a"),
    ("a = " + "[" * 100_000, 1, ""),
    ("a = " + "9" * 5_000, 1, ""),
    ("a = 1\rb = 2\n", 1, "a"),
    ("a = 1\nb = [" + "1," * 150_000 + "]", 2, ""),
]


class TomlLines(unittest.TestCase):
    def test_each_value_has_its_line(self):
        for text in (TEXT, TEXT.replace("\n", "\r\n")):
            found, lines = read_toml(text)
            self.assertEqual(found, tomllib.loads(text))
            self.assertEqual(lines, LINES)

    def test_a_fault_has_its_line(self):
        for text, line, key in REFUSED:
            with self.subTest(text[:40]):
                found = raised(TomlFault, read_toml, text)
                self.assertEqual((found.line, found.key), (line, key))

    def test_just_so_many_dots_and_signs_are_read(self):
        # The characters in a comment do not count.
        self.assertEqual(len(read_toml("# .\n" + "a." * 100 + "a = 1")[1]), 2)
        text = "# =\na = [" + "1," * 149_998
        self.assertEqual(len(read_toml(text + "]")[1]), 150_000)
        self.assertEqual(raised(TomlFault, read_toml, text + "1,]").words, "there are more than 150,000 characters `=`, `,` and `[` outside of texts and comments")

    def test_each_text_has_lines_or_a_fault(self):
        chance, taken = random.Random(48), 0
        for _ in range(3000):
            text = list(TEXT)
            for _ in range(chance.randrange(1, 4)):
                at = chance.randrange(len(text))
                text[at : at + chance.randrange(2)] = chance.choice(["", "\n", '"', "=", "[", "]", "#", "0", " ", "a", ",", "\t", "\\", "\x01"])
            try:
                found, lines = read_toml("".join(text))
            except TomlFault as why:
                self.assertLessEqual(why.line, text.count("\n") + 1)
                continue
            taken += 1
            for path in lines:
                value = found
                for name in path:
                    value = value[name]
        self.assertGreater(taken, 300)

    def test_a_long_array_takes_no_longer_than_its_length(self):
        text = "lines = [\n" + '"a b c",\n' * 20_000 + "]\n"
        self.assertEqual(read_toml(text)[1]["lines", 19_999], 20_001)
