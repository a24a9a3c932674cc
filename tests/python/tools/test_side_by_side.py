"""`examples/side-by-side`, with fake programs."""
import os
import subprocess
import tempfile
import unittest

TOP = os.path.dirname(os.path.dirname(os.path.dirname(os.path.dirname(os.path.realpath(__file__)))))


def shown(script, does):
    """Returns the exit status and the output of `side-by-side` with a fake program that runs these shell commands."""
    with tempfile.NamedTemporaryFile("w") as file:
        file.write(script)
        file.flush()
        ran = subprocess.run([f"{TOP}/examples/side-by-side", file.name, "sh", "-c", does], stdout=subprocess.PIPE, text=True)
    return ran.returncode, ran.stdout.splitlines()


class SideBySide(unittest.TestCase):
    def test_each_line_has_its_reply_below_it_and_records_come_last(self):
        self.assertEqual(shown("one\ntwo\n", "sed 's/^/to /'; echo '{}'"), (0, ["> one", "  to one", "> two", "  to two", "{}"]))

    def test_a_program_that_fails_has_its_replies_shown(self):
        self.assertEqual(shown("one\ntwo\n", "echo opened; echo badline; exit 3"), (3, ["> one", "  opened", "> two", "  badline"]))

    def test_no_reply_is_none(self):
        self.assertEqual(shown("one\ntwo\n", "exit 1"), (1, ["> one", "  ", "> two", "  "]))
