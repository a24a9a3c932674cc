"""How the tests run a program that may hang. The program is killed, and the exit status in its result shows this."""
import subprocess
import threading
import unittest
import unittest.mock

from driving import asking, seasons

ENDLESS = ["sleep", "600"]
KILLED = -9


class Patience(unittest.TestCase):
    def setUp(self):
        for module in asking, seasons:
            patch = unittest.mock.patch.object(module, "PATIENCE", 0.1)
            patch.start()
            self.addCleanup(patch.stop)

    def test_a_program_without_an_end_is_killed_while_it_is_read(self):
        with asking.begun(ENDLESS, stdout=subprocess.PIPE) as child:
            self.assertEqual(child.stdout.read(), b"")
        self.assertEqual(child.returncode, KILLED)

    def test_one_is_killed_where_it_is_left(self):
        with unittest.mock.patch.object(asking, "PATIENCE", 600), self.assertRaises(KeyError):
            with asking.begun(ENDLESS) as child:
                raise KeyError
        self.assertEqual(child.returncode, KILLED)

    def test_one_that_ends_keeps_its_status_and_nobody_waits_to_kill_it(self):
        with unittest.mock.patch.object(asking, "PATIENCE", 600):
            with asking.begun(["sh", "-c", "exit 3"]) as child:
                pass
        self.assertEqual(child.returncode, 3)
        waiting = [thread for thread in threading.enumerate() if isinstance(thread, threading.Timer) and not thread.finished.is_set()]
        self.assertEqual(waiting, [])

    def test_one_that_reads_nothing(self):
        self.assertEqual(asking.asked_by_bytes(*sleeping(), 1_000_000).status, KILLED)

    def test_one_in_a_terminal(self):
        self.assertEqual(asking.asked_in_terminal(*sleeping()), (KILLED, "", ""))

    def test_one_of_a_season(self):
        child = subprocess.Popen(ENDLESS, stdout=subprocess.PIPE, text=True)
        self.assertEqual((seasons.all_said(child), child.returncode), (("", None), KILLED))


def sleeping():
    program, *words = ENDLESS
    return program, words


class Waiting(unittest.TestCase):
    def test_something_is_waited_for(self):
        found = iter([False, False, True])
        self.assertTrue(asking.wait_until(lambda: next(found), 60, 0))
        self.assertFalse(asking.wait_until(lambda: False, 0.01))
