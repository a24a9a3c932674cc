"""`ggp-hold-against`, run in this process: the arguments, the limits of time and memory, and the result for each record."""

import gzip
import io
import json
import resource
import signal
import types
import unittest
from unittest import mock

from ggp_tools.holding import command
from ggp_tools.holding.command import DIFFERENT, NOT_FOLLOWED, SAME, Holding, Late, hold, limit_memory, records_in
from ggp_tools.kif import expressions
from ground_matches import played
from support import InFolder, raised

ONE_TURN = "(role ann) (init s) (legal ann go) (<= terminal (true t)) (goal ann 50) (<= (next t) (does ann go))"
RECORD = json.dumps(played(expressions(ONE_TURN), 1))
OTHER, WRONG = json.dumps({**json.loads(RECORD), "goalValues": [7]}), "{}"
NO_KEY = """not followed: it is not a record: expected in cause: null, "asked", "toolong", "allretired", "nolegal R" or "nogoal R", where R is the number of a role, counted from 0; found: no such key"""


class Words(unittest.TestCase):
    def test_what_is_given(self):
        for words, wanted in ((["d"], (60, "d", [])), (["--seconds", "2.5", "d", "r", "s"], (2.5, "d", ["r", "s"])), (["d", "r", "--seconds", "1", "-"], (1, "d", ["r", "-"]))):
            with mock.patch("sys.argv", ["x", *words]):
                found = command.arguments()
            self.assertEqual((found.seconds, found.description, found.records), wanted)


class Held(unittest.TestCase):
    def test_what_there_is_to_say_of_a_record(self):
        holding = Holding(ONE_TURN)
        self.assertEqual(holding.held(RECORD), (SAME, "the same: 1 turn"))
        status, words = holding.held(OTHER)
        self.assertEqual((status, words.startswith("differs: ann has the goal value 7 in the record")), (DIFFERENT, True))
        self.assertEqual(holding.held(WRONG), (NOT_FOLLOWED, NO_KEY))
        self.assertEqual(Holding("(p", "a.kif").held(RECORD), (NOT_FOLLOWED, "not followed: a.kif: line 1, column 1: a list that is not closed; add a `)`"))
        self.assertEqual(Holding("(role a)\n(<= p (q ?x) (not (r ?y)))", "a.kif").held(RECORD)[1], "not followed: a.kif: line 2, column 1: ?y is unsafe: no positive sentence of the body contains it: (<= p (q ?x) (not (r ?y))); add a condition with ?y that is not negated")
        with mock.patch.object(command.Following, "follow", side_effect=command.Differs("one\ntwo")):
            self.assertEqual(holding.held(RECORD), (DIFFERENT, "differs: one; two"))
        self.assertEqual((SAME, DIFFERENT, NOT_FOLLOWED), (0, 1, 3))

    def test_a_fault_of_this_program_says_nothing_of_the_game(self):
        def fail(*_):
            raise KeyError("x")

        with mock.patch.object(command, "read_record", fail):
            status, words = Holding(ONE_TURN).held(RECORD)
        self.assertEqual(status, NOT_FOLLOWED)
        self.assertRegex(words, r"^not followed: a bug in ggp-hold-against, please report it: KeyError in fail, line \d+: 'x'$")
        with mock.patch.object(command, "read_record", side_effect=MemoryError):
            self.assertEqual(Holding(ONE_TURN).held(RECORD), (NOT_FOLLOWED, "not followed: out of memory"))

    def test_the_description_is_read_once_unless_a_look_was_broken_off(self):
        read = []
        plain = command.Game

        def game(text):
            read.append(text)
            return plain(text)

        with mock.patch.object(command, "Game", game):
            holding = Holding(ONE_TURN)
            for line, count in ((RECORD, 1), (OTHER, 1), (RECORD, 1), (WRONG, 1), (RECORD, 2), (RECORD, 2)):
                holding.held(line)
                self.assertEqual(len(read), count, line)
            with mock.patch.object(command.Following, "follow", side_effect=Late):
                raised(Late, holding.held, RECORD)
            self.assertEqual((holding.held(RECORD), len(read)), ((SAME, "the same: 1 turn"), 3))


class Seconds(unittest.TestCase):
    def setUp(self):
        self.addCleanup(signal.signal, signal.SIGPROF, signal.getsignal(signal.SIGPROF))
        self.addCleanup(signal.setitimer, signal.ITIMER_PROF, 0)

    def test_each_record_has_its_own(self):
        times = []
        with mock.patch.object(signal, "setitimer", lambda kind, limit: times.append((kind, limit))):
            self.assertEqual(list(hold(Holding(ONE_TURN), [RECORD, WRONG], 2.5)), [(SAME, "the same: 1 turn"), (NOT_FOLLOWED, NO_KEY)])
        self.assertEqual(times, [(signal.ITIMER_PROF, 2.5), (signal.ITIMER_PROF, 0)] * 2)

    def test_where_they_are_over_it_is_told(self):
        with mock.patch.object(command.Following, "follow", lambda *_: signal.raise_signal(signal.SIGPROF)):
            self.assertEqual(list(hold(Holding(ONE_TURN), [RECORD], 90.0)), [(NOT_FOLLOWED, "not followed: out of time after 90 s")])
        self.assertEqual(list(hold(Holding(ONE_TURN), [RECORD], 90.0)), [(SAME, "the same: 1 turn")])

    def test_they_may_be_over_when_all_is_said(self):
        calls = iter([None, Late])

        def set_timer(*_):
            if found := next(calls):
                raise found

        with mock.patch.object(signal, "setitimer", set_timer):
            late = NOT_FOLLOWED, "not followed: out of time after 1 s"
            self.assertEqual(list(hold(types.SimpleNamespace(held=lambda line: (SAME, line)), ["x"], 1)), [late])


class Streams(InFolder):
    def test_memory(self):
        endless, most = resource.RLIM_INFINITY, 2 << 30
        for limits, wanted in (((endless, endless), most), ((most + 1, endless), most), ((5, endless), 5), ((endless, 7), 7), ((9, 7), 7), ((5, 7), 5)):
            with mock.patch.object(resource, "getrlimit", lambda _, limits=limits: limits), mock.patch.object(resource, "setrlimit") as limited:
                limit_memory()
            self.assertEqual(limited.call_args.args, (resource.RLIMIT_AS, (wanted, limits[1])), limits)
        with mock.patch.multiple(command, limit_memory=mock.DEFAULT, arguments=mock.DEFAULT, perform=lambda _: 7) as called:
            self.assertEqual(command.main(), 7)
        called["limit_memory"].assert_called_once_with()

    def test_lines_that_are_not_empty(self):
        files = [self.folder / name for name in "abc"]
        for file, data in zip(files, (b"a\n\n \n b\n", b"", gzip.compress(b"c"))):
            file.write_bytes(data)
        self.assertEqual(list(records_in(map(str, files))), [b"a\n", b" b\n", b"c"])

    def test_a_record_that_differs_decides_the_status_and_each_has_the_given_seconds(self):
        description, records = self.folder / "d", self.folder / "r"
        description.write_text(ONE_TURN)
        for lines, status in (([RECORD], SAME), ([WRONG, RECORD], NOT_FOLLOWED), ([OTHER, WRONG], DIFFERENT), ([WRONG, OTHER], DIFFERENT)):
            records.write_text("\n".join(lines))
            with mock.patch("sys.stdout", io.StringIO()), mock.patch.object(command, "limited", wraps=command.limited) as limits:
                self.assertEqual(command.perform(types.SimpleNamespace(description=str(description), records=[str(records)], seconds=7)), status)
            self.assertEqual({call.args for call in limits.call_args_list}, {(7,)})
