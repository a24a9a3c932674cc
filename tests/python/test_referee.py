"""Calls of the referee, and how its answers are read. A fake referee gives both documented and impossible answers."""

import os
import pathlib
import subprocess
import sys
import unittest
from unittest import mock

from ggp_tools.competition.schedule import Match
from ggp_tools.referee import (
    BadRules, NoReferee, Referee, Unchecked, find_program, has_events, last_line, read_objects, records_replayed, rules_file,
)
from support import InFolder, raised, script, verdict_rows

# The fake referee stores the arguments and the input of each run, and gives the answer that the test has set.
STAND_IN = """#!/bin/sh
cd "$(dirname "$0")"
n=$(cat count)
echo $((n + 1)) > count
cat > input.$n
for word in "$@"; do echo "$word" >> words.$n; done
cat out.$n
cat err.$n >&2
exit $(cat status.$n)
"""


class WithStandIn(InFolder):
    def setUp(self) -> None:
        super().setUp()
        self.referee = Referee(str(script(self.folder / "program", STAND_IN)))
        self.begin_anew()

    def begin_anew(self) -> None:
        (self.folder / "count").write_text("0")
        for file in self.folder.glob("words.*"):
            file.unlink()
        self.laid_down = 0

    def answers(self, out: bytes = b"", err: bytes = b"", status: int = 0) -> None:
        """Sets the answer to the next run."""
        for name, data in (("out", out), ("err", err), ("status", b"%d" % status)):
            (self.folder / f"{name}.{self.laid_down}").write_bytes(data)
        self.laid_down += 1

    def asked(self, run: int = 0) -> tuple[list[str], bytes]:
        """Calls the referee, and returns the arguments and the input of the run."""
        return (self.folder / f"words.{run}").read_text().splitlines(), (self.folder / f"input.{run}").read_bytes()

    def assert_unchecked(self, words: str, ask, *more) -> None:
        """Sets an answer, and checks that the call treats it as a missing verdict."""
        self.begin_anew()
        self.answers(*more)
        self.assertEqual(str(raised(Unchecked, ask)), words)


class Verdicts(WithStandIn):
    def verdicts(self, *records: bytes) -> list[str]:
        return self.referee.verdicts("game.kif", records or (b'{"a":1}\n', b'{"b":2}\n'))

    def test_each_record_has_its_verdict(self):
        self.answers(verdict_rows(None, None))
        self.assertEqual(self.verdicts(), ["lawful"] * 2)
        self.assertEqual(self.asked(), (["verify", "--lines", "--json", "--rules-file=game.kif"], b'{"a":1}\n{"b":2}\n'))

    def test_records_that_are_not_lawful_have_status_1_and_their_number(self):
        self.answers(verdict_rows(None, "goals"), b"ggp_manager: records not lawful 1\n", 1)
        self.assertEqual(self.verdicts(), ["lawful", "not lawful: goals"])

    def test_an_answer_that_does_not_fit_is_no_verdict(self):
        lawful, wrong = verdict_rows(None), verdict_rows(None, "goals")
        for said, *answer in (
            ("it printed nothing; it ended with status 0", lawful), ("it printed nothing; it ended with status 0", lawful * 3), ("it printed nothing; it ended with status 1", lawful * 2, b"", 1),
            ("records not lawful 1; it ended with status 0", wrong, b"ggp_manager: records not lawful 1\n", 0), ("read fault; it ended with status 2", wrong, b"ggp_manager: read fault\n", 2),
            ("want of memory; it ended with status 3", lawful[:-3], b"more\nggp_manager: want of memory\n", 3),
        ):
            self.assert_unchecked(f"`ggp_manager verify` gave no verdict for game.kif: {said}", self.verdicts, *answer)


def replayed(records: int) -> bytes:
    """Returns the verdict on a call log that reproduces this many records."""
    return b'{"verdict":"replayed","calls":1,"not_ended":0,"records":%d}\n' % records


class Replays(WithStandIn):
    ACCOUNTS, RECORDS = [b"0\topen a\n", b"0\topen b\n", b"0\topen c\n"], [b'{"a":1}\n', b'{"b":2}\n', b'{"c":3}\n']

    def replays(self) -> list[bool]:
        return self.referee.replays("game.kif", self.ACCOUNTS, self.RECORDS)

    def test_accounts_that_give_their_records_again(self):
        self.answers(replayed(1) + b'{"a":1}\n' + replayed(1) + b'{"b":2}\n' + replayed(1) + b'{"c":3}\n')
        self.assertEqual(self.replays(), [True] * 3)
        self.assertEqual(self.asked(), (["replay", "--json", "--rules-file=game.kif"], b"{\n0\topen a\n{\n0\topen b\n{\n0\topen c\n"))

    def test_an_account_that_gives_another_record_is_none_of_its_record(self):
        self.answers(replayed(1) + b'{"a":1}\n' + replayed(1) + b'{"b":3}\n' + replayed(0))
        self.assertEqual(self.replays(), [True, False, False])

    def test_behind_one_that_is_not_replayed_the_others_are_looked_at(self):
        self.answers(replayed(1) + b'{"a":1}\n{"verdict":"differs","line":4}\n', b"ggp_manager: not replayed: line 4 differs\n", 1)
        self.answers(replayed(1) + b'{"c":3}\n')
        self.assertEqual(self.replays(), [True, False, True])
        self.assertEqual(self.asked(1)[1], b"{\n0\topen c\n")

    def test_the_last_one_may_be_the_one_that_is_not_replayed(self):
        self.answers(replayed(1) + b'{"a":1}\n' + replayed(1) + b'{"b":2}\n{"verdict":"no_entry","line":6}\n', b"", 1)
        self.assertEqual(self.replays(), [True, True, False])

    def test_an_answer_that_does_not_fit_is_no_verdict(self):
        whole = replayed(1) + b'{"a":1}\n' + replayed(1) + b'{"b":2}\n' + replayed(1) + b'{"c":3}\n'
        for said, *answer in (
            ("it printed nothing; it ended with status 0", replayed(1) + b'{"a":1}\n'), ("it printed nothing; it ended with status 0", whole + replayed(0)),
            ("want of memory; it ended with status 3", whole, b"ggp_manager: want of memory\n", 3), ("read fault; it ended with status 2", whole[:-9], b"ggp_manager: read fault\n", 2),
        ):
            self.assert_unchecked(f"`ggp_manager replay` gave no verdict for game.kif: {said}", self.replays, *answer)

    def test_records_stand_behind_the_verdict_on_their_account(self):
        refused = b'{"verdict":"differs","line":3}\n'
        self.assertEqual(records_replayed(replayed(1) + b'{"a":1}\n' + replayed(0) + replayed(2) + b'{"b":2}\n{"c":3}\n' + refused), [b'{"a":1}\n', b"", b'{"b":2}\n{"c":3}\n'])
        self.assertEqual(records_replayed(b""), [])


class Rules(WithStandIn):
    BAD = b"before\nggp_manager: line 2, column 1: no such thing: (x)\nggp_manager: bad description\n"

    def test_the_roles_are_those_of_the_facts_in_their_order(self):
        self.answers()
        rules = b"(<= (init (role y)) (role o)) (role X) ; (role z)\n(roles a) role (<= (role (o 1))) (role o)"
        self.assertEqual(self.referee.roles(rules, "nim"), ("x", "(o 1)", "o"))
        words, handed = self.asked()
        self.assertEqual((words[:3], words[3].partition("=")[0], len(words), handed), (["verify", "--lines", "--json"], "--rules-file", 4, b""))

    def test_a_bad_description_has_its_place(self):
        for said, words in (
            (self.BAD, "line 2, column 1: no such thing: (x)"), (b"ggp_manager: bad description\n", "bad description"),
            (b"ggp_manager: bad description: it has 9 bytes; at most 8 are accepted\n", "it has 9 bytes; at most 8 are accepted"),
        ):
            for ask in (lambda: self.referee.roles(b"", "nim"), lambda: self.referee.check_rules("game.kif")):
                self.begin_anew()
                self.answers(b"", said, 2)
                self.assertEqual(str(raised(BadRules, ask)), words)

    def test_roles_that_no_answer_tells(self):
        for said, *answer in (
            ("want of memory; it ended with status 3", b"", b"ggp_manager: want of memory\n", 3), ("bad; it ended with status 1", b"", b"ggp_manager: bad\n", 1),
        ):
            self.assert_unchecked(f"`ggp_manager verify` gave no verdict for nim: {said}", lambda: self.referee.roles(b"", "nim"), *answer)

    def test_rules_that_were_not_looked_at(self):
        answer = b"", b"ggp_manager: bad description: no such file\n", 2
        said = "`ggp_manager verify` gave no verdict for game.kif: bad description: no such file; it ended with status 2"
        self.assert_unchecked(said, lambda: self.referee.check_rules("game.kif"), *answer)
        self.begin_anew()
        self.answers()
        self.assertIsNone(self.referee.check_rules("game.kif"))
        self.assertEqual(self.asked()[0], ["verify", "--lines", "--json", "--rules-file=game.kif"])

    def test_a_file_of_rules_is_there_as_long_as_it_is_needed(self):
        with rules_file(b"(role x)") as path:
            self.assertEqual(pathlib.Path(path).read_bytes(), b"(role x)")
        self.assertFalse(os.path.exists(path))

    def test_a_file_that_can_not_be_written_is_named(self):
        with mock.patch("pathlib.Path.write_bytes", side_effect=OSError(28, "No space left on device")), self.assertRaises(OSError) as why, rules_file(b"x"):
            pass
        self.assertEqual((why.exception.errno, why.exception.strerror), (28, "No space left on device"))
        self.assertTrue(os.path.isabs(why.exception.filename))


class Lines(unittest.TestCase):
    def test_which_versions_write_events(self):
        versions = b"ggp_manager 0.2.9\n", b"ggp_manager 0.3.0\n", b"ggp_manager 0.10.0\n", b"ggp_manager 1.0.0\n"
        self.assertEqual(list(map(has_events, versions)), [False, True, True, True])

    def test_a_run_may_say_nothing(self):
        self.assertEqual([last_line(subprocess.CompletedProcess(["x"], 0, b"", err)) for err in (b"", b"a", b"a\nb\n", b"a\xff\n")], ["", "a", "b", "a?"])

    def test_records_among_lines_of_the_desk(self):
        def said(out: bytes) -> subprocess.CompletedProcess:
            return subprocess.CompletedProcess(["x"], 0, out, b"")

        self.assertEqual(read_objects(said(b'opened\n{"a":1}\nrefused\n{}\n')), [{"a": 1}, {}])
        self.assertEqual(read_objects(said(b"")), [])
        self.assertIsNone(read_objects(said(b'{"a":1}\n{"b"\n')))
        self.assertIsNone(read_objects(said(b'{"a":' + b"[" * 100_000)))


class Words(WithStandIn):
    MATCH = Match("cup-1", "nim", 10, 5, ("ann", "bob"))

    def test_the_replies_of_the_desk_and_the_record(self):
        self.answers(b'opened\ntaken\n{"a":1}\n')
        self.assertEqual(self.referee.desk("game.kif", b"open\n"), (["opened", "taken"], {"a": 1}))
        self.assertEqual(self.asked(), (["desk", "--rules-file=game.kif"], b"open\n"))
        for said, *answer in (("read fault; it ended with status 2", b'{"a":1}\n', b"ggp_manager: read fault\n", 2), ("it printed nothing; it ended with status 0", b"opened\n")):
            self.assert_unchecked(f"`ggp_manager desk` gave no verdict for game.kif: {said}", lambda: self.referee.desk("game.kif", b""), *answer)

    def test_the_words_of_each_command(self):
        path = self.referee.path
        self.assertEqual(self.referee.abort_words("cup-1", "ann@h:1"), [path, "abort", "--", "cup-1", "ann@h:1"])
        self.assertEqual(self.referee.info_words("ann@h:1"), [path, "info", "--json", "--", "ann@h:1"])
        options = ["--id=cup-1", "--start=10", "--play=5", "--strikes=2", "--history", "--log=-", "--", "ann@h:1", "bob@h:2"]
        places = ["ann@h:1", "bob@h:2"]
        self.assertEqual(self.referee.run_words("r", None, self.MATCH, 2, places), [path, "run", "--rules-file=r", *options])
        self.assertIn("--log=some/log", self.referee.run_words("r", None, self.MATCH, 2, places, "some/log"))
        self.assertEqual(self.referee.run_words("r", "t", self.MATCH, 2, places), [path, "run", "--rules-file=r", "--player-rules=t", *options])

    def test_a_large_game_is_said_to_be_one(self):
        path, large = self.referee.path, self.referee.taking(True)
        usual = large.taking(False).desk_words("r")
        self.assertEqual((usual, large.desk_words("r")), (self.referee.desk_words("r"), [*usual, "--large"]))
        self.assertEqual(large.run_words("r", "t", self.MATCH, 2, ["ann@h:1"])[:5], [path, "run", "--rules-file=r", "--large", "--player-rules=t"])

    def test_a_program_is_known_by_its_version(self):
        self.answers(b"ggp_manager 1.20.3\n")
        self.assertEqual((self.referee.version(), self.asked()[0]), ("ggp_manager 1.20.3", ["--version"]))
        for other in (b"", b"ggp_manager 1.2\n", b"a ggp_manager 1.2.3\n", b"ggp_manager 1.2.3\nmore\n", b"ggp_manager 1.2.3"):
            self.begin_anew()
            self.answers(other)
            self.assertIn("`--version` does not print `ggp_manager N.N.N`", str(raised(NoReferee, self.referee.version)))


class Finding(InFolder):
    def setUp(self) -> None:
        super().setUp()
        self.enterContext(mock.patch.dict(os.environ, {"PATH": str(self.folder / "path")}))
        self.enterContext(mock.patch.object(sys, "argv", [str(self.folder / "python/ggp_competition"), "play"]))
        # The repository may have a program; the search must not find it here.
        self.is_executable = os.access
        self.enterContext(mock.patch("os.access", lambda path, mode: os.fspath(path).startswith(str(self.folder)) and self.is_executable(path, mode)))

    def program_in(self, name: str, mode: int = 0o755) -> str:
        path = self.folder / name / "ggp_manager"
        path.parent.mkdir(exist_ok=True)
        path.write_text("#!/bin/sh\n")
        path.chmod(mode)
        return str(path)

    def test_the_one_that_is_given_is_taken(self):
        beside, given = self.program_in("python"), self.program_in("other")
        self.assertEqual((find_program(given), find_program(None)), (given, beside))
        with mock.patch("os.getcwd", lambda: str(self.folder / "other")), mock.patch("shutil.which", lambda name: name):
            self.assertEqual(find_program("ggp_manager"), given)
        self.assertEqual(str(raised(NoReferee, find_program, f"{given}s")), f"{given}s is not an executable program")

    def test_else_it_stands_beside_the_command_or_in_bin_or_on_the_path(self):
        on_path = self.program_in("path")
        self.assertEqual(find_program(""), on_path)
        in_bin = self.program_in("bin")
        self.assertEqual(find_program(""), in_bin)
        self.program_in("python", 0o644)
        self.assertEqual(find_program(""), in_bin)

    def test_where_it_is_nowhere_all_places_are_named(self):
        places = f"{self.folder}/python, {self.folder}/bin, {pathlib.Path(__file__).resolve().parents[2]}/bin"
        self.assertEqual(str(raised(NoReferee, find_program, None)), f"ggp_manager is not in {places}, nor on the PATH of the shell; name it with `--program FILE`")
