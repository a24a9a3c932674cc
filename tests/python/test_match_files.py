"""Checking the files of matches: which matches are checked together, and which files are never read."""

import errno
import json
import os
import pathlib
import tempfile
import tracemalloc
import types
import unittest
from collections import Counter
from dataclasses import replace
from unittest import mock

from ggp_tools.competition import match_files
from ggp_tools.competition.competition_file import Faults
from ggp_tools.competition.files import UNFINISHED, Folder, Refused, file_bytes, lock_place, locked, sync, write_whole
from ggp_tools.competition.match_files import (
    account_bytes, batches, check_records, checks, fault_of_files, free_ending, has_shape, keep, referee_faults, set_aside, unplanned_records,
    size_of, unverified_result,
)
from ggp_tools.competition.known import Known, sum_of_file
from ggp_tools.competition.results import read_record
from ggp_tools.competition.schedule import Match
from ggp_tools.descriptions.loading import Rules
from ggp_tools.records.lengths import LONGEST_ACCOUNT, USUAL_RECORD, longest_record
from ggp_tools.referee import Unchecked
from support import InFolder, raised

RULES = Rules(b"(role a) (role b)", "", ("a", "b"))


class Counting:
    """A fake referee that accepts no record, and stores the number of records in each call, and whether only one such call is made at a time."""

    def __init__(self):
        self.counts, self.alone = [], []

    def verdicts(self, _, records):
        self.counts.append(len(records))
        self.alone.append(match_files.LARGE.locked())
        return ["not lawful: goals"] * len(records)

    def replays(self, _, accounts, records):
        return []


class Short(Counting):
    def verdicts(self, _, records):
        raise MemoryError


def broken_off(function, count, fault):
    """Returns a function that works this many times, and raises this error after that."""
    left = iter([None] * count)

    def called(*words):
        for _ in left:
            return function(*words)
        raise fault

    return called


class Kept(unittest.TestCase):
    def setUp(self):
        self.folder = Folder(pathlib.Path(self.enterContext(tempfile.TemporaryDirectory())))
        self.folder.make(self.folder.records, self.folder.accounts)
        competition = types.SimpleNamespace(strikes=0)
        self.plan = types.SimpleNamespace(folder=self.folder, competition=competition, rules={"one": RULES}, matches=[], referee_of=lambda referee, _: referee)

    def matches(self, *sizes):
        """Writes the files of matches of one game, with records and call logs of these sizes."""
        for size in sizes:
            match = types.SimpleNamespace(id=f"cup-{len(self.plan.matches)}", game="one")
            self.plan.matches.append(match)
            self.folder.record(match.id).write_bytes(b"{" + b" " * (size - 2) + b"\n")
            self.folder.account(match.id).write_bytes(f"0\topen {match.id} 0 1 1".encode().ljust(size - 8) + b"\topened\n")

    def counts(self):
        referee = Counting()
        results, faults, misfits = check_records(self.plan, referee)
        self.assertEqual((results, set(faults.values()), len(faults), misfits), ({}, {"not lawful: goals"}, len(self.plan.matches), {}))
        return referee.counts, [at for at, is_alone in enumerate(referee.alone) if is_alone]

    @mock.patch("ggp_tools.competition.match_files.PROCESSORS", 1)
    def test_so_many_and_so_many_bytes_are_checked_together(self):
        self.matches(*[20] * 600)
        self.assertEqual(self.counts(), ([250, 250, 100], []))
        with mock.patch("ggp_tools.competition.match_files.BYTES_TOGETHER", 200):
            self.plan.matches.clear()
            self.matches(50, 50, 50, 300, 20, 20, 100, 20)
            self.assertEqual(self.counts(), ([2, 1, 1, 2, 1, 1], [2]))

    @mock.patch("ggp_tools.competition.match_files.BYTES_TOGETHER", 200)
    def test_just_so_many_bytes_are_checked_together(self):
        self.matches(300, 50, 50, 50, 100, 50)
        self.folder.account("cup-4").unlink()
        # The logs are not checked.
        self.folder.make(self.folder.logs)
        self.folder.log("cup-1").write_bytes(b"x" * 201)
        found = batches(self.plan.matches, lambda match: size_of(self.folder.record(match.id), self.folder.account(match.id)))
        self.assertEqual([[match.id[-1] for match in batch] for batch in found], [["0"], ["1", "2"], ["3", "4"], ["5"]])
        self.assertEqual(list(batches([], size_of)), [])

    def test_a_file_past_the_limit_is_not_read_to_its_end(self):
        self.matches(20)
        with open(self.folder.record("cup-0"), "r+b") as file:
            file.truncate(1 << 36)
        referee = Counting()
        self.assertEqual(check_records(self.plan, referee)[1], {"cup-0": f"its record has more than {longest_record(RULES.text):,} bytes, the most that a match of its game can have"})
        self.assertEqual(referee.counts, [])

    def names(self):
        """Returns the files of the matches with their contents."""
        return {str(file.relative_to(self.folder.path)): file.read_bytes() for file in sorted(self.folder.path.glob("*/*"))}

    def test_files_without_a_record_are_set_aside_too(self):
        self.folder.make(self.folder.logs)
        self.assertFalse(set_aside(self.plan, "cup-0"))
        for at, ending in enumerate(("refused", "refused.2")):
            (self.folder.account("cup-0")).write_text(f"account {at}")
            (self.folder.log("cup-0")).write_text(f"log {at}")
            self.assertTrue(set_aside(self.plan, "cup-0"))
            for file, word in ((self.folder.account("cup-0"), "account"), (self.folder.log("cup-0"), "log")):
                self.assertEqual((file.exists(), file.with_name(f"{file.name}.{ending}").read_text()), (False, f"{word} {at}"))

    def test_the_files_of_each_try_have_an_ending_of_their_own(self):
        self.folder.make(self.folder.logs)
        tries = ("log", "account"), ("record", "account"), ("record",), ("record", "account", "log")
        places = {"record": self.folder.record("cup-0"), "account": self.folder.account("cup-0"), "log": self.folder.log("cup-0")}
        for at, words in enumerate(tries):
            for word in words:
                places[word].write_text(f"{word} {at}")
            set_aside(self.plan, "cup-0")
        found = {(word, file.suffix): file.read_text() for word, place in places.items() for file in place.parent.iterdir()}
        wanted = {(word, f".{at + 1}" if at else ".refused"): f"{word} {at}" for at, words in enumerate(tries) for word in words}
        self.assertEqual(found, wanted)

    def test_where_setting_aside_is_broken_off_nothing_is_lost(self):
        self.folder.make(self.folder.logs)
        for stop in range(3):
            keep(self.folder, f"cup-{stop}", b"record", b"account", b"log")
            with mock.patch("ggp_tools.competition.match_files.os.replace", broken_off(os.replace, stop, KeyboardInterrupt())), self.assertRaises(KeyboardInterrupt):
                set_aside(self.plan, f"cup-{stop}")
            self.assertTrue(self.folder.record(f"cup-{stop}").exists(), "it does not look as if the match were new")
            set_aside(self.plan, f"cup-{stop}")
            found = [data for name, data in self.names().items() if f"/cup-{stop}." in name]
            self.assertEqual(sorted(found), [b"account", b"log", b"record"])

    def test_where_a_file_can_not_be_written_none_of_the_match_is_left(self):
        self.folder.make(self.folder.logs)
        for word, stop in ((None, 0), (None, 1), (None, 2), ("unchecked", 2)):
            full = broken_off(write_whole, stop, OSError(errno.ENOSPC, "full"))
            with mock.patch("ggp_tools.competition.match_files.write_whole", full), self.assertRaises(OSError):
                keep(self.folder, "cup-0", b"record", b"account", b"log", word)
            self.assertEqual(self.names(), {})

    def test_what_can_not_be_written_is_named_as_it_would_be(self):
        for name, fault in (("none/table.txt", FileNotFoundError), ("records", IsADirectoryError)):
            self.assertEqual(raised(fault, write_whole, self.folder.path / name, b"").filename, str(self.folder.path / name))

    def test_a_folder_that_is_made_lasts(self):
        new = self.folder.path / "more"
        with mock.patch("ggp_tools.competition.files.sync") as synced:
            self.folder.make(new, self.folder.records)
        self.assertEqual([call.args for call in synced.call_args_list], [(self.folder.path,)])

    def test_where_a_folder_can_not_be_held_no_other_run_is_blamed(self):
        for fault, words in ((BlockingIOError(errno.EAGAIN, "busy"), "another command is planning, playing or publishing this competition"), (OSError(errno.EBADF, "bad"), "can't be locked: bad")):
            with mock.patch("fcntl.flock", side_effect=fault), self.assertRaises(Refused) as why, locked(self.folder.path):
                pass
            self.assertIn(words, str(why.exception))

    def test_want_of_memory_is_no_verdict(self):
        self.matches(20)
        self.assertEqual(str(raised(Unchecked, check_records, self.plan, Short())), "records and call logs can't be checked: out of memory")


class Said(Counting):
    """A fake referee whose verdict on each record is in the record itself. It reproduces a call log if the call log contains `right`. It
    remembers the call logs and records that it received."""

    def __init__(self, path):
        super().__init__()
        self.path, self.replayed = path, []

    def verdicts(self, rules, records):
        super().verdicts(rules, records)
        return [json.loads(record).get("verdict", "lawful") for record in records]

    def replays(self, _, accounts, records):
        self.replayed += zip(accounts, records)
        return [b"right" in account for account in accounts]


class Looked(unittest.TestCase):
    """Records of one match each, with the referee's verdicts."""

    def setUp(self):
        room = pathlib.Path(self.enterContext(tempfile.TemporaryDirectory()))
        self.enterContext(mock.patch.dict(os.environ, {"XDG_CACHE_HOME": str(room / "cache")}))
        self.folder = Folder(room / "cup")
        self.folder.make(self.folder.records, self.folder.accounts, self.folder.rules)
        for game in ("one", "two"):
            self.folder.rules_of(game).write_text(game)
        self.program = room / "program"
        self.program.write_text("program")
        self.referee = Said(str(self.program))
        matches = [Match(f"cup-{at}", "two" if at == 3 else "one", 5, 6, ("ann", "bob")) for at in range(4)]
        self.plan = types.SimpleNamespace(folder=self.folder, competition=types.SimpleNamespace(strikes=2, forfeit=True, faults=Faults(0)), rules={"one": RULES, "two": RULES}, matches=matches, referee_of=lambda referee, game: referee)
        for match in matches:
            self.write(match)

    def write(self, match, account="right", **more):
        record = {
            "matchId": match.id, "players": ["ann", "bob"], "startClock": 5, "playClock": 6, "strikes": 2, "phase": "finished", "cause": None,
            "goalValues": [40, 60], "moves": [["a", "b"]] * 2, "errors": [["TO", ""], ["", ""]], **more,
        }
        self.folder.record(match.id).write_text(json.dumps(record) + "\n")
        self.folder.account(match.id).write_text(f"0\topen {match.id} 0 1 1 {account}\topened\n1\tnext {match.id} 0\tover\n")

    def look(self, known=None):
        self.referee.counts.clear()
        return check_records(self.plan, self.referee, known)

    def test_each_match_counts_or_it_is_told_why_not(self):
        first, second, third, other = self.plan.matches
        self.write(second, verdict="not lawful: goals")
        self.write(third, startClock=7)
        results, faults, misfits = self.look()
        self.assertEqual((sorted(results), faults), (["cup-0", "cup-3"], {"cup-1": "not lawful: goals"}))
        self.assertEqual(list(misfits), ["cup-2"])
        found = results["cup-0"]
        self.assertEqual((found.match, found.goals, found.turns, found.errors, found.retirements, found.phase, found.cause, found.counted()),
                         (first, (40, 60), 2, (Counter({"TO": 1}), Counter()), (None, None), "finished", None, (40, 60)))
        # An unlawful record is not replayed.
        self.assertEqual(sorted(json.loads(record)["matchId"] for _, record in self.referee.replayed), ["cup-0", "cup-2", "cup-3"])
        self.folder.account(other.id).unlink()
        self.write(first, account="wrong")
        self.assertEqual(self.look()[1], {"cup-0": "its call log does not reproduce its record", "cup-1": "not lawful: goals", "cup-3": "its call log is missing"})
        self.folder.record(other.id).unlink()
        self.assertEqual(list(self.look()[1]), ["cup-0", "cup-1"])
        self.assertEqual(sorted(self.referee.counts), [3])

    def test_a_verdict_stands_before_what_a_replay_says(self):
        records = [b"{}\n", b'{"verdict":"not lawful: state 1"}\n', b"{}\n"]
        # Each game has its limits.
        self.plan.referee_of = lambda *asked: {("usual", "one"): self.referee}[asked]
        self.assertEqual(referee_faults(self.plan, "usual", "one", records, [b"right", b"right", b"wrong"]), [None, "not lawful: state 1", "its call log does not reproduce its record"])
        self.assertEqual(self.referee.replayed, [(b"right", records[0]), (b"wrong", records[2])])
        self.assertEqual(referee_faults(self.plan, "usual", "one", [], []), [])

    def known(self):
        """Checks everything with the help of the cached facts, and stores the new ones. Returns the results, and the number of records that
        the referee checked."""
        known = Known(self.folder.path)
        results, faults, misfits = self.look(known)
        known.write()
        self.assertEqual((faults, misfits), ({}, {}))
        return {match: repr(found) for match, found in results.items()}, sum(self.referee.counts)

    def test_what_is_known_is_not_asked_again_as_long_as_all_is_the_same(self):
        results, count = self.known()
        self.assertEqual((len(results), count), (4, 4))
        self.assertEqual(self.known(), (results, 0))
        first, _, _, last = self.plan.matches
        for change, asked in (
            (lambda: self.write(first, goalValues=[60, 40]), 1), (lambda: self.write(first, account="right!"), 1), (lambda: self.folder.rules_of("two").write_text("2"), 1),
            (lambda: self.folder.rules_of("one").write_text("1"), 3), (lambda: self.program.write_text("other"), 4),
            (lambda: setattr(self.plan.competition, "forfeit", False), 0), (lambda: self.plan.matches.__setitem__(3, replace(last, round=1)), 1),
            (lambda: setattr(self.plan.competition, "faults", Faults(9)), 4),
        ):
            change()
            found, count = self.known()
            self.assertEqual((sorted(found), count), (sorted(results), asked))
            self.assertEqual(self.known(), (found, 0))
            self.assertEqual(found, {match: repr(result) for match, result in self.look()[0].items()})
        self.plan.competition.strikes = 3
        self.assertEqual(len(self.look(Known(self.folder.path))[2]), 4)

    def test_nothing_is_known_of_what_is_wrong_or_was_judged_by_what_is_gone(self):
        self.write(self.plan.matches[0], verdict="not lawful: goals")
        self.write(self.plan.matches[1], startClock=7)
        known = Known(self.folder.path)
        self.look(known)
        known.write()
        known = Known(self.folder.path)
        found = self.look(known)
        self.assertEqual((sorted(found[0]), list(found[1]), list(found[2]), sum(self.referee.counts)), (["cup-2", "cup-3"], ["cup-0"], ["cup-1"], 2))
        # If the rules change or disappear during the check, no result is stored.
        for match in self.plan.matches:
            self.write(match, phase="aborted")
        rules, plain = self.folder.rules_of("one"), self.referee.verdicts

        def changing(path, records):
            rules.write_text(rules.read_text() + "x")
            return plain(path, records)

        with mock.patch.object(self.referee, "verdicts", changing):
            self.assertEqual(self.known()[1], 4)
        self.assertEqual(self.known()[1], 3)
        rules.unlink()
        self.assertEqual([self.known()[1] for _ in range(2)], [3, 3])

    def test_what_was_judged_by_other_rules_in_between_is_not_known(self):
        rules, plain = self.folder.rules_of("one"), self.referee.verdicts

        def changing(path, records):
            if path == rules:
                rules.write_text("other")
            return plain(path, records)

        with mock.patch.object(self.referee, "verdicts", changing):
            self.assertEqual(self.known()[1], 4)
        rules.write_text("one")
        self.assertEqual([self.known()[1] for _ in range(2)], [3, 0])

    def test_a_known_result_is_given_once(self):
        self.known()
        for known in (None, Known(self.folder.path)):
            (check,) = checks(self.plan, self.referee, "two", self.plan.matches[3:], known)
            self.assertEqual((check.match.id, check.fault, check.misfit, check.result.goals), ("cup-3", None, None, (40, 60)))

    def test_a_file_that_has_become_wrong_is_not_right_by_what_is_known(self):
        self.known()
        account = self.folder.account("cup-0")
        account.write_text(account.read_text().replace("right", "right!"))
        self.assertEqual(self.known()[1], 1)
        account.unlink()
        known = Known(self.folder.path)
        self.assertEqual((self.look(known)[1], self.referee.counts), ({"cup-0": "its call log is missing"}, []))

    def test_a_file_that_can_not_be_read_is_not_missing(self):
        for file in (self.folder.account("cup-0"), self.folder.record("cup-1")):
            data = file.read_bytes()
            file.unlink()
            file.mkdir()
            # If this error counted as a verdict, the match would be played again.
            self.assertEqual(raised(IsADirectoryError, self.look).filename, str(file))
            file.rmdir()
            file.write_bytes(data)
        self.assertEqual(len(self.look()[0]), 4)

    def test_the_result_in_a_file_is_not_verified(self):
        match, competition = self.plan.matches[0], self.plan.competition
        self.assertEqual(repr(unverified_result(self.folder, competition, self.plan.rules, match)), repr(self.look()[0]["cup-0"]))
        for more in ({"startClock": 7}, {"goalValues": [1]}, {"strikes": 1}):
            self.write(match, **more)
            self.assertIsNone(unverified_result(self.folder, competition, self.plan.rules, match), more)
        self.write(match)
        record = json.loads(self.folder.record(match.id).read_text())
        without = [json.dumps({key: value for key, value in record.items() if key != lost}) for lost in ("phase", "cause")]
        for text, goals in (("", None), ("{", None), ("[" * 100_000, None), ("7", None), (without[0], None), (without[1], (40, 60))):
            self.folder.record(match.id).write_text(text)
            found = unverified_result(self.folder, competition, self.plan.rules, match)
            self.assertEqual(found and found.goals, goals, text[:100])
        self.write(match)
        with mock.patch.object(match_files, "most_of_record", lambda rules, size: size - 3):
            self.assertIsNotNone(unverified_result(self.folder, competition, self.plan.rules, match))
        self.folder.record(match.id).unlink()
        self.assertIsNone(unverified_result(self.folder, competition, self.plan.rules, match))

    def test_records_of_no_match(self):
        self.assertEqual(unplanned_records(self.plan), [])
        for name in ("b.json", "a.json", "cup-0.json.refused", "cup-9.json", "x.txt"):
            (self.folder.records / name).touch()
        self.assertEqual(unplanned_records(self.plan), ["a.json", "b.json", "cup-9.json"])
        self.assertEqual(unplanned_records(types.SimpleNamespace(folder=Folder(self.folder.path / "none"), matches=[])), [])


RECORD = (
    b'{"matchId":"cup-0","players":["ann","bob"],"startClock":5,"playClock":6,"strikes":2,"phase":"finished","cause":null,'
    b'"goalValues":[100,0],"moves":[],"errors":[]}\n'
)


class Lengths(Looked):
    """Records and call logs whose lengths are at the limits."""

    def faults(self, record):
        self.folder.record("cup-0").write_bytes(record)
        results, faults, misfits = self.look()
        self.assertEqual((len(results) + len(faults), misfits), (4, {}))
        return list(faults.values())

    def test_a_record_may_be_as_long_as_the_referee_can_write_it(self):
        longest = longest_record(RULES.text)
        self.assertGreater(longest, USUAL_RECORD)
        words = f"its record has more than {longest:,} bytes, the most that a match of its game can have"
        for size, faults in ((USUAL_RECORD, []), (USUAL_RECORD + 1, []), (longest, []), (longest + 1, [words])):
            self.assertEqual(self.faults(RECORD[:-2].ljust(size - 1) + b"}\n"), faults, size)

    def test_the_states_of_a_long_record_are_no_values_in_memory(self):
        states = b'"states":[' + b",".join([b'["(cell 1 1 x)"]'] * 2_000_000) + b'],"strikes":2,"phase"'
        data = RECORD.replace(b'"strikes":2,"phase"', states)
        self.assertGreater(len(data), 30 << 20)
        tracemalloc.start()
        self.addCleanup(tracemalloc.stop)
        self.assertEqual(read_record(data)["goalValues"], [100, 0])
        self.assertLess(tracemalloc.get_traced_memory()[1], 1 << 20)

    def test_an_account_may_have_so_many_bytes(self):
        account = self.folder.account("cup-0")
        size = account.stat().st_size
        with mock.patch.object(match_files, "LONGEST_ACCOUNT", size):
            self.assertEqual(self.faults(RECORD), [])
            account.write_bytes(account.read_bytes().replace(b"right", b"right!"))
            self.assertEqual(self.faults(RECORD), [f"its call log has more than {size} bytes"])
        self.assertEqual(LONGEST_ACCOUNT, 256 * 1024 * 1024)


class Files(InFolder):
    """Errors that are visible in the bytes of a file."""

    def test_what_is_not_handed_to_the_referee(self):
        account = b"0\topen cup-1 0 1 1\topened\n"
        for record, its, fault in (
            (b"{}\n", None, "its call log is missing"), (b"{}\n", account[:-1], "its call log is cut off"), (b"{}\n", b"", "its call log is cut off"),
            (b"{}\n", b"\n", "line 1 of its call log does not open a match: "), (b"{}", account, "its record is not one line"), (b"", account, "its record is not one line"),
            (b"{}\n{}\n", account, "its record is not one line"), (b"{\n}", account, "its record is not one line"), (b"[]\n", account, "its record does not begin with `{`"),
            (b" {}\n", account, "its record does not begin with `{`"), (b"{}\n", account, None),
        ):
            self.assertEqual(fault_of_files(record, its, b""), fault, (record, its))

    def test_an_account_is_read_up_to_one_byte_more(self):
        folder = Folder(self.folder)
        folder.make(folder.accounts)
        folder.account("m").write_bytes(b"12345")
        for most, data in ((3, b"1234"), (4, b"12345"), (5, b"12345")):
            with mock.patch.object(match_files, "LONGEST_ACCOUNT", most):
                self.assertEqual(account_bytes(folder, "m"), data)
        self.assertIsNone(account_bytes(folder, "none"))

    def test_a_pipe_in_the_place_of_a_file_is_named(self):
        os.mkfifo(self.folder / "pipe")
        for read in (file_bytes, sum_of_file):
            why = raised(OSError, read, self.folder / "pipe")
            self.assertEqual((why.strerror, why.filename), ("it is not a regular file", str(self.folder / "pipe")))

    def test_nothing_stays_open(self):
        folder, pipe = self.folder, self.folder / "pipe"
        os.mkfifo(pipe)
        for path in (folder, pipe):
            raised(OSError, file_bytes, path)
        sync(folder)
        lock_place(folder)
        with locked(folder):
            raised(Refused, locked(folder).__enter__)
        still_open = {os.path.realpath(link) for link in pathlib.Path("/proc/self/fd").iterdir()}
        self.assertEqual(still_open & {os.path.realpath(folder), os.path.realpath(pipe)}, set())

    def test_the_shape_that_a_result_needs(self):
        good = {"goalValues": [1, 2], "errors": [["", "x"]], "moves": []}
        self.assertTrue(has_shape(good, 2))
        self.assertTrue(has_shape({**good, "goalValues": [], "errors": []}, 2))
        wrong = [{key: None} for key in good] + [{"goalValues": goals} for goals in ([1], [1, 2, 3], [1, "2"], [1, True], [1, 2.0], "ab", {})]
        wrong += [{"errors": errors} for errors in ([["", ""], [""]], [["", 1]], ["ab"], [["", ""], None], {}, "")] + [{"moves": ""}]
        for more in wrong:
            self.assertFalse(has_shape({**good, **more}, 2), more)
        for found in (None, [], "", 1, ["goalValues", "errors", "moves"]):
            self.assertFalse(has_shape(found, 2), found)
        self.assertFalse(has_shape({}, 0))

    def test_the_first_ending_that_none_of_the_files_has(self):
        files = self.folder / "a", self.folder / "b"
        found = []
        for _ in range(4):
            found.append(free_ending(files, "word"))
            files[len(found) % 2].with_name(files[len(found) % 2].name + found[-1]).touch()
        self.assertEqual(found, [".word", ".word.2", ".word.3", ".word.4"])
        (self.folder / "b.word.3").unlink(missing_ok=True)
        (self.folder / "a.word.3").unlink(missing_ok=True)
        self.assertEqual((free_ending(files, "word"), free_ending(files, "other")), (".word.3", ".other"))

    def test_files_are_kept_with_an_ending_that_is_free(self):
        folder = Folder(self.folder)
        folder.make(folder.records, folder.accounts, folder.logs)
        for word, name in ((None, "m.json"), ("unchecked", "m.json.unchecked"), ("unchecked", "m.json.unchecked.2")):
            file = keep(folder, "m", b"record", b"account", b"log", word)
            self.assertEqual((file, file.read_bytes()), (folder.records / name, b"record"))
            ending = name.removeprefix("m.json")
            self.assertEqual([(folder.accounts / f"m.txt{ending}").read_bytes(), (folder.logs / f"m.jsonl{ending}").read_bytes()], [b"account", b"log"])

    def test_each_file_is_on_the_disk_before_the_next_one_is_written(self):
        folder, steps = Folder(self.folder), []
        folder.make(folder.records, folder.accounts, folder.logs)

        def syncing(opened):
            place = pathlib.Path(f"/proc/self/fd/{opened}").readlink()
            steps.append(("on the disk", place.name.removeprefix(f"{UNFINISHED}{os.getpid()}-"), place.read_bytes() if place.is_file() else None))

        def renaming(old, new):
            rename(old, new)
            steps.append(("renamed", new.name))

        rename = os.replace
        with mock.patch("os.fsync", syncing), mock.patch("os.replace", renaming):
            keep(folder, "m", b"record", b"account", b"log")
        wanted = []
        # Even if the machine fails at any moment, a match with a record has the other files too.
        for place, name, data in (("logs", "m.jsonl", b"log"), ("accounts", "m.txt", b"account"), ("records", "m.json", b"record")):
            wanted += [("on the disk", name, data), ("renamed", name), ("on the disk", place, None)]
        self.assertEqual(steps, wanted)

    def test_what_counts_stays_where_it_was_not_all_written(self):
        folder = Folder(self.folder)
        folder.make(folder.records, folder.accounts, folder.logs)
        keep(folder, "m", b"record", b"account", b"log")
        for stop in range(3):
            full = broken_off(write_whole, stop, OSError(errno.ENOSPC, "full"))
            with mock.patch("ggp_tools.competition.match_files.write_whole", full), self.assertRaises(OSError):
                keep(folder, "m", b"record", b"account", b"log")
            self.assertEqual([file.read_bytes() for file in (folder.record("m"), folder.account("m"), folder.log("m"))], [b"record", b"account", b"log"])
