"""The parts of an archive, and how each is checked. The referee and the matches are fake."""

import dataclasses
import errno
import hashlib
import io
import json
import pathlib
import tarfile
import tempfile
import types
import unittest
from unittest import mock

from ggp_tools.competition import archive, command, history
from ggp_tools.competition.archive import SUMS, check_archive, files_below, publish
from ggp_tools.competition.files import Refused
from ggp_tools.competition.match_files import check_records
from ggp_tools.competition.known import Known
from ggp_tools.competition.packing import Spoilt
from ggp_tools.competition.plan import make_plan, read_plan
from ggp_tools.competition.table_text import in_order
from ggp_tools.match_log import End, line_of
from ggp_tools.referee import Unchecked
from live_support import BEGAN, ENDED, RULES, record_of, started
from support import InFolder, raised, toml
from test_archive import changed, files_of, packed, without

HEAD = "start = 5\nplay = 5\n"


class Right:
    """A fake referee that accepts everything, unless the test sets another answer."""

    def __init__(self, path):
        self.path, self.is_large, self.wrong, self.unchecked = path, False, {}, None

    def taking(self, is_large):
        return self

    def roles(self, rules, name):
        return "red", "blue"

    def version(self):
        return "ggp_manager 1.2.3"

    def verdicts(self, rules, records):
        if self.unchecked:
            raise Unchecked(self.unchecked.format(rules))
        return [next((fault for part, fault in self.wrong.items() if part in record), "lawful") for record in records]

    def replays(self, rules, accounts, records):
        return [b"replays another" not in account for account in accounts]


class Made(unittest.TestCase):
    """A competition of three finished matches, in a directory."""

    LINES = '"heap ann bob", "heap bob ann", "heap ann bob"'

    def setUp(self):
        self.room = pathlib.Path(self.enterContext(tempfile.TemporaryDirectory()))
        self.enterContext(mock.patch.dict("os.environ", {"XDG_CACHE_HOME": str(self.room / "cache")}))
        self.folder = self.room / "made"
        self.folder.mkdir()
        self.referee = Right(str(self.folder / "heap.kif"))
        (self.folder / "heap.kif").write_bytes(RULES)
        text = toml([("ann", "h:1"), ("bob", "h:2")], [("heap", "heap.kif", "aborts = true")], f'kind = "schedule"\nlines = [{self.LINES}]', HEAD)
        (self.folder / "competition.toml").write_text(text)
        self.plan = make_plan(str(self.folder), self.referee)
        self.plan.folder.make(self.plan.folder.records, self.plan.folder.accounts, self.plan.folder.logs)
        for at, match in enumerate(self.plan.matches):
            self.end(match, [100, 0] if at % 2 else [0, 100])
        self.path = self.room / "cup.tar.gz"

    def end(self, match, goals):
        """Writes the files of a match. The calls in the call log follow from the log of the match."""
        folder = self.plan.folder
        folder.record(match.id).write_text(json.dumps(record_of(match, [["(take 2)", "noop"], ["noop", "(take 1)"]], [["", ""], ["", ""]], goals)) + "\n")
        calls = "".join(f"{at + 1}\tnext {match.id} {at}\towe 0 start\n{at + 1}\tsubmit {match.id} {at} 0 ready\ttaken\n" for at in (0, 1))
        calls += f"1\tnext {match.id} 0\towe 3 stop (noop (take 1))\n1\tsubmit {match.id} 0 3 done\ttaken\n"
        folder.account(match.id).write_text(f"0\topen {match.id} 0 5 5\topened\n{calls}")
        folder.log(match.id).write_bytes(started(match, BEGAN).encode() + line_of(End(match.id, ENDED, "STOP")))

    def results(self):
        found, faults, misfits = check_records(self.plan, self.referee)
        self.assertEqual((faults, misfits), ({}, {}))
        return in_order(self.plan, found)

    def publish(self):
        return publish(self.plan, self.referee, self.results(), self.path, Known(self.folder))

    def check(self, data=None):
        if data is not None:
            self.path.write_bytes(data)
        return check_archive(self.path, self.referee)


class Checked(Made):
    def test_what_is_published_is_right(self):
        self.assertEqual(self.publish(), hashlib.sha256(self.path.read_bytes()).hexdigest())
        faults, said = self.check()
        self.assertEqual(faults, [])
        self.assertEqual(said, "the checksums, the schedule, 3 records and call logs, the table and the pages are right; published with ggp_manager 1.2.3, checked by ggp_manager 1.2.3")

    def test_each_file_is_looked_at(self):
        self.publish()
        files = files_of(self.path)
        files = {f"cup/{name.partition('/')[2]}": data for name, data in files.items()}
        more = lambda data: data + b"x"
        for spoil, words in (
            (changed("cup/table.json", more), "table.json does not follow from the records"),
            (changed("cup/table.txt", more), "table.txt does not follow from the records"),
            (changed("cup/matches.jsonl", more), "matches.jsonl does not follow from the records"),
            (without("cup/matches.jsonl"), "matches.jsonl is missing"),
            (without("cup/table.csv"), "table.csv is missing"),
            (changed("cup/pages/index.html", more), "pages/index.html does not follow from the records"),
            (without("cup/pages/index.html"), "pages/index.html is missing"),
            (lambda files: packed({**files, "cup/pages/more.html": b""}), "pages/more.html is not part of this competition"),
            (lambda files: packed({**files, "cup/pages.more": b""}), "pages.more is not part of this competition"),
            (lambda files: packed({name.replace("cup/", "cap/", 1): data for name, data in files.items()}), "its directory is named cap, but the competition is named cup"),
            (lambda files: packed({**files, "cup/GAPS.tsv": b""}), "GAPS.tsv is not part of this competition"),
            (lambda files: packed({**files, "cup/games/other.kif": b"a"}), "games/other.kif is not part of this competition"),
            (lambda files: packed({**files, "cup/rules/other.kif": b"a"}), "rules/other.kif is not part of this competition"),
            (lambda files: packed({**files, "cup/logs/other.jsonl": b"a"}), "logs/other.jsonl is not part of this competition"),
            (lambda files: packed({**files, "cup/accounts/cup-004.txt": b"a"}), "accounts/cup-004.txt is not part of this competition"),
            (lambda files: packed({**files, "cup/records/cup-004.json": b"a"}), "records/cup-004.json: it belongs to no match of the schedule"),
            (lambda files: packed({**files, "cup/play.log": b"2026\n"}), None),
            (changed("cup/VERSION", lambda _: b"ggp_manager 1.2.3"), "VERSION is not one line of the form `ggp_manager N.N.N`"),
            (without("cup/VERSION"), "VERSION is missing"),
            (without("cup/CHECK.txt"), "CHECK.txt is missing"),
            (changed("cup/CHECK.txt", more), "CHECK.txt does not follow from the records"),
            (without("cup/logs/cup-002.jsonl"), "cup-002: its log is missing"),
            (without("cup/records/cup-002.json"), "cup-002: it has no record"),
            (without("cup/accounts/cup-002.txt"), "cup-002: its call log is missing"),
            (changed("cup/accounts/cup-001.txt", lambda data: data.replace(b"0 ready", b"0 go")), "cup-001: line 2 of its log does not agree with its call log"),
            (changed("cup/games/heap.kif", more), "games/heap.kif is not the description that the rules of heap were made from"),
            (changed("cup/VERSION", lambda _: b"ggp_manager 0.10.0\n"), None),
            (changed("cup/VERSION", lambda _: b"ggp_manager 0.2.0\n"), "it was published with ggp_manager 0.2.0: check it with that version, since its logs are not JSON"),
        ):
            faults, said = self.check(spoil(dict(files)))
            self.assertEqual([fault for fault in faults if fault == words], [words] if words else [], (faults, words))
            self.assertEqual(bool(faults), bool(words), (faults, words))
            if not words:
                self.assertIn("the table and the pages are right", said)
        said = self.check(changed("cup/VERSION", lambda _: b"ggp_manager 9.9.9\n")(dict(files)))[1]
        self.assertTrue(said.endswith("; published with ggp_manager 9.9.9, checked by ggp_manager 1.2.3"), said)

    def test_all_that_is_wrong_is_told_at_once(self):
        self.publish()
        whole = {f"cup/{name.partition('/')[2]}": data for name, data in files_of(self.path).items()}
        files = dict(whole)
        del files["cup/table.csv"], files["cup/CHECK.txt"], files["cup/records/cup-001.json"]
        files[f"cup/{SUMS}"] = files[f"cup/{SUMS}"].replace(b"  pages/index.html", b"  pages/other.html")
        files["cup/more"] = b""
        self.assertEqual(self.check(packed(files, fits=False))[0], [
            "CHECK.txt is missing", "pages/other.html is missing", "records/cup-001.json is missing", "table.csv is missing",
            "more has no checksum", "pages/index.html has no checksum",
        ])
        pages = [f"pages/{letter}.html" for letter in "hgfedcba"]
        self.assertEqual(self.check(packed({**whole, **{f"cup/{page}": b"" for page in pages}}))[0], [f"{page} is not part of this competition" for page in pages[::-1]])

    def test_what_the_referee_says_of_records(self):
        self.publish()
        self.referee.wrong = {b'"cup-002"': "not lawful: goals"}
        self.assertEqual(self.check()[0], ["cup-002: not lawful: goals"])
        self.referee.wrong = {}
        other = changed("cup/records/cup-001.json", lambda data: data.replace(b'"startClock": 5', b'"startClock": 7'))
        self.assertEqual(self.check(other(files_of(self.path)))[0], ["cup-001: its startClock is 7, but the schedule has 5"])
        self.referee.unchecked = "`ggp_manager verify` gave no verdict for {}: it printed nothing, status 3"
        why = raised(Unchecked, self.check)
        self.assertEqual(str(why), "`ggp_manager verify` gave no verdict for cup/rules/heap.kif: it printed nothing, status 3")

    def test_a_competition_with_logs_of_an_earlier_version_is_refused(self):
        read_plan(str(self.folder), self.referee)
        (self.plan.folder.logs / "cup-001.txt").write_text("began")
        with self.assertRaisesRegex(Refused, "cup-001.txt is a log of ggp_manager 0.2.0: use that version for this competition"):
            read_plan(str(self.folder), self.referee)

    def test_gaps_are_named(self):
        folder = self.plan.folder
        for file in (folder.record("cup-002"), folder.account("cup-002"), folder.log("cup-002")):
            file.unlink()
        self.publish()
        faults, said = self.check()
        self.assertEqual((faults, "; 1 of 3 matches have no record; GAPS.tsv lists them; published" in said, "2 records and call logs" in said), ([], True, True))
        files = files_of(self.path)
        self.assertEqual(files["cup/GAPS.tsv"], b"id\tgame\tstart\tplay\tplayers\ncup-002\theap\t5\t5\tbob ann\n")
        self.assertEqual(self.check(without("cup/GAPS.tsv")(dict(files)))[0], ["cup-002: it has no record", "cup-002: its log is missing"])
        self.assertEqual(self.check(without("cup/logs/cup-001.jsonl")(dict(files)))[0], ["cup-001: its log is missing"])
        self.assertEqual(self.check(changed("cup/GAPS.tsv", lambda data: data.replace(b"-002", b"-001"))(dict(files)))[0], ["GAPS.tsv does not follow from the records"])

    def test_the_archive_is_the_same_for_the_same_files(self):
        digest, data = self.publish(), self.path.read_bytes()
        with tarfile.open(self.path) as members:
            self.assertEqual({(member.mode, member.mtime, member.uid, member.uname) for member in members}, {(0o644, 0, 0, "")})
            names = [member.name for member in members]
            self.assertEqual((names[0], names[1], names[-1]), ("cup/competition.toml", "cup/schedule.tsv", f"cup/{SUMS}"))
        self.path.write_bytes(b"another")
        self.assertEqual((self.publish(), self.path.read_bytes()), (digest, data))
        self.plan.folder.journal.write_text("2026\n")
        self.assertNotEqual(self.publish(), digest)
        self.assertEqual(files_of(self.path)["cup/play.log"], b"2026\n")

    def test_what_is_of_its_history_is_in_the_archive(self):
        folder, planned = self.plan.folder, self.plan.text
        folder.competition.write_bytes(b"wait = 3\n" + planned)
        self.plan = read_plan(str(self.folder), self.referee)
        folder.make(folder.earlier)
        (folder.earlier / "2.toml").write_bytes(b"before")
        folder.again.write_bytes(b"again")
        self.publish()
        files = files_of(self.path)
        self.assertEqual((files["cup/earlier/2.toml"], files["cup/again.tsv"]), (b"before", b"again"))
        self.assertEqual((files["cup/competition.toml"], files["cup/planned.toml"]), (b"wait = 3\n" + planned, planned))

    def test_plan_keeps_as_many_earlier_files_as_check_accepts(self):
        file = self.plan.folder.competition
        texts = [file.read_text()]
        for _ in range(2):
            texts.append(texts[-1].replace('bob"]', 'bob", "heap ann bob"]'))
        file.write_text(texts[1])
        most = len(texts[0]) + len(texts[1])
        with mock.patch.multiple(history, MOST_EARLIER=1, MOST_OF_EARLIER=most):
            self.plan = make_plan(str(self.folder), self.referee)
            self.end(self.plan.matches[-1], [100, 0])
            self.publish()
            self.assertEqual(self.check()[0], [])
        file.write_text(texts[2])
        for number, size, found in ((1, most, f"2 with {most}"), (2, most - 1, f"2 with {most}"), (0, most, f"1 with {len(texts[0])}")):
            with mock.patch.multiple(history, MOST_EARLIER=number, MOST_OF_EARLIER=size):
                words = f"{self.folder}/earlier: expected at most {number} files with {size} bytes in total, found {found}"
                said = str(raised(Refused, make_plan, str(self.folder), self.referee))
                self.assertEqual(said, f"{words}: the schedule can't grow any more; begin another competition")
        with mock.patch.object(history, "MOST_EARLIER", 0):
            self.assertEqual(self.check()[0], [f"cup/earlier: expected at most 0 files with 67,108,864 bytes in total, found 1 with {len(texts[0])}"])
        self.assertEqual(len(make_plan(str(self.folder), self.referee).history.earlier), 2)

    def test_beside_ground_rules_the_description_is_in_the_archive(self):
        competition = self.plan.competition
        self.plan.competition = dataclasses.replace(competition, games=(dataclasses.replace(competition.games[0], described="general.kif"),))
        files = dict(archive.contents(self.plan, self.referee, [], []))
        self.assertEqual(files["games/heap.kif"], self.plan.folder.path / "general.kif")

    def test_the_line_of_a_match_has_the_checksums(self):
        digest = "0" * 64
        self.plan.folder.description_sums.write_text(f"{digest}  heap.kif\n")
        sums = {(line["rules"], line["description"]) for line in map(json.loads, archive.matches_text(self.plan, self.results()).splitlines())}
        self.assertEqual(sums, {(hashlib.sha256((self.folder / "rules/heap.kif").read_bytes()).hexdigest(), digest)})

    def test_other_files_among_the_pages_are_not_published(self):
        self.publish()
        files, others = files_of(self.path), [self.plan.folder.pages / name for name in ("mine.html", "matches/.unfinished-1-x")]
        for other in others:
            other.touch()
        self.publish()
        self.assertEqual((files_of(self.path), [other.exists() for other in others]), (files, [True, True]))

    def test_faults_of_this_computer_are_none_of_the_archive(self):
        for number in (errno.ENOSPC, errno.EDQUOT, errno.EIO, errno.EMFILE, errno.ENFILE, errno.ENOMEM):
            with mock.patch.object(archive, "unpack", side_effect=OSError(number, "short")):
                self.assertEqual(str(raised(Unchecked, self.check)), f"the archive can't be checked in {tempfile.gettempdir()}: short")
        with mock.patch.object(archive, "unpack", side_effect=OSError(errno.EACCES, "no")), self.assertRaises(OSError):
            self.check()
        with mock.patch.object(archive, "unpack", side_effect=MemoryError):
            self.assertEqual(str(raised(Unchecked, self.check)), "the archive can't be checked: out of memory")

    def test_an_archive_that_can_not_be_read_is_no_verdict(self):
        for name, module, place, status in (("check", archive, "check_archive", 3), ("table", command, "read_plan", 1)):
            for fault, words in ((OSError(errno.EACCES, "no", "x"), "x: no"), (KeyboardInterrupt(), "interrupted")):
                said, patches = io.StringIO(), [mock.patch.object(command, word) for word in ("find_program", "Referee")]
                patches += [mock.patch.object(module, place, side_effect=fault), mock.patch("sys.argv", ["ggp_competition", name, str(self.folder)])]
                with patches[0], patches[1], patches[2], patches[3], mock.patch("sys.stderr", said):
                    self.assertEqual((command.main(), said.getvalue()), (status, f"ggp_competition: {words}\n"), name)

    def test_of_many_and_long_errors_the_first_ones_are_reported(self):
        lines = [f"error {number}" for number in range(5_000)]
        with mock.patch.object(archive, "unpack", side_effect=Spoilt("\n".join(["x" * 3_000_000, *lines]))):
            self.assertEqual(self.check(), (["x" * 1_000 + "..", *lines[:99], "there are 4,901 more errors"], ""))
        for count, more in ((100, []), (101, ["there is 1 more error"])):
            with mock.patch.object(archive, "what_is_right", side_effect=Spoilt("\n".join(lines[:count]))):
                self.assertEqual(self.check()[0], [*lines[:100], *more])

    def test_a_huge_file_is_not_read(self):
        self.publish()
        files, read = files_of(self.path), pathlib.Path.read_bytes

        def small(file):
            self.assertLess(file.stat().st_size, 1 << 20, file)
            return read(file)

        for name, fault in (("VERSION", "VERSION is not one line of the form `ggp_manager N.N.N`"), ("table.txt", "table.txt does not follow from the records"), ("pages/index.html", "pages/index.html does not follow from the records")):
            data = packed({**files, f"cup/{name}": bytes(1 << 20)})
            with mock.patch("pathlib.Path.read_bytes", small):
                self.assertEqual(self.check(data)[0], [fault])

    def test_what_is_said_reaches_no_terminal_as_it_is(self):
        with mock.patch.object(archive, "unpack", side_effect=Spoilt("a\x1b[1m\u00e9\nb ~")):
            self.assertEqual(self.check(), (["a?[1m?", "b ~"], ""))

    def test_an_archive_may_be_in_a_directory_whose_name_begins_like_that_of_the_competition(self):
        beside = self.room / "made-archives"
        beside.mkdir()
        for path in (beside / "cup.tar.gz", self.room / "cup.tar.gz", self.folder / "cup.tar.gz"):
            self.assertEqual(command.archive_path(self.plan, str(path)), path)
        self.assertEqual(command.archive_path(self.plan, None), self.folder / "cup.tar.gz")
        self.assertIn("among the files of the competition", str(raised(Refused, command.archive_path, self.plan, str(self.folder / "rules/cup.tar.gz"))))


class Commands(Made):
    def ran(self, name, *words):
        """Runs a command with the fake referee. Returns its exit status, and what it printed on standard error."""
        with mock.patch("sys.stderr", io.StringIO()) as said, mock.patch("sys.stdout", io.StringIO()):
            asked = command.arguments([name, *map(str, words)])
            return int(asked.run(asked, self.referee)), said.getvalue()

    def test_a_record_that_does_not_count_fails_each_command(self):
        self.referee.wrong = {b'"cup-002"': "not lawful: goals"}
        nothing = "ggp_competition: nothing was published: 1 match has no lawful record\n"
        for name, *words in ("table",), ("pages",), ("publish", "--gaps"):
            said = f"ggp_competition: cup-002 does not count: not lawful: goals\n{nothing * (name == 'publish')}"
            self.assertEqual(self.ran(name, self.folder, *words), (1, said))
        self.referee.wrong.clear()
        for name in ("table", "pages", "publish"):
            self.assertEqual(self.ran(name, self.folder), (0, ""))

    def test_each_archive_is_checked(self):
        self.publish()
        wrong = self.room / "wrong.tar.gz"
        wrong.write_bytes(without("cup/table.csv")(files_of(self.path)))
        for paths in (self.path, wrong), (wrong, self.path), (wrong, wrong):
            said = f"ggp_competition: {wrong}: table.csv is missing\n" * paths.count(wrong)
            self.assertEqual(self.ran("check", *paths), (1, said))
        self.assertEqual(self.ran("check", self.path, self.path), (0, ""))
        self.assertEqual(str(raised(Refused, self.ran, "check", self.path, self.room / "none")), f"{self.room / 'none'} does not exist")

    def test_rounds_that_are_not_planned_are_gaps(self):
        with mock.patch.object(command, "rounds_left", lambda _: 2), mock.patch.object(archive, "rounds_left", lambda _: 2):
            said = "ggp_competition: nothing was published: 2 of 2 rounds are not planned yet; `--gaps` publishes without them\n"
            self.assertEqual((self.ran("publish", self.folder), self.ran("publish", self.folder, "--gaps")), ((1, said), (0, "")))

    def test_matches_without_logs_are_reported(self):
        for name, said in (("cup-003", "cup-003 counts, but without times, because its log is missing"), ("cup-001", "2 matches from cup-001 to cup-003 count, but without times, because their logs are missing")):
            self.plan.folder.log(name).unlink()
            self.assertEqual(self.ran("table", self.folder), (0, f"ggp_competition: {said}\n"))


class Rounds(Made):
    def test_rounds_that_were_not_planned_are_told(self):
        with mock.patch.object(archive, "rounds_left", lambda _: 2):
            self.publish()
            self.assertEqual(files_of(self.path)["cup/GAPS.tsv"], b"id\tgame\tstart\tplay\tplayers\n")
            faults, said = self.check()
        self.assertEqual((faults, "right; 2 of 2 rounds were not planned; published" in said, "have no record" in said), ([], True, False))


class Held(Made):
    """Matches of games with variables are compared with the descriptions."""

    def held(self, *words):
        games = [types.SimpleNamespace(name=name) for name in ("heap", "other", "third")]
        plan = types.SimpleNamespace(competition=types.SimpleNamespace(games=games), folder=self.plan.folder)
        description = self.room / "games"
        description.mkdir(exist_ok=True)
        for name, text in (("heap", b"(p ?x)"), ("third", b"(p x)")):
            (description / f"{name}.kif").write_bytes(text)
        results = self.results()
        left = iter(words)
        with mock.patch.object(archive, "comparisons", lambda file, records: [next(left) for _ in records]), mock.patch.object(archive, "PROCESSORS", 1):
            return archive.compared_matches(plan, results, self.room)

    def test_what_is_said_of_them(self):
        same = "the same: 2 turns"
        self.assertEqual(self.held(same, same, same), ("; 3 matches agree with descriptions that have variables", []))
        self.assertEqual(self.held(same, "differs: x", same), ("; 2 matches agree with descriptions that have variables", ["cup-002: compared with games/heap.kif, it differs: x"]))
        said = "; 1 match agrees with descriptions that have variables, and 2 could not be followed: cup-001 not followed: a, cup-003 not followed: b"
        self.assertEqual(self.held("not followed: a", same, "not followed: b"), (said, []))
        said = "; 0 matches agree with descriptions that have variables, and 3 could not be followed: cup-001 not followed: a, cup-002 not followed: a, cup-003 not followed: a"
        self.assertEqual(self.held(*["not followed: a"] * 3), (said, []))
        self.assertEqual(self.held(*["differs: x"] * 3)[0], "")

    def test_a_match_that_differs_is_a_fault_of_the_archive(self):
        self.publish()
        with mock.patch.object(archive, "has_variables", lambda _: True), mock.patch.object(archive, "comparisons", lambda _, records: ["differs: y" for _ in records]):
            self.assertEqual(self.check(), ([f"cup-00{at}: compared with games/heap.kif, it differs: y" for at in (1, 2, 3)], ""))
        with mock.patch.object(archive, "has_variables", lambda _: True), mock.patch.object(archive, "comparisons", lambda _, records: ["the same: 2 turns" for _ in records]):
            self.assertIn("the pages are right; 3 matches agree with descriptions that have variables; published with", self.check()[1])


class Parts(InFolder):
    def write(self, **files):
        for name, data in files.items():
            file = self.folder / name.replace("__", "/").replace("_", ".")
            file.parent.mkdir(parents=True, exist_ok=True)
            file.write_bytes(data)

    def test_faults_of_sums(self):
        self.write(a=b"one", b=b"two", c__d=b"three")
        self.assertEqual(list(archive.faults_of_sums(self.folder)), [f"{SUMS} is missing"])
        digests = {name: hashlib.sha256(data).hexdigest() for name, data in (("a", b"one"), ("b", b"other"), ("e", b""))}
        lines = [f"{digest}  {name}\n" for name, digest in digests.items()]
        (self.folder / SUMS).write_text("".join(lines))
        self.assertEqual(list(archive.faults_of_sums(self.folder)), ["e is missing", "c/d has no checksum", "b does not match its checksum"])
        for text in (lines[0] * 2, "".join(lines) + "x\n"):
            (self.folder / SUMS).write_text(text)
            self.assertEqual(list(archive.faults_of_sums(self.folder)), [f"{SUMS} names a file twice, or has a line that is not a checksum"])

    def test_files_below_a_folder_are_in_order(self):
        self.write(b=b"", a__b=b"", a__a=b"", c=b"")
        self.assertEqual(list(files_below(self.folder)), ["a/a", "a/b", "b", "c"])

    def test_bytes_and_files_with_their_sums(self):
        self.write(b=b"two")
        files = list(archive.with_sums([("a", b"one"), ("b", self.folder / "b"), ("c", lambda: b"three")]))
        sums = "".join(f"{hashlib.sha256(data).hexdigest()}  {name}\n" for name, data in (("a", b"one"), ("b", b"two"), ("c", b"three")))
        self.assertEqual(files, [("a", b"one"), ("b", b"two"), ("c", b"three"), (SUMS, sums.encode())])

    def test_records_are_held_in_parts_of_one_size(self):
        parts = []

        def held(file, records):
            parts.append(list(records))
            return list(map(str, records))

        with mock.patch.object(archive, "PROCESSORS", 3), mock.patch.object(archive, "comparisons", held):
            self.assertEqual(archive.compared_side_by_side("f", list(range(7))), list("0123456"))
        self.assertEqual(sorted(parts), [[0, 1, 2], [3, 4, 5], [6]])
