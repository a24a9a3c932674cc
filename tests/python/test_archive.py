"""`check` accepts an archive in another directory. After each of many corruptions, `check` refuses the archive, although most of the corruptions
include matching checksums."""

import errno
import gzip
import hashlib
import io
import json
import os
import pathlib
import re
import shutil
import subprocess
import tarfile
import tempfile
import unittest
from unittest import mock

from ggp_tools.competition.command import main
from ggp_tools.competition.files import locked, written_whole
from ggp_tools.competition.packing import Spoilt, pack, unpack
from players import TestPlayer
from support import GAMES, ODD, program, program_but, run, toml

HEAD = "start = 5\nplay = 5\nstrikes = 1\nforfeit = true\n"


def packed(files, fits=True):
    """Returns an archive of these files, with matching checksums if `fits` is set."""
    files, sums = dict(files), f"{next(iter(files)).partition('/')[0]}/SHA256SUMS"
    lines = sorted((name.partition("/")[2], hashlib.sha256(data).hexdigest()) for name, data in files.items() if name != sums)
    if fits and sums in files:
        files[sums] = "".join(f"{line}  {name}\n" for name, line in lines).encode()
    found = io.BytesIO()
    pack(found, files.items())
    return found.getvalue()


def changed(name, change):
    """Returns a corruption that changes one file and then updates the checksums."""

    def spoil(files):
        before = files[name]
        files[name] = change(before)
        assert files[name] != before, name
        return packed(files)

    return spoil


def swapped(first, second):
    def spoil(files):
        files[first], files[second] = files[second], files[first]
        return packed(files)

    return spoil


def without(*names):
    return lambda files: packed({name: data for name, data in files.items() if name not in names})


def nonsense(files):
    """Replaces a description, and updates the checksums of the archive and of the rules."""
    text, sums = b"(role nonsense)\n", "cup/rules/DESCRIPTIONS.sha256"
    old = hashlib.sha256(files["cup/games/odd.kif"]).hexdigest()
    files["cup/games/odd.kif"] = text
    files[sums] = files[sums].replace(old.encode(), hashlib.sha256(text).hexdigest().encode())
    return packed(files)


def moved_calls(files):
    """Moves the last calls of a match to the top of the call log of the match before it. `check` replays both call logs together."""
    first, second = "cup/accounts/cup-001.txt", "cup/accounts/cup-002.txt"
    head, *rest = files[second].splitlines(keepends=True)
    files[first], files[second] = files[first] + head, b"".join(rest)
    return packed(files)


def better(data):
    """Returns a record with different goals."""
    record = json.loads(data)
    record["goalValues"] = record["goalValues"][::-1]
    return (json.dumps(record, separators=(",", ":")) + "\n").encode()


def renamed(data):
    return data.replace(b'"ann"', b'"eve"')


def files_of(path):
    """Returns the files of an archive."""
    with tarfile.open(path) as archive:
        return {member.name: archive.extractfile(member).read() for member in archive}


SPOILINGS = {
    "a bit of a record is turned, sums as they were": (None, "does not match its checksum"),
    "the archive is cut off": (None, "can't be unpacked"),
    "it is no archive": (None, "can't be unpacked"),
    "goals are exchanged": (changed("cup/records/cup-002.json", better), "cup-002: not lawful: goals"),
    "a record has another player's name": (changed("cup/records/cup-001.json", renamed), "cup-001: its call log does not reproduce its record"),
    "a move of the account is another one": (changed("cup/accounts/cup-001.txt", lambda text: text.replace(b"READY", b"BUSY").replace(b"(take 1)", b"(take 2)")), "cup-001: "),
    "two accounts are exchanged": (swapped("cup/accounts/cup-001.txt", "cup/accounts/cup-002.txt"), "does not reproduce its record"),
    "two whole matches are exchanged": (None, "cup-001: its matchId is 'cup-002'"),
    "calls of one account stand in another": (moved_calls, "of its call log belongs to another match: 0 strict cup-002 "),
    "an account has a line that replay skips": (
        changed("cup/accounts/cup-003.txt", lambda text: b'{"goalValues":[100,0]}\n' + text), 'cup-003: line 1 of its call log does not open a match: {"goalValues":[100,0]}',
    ),
    "a log tells of another answer": (changed("cup/logs/cup-001.jsonl", lambda text: re.sub(rb'("kind":"PLAY".*?"answer":)[^,]*,', rb'\1"(take 7)",', text, count=1)), "of its log does not agree with its call log"),
    "a log tells of another player": (changed("cup/logs/cup-001.jsonl", lambda text: text.replace(b'"ann"', b'"cid"').replace(b'"bob"', b'"ann"')), " of its log does not agree with its call log"),
    "two logs are exchanged": (swapped("cup/logs/cup-001.jsonl", "cup/logs/cup-002.jsonl"), "cup-002: `publish` would leave out line 1 of its log, or write it differently"),
    "the rules are others": (changed("cup/rules/countdown.kif", lambda text: text.replace(b"100", b"90")), "rules/countdown.kif is not what"),
    "a description and its sum are others": (nonsense, "games/odd.kif differs from the rules of odd; a ground GDL file must be equal to the rules"),
    "a description is missing": (without("cup/games/odd.kif"), "games/odd.kif is missing: it is the description of odd"),
    "the sums of the descriptions are missing": (without("cup/rules/DESCRIPTIONS.sha256"), "rules/DESCRIPTIONS.sha256 is missing: it has the checksums of the descriptions"),
    "there is a sum of another description": (changed("cup/rules/DESCRIPTIONS.sha256", lambda text: text + b"0" * 64 + b"  more.kif\n"), "has a checksum of more.kif, which is not a game"),
    "the schedule is another": (changed("cup/schedule.tsv", lambda text: text.replace(b"ann bob", b"bob ann", 1)), "schedule.tsv does not agree with"),
    "the competition has other strikes": (changed("cup/competition.toml", lambda text: text.replace(b"strikes = 1", b"strikes = 2")), "competition.toml:4: strikes was 1 and is now 2"),
    "the competition counts otherwise": (changed("cup/competition.toml", lambda text: text.replace(b"forfeit = true", b"forfeit = false")), "competition.toml:5: forfeit was true and is now false"),
    "the competition has another order": (changed("cup/competition.toml", lambda text: b'order = "points"\n' + text), "competition.toml:1: order was 'goals' and is now 'points'"),
    "a forfeit is taken away": (changed("cup/matches.jsonl", lambda text: re.sub(rb'"forfeit":.*?"counted":.*?\],', b"", text, count=1)), "matches.jsonl does not follow"),
    "a forfeit has another reason": (changed("cup/matches.jsonl", lambda text: text.replace(b'"errors":["IL"]', b'"errors":["TO"]', 1)), "matches.jsonl does not follow"),
    "a forfeit is taken away from its page": (changed("cup/pages/index.html", lambda text: re.sub(rb"forfeit: cid .*?<", b"<", text, count=1)), "pages/index.html does not follow"),
    "a name in the sums is no plain text": (None, "records/x?[2J?[31mn? is missing"),
    "a word of the competition is no plain text": (changed("cup/competition.toml", lambda text: text.replace(b"round_robin", b"\xc3\xa9")), r"found '\u{e9}'"),
    "the sums of the rules have another line": (changed("cup/rules/SHA256SUMS", lambda text: b"all is well\n" + text), "rules/SHA256SUMS is not what `ggp_competition plan` wrote"),
    "a description has two sums": (changed("cup/rules/DESCRIPTIONS.sha256", lambda text: b"0" * 64 + text[64 : text.index(b"\n") + 1] + text), "rules/DESCRIPTIONS.sha256 is not what"),
}


class Archive(unittest.TestCase):
    @classmethod
    def setUpClass(cls):
        """Plays a competition, and publishes it."""
        room = tempfile.TemporaryDirectory()
        cls.addClassCleanup(room.cleanup)
        cls.folder = pathlib.Path(room.name)
        players = [TestPlayer(name, kind, at) for at, (name, kind) in enumerate((("ann", "good"), ("bob", "good"), ("cid", "lying")))]
        (cls.folder / "odd.kif").write_text(ODD)
        games = [("countdown", GAMES / "countdown.kif"), ("odd", "odd.kif"), ("buttons", GAMES / "buttons.kif")]
        (cls.folder / "competition.toml").write_text(toml([(player.name, player.place()) for player in players], games, head=HEAD))
        cls.ran = [run(cls.folder, command) for command in ("plan", "publish", "play", "publish")]
        cls.archive = cls.folder / "cup.tar.gz"

    def setUp(self):
        self.assertEqual([run_of_command[0] for run_of_command in self.ran], [0, 1, 0, 0], self.ran)
        other = tempfile.TemporaryDirectory()
        self.addCleanup(other.cleanup)
        self.other = pathlib.Path(other.name)

    def files(self):
        return files_of(self.archive)

    def plain_spoilings(self, files):
        """Returns the corruptions that are not a change of one file with updated checksums."""
        data = self.archive.read_bytes()
        record = files["cup/records/cup-001.json"]
        raw = gzip.decompress(data)
        yield "a bit of a record is turned, sums as they were", gzip.compress(raw.replace(record, record.replace(b"finished", b"finishes")))
        yield "the archive is cut off", data[: len(data) // 2]
        yield "it is no archive", b"no archive"
        sums = files["cup/SHA256SUMS"] + b"0" * 64 + b"  records/x\x1b[2J\x1b[31mn\xc3\xa9\n"
        yield "a name in the sums is no plain text", packed({**files, "cup/SHA256SUMS": sums}, fits=False)
        both = dict(files)
        for kind in ("records/cup-00{}.json", "accounts/cup-00{}.txt", "logs/cup-00{}.jsonl"):
            first, second = (f"cup/{kind.format(number)}" for number in (1, 2))
            both[first], both[second] = files[second], files[first]
        yield "two whole matches are exchanged", packed(both)

    def test_checked_elsewhere_and_refused_after_each_spoiling(self):
        self.assertIn("nothing was published: 12 matches have no lawful record", self.ran[1][2])
        self.assertEqual(self.ran[3][1].split()[0], hashlib.sha256(self.archive.read_bytes()).hexdigest())
        shutil.copy(self.archive, self.other)
        status, out, said = run(self.other, "check", "cup.tar.gz")
        self.assertEqual((status, said), (0, ""))
        self.assertRegex(out, "the checksums, the schedule, 12 records and call logs, the table and the pages are right; published with ggp_manager [0-9.]+, checked by ggp_manager [0-9.]+\n$")
        files = self.files()
        spoilt = dict(self.plain_spoilings(files))
        spoilt |= {name: spoil(dict(files)) for name, (spoil, _) in SPOILINGS.items() if spoil}
        for name, (_, words) in SPOILINGS.items():
            with self.subTest(name):
                (self.other / "spoilt.tar.gz").write_bytes(spoilt[name])
                status, out, said = run(self.other, "check", "spoilt.tar.gz")
                self.assertEqual((status, out), (1, ""))
                self.assertIn(words, said)
                # A user of `check` cannot follow advice about the directory of a competition.
                self.assertNotRegex(said, "plan` writes|put back")
                self.assertRegex(said, r"^[\x20-\x7e\n]*$")
                self.assertNotIn(f"{tempfile.gettempdir()}/tmp", said)
        self.assertEqual(sorted(file.name for file in self.other.iterdir()), ["cup.tar.gz", "spoilt.tar.gz"])

    def test_another_program_publishes_nothing(self):
        published, other = self.archive.read_bytes(), program_but(self.other / "other", '"$1" = --version', "echo ggp_manager 9; exit")
        said = f"ggp_competition: {other} is not ggp_manager: `--version` does not print `ggp_manager N.N.N`\n"
        self.assertEqual(run(self.folder, "publish", "--program", other), (2, "", said))
        self.assertEqual(self.archive.read_bytes(), published)

    def test_an_archive_that_is_not_there(self):
        self.assertEqual(run(self.folder, "check", "none.tar.gz"), (2, "", "ggp_competition: none.tar.gz does not exist\n"))

    def test_an_archive_that_can_not_be_checked(self):
        short = program_but(self.other / "short", '"$1" = replay', "kill -9 $$")
        said = "ggp_competition: `ggp_manager replay` gave no verdict for cup/rules/countdown.kif: it printed nothing; it was killed by signal 9 (SIGKILL); nothing was changed\n"
        self.assertEqual(run(self.folder, "check", "cup.tar.gz", "--program", short), (3, "", said))

    def test_sums_that_were_made_anew_are_taken_of_what_is_right(self):
        (self.other / "again.tar.gz").write_bytes(packed(self.files()))
        self.assertEqual(run(self.other, "check", "again.tar.gz")[0], 0)

    def test_what_tar_has_packed_again_is_not_checked(self):
        for words in (["xzf", self.archive], ["czf", "again.tar.gz", "cup/competition.toml", "cup"]):
            subprocess.run(["tar", *words], cwd=self.other, check=True)
        said = "ggp_competition: again.tar.gz: its bytes are not those that `publish` would write: the difference is at 'cup/competition.toml'\n"
        self.assertEqual(run(self.other, "check", "again.tar.gz"), (1, "", said))

    def copied(self):
        """Returns a copy of the directory of the competition."""
        cup = self.other / "cup"
        shutil.copytree(self.folder, cup)
        return cup

    def test_gaps_are_published_if_that_is_wanted_and_named(self):
        cup = self.copied()
        published = (cup / "cup.tar.gz").read_bytes()
        self.assertEqual((run(cup, "publish", "--gaps", "--to", "again.tar.gz")[0], (cup / "again.tar.gz").read_bytes()), (0, published))
        line = next(planned for planned in (cup / "schedule.tsv").read_text().splitlines() if planned.startswith("cup-003"))
        (cup / "records/cup-003.json").unlink()
        self.assertIn("nothing was published: 1 match has no lawful record; `--gaps` publishes the others\n", run(cup, "publish")[2])
        self.assertEqual(run(cup, "publish", "--gaps")[::2], (0, ""))
        files = files_of(cup / "cup.tar.gz")
        self.assertEqual(files["cup/GAPS.tsv"].decode().splitlines()[1:], [line])
        self.assertEqual([file for file in files if "cup-003" in file], [])
        self.assertIn(b"<h2>Matches without a record</h2><p>They do not count.</p>", files["cup/pages/index.html"])
        self.assertIn("cup: 11 of 12 matches", files["cup/table.txt"].decode())
        status, out, said = run(cup, "check", "cup.tar.gz")
        self.assertEqual((status, said), (0, ""))
        self.assertIn("11 records and call logs, the table and the pages are right; 1 of 12 matches have no record; GAPS.tsv lists them; published", out)
        for change, words in (
            (without(*(f"cup/{name}" for name in ("records/cup-004.json", "accounts/cup-004.txt", "logs/cup-004.jsonl"))), "GAPS.tsv does not follow from the records"),
            (changed("cup/records/cup-002.json", better), "cup-002: not lawful: goals"),
        ):
            (self.other / "spoilt.tar.gz").write_bytes(change(dict(files)))
            status, out, said = run(self.other, "check", "spoilt.tar.gz")
            self.assertEqual((status, out), (1, ""))
            self.assertIn(words, said)
        before = (cup / "cup.tar.gz").read_bytes()
        (cup / "records/cup-004.json").write_bytes(b"{}\n")
        self.assertIn("nothing was published: 2 matches have no lawful record\n", run(cup, "publish", "--gaps")[2])
        self.assertEqual((cup / "cup.tar.gz").read_bytes(), before)

    def test_what_is_published_is_what_was_counted(self):
        cup = self.copied()
        published = (cup / "cup.tar.gz").read_bytes()
        edit = program_but(self.other / "edit", '"$1" = verify', "sed -i 's/forfeit = true/forfeit = false/' competition.toml")
        self.assertEqual(run(cup, "publish", "--program", edit)[0], 0)
        self.assertIn("forfeit = false", (cup / "competition.toml").read_text())
        self.assertEqual((cup / "cup.tar.gz").read_bytes(), published)
        write = program_but(self.other / "write", '"$1" = --version', "touch pages/.unfinished-1-index.html; rm matches.jsonl")
        (cup / "competition.toml").write_bytes((self.folder / "competition.toml").read_bytes())
        self.assertEqual((run(cup, "publish", "--program", write)[0], (cup / "cup.tar.gz").read_bytes()), (0, published))

    def test_no_two_publish_at_once(self):
        with locked(self.folder):
            said = "ggp_competition: .: another command is planning, playing or publishing this competition\n"
            self.assertEqual(run(self.folder, "publish"), (2, "", said))

    def test_a_description_that_is_another_one_is_not_published(self):
        cup = self.copied()
        published = (cup / "cup.tar.gz").read_bytes()
        for change, words in ((b"(role nonsense)\n", "is not the description that the rules of odd were made from"), (None, "is missing: it is the description of odd, and the archive needs a copy of it")):
            (cup / "odd.kif").write_bytes(change) if change else (cup / "odd.kif").unlink()
            self.assertEqual(run(cup, "publish"), (1, "", f"ggp_competition: nothing was published: odd.kif {words}\n"))
        (cup / "odd.kif").write_text(ODD)
        sums = cup / "rules/DESCRIPTIONS.sha256"
        before = sums.read_bytes()
        sums.unlink()
        self.assertIn("rules/DESCRIPTIONS.sha256 is missing: it has the checksums of the descriptions, and `ggp_competition plan` writes it", run(cup, "publish")[2])
        self.assertEqual((run(cup, "plan")[0], sums.read_bytes()), (0, before))
        self.assertEqual((run(cup, "publish")[0], (cup / "cup.tar.gz").read_bytes()), (0, published))

    def test_pages_may_be_in_another_place(self):
        cup, web = self.copied(), self.other / "web"
        published = (cup / "cup.tar.gz").read_bytes()
        shutil.move(cup / "pages", web)
        (web / "mine.html").touch()
        (cup / "pages").symlink_to(web)
        self.assertEqual(run(cup, "pages")[0], 0)
        self.assertEqual((run(cup, "publish")[0], (cup / "cup.tar.gz").read_bytes()), (0, published))
        self.assertTrue((web / "mine.html").exists() and (web / "index.html").exists())
        (cup / "pages").unlink()
        (cup / "pages").touch()
        self.assertEqual(run(cup, "publish"), (1, "", "ggp_competition: pages/matches: Not a directory\n"))

    def test_where_an_archive_can_not_stand(self):
        (self.other / "there").mkdir()
        os.mkfifo(self.other / "pipe")
        wrong = [
            (".", ". is not a regular file: `--to` must name the file of the archive"),
            (f"{self.other}/there/", f"{self.other}/there is not a regular file: `--to` must name the file of the archive"),
            (f"{self.other}/pipe", f"{self.other}/pipe is not a regular file: `--to` must name the file of the archive"),
            ("none/a.tgz", "none/a.tgz can't be written: none is not a directory"),
            ("competition.toml/a.tgz", "competition.toml/a.tgz can't be written: competition.toml is not a directory"),
        ]
        among = "is among the files of the competition: `--to` must name a file directly in ., or outside it"
        wrong += [(path, f"{path} {among}") for path in ("pages/a.tgz", "records/cup-001.json", f"{self.other}/link/rules/odd.kif", "pages/matches/a.tgz")]
        (self.other / "link").symlink_to(self.folder)
        own = "competition.toml", "schedule.tsv", "matches.jsonl", "planned.toml", "play.log", "odd.kif", f"{self.other}/link/odd.kif"
        wrong += [(path, f"{path} exists and is not an archive: `--to` must name the file of the archive") for path in own]
        before = {file: file.is_file() and file.read_bytes() for file in self.folder.rglob("*")}
        for to, words in wrong:
            self.assertEqual(run(self.folder, "publish", "--to", to), (2, "", f"ggp_competition: {words}\n"))
        self.assertEqual({file: file.is_file() and file.read_bytes() for file in self.folder.rglob("*")}, before)
        self.assertEqual(sorted(file.name for file in self.other.iterdir()), ["link", "pipe", "there"])

    def test_an_archive_has_a_greatest_size(self):
        cup, size = self.copied(), sum(map(len, self.files().values()))
        before = (cup / "cup.tar.gz").read_bytes()
        words = ["ggp_competition", "publish", str(cup), "--program", program()]
        for most, status in ((size - 1, 1), (size, 0)):
            said = io.StringIO()
            with mock.patch("ggp_tools.competition.packing.MOST_BYTES", most), mock.patch("sys.argv", words), mock.patch("sys.stderr", said), mock.patch("sys.stdout", io.StringIO()):
                self.assertEqual(main(), status)
            self.assertEqual(said.getvalue(), f"ggp_competition: nothing was published: it has more than {most:,} bytes, the limit of an archive\n" if status else "")
            self.assertEqual(((cup / "cup.tar.gz").read_bytes(), [*cup.glob(".*")]), (before, []))
            with mock.patch("ggp_tools.competition.packing.MOST_BYTES", most), tempfile.TemporaryDirectory() as room:
                try:
                    self.assertEqual((unpack(self.archive, pathlib.Path(room)).name, status), ("cup", 0))
                except Spoilt as why:
                    self.assertEqual((str(why), status), (f"with 'cup/SHA256SUMS' it has more than {most:,} bytes, the limit of an archive", 1))

    def test_a_file_that_is_not_finished_leaves_nothing(self):
        file = self.other / "file"
        file.write_bytes(b"before")
        for fault, path in ((OSError(errno.ENOSPC, "full"), str(file)), (OSError(errno.EIO, "bad", "other"), "other"), (KeyboardInterrupt(), None)):
            with self.assertRaises(type(fault)) as raised, written_whole(file) as stream:
                stream.write(b"after")
                raise fault
            self.assertEqual(getattr(raised.exception, "filename", None), path)
            self.assertEqual(([left.name for left in self.other.iterdir()], file.read_bytes()), (["file"], b"before"))

    def test_it_says_how_to_check_it_by_hand(self):
        files = self.files()
        sums = dict(reversed(line.split("  ")) for line in files["cup/SHA256SUMS"].decode().splitlines())
        self.assertEqual({f"cup/{name}" for name in sums} | {"cup/SHA256SUMS"}, set(files))
        self.assertTrue(re.fullmatch(rb"ggp_manager \d+\.\d+\.\d+\n", files["cup/VERSION"]))
        self.assertIn(b"sha256sum --check SHA256SUMS", files["cup/CHECK.txt"])
