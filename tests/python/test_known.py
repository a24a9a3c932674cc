"""Facts about files, cached by checksum: the cache saves work, and every changed byte is noticed."""

import os
import pathlib
import pickle
import shutil
import tempfile
from dataclasses import replace
from unittest import mock

from ggp_tools.competition import known, match_lines, pages, table
from ggp_tools.competition.archive import check_archive, publish
from ggp_tools.competition.match_files import check_records
from ggp_tools.competition.known import Known, sum_of_parts
from ggp_tools.competition.pages import Pages
from ggp_tools.competition.plan import read_plan
from ggp_tools.competition.table_text import in_order
from ggp_tools.descriptions.kept import store
from ggp_tools.referee import Referee
from html_pages import parsed, rows_of
from live_support import BEGAN
from made_up import make_up
from support import InFolder, program, run


class Counting(Referee):
    """The referee, with the number of records that it checked."""

    def __init__(self, path):
        super().__init__(path)
        self.count = 0

    def verdicts(self, rules_path, records):
        self.count += len(records)
        return super().verdicts(rules_path, records)


class InCache(InFolder):
    def setUp(self):
        super().setUp()
        room = tempfile.TemporaryDirectory()
        self.addCleanup(room.cleanup)
        self.enterContext(mock.patch.dict(os.environ, {"XDG_CACHE_HOME": room.name}))
        self.cache = pathlib.Path(room.name) / "ggp_manager/known"


class Made:
    """Makes a directory when it is unpickled."""

    def __init__(self, path):
        self.path = path

    def __reduce__(self):
        return os.mkdir, (str(self.path),)


class Values(InCache):
    def kept(self):
        """Stores a value, and returns the cache."""
        one = Known(self.folder)
        one.put("lines", "a", 1)
        one.write()
        return one

    def test_a_value_is_kept_under_its_sum(self):
        one = Known(self.folder)
        key = sum_of_parts(b"a", b"bc")
        self.assertNotEqual(key, sum_of_parts(b"ab", b"c"))
        one.put("lines", key, ["x", 1])
        one.write()
        self.assertEqual(Known(self.folder).get("lines", key), ["x", 1])
        self.assertIsNone(Known(self.folder).get("pages", key))
        self.assertIsNone(Known(self.folder / "other").get("lines", key))

    def test_a_file_that_others_may_write_is_not_read(self):
        path = self.cache / self.kept().name
        self.assertEqual(path.stat().st_mode & 0o777, 0o600)
        path.chmod(0o620)
        self.assertIsNone(Known(self.folder).get("lines", "a"))

    def test_a_file_runs_no_code(self):
        one = Known(self.folder)
        made = pathlib.Path(self.folder) / "made"
        for data in (pickle.dumps(Made(made)), pickle.dumps({"lines": Known}), pickle.dumps({"lines": sum_of_parts}), pickle.dumps([1]), b"no pickle"):
            store("known", one.name, data, 1)
            self.assertEqual(Known(self.folder).before, {})
        store("known", one.name, pickle.dumps({"lines": pickle.dumps(Made(made))}), 1)
        self.assertIsNone(Known(self.folder).get("lines", "a"))
        self.assertFalse(made.exists())

    def test_only_the_kinds_that_are_needed_are_read(self):
        self.kept()
        with mock.patch.object(known, "facts_in", wraps=known.facts_in) as read:
            one = Known(self.folder)
            self.assertEqual([one.get(*pair) for pair in (("lines", "a"), ("lines", "b"))], [1, None])
        self.assertEqual(read.call_count, 2)

    def test_of_a_kind_what_was_not_asked_for_is_forgotten(self):
        one = Known(self.folder)
        for kind, key in (("lines", "a"), ("lines", "b"), ("pages", "c")):
            one.put(kind, key, 1)
        one.write()
        two = Known(self.folder)
        self.assertEqual(two.get("lines", "a"), 1)
        two.write()
        three = Known(self.folder)
        self.assertEqual([three.get(*pair) for pair in (("lines", "a"), ("lines", "b"), ("pages", "c"))], [1, None, 1])

    def test_each_byte_that_is_another_one_is_seen(self):
        file = self.cache / self.kept().name
        data = file.read_bytes()
        for at in range(len(data)):
            file.write_bytes(data[:at] + bytes([data[at] ^ 1]) + data[at + 1 :])
            self.assertIsNone(Known(self.folder).get("lines", "a"), at)
        file.write_bytes(data[:-1])
        self.assertIsNone(Known(self.folder).get("lines", "a"))

    def test_another_code_makes_other_values(self):
        package = self.folder / "package"
        shutil.copytree(known.PACKAGE, package, ignore=shutil.ignore_patterns("__pycache__"))
        files = [file for file in package.rglob("*") if file.is_file()]
        with mock.patch.object(known, "PACKAGE", package):
            names = {Known(self.folder).name}
            for file in files:
                file.write_bytes(file.read_bytes() + b"\n")
                names.add(Known(self.folder).name)
        self.assertEqual(len(names), 1 + len(files))

    def test_where_nothing_can_be_kept_all_is_found_again(self):
        self.cache.parent.parent.mkdir(exist_ok=True)
        self.cache.parent.write_text("")
        self.kept()
        self.assertIsNone(Known(self.folder).get("lines", "a"))

    def test_more_than_so_many_bytes_are_not_kept(self):
        one = Known(self.folder)
        one.put("lines", "a", "x" * 100)
        with mock.patch.object(known, "MOST_BYTES", 100):
            one.write()
        self.assertIsNone(Known(self.folder).get("lines", "a"))

    def test_what_is_known_already_is_not_written_again(self):
        file = self.cache / self.kept().name
        os.utime(file, (1000, 1000))
        before, again = file.stat().st_ino, Known(self.folder)
        self.assertEqual(again.get("lines", "a"), 1)
        again.write()
        # This entry was used now, so it is not the first to be deleted.
        self.assertEqual((file.stat().st_ino, file.stat().st_mtime > 1000, Known(self.folder).get("lines", "a")), (before, True, 1))

    def test_what_was_not_looked_at_lately_goes_first(self):
        for number in range(4):
            one = Known(self.folder / str(number))
            one.put("lines", "a", number)
            with mock.patch.object(known, "MOST_KEPT", 2):
                one.write()
            os.utime(self.cache / one.name, (1000 + number, 1000 + number))
        self.assertEqual([Known(self.folder / str(number)).get("lines", "a") for number in range(4)], [None, None, 2, 3])


class Files(InCache):
    COUNT = 3

    def setUp(self):
        super().setUp()
        make_up(self.folder, self.COUNT)
        self.referee = Counting(program())
        self.plan = read_plan(str(self.folder), self.referee)

    def change(self, file, at):
        data = file.read_bytes()
        file.write_bytes(data[:at] + bytes([data[at] ^ 1]) + data[at + 1 :])

    def written(self):
        """Writes the pages, and returns the number of match pages that were made."""
        knowledge = Known(self.folder)
        results, _, _ = check_records(self.plan, self.referee, knowledge)
        made = []
        with mock.patch.object(pages, "match_page", lambda *work: made.append(work) or b"made %d" % len(work[0])):
            Pages(self.plan, known=knowledge).write(in_order(self.plan, results))
        knowledge.write()
        return len(made)

    def test_a_page_is_made_once(self):
        self.assertEqual([self.written(), self.written()], [3, 0])
        page = self.plan.folder.pages / f"matches/{self.plan.matches[0].id}.html"
        self.change(page, 3)
        self.assertEqual([self.written(), self.written()], [1, 0])
        page.unlink()
        self.assertEqual([self.written(), self.written()], [1, 0])
        # The head of the page has changed.
        self.plan.matches[0] = replace(self.plan.matches[0], again="cup-009", reason="x")
        self.assertEqual(self.written(), 1)
        games = [replace(game, board="hex") for game in self.plan.competition.games]
        self.plan.competition = replace(self.plan.competition, games=games)
        self.assertEqual(self.written(), 3)

    def begin_first_match_later(self):
        """Changes the time when the first match begins in the log. On a busy computer, this need not be the first object of the log."""
        log = self.plan.folder.log(self.plan.matches[0].id)
        lines = log.read_bytes().splitlines(keepends=True)
        later = [line.replace(b"%d" % BEGAN, b"%d" % (BEGAN + 100)) if b'"event":"open"' in line else line for line in lines]
        self.assertNotEqual(later, lines)
        log.write_bytes(b"".join(later))

    def test_the_pages_are_those_of_a_first_run(self):
        for number, known_of in enumerate((None, Known, Known)):
            knowledge = known_of and known_of(self.folder)
            results = in_order(self.plan, check_records(self.plan, self.referee, knowledge)[0])
            Pages(self.plan, known=knowledge).write(results)
            if knowledge:
                knowledge.write()
            found = {str(file.relative_to(self.plan.folder.pages)): file.read_bytes() for file in self.plan.folder.pages.rglob("*.html")}
            if not number:
                first = found
            self.assertEqual(found, first)
        self.begin_first_match_later()
        Pages(self.plan, known=Known(self.folder)).write(results)
        self.assertEqual(rows_of(parsed((self.plan.folder.pages / "matches.html").read_bytes()))[1][-1], "0.9")

    def test_a_line_of_a_match_and_ratings_are_made_once(self):
        def made():
            knowledge = Known(self.folder)
            results = in_order(self.plan, check_records(self.plan, self.referee, knowledge)[0])
            with mock.patch.object(match_lines, "match_line", wraps=match_lines.match_line) as line, mock.patch.object(table, "loaded_ratings", wraps=table.loaded_ratings) as rated:
                text = match_lines.matches_text(self.plan, results, knowledge)
                table.tables_of(self.plan.competition, results, known=knowledge)
            knowledge.write()
            self.assertEqual(text, match_lines.matches_text(self.plan, results))
            return line.call_count, rated.call_count > 0

        self.assertEqual([made(), made()], [(3, True), (0, False)])
        self.begin_first_match_later()
        self.assertEqual([made(), made()], [(1, False), (0, False)])

    def publish(self):
        knowledge, path = Known(self.folder), self.folder / "cup.tar.gz"
        publish(self.plan, self.referee, in_order(self.plan, check_records(self.plan, self.referee, knowledge)[0]), path, knowledge)
        knowledge.write()

    def test_check_believes_nothing_that_is_known(self):
        self.publish()
        self.referee.count = 0
        with mock.patch.object(Known, "__init__", side_effect=AssertionError):
            faults, said = check_archive(self.folder / "cup.tar.gz", self.referee)
        self.assertEqual((faults, self.referee.count), ([], 3))
        self.assertIn("3 records and call logs", said)

    def test_the_commands_say_the_same_again(self):
        for words in (("table",), ("pages",), ("publish",)):
            first = run(self.folder, *words)
            self.assertEqual((first[0], first[2]), (0, ""), words)
            self.assertEqual(run(self.folder, *words), first)
        record = self.plan.folder.record(self.plan.matches[0].id)
        self.change(record, record.read_bytes().index(b"mark") + 6)
        status, out, said = run(self.folder, "table")
        self.assertEqual((status, out.splitlines()[0]), (1, "cup: 2 of 3 matches"))
        self.assertIn("does not count: not lawful", said)
