"""The pages of 300 matches. Each link leads to an existing page, and names and rules appear as text."""

import json
import os
import pathlib
import subprocess
import tempfile
import time
import unittest
from dataclasses import replace
from unittest.mock import patch

import bs4

from ggp_tools.competition import pages as pages_module
from ggp_tools.competition import side_by_side
from ggp_tools.competition.competition_file import read_competition
from ggp_tools.descriptions.loading import Rules
from ggp_tools.competition.files import Folder
from ggp_tools.competition.growth import History, grown
from ggp_tools.competition.pages import Pages, Site, ended_match, seconds_of, spelt
from ggp_tools.competition.plan import Plan
from ggp_tools.competition.results import Result, result_of
from ggp_tools.competition.side_by_side import made_side_by_side
from ggp_tools.competition.table import tables_of
from ggp_tools.match_log import End, Open, line_of
from ggp_tools.records.match_logs import logged
from ggp_tools.referee import Unchecked
from html_pages import links_of, parsed, rows_of, text_of
from live_support import BEGAN, ENDED, line, opened
from planning import planned
from support import toml

HOUR = 3_600_000


def log_of(match, *lines):
    """Returns the log of a match with these lines."""
    start = line(match, 0, 1, f"(START {match.id} a ... 10 10)", "ready", 7)
    return "".join([opened(match, BEGAN), start, *lines, line_of(End(match.id, ENDED, "STOP")).decode()])


def record_of(match, number):
    """Returns a record of a match with hostile texts, which pages must show as text."""
    return {
        "cause": None, "endMarks": ["", ""], "errors": [["", "IL <script>"]], "goalValues": [number % 101, 50], "matchId": match.id,
        "moves": [["<b>", "noop"]], "phase": "finished", "playClock": 10, "players": list(match.players), "roles": ["<i>", "b"],
        "startClock": 10, "startMarks": ["", ""], "states": [["(a 1)"], ["(a 2)"]], "strikes": 0, "version": 2,
    }


def number_text(number):
    return b"%d" % number


TESTS = os.getpid()


def killed(_):
    # The process of the tests must not exit, even if it does the work itself instead of a child process.
    assert os.getpid() != TESTS
    os._exit(1)


class Seconds(unittest.TestCase):
    def test_how_long_a_match_took_follows_from_both_times(self):
        began, ended = Open("m", 0), End("m", 4_500_500, "STOP")
        for events, text in (([began, ended], "4500.5"), ([began], ""), ([Open("m", None), ended], "")):
            self.assertEqual(seconds_of(logged(events)), text, events)


class SideBySide(unittest.TestCase):
    def setUp(self):
        for name, value in (("MANY", 2), ("PROCESSORS", 2), ("CHUNK", 1)):
            self.enterContext(patch.object(side_by_side, name, value))

    def test_what_is_made_comes_in_order(self):
        self.assertEqual(list(made_side_by_side(number_text, [(number,) for number in range(40)])), [b"%d" % number for number in range(40)])
        self.assertEqual(list(made_side_by_side(number_text, [])), [])

    def test_a_process_that_is_killed_is_a_shortage(self):
        # If another test left a thread, `write` would not split the work.
        with patch("threading.active_count", return_value=1), self.assertRaisesRegex(Unchecked, "a process was killed"):
            list(made_side_by_side(killed, [(1,), (2,)]))


class Knockout(unittest.TestCase):
    def seen(self, form, *goals_by_round):
        """Returns what the first page shows of a competition of three players, before each round and at the end: the pairs of the bracket,
        the players that advanced, and the leader. Also returns the last page and the last match."""
        folder = Folder(pathlib.Path(self.enterContext(tempfile.TemporaryDirectory())))
        players = [(name, f"h:{at}") for at, name in enumerate(("ann", "bob", "cid"), 1)]
        competition = read_competition(toml(players, [("one", "f", 'board = "hex"')], form).encode())
        plan, results, found = Plan(folder, competition, {"one": Rules(b"(role a)", "0" * 64, ("a", "b"))}, []), {}, []
        for goals in ({}, *goals_by_round):
            results |= {match.id: result_of(record_of(match, 0) | {"goalValues": [goals[name] for name in match.players]}, match) for match in plan.matches[-2:]}
            growing = grown(History(), competition, {"one": 2}, lambda match: results.get(match.id))
            plan.matches, plan.rounds = growing.matches, growing.rounds.found
            site = Site(plan)
            site.ended = {name: ended_match(result, record_of(result.match, 0), [], False) for name, result in results.items()}
            parts = site.first_parts(tables_of(competition, list(results.values()), plan.rounds), list(results.values()))
            page = parsed("".join(part.html() for part in parts))
            pairs = [rows_of(pair) for pair in page.select("#bracket li")]
            through = [text_of(row.td) for row in page.select("#bracket .through")]
            found.append((pairs, through, [text_of(said) for said in page.select(".result span")]))
        return found, page, plan.matches[-1]

    def test_the_bracket_and_who_has_won(self):
        found, page, last = self.seen('kind = "knockout"', {"bob": 0, "cid": 100}, {"ann": 50, "cid": 50})
        first = [["ann", ""], ["(bye)", ""]]
        self.assertEqual(found[0], ([first, [["bob", ""], ["cid", ""]], [["ann", ""], ["?", ""]]], ["ann"], []))
        self.assertEqual(found[1], ([first, [["bob", "0"], ["cid", "2"]], [["ann", ""], ["cid", ""]]], ["ann", "cid"], []))
        # With equal points and goals, the better seed advances.
        self.assertEqual(found[2][1:], (["ann", "cid", "ann"], ["Winner: ann", "Second: cid", "Third: bob"]))
        row = next(row for row in rows_of(page.find(id="matches")) if row[0] == last.id)
        self.assertEqual((row[2], row[3]), (" and ".join(last.players) + " drew", ", ".join(f"{name} 50" for name in last.players)))

    def test_a_final_after_a_swiss_competition(self):
        found, page, _ = self.seen('kind = "swiss"\nrounds = 1\nfinal = 2', {"ann": 0, "bob": 100}, {"bob": 0, "cid": 100})
        self.assertEqual([pairs for pairs, _, _ in found], [[], [[["bob", ""], ["cid", ""]]], [[["bob", "0"], ["cid", "2"]]]])
        self.assertEqual((found[2][1:], text_of(page.select_one("#bracket h3"))), ((["cid"], ["Winner: cid", "Second: bob", "Third: ann"]), "Final"))


class PagesOfMany(unittest.TestCase):
    def setUp(self):
        folder = Folder(pathlib.Path(self.enterContext(tempfile.TemporaryDirectory())))
        folder.make(folder.records, folder.logs)
        players = [(f"p{count}", f"h:{count + 1}") for count in range(25)]
        competition = read_competition(toml(players, [("one", "f")], 'kind = "gauntlet"\none = "p0"\nrounds = 7').encode())
        rules = Rules(b"; </pre><script>\n(role a)", "0" * 64, ("<i>", "b"), b"(role ?<script>)")
        self.plan = Plan(folder, competition, {"one": rules}, [])
        self.plan.matches = planned(competition, {"one": 2})[:300]
        self.results = []
        for number, match in enumerate(self.plan.matches):
            record = record_of(match, number)
            folder.record(match.id).write_text(json.dumps(record))
            folder.log(match.id).write_text(log_of(match))
            self.results.append(result_of(record, match))

    def written(self, results: list[Result]) -> Pages:
        pages = Pages(self.plan)
        pages.write(results)
        return pages

    def page(self, pages: Pages, name: str) -> bs4.BeautifulSoup:
        return parsed((pages.folder / name).read_bytes())

    def last_match(self, pages: Pages) -> list[str]:
        """Returns the texts of the row of the match that ended last."""
        return rows_of(self.page(pages, "index.html").find(id="matches"))[0]

    def test_each_link_leads_to_a_page(self):
        pages = self.written(self.results)
        files = [path for path in pages.folder.rglob("*") if path.is_file()]
        # One page for each of 300 matches, 25 players and one game, the list of all matches, and the first page.
        self.assertEqual(len(files), 328)
        linked = {pages.folder / "index.html"}
        for file in files:
            found = parsed(file.read_text("ascii"))
            self.assertEqual(found.select("img, script:not(:last-child), td b, h1 b"), [], file)
            for link in links_of(found):
                if not link.startswith("#"):
                    linked.add((file.parent / link.partition("#")[0]).resolve())
        self.assertEqual({path.resolve() for path in linked}, {path.resolve() for path in files})
        first, game = (self.page(pages, name) for name in ("index.html", "games/one.html"))
        self.assertIn("300 of 300 matches are over. From 2026-01-02 03:04:05 to 2026-01-02 03:04:07 UTC.", text_of(first))
        self.assertEqual({row[-1] for row in rows_of(first.find(id="matches"))}, {"2.5"})
        self.assertEqual([text_of(said) for said in first.select(".result span")], ["Winner: p24", "Second: p23", "Third: p22"])
        self.assertEqual([text.get_text() for text in game("pre")], ["(role ?<script>)", "; </pre><script>\n(role a)"])
        self.assertEqual(first("script") + game("script"), [])

    def test_lists_of_many_matches_come_in_parts(self):
        with patch.object(pages_module, "MOST_LISTED", 120):
            pages = self.written(self.results)
            files = {file.name for file in pages.folder.iterdir() if file.is_file()}
            self.assertEqual(files, {"index.html", "matches.html", "matches-2.html", "matches-3.html"})
            lists = [self.page(pages, name) for name in ("matches.html", "matches-2.html", "matches-3.html")]
            self.assertEqual([len(page.select("#matches tr")) for page in lists], [120, 120, 60])
            others = lists[0].find(id="pages")
            self.assertEqual((text_of(others), links_of(others)), ("cup-001 to cup-120, cup-121 to cup-240, cup-241 to cup-300", ["matches-2.html", "matches-3.html"]))
            for name in ("games/one.html", "players/player-p0.html"):
                page = self.page(pages, name)
                self.assertEqual((len(page.select("#matches tr")), len(page.select("#match-cup-300"))), (120, 1))
                self.assertIn("These are the last 120 of 300 matches. The others are in the list of all matches.", text_of(page))
            # With fewer matches there are fewer pages.
            pages.write(self.results[:120])
            self.assertEqual({file.name for file in pages.folder.iterdir() if file.is_file()}, {"index.html", "matches.html"})
            gaps = Pages(self.plan, shows_gaps=True)
            gaps.write(self.results[:10])
            self.assertIn("and 170 more, listed in GAPS.tsv", text_of(self.page(gaps, "index.html")))

    def test_what_a_log_says_is_text(self):
        for match in self.plan.matches:
            self.plan.folder.log(match.id).write_text(f"<plaintext>\n{log_of(match)}".replace('"ready"', '"<plaintext>"').replace(f"{ENDED}", '"<plaintext>"'))
        pages = self.written(self.results[:3])
        for name in ("index.html", "games/one.html"):
            self.assertNotIn("plaintext", (pages.folder / name).read_text())
        self.assertEqual((spelt("<b>2026-01-02T03:04:05.678Z"), spelt(None)), ("<b>2026-01-02 03:04", ""))

    def test_the_page_of_a_player(self):
        match, player = self.plan.matches[0], self.plan.matches[0].players[1]
        # Events before the match began again on another host do not count.
        before, said = (line(match, 1, 2, f"(PLAY {match.id} NIL)", answer, ms) for answer, ms in (("lost", 9_000), ("<script>", 1_500)))
        self.plan.folder.log(match.id).write_text(before + log_of(match, said))
        pages = self.written(self.results[:1])
        page = self.page(pages, f"players/player-{player}.html")
        self.assertIn("Place 1 of 2 in all games: 1 match, mean goal 50.00, 1 won, 0 drawn, 0 lost; 1 of 1 moves replaced", text_of(page))
        self.assertEqual(rows_of(page.find(id="seats"))[1:], [["one", "b", "1", "50.00", "1 of 1", "", "1,500 ms"]])
        self.assertEqual(rows_of(page.find(id="errors"))[1:], [[match.id, "1", "the answer was not a legal move IL", f"(PLAY {match.id} NIL)", "<script>", "noop"]])
        self.assertEqual(len(page.select("#times svg")), 1)
        self.assertIn("It has played no match.", text_of(self.page(pages, "players/player-p24.html")))
        self.assertIn("None of its moves was replaced.", text_of(self.page(pages, f"players/player-{match.players[0]}.html")))

    def test_the_page_of_a_match_says_in_each_turn_what_was_wrong_with_its_answer(self):
        match = self.plan.matches[0]
        record = record_of(match, 0) | {"errors": [["IL ?", ""], ["IL ?", ""]], "moves": [["noop", "noop"]] * 2, "states": [["(a 1)"]] * 3}
        self.plan.folder.record(match.id).write_text(json.dumps(record))
        said = [line(match, 0, number, f"(PLAY {match.id} NIL)", answer) for number, answer in ((2, "(noop"), (3, "a b"))]
        self.plan.folder.log(match.id).write_text(log_of(match, *said))
        pages = self.written([result_of(record, match)])
        titles = [cell["title"].partition(": ")[2] for cell in self.page(pages, f"matches/{match.id}.html").select("td.substituted")]
        self.assertEqual(titles, ["a list that is not closed at column 1", "a second expression begins at column 3"])

    def test_rules_of_more_than_a_mebibyte_explain_no_moves_and_are_not_read_for_boards(self):
        site = Site(self.plan)
        site.add(self.results[0])
        for size, explains in ((1 << 20, True), ((1 << 20) + 1, False)):
            self.plan.rules["one"] = replace(self.plan.rules["one"], text=b"(legal <i> (mark 1 1))".ljust(size, b";"))
            game, _, frame = site.match_work(self.results[0])
            self.assertEqual((bool(game), frame.named.moves), (explains, ["(mark 1 1)"] * explains))

    def test_the_last_errors_of_a_match_stand_on_the_page_of_a_player(self):
        match = self.plan.matches[0]
        turns = 15
        record = record_of(match, 0) | {"errors": [["", "TO"]] * turns, "moves": [["noop", "noop"]] * turns, "states": [["(a 1)"]] * (turns + 1)}
        self.plan.folder.record(match.id).write_text(json.dumps(record))
        pages = self.written([result_of(record, match)])
        errors = self.page(pages, f"players/player-{match.players[1]}.html").find(id="errors")
        self.assertEqual([row[1] for row in rows_of(errors)[1:]], [str(turn) for turn in range(15, 5, -1)])
        self.assertEqual(links_of(errors)[1], f"../matches/{match.id}.html#turn=15")
        for words in ("The last 100, at most 10 of each match.", "5 more are in the records"):
            self.assertIn(words, text_of(errors))

    def test_a_clock_that_is_set_back(self):
        match = self.plan.matches[0]
        for times in ((1, -HOUR, -HOUR + 1), (1, -HOUR, HOUR)):
            lines = [line(match, 0, number, f"(PLAY {match.id} NIL)", "noop", 1, BEGAN + time) for number, time in enumerate(times, 2)]
            self.plan.folder.log(match.id).write_text(log_of(match, *lines))
            pages = self.written(self.results[:1])
            self.assertEqual(self.last_match(pages)[-2:], ["2026-01-02 03:04:05", "the clock was set back"])

    def test_of_a_log_that_is_too_long_the_last_lines_are_read(self):
        match = self.plan.matches[0]
        lines = [line(match, 1, number, f"(PLAY {match.id} NIL)", "<script>", 10_000 - number) for number in range(2, 301)]
        log = log_of(match, *lines)
        rest = len("".join(lines[1:])) + len(log.splitlines(keepends=True)[-1])
        with open(self.plan.folder.log(match.id), "wb") as file:
            # A log of this length does not fit into memory.
            file.seek(1 << 40)
            file.write(log.encode())
        name = f"players/player-{match.players[1]}.html"
        for most, longest, is_cut in ((len(log), "9,998 ms", True), (rest, "9,997 ms", True), (rest - 1, "9,996 ms", True), (16 << 20, "9,998 ms", False)):
            if not is_cut:
                self.plan.folder.log(match.id).write_text(log)
            with patch.object(pages_module, "MOST_OF_LOG", most):
                pages = self.written(self.results[:1])
            page = self.page(pages, name)
            self.assertEqual(rows_of(page.find(id="seats"))[1][-1], longest)
            self.assertEqual(f"in the last 16 MiB of the log of {match.id}." in text_of(page), is_cut)
            self.assertEqual(self.last_match(pages)[-2:], ["", ""] if is_cut else ["2026-01-02 03:04:05", "2.5"])

    def test_a_match_that_was_ordered_again_counts_nowhere(self):
        old, new = self.plan.matches[0], self.plan.matches[48]
        self.assertEqual(old.players, new.players)
        old = self.plan.matches[0] = replace(old, again=new.id, reason="the network was down")
        new = self.plan.matches[48] = replace(new, instead_of=old.id)
        player = old.players[1]
        for match in (old, new):
            said = line(match, 1, 2, f"(PLAY {match.id} NIL)", "<script>", 9_000 if match is old else 1_500)
            self.plan.folder.log(match.id).write_text(log_of(match, said))
        results = [result_of(record_of(match, number), match) for number, match in enumerate((old, new))]
        pages = self.written(results)
        page = self.page(pages, f"players/player-{player}.html")
        self.assertEqual(rows_of(page.find(id="seats"))[1:], [["one", "b", "1", "50.00", "1 of 1", "", "1,500 ms"]])
        self.assertEqual([row[0] for row in rows_of(page.find(id="errors"))[1:]], [new.id])
        self.assertEqual(text_of(page).count(f"{old.id} does not count: {new.id} replaces it"), 2)
        self.assertIn("1 of 299 matches are over.", text_of(self.page(pages, "index.html")))
        # Until the rematch is played, nothing counts.
        pages = self.written(results[:1])
        page = self.page(pages, f"players/player-{player}.html")
        self.assertIn("It has played no match that counts.", text_of(page))
        self.assertEqual(text_of(page.find(id="seats")), "")
        self.assertIn("0 of 299 matches are over.", text_of(self.page(pages, "index.html")))

    def test_a_page_is_made_again_only_where_something_has_changed(self):
        pages = self.written(self.results[:2])
        untouched, changed = pages.folder / "players/player-p24.html", pages.folder / "games/one.html"
        self.assertNotIn("p24", {player for result in self.results[:3] for player in result.match.players})
        before = untouched.stat().st_ino, changed.stat().st_ino
        pages.write(self.results[:3])
        self.assertEqual((untouched.stat().st_ino == before[0], changed.stat().st_ino == before[1]), (True, False))
        # Pages that another run has deleted in the meantime are made again.
        text = untouched.read_text()
        untouched.unlink()
        pages.write(self.results[:3])
        self.assertEqual(untouched.read_text(), text)

    def test_now_and_then(self):
        pages, began, asked = Pages(self.plan), time.process_time(), []
        for count in range(1, 301):
            pages.write_now_and_then(lambda: asked.append(count) or self.results[:count])
        self.assertIn("1 of 300 matches", (pages.folder / "index.html").read_text())
        self.assertLess(time.process_time() - began, 30)
        self.assertEqual(asked[0], 1)
        self.assertLess(len(asked), 20)
        pages.write(self.results[:20])
        self.assertEqual(len(list((pages.folder / "matches").iterdir())), 20)

    def test_what_can_not_be_written_is_not_tried_at_once_again(self):
        pages, tried = Pages(self.plan), []
        pages.folder.write_text("")
        with self.assertRaises(OSError):
            pages.write_now_and_then(lambda: self.results[:1])
        pages.write_now_and_then(lambda: tried.append(1))
        self.assertEqual(tried, [])

    def test_two_runs_at_once(self):
        one, other = Pages(self.plan), Pages(self.plan)
        one.write(self.results[:3])
        with subprocess.Popen(["sleep", "60"]) as alive:
            gone = subprocess.Popen(["true"])
            gone.wait()
            places = [one.folder, *(one.folder / name for name in ("matches", "games", "players"))]
            for number in (alive.pid, gone.pid, os.getpid(), "cup"):
                for spot in places:
                    (spot / f".unfinished-{number}-x.html").touch()
            (one.folder / "matches/mine").mkdir()
            other.write(self.results[:2])
            left = [file.name for place in places for file in place.iterdir() if file.name.startswith(".")]
            alive.kill()
        self.assertEqual(left, [f".unfinished-{alive.pid}-x.html"] * 4)
        one.write(self.results[:3])
        matches = {f"{result.match.id}.html" for result in self.results[:3]}
        self.assertEqual({file.name for file in (one.folder / "matches").iterdir()}, {*matches, "mine"})
        self.assertEqual(sorted(file.name for file in one.folder.iterdir() if file.is_file()), ["index.html", "matches.html"])
