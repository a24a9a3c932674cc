"""Competitions by rounds, in a directory: each round follows from the records of the previous one, and any other schedule is refused. The referee is
fake, and the records contain only the keys that determine a result."""

import json
import pathlib
import tempfile
import unittest
from collections import Counter
from dataclasses import replace
from unittest import mock

from ggp_tools.competition import round_pages
from ggp_tools.competition.competition_file import read_competition
from ggp_tools.competition.files import Folder, Refused
from ggp_tools.competition.growth import Again
from ggp_tools.competition.history import again_text
from ggp_tools.competition.match_files import Check, unverified_result
from ggp_tools.competition.pages import Site
from ggp_tools.competition.plan import grows, make_plan, order_again, plan_next_round, read_plan, refuse_lost_results, round_words, rounds_left, sums_text
from ggp_tools.competition.round_pages import bracket_part, count_of_all, round_text, rounds_part, rounds_words
from ggp_tools.competition.results import result_of
from ggp_tools.competition.rounds import Round, bracket, matches_to_come, paired, rounds_of, scores_of
from ggp_tools.competition.schedule import Match
from ggp_tools.competition.table import tables_of
from ggp_tools.competition.table_text import notes, standings_rows, table_files
from html_pages import parsed, rows_of
from support import raised, stand_in, toml

REFEREE = stand_in(
    path="none", roles=lambda *_: ("a", "b"), replays=lambda _, accounts, records: [True] * len(records),
    verdicts=lambda _, records: ["not lawful: goals" if b'"wrong"' in record else "lawful" for record in records],
)
SWISS = 'kind = "swiss"\nrounds = {}'


def record(match, goals, **more):
    """Returns the part of a record that its result depends on."""
    said = {"matchId": match.id, "players": list(match.players), "startClock": match.start, "playClock": match.play, "strikes": 0, "phase": "finished"}
    return {**said, "cause": None, "goalValues": goals, "moves": [["m", "m"]], "errors": [["", ""]], **more}


def is_lawful(_, __, ___, matches):
    """A fake check of whether a match counts."""
    return [Check(matches[0], result=object())]


class ByRounds(unittest.TestCase):
    def setUp(self):
        self.folder = Folder(pathlib.Path(self.enterContext(tempfile.TemporaryDirectory())))
        (self.folder.path / "game.kif").write_text("(role a)\n(role b)\n")
        self.folder.make(self.folder.records, self.folder.accounts)

    def write(self, count, form, head="", step=1):
        text = toml([(f"p{at}", f"h:{at + 1}") for at in range(count)[::step]], [("game", "game.kif", "aborts = true")], form, head)
        self.folder.competition.write_text(text)

    def make(self):
        return make_plan(self.folder.path, REFEREE)

    def read(self):
        return read_plan(self.folder.path, REFEREE)

    def play(self, plan, goals_of=lambda match: [100, 0] if match.players < match.players[::-1] else [0, 100], errors_of=lambda _: ["", ""]):
        """Writes records of all matches that have none, with these errors in the only turn. The player with the lower number wins by default."""
        for match in plan.matches:
            if not self.folder.record(match.id).exists() and match.counts():
                self.folder.record(match.id).write_text(json.dumps(record(match, goals_of(match), errors=[errors_of(match)])) + "\n")
                self.folder.account(match.id).write_text(f"0\topen {match.id} 0 1 1\topened\n")
        return {match.id: found for match in plan.matches if (found := unverified_result(self.folder, plan.competition, plan.rules, match))}

    def pairs(self, plan):
        return [(found.pairs, found.byes) for found in plan.rounds]

    def assert_refused(self, words, call=None):
        self.assertIn(words, str(raised(Refused, call or self.read)))

    def test_a_swiss_competition_from_its_first_round_to_its_table(self):
        self.write(5, SWISS.format(3))
        plan = self.make()
        self.assertEqual(round_words(plan), "round 1 of 3: cup-001 to cup-004; bye: p4")
        self.assertEqual([match.players for match in plan.matches], [("p0", "p1"), ("p2", "p3"), ("p1", "p0"), ("p3", "p2")])
        self.assertEqual((rounds_left(plan), plan_next_round(plan, {})), (2, []))
        results = self.play(plan)
        plan_next_round(plan, results)
        # p0, p2 and p4 have two points. A bye has no opponent whose points would count.
        self.assertEqual(round_words(plan), "round 2 of 3: cup-005 to cup-008; bye: p3")
        self.assertEqual(self.pairs(plan)[1], ((("p0", "p2"), ("p4", "p1")), ("p3",)))
        self.assertEqual((self.read().matches, self.pairs(self.read())), (plan.matches, self.pairs(plan)))
        plan_next_round(plan, self.play(plan))
        results = self.play(plan)
        self.assertEqual((plan_next_round(plan, results), rounds_left(plan)), ([], 0))
        tables = tables_of(plan.competition, list(results.values()), plan.rounds)
        heads, *rows = standings_rows(tables[0])
        self.assertEqual(heads[:6], ["", "player", "matches", "points", "Buchholz", "goals"])
        # Computed by hand: p0 has beaten p1, p2 and p4, p1 has beaten p4 and p3, p2 has beaten p3.
        wanted = [["1", "p0", "6", "6", "10"], ["2", "p1", "6", "4", "10"], ["3", "p2", "4", "4", "8"], ["4", "p4", "4", "2", "10"], ["5", "p3", "4", "2", "8"]]
        self.assertEqual([row[:5] for row in rows], wanted)
        self.assertEqual(list(notes(tables[0]))[:3], [f"round {found.number}; bye: {found.byes[0]}" for found in plan.rounds])
        files = table_files(plan, tables)
        self.assertTrue(files["table.txt"].startswith(b"cup: 12 of 12 matches, 3 of 3 rounds\n"))
        said = json.loads(files["table.json"])
        self.assertEqual([[found["round"], *found["byes"]] for found in said["rounds"]], [[1, "p4"], [2, "p3"], [3, plan.rounds[2].byes[0]]])
        self.assertEqual(said["order"], "swiss")

    def test_a_knockout_from_its_first_round_to_its_table(self):
        self.write(6, 'kind = "knockout"')
        plan = self.make()
        self.assertEqual(self.pairs(plan), [((("p3", "p4"), ("p2", "p5")), ("p0", "p1"))])
        # If all matches are drawn, the better seed advances.
        plan_next_round(plan, self.play(plan, lambda _: [50, 50]))
        self.assertEqual(self.pairs(plan)[1], ((("p0", "p3"), ("p1", "p2")), ()))
        # Each has one win, so the goals decide.
        plan_next_round(plan, self.play(plan, lambda match: [40, 0] if match.players[0] in ("p0", "p1") else [60, 0]))
        self.assertEqual(self.pairs(plan)[2], ((("p3", "p2"),), ()))
        results = self.play(plan, lambda match: [100, 0] if match.players[0] == "p2" else [0, 100])
        self.assertEqual((plan_next_round(plan, results), rounds_left(plan)), ([], 0))
        table = tables_of(plan.competition, list(results.values()), plan.rounds)[0]
        heads, *rows = standings_rows(table)
        self.assertEqual(heads[3], "rounds won")
        self.assertEqual([(row[0], row[1], row[3]) for row in rows], [("1", "p2", "3"), ("2", "p3", "2"), ("3", "p0", "1"), ("3", "p1", "1"), ("5", "p4", "0"), ("5", "p5", "0")])

    def test_a_final_from_the_rounds_before_it_to_its_table(self):
        self.write(5, f"{SWISS.format(2)}\nfinal = 4")
        plan = self.make()
        for _ in range(2):
            results = self.play(plan, lambda match: [0, 100] if match.players < match.players[::-1] else [100, 0])
            _ = plan_next_round(plan, results) if len(plan.rounds) == 1 else None
        # Computed by hand: p3 and p4 have 4 points, p1 and p2 have 2, p0 has none. p3 has met p1 and p2. p4 withdraws, so p0 takes its place.
        plan = self.withdraw(4)
        plan_next_round(plan, results)
        self.assertEqual((self.pairs(plan)[2], rounds_left(plan)), (((("p3", "p0"), ("p1", "p2")), ()), 1))
        plan_next_round(plan, self.play(plan))
        self.assertEqual(self.pairs(plan)[3], ((("p0", "p1"),), ()))
        results = self.play(plan)
        rows = [[row[1], *row[3:6]] for row in standings_rows(tables_of(plan.competition, list(results.values()), plan.rounds)[0])]
        wanted = [["p0", "2", "0", "6"], ["p1", "1", "2", "4"], ["p3", "0", "4", "4"], ["p2", "0", "2", "4"], ["p4", "-", "4", "0"]]
        self.assertEqual(rows, [["player", "rounds won", "points", "Buchholz"], *wanted])

    def test_what_the_pages_say_of_rounds(self):
        for form, wanted in (('kind = "knockout"', ["0 of 6 ", "Round 1 of 2; 2 matches"]), (SWISS.format(3), ["0 of 12 ", "Round 1 of 3; 8 matches"])):
            with self.subTest(form):
                self.write(4, form)
                plan = self.make()
                head = Site(plan).head(tables_of(plan.competition, [], plan.rounds)[0], []).text
                self.assertIn(f"{wanted[0]}matches are over. {wanted[1]} of later rounds are not planned yet.", head)
        self.write(6, 'kind = "knockout"')
        plan = self.make()
        plan_next_round(plan, self.play(plan, lambda _: [50, 50]))
        results = self.play(plan, lambda match: [40, 0] if match.players[0] in ("p0", "p1") else [60, 0])
        rows = rows_of(parsed(rounds_part(plan, list(results.values()), 9).text))[1:]
        both = "p0 p3 1 : 1 40 : 60 2 of 2"
        self.assertEqual([" ".join(row) for row in rows][:4], [f"2 {both}", "2 p1 p2 1 : 1 40 : 60 2 of 2", "1 p3 p4 1 : 1 100 : 100 2 of 2", "1 p2 p5 1 : 1 100 : 100 2 of 2"])
        self.assertEqual([" ".join(row) for row in rows][4:], ["1 p0 (bye)   ", "1 p1 (bye)   "])
        self.assertIn("Round 2 of 3.", round_text(plan.competition, plan.matches[-1]))
        # A bracket leaves out rounds with many pairs.
        with mock.patch.object(round_pages, "MOST_PAIRS", 2):
            self.assertEqual([head.text for head in parsed(bracket_part(plan, []).text)("h3")], ["Round 2", "Final"])
        plan_next_round(plan, results)
        self.assertEqual((count_of_all(plan), rounds_words(plan)), (10, " Round 3 of 3."))

    def test_a_schedule_that_does_not_follow_from_the_records(self):
        self.write(2, 'kind = "round_robin"')
        self.make()
        self.folder.schedule.write_text(self.folder.schedule.read_text() + "cup-003\tgame\t10\t10\tp0 p1\n")
        self.assert_refused("schedule.tsv does not agree with")
        self.write(4, SWISS.format(3))
        plan = self.make()
        plan_next_round(plan, self.play(plan))
        text = self.folder.schedule.read_text()
        self.assertIn("cup-005\tgame\t10\t10\tp0 p2\n", text)
        self.folder.schedule.write_text(text.replace("cup-005\tgame\t10\t10\tp0 p2", "cup-005\tgame\t10\t10\tp0 p3"))
        self.assert_refused("schedule.tsv does not agree with")
        self.folder.schedule.write_text(text)
        self.read()
        first = self.folder.record("cup-001")
        before = first.read_text()
        # Now p1 has beaten p0, so the order changes.
        for number in (1, 3):
            self.folder.record(f"cup-00{number}").write_text(json.dumps(record(plan.matches[number - 1], [0, 100] if number == 1 else [100, 0])) + "\n")
        self.assert_refused("schedule.tsv does not agree with")
        # The message says why a record does not count.
        right = first.read_text()
        for text, why, unchecked in (
            (right.replace('"matchId"', '"wrong": 1, "matchId"'), "not lawful: goals", "schedule.tsv does not agree with"),
            (right.replace('"strikes": 0', '"strikes": 1'), "its strikes is 1, but competition.toml has 0", "the record of cup-001 does not count"),
        ):
            first.write_text(text)
            self.assert_refused(f"{first}: {why}")
            # `serve` does not check the records, which may take long.
            self.assert_refused(unchecked, lambda: read_plan(self.folder.path, REFEREE, checks_records=False))
        first.write_text(right)
        self.folder.record("cup-003").write_text(json.dumps(record(plan.matches[2], [0, 100])) + "\n")
        first.unlink()
        lost = "schedule.tsv has round 2, which was paired by the result of cup-001, but the record of cup-001 is missing"
        self.assert_refused(lost)
        # As long as none of its matches has a record, the round may be planned again.
        self.make()
        self.assertEqual(len(self.read().matches), 4)
        first.write_text(before)
        plan_next_round(plan := self.read(), self.play(plan))
        self.play(plan)
        first.unlink()
        self.assert_refused(lost)
        self.assert_refused("schedule.tsv would change, but matches have already been played", self.make)
        first.write_text(before)
        plan = self.read()
        self.assertEqual(len(plan.matches), 8)
        results = self.play(plan)
        refuse_lost_results(plan, results)
        refuse_lost_results(plan, {match: found for match, found in results.items() if match != "cup-007"})
        self.assert_refused("a later round was paired by the result of cup-002, which no longer has a record that counts", lambda: refuse_lost_results(plan, {match: found for match, found in results.items() if match != "cup-002"}))

    def test_it_grows(self):
        self.write(4, SWISS.format(1))
        plan = self.make()
        results = self.play(plan)
        self.assertEqual(plan_next_round(plan, results), [])
        self.write(5, SWISS.format(3))
        plan = self.make()
        self.assertEqual((len(plan.matches), plan.known), (4, 4))
        plan_next_round(plan, self.play(plan))
        self.assertEqual(self.pairs(plan)[1], ((("p0", "p2"), ("p1", "p3")), ("p4",)))
        self.write(6, SWISS.format(3))
        self.make()
        plan = self.read()
        plan_next_round(plan, self.play(plan))
        self.assertEqual({name for pair in self.pairs(plan)[2][0] for name in pair}, {f"p{at}" for at in range(6)})
        self.assertEqual(self.read().matches, plan.matches)
        self.assertEqual(sorted(file.name for file in self.folder.earlier.iterdir()), ["4.toml", "8.toml"])
        for count, form, head, words in (
            (6, SWISS.format(2), "", "form.rounds was 3 and is now 2"), (5, SWISS.format(3), "", "the player p5 is missing"),
            (6, SWISS.format(3), "forfeit = true", "forfeit was false and is now true"), (6, 'kind = "knockout"', "", "form.kind was 'swiss' and is now 'knockout'"),
        ):
            self.write(count, form, head)
            self.assert_refused(words, self.make)

    def test_a_knockout_takes_no_further_player(self):
        self.write(3, 'kind = "knockout"')
        self.play(self.make())
        self.write(4, 'kind = "knockout"')
        self.assert_refused("the number of players was 3 and is now 4", self.make)

    def withdraw(self, *numbers):
        text = self.folder.competition.read_text()
        for number in numbers:
            text = text.replace(f'"h:{number + 1}"\n', f'"h:{number + 1}"\nwithdrawn = true\n')
        self.folder.competition.write_text(text)
        return self.make()

    def test_players_withdraw_from_a_knockout(self):
        self.write(4, 'kind = "knockout"')
        plan = self.make()
        # p0 meets p3, and one of their matches is over when p3 withdraws.
        first = plan.matches[0]
        self.folder.record(first.id).write_text(json.dumps(record(first, [0, 100])) + "\n")
        plan = self.withdraw(3)
        self.assertEqual([match.withdrawn for match in plan.matches], ["", "", "p3 has withdrawn", ""])
        plan_next_round(plan, self.play(plan, lambda _: [50, 50]))
        self.assertEqual(self.pairs(plan)[1], ((("p0", "p1"),), ()))
        # The winner is known before the last round begins.
        for match in plan.matches[4:]:
            self.folder.record(match.id).unlink(missing_ok=True)
        plan = self.withdraw(1)
        self.assertEqual((rounds_left(plan), [match.id for match in plan.matches if match.withdrawn]), (0, ["cup-003", "cup-005", "cup-006"]))
        results = self.play(plan)
        table = tables_of(plan.competition, list(results.values()), plan.rounds)[0]
        self.assertEqual([(line.player, line.rounds_won) for line in table.standings()], [("p0", 2), ("p1", 1), ("p2", 0), ("p3", 0)])

    def test_a_player_that_is_absent_in_whole_rounds_is_withdrawn(self):
        for most, rounds, results, words in (
            # p3 wins against p2, but these matches are void, so p1 is the last of the other players.
            (1, (2,), "void", "round 2 of 5: cup-005 to cup-006; bye: p1; withdrawn: p3 (absent in 1 whole round)"),
            # In round 2, p3 is absent in only one of its two matches.
            (2, (2, 1, 2), "keep", "round 4 of 5: cup-013 to cup-014; bye: p2; withdrawn: p3 (absent in 2 whole rounds)"),
            (0, (2, 2), "keep", "round 3 of 5: cup-009 to cup-012"),
        ):
            self.setUp()
            self.write(4, SWISS.format(5), f'absent_rounds = {most}\nwithdrawn_results = "{results}"')
            plan = self.make()
            for count in rounds:
                self.assertFalse(plan.rounds[-1].absent)
                found = self.play(
                    plan, lambda match: [100, 0] if "p3" in match.players[0] else [0, 100], lambda match: ["TO" * (match.players[at] == "p3" and at >= 2 - count) for at in (0, 1)],
                )
                self.assertEqual(self.read().rounds, plan.rounds)
                plan_next_round(plan, found)
            self.assertEqual((round_words(plan), self.read().rounds), (words, plan.rounds))
            plan_next_round(plan, self.play(plan))
            self.assertEqual((len(plan.rounds), plan.rounds[-1].absent), (len(rounds) + 2, ()))
        self.setUp()
        self.write(2, SWISS.format(3), "absent_rounds = 1")
        self.play(self.make(), errors_of=lambda match: ["TO" * (player == "p1") for player in match.players])
        self.assertEqual(self.pairs(self.read())[1:], [((), ("p0",))] * 2)

    def test_a_last_round_without_an_opponent_is_a_bye(self):
        for form, rounds in (('kind = "knockout"', 2), (SWISS.format(3), 3)):
            with self.subTest(form):
                self.setUp()
                self.write(3, form)
                plan = self.make()
                results = self.play(plan)
                plan = self.withdraw(*(range(1, 3) if rounds == 3 else [1]))
                self.assertEqual((plan_next_round(plan, results), rounds_left(plan), len(plan.matches)), ([], 0, 2))
                self.assertEqual((self.pairs(plan)[-1], self.read().rounds), (((), ("p0",)), plan.rounds))

    def test_players_may_stand_in_another_order(self):
        self.write(4, SWISS.format(2))
        first = self.make().matches
        self.play(self.read(), lambda _: [50, 50])
        self.write(4, SWISS.format(2), step=-1)
        self.assert_refused("schedule.tsv does not agree with")
        plan = self.make()
        self.assertEqual(([file.name for file in self.folder.earlier.iterdir()], plan.matches), (["4.toml"], first))
        # All have the same points, so the order of the file decides.
        plan_next_round(plan, self.play(plan, lambda _: [50, 50]))
        self.assertEqual(self.pairs(plan)[1], ((("p3", "p1"), ("p2", "p0")), ()))
        self.assertEqual(self.read().matches, plan.matches)

    def test_a_file_that_added_nothing_is_replaced_by_the_next(self):
        form = 'kind = "round_robin"'
        self.write(3, form)
        self.play(self.make())
        self.write(4, form)
        self.play(self.make())
        text = self.folder.competition.read_bytes()
        self.write(4, form, step=-1)
        self.assertEqual(self.make().matches, self.read().matches)
        self.write(5, form)
        plan = self.make()
        self.assertEqual((len(plan.matches), plan.known), (20, 12))
        self.assertEqual(sorted(file.name for file in self.folder.earlier.iterdir()), ["12.toml", "6.toml"])
        self.assertEqual((self.folder.earlier / "12.toml").read_bytes(), text)
        self.assertEqual(self.read().matches, plan.matches)

    def broken_off(self, form):
        """Makes a competition where `again` was interrupted before it wrote the schedule. Returns the plan before that, and the id of the
        rematch."""
        self.setUp()
        self.write(4, form)
        self.play(plan := self.make())
        self.folder.again.write_bytes(again_text((Again(plan.next_id(), "cup-001", "late"),)))
        return plan, plan.next_id()

    def test_an_order_that_was_broken_off_is_made_up_for(self):
        for form in (SWISS.format(2), 'kind = "knockout"', 'kind = "round_robin"'):
            with self.subTest(form):
                before, new = self.broken_off(form)
                self.assert_refused("schedule.tsv does not agree with")
                plan = self.make()
                self.assertEqual((plan.known, plan.matches[1:-1]), (len(before.matches), before.matches[1:]))
                self.assertEqual([(match.id, match.instead_of) for match in plan.matches[-1:]], [(new, "cup-001")])
                self.assertEqual((self.read().matches, self.make().matches), (plan.matches, plan.matches))
                if not plan.rounds:
                    self.assertEqual(count_of_all(plan), len(before.matches))
                    continue
                # On the pages, the pair of cup-001 has one match left, so neither player advances.
                results = list(self.play(before).values())
                results = [replace(found, match=match) for match, found in zip(plan.matches, results)]
                shown = {tuple(row[1:3]): row[-1] for row in rows_of(parsed(rounds_part(plan, results, 9).text))[1:]}
                self.assertEqual([shown.pop(plan.matches[0].players), *shown.values()], ["1 of 2", "2 of 2"])
                self.assertEqual(len(parsed(bracket_part(plan, results).html()).select(".through")), "knockout" in form)

    def test_it_grows_where_the_schedule_is_missing(self):
        for form in (SWISS.format(2), 'kind = "round_robin"'):
            with self.subTest(form):
                before, new = self.broken_off(form)
                self.folder.schedule.unlink()
                self.write(5, form)
                plan = self.make()
                self.assertEqual([file.name for file in self.folder.earlier.iterdir()], [f"{len(before.matches) + 1}.toml"])
                self.assertEqual((plan.matches[len(before.matches)].id, plan.matches[len(before.matches)].instead_of), (new, "cup-001"))
                self.assertEqual((self.read().matches, self.make().matches), (plan.matches, plan.matches))

    def test_a_match_may_be_ordered_again_once_a_player_was_added(self):
        self.write(4, SWISS.format(2))
        self.play(self.make())
        self.write(5, SWISS.format(2))
        self.make()
        with mock.patch("ggp_tools.competition.plan.checks", is_lawful):
            self.assertEqual(order_again(self.folder.path, REFEREE, "cup-002", "late").id, "cup-005")
        self.assertEqual([(match.id, match.instead_of) for match in self.read().matches[3:]], [("cup-004", ""), ("cup-005", "cup-002")])

    def test_a_match_of_the_last_round_may_be_ordered_again(self):
        self.write(4, SWISS.format(2))
        plan = self.make()
        self.play(plan)
        with mock.patch("ggp_tools.competition.plan.checks", is_lawful):
            new = order_again(self.folder.path, REFEREE, "cup-001", "the power was out")
            self.assertEqual((new.id, new.players, new.round, new.instead_of), ("cup-005", ("p0", "p1"), 1, "cup-001"))
            plan = self.read()
            results = {match.id: found for match in plan.matches if (found := unverified_result(self.folder, plan.competition, plan.rules, match))}
            self.assertEqual((sorted(results), plan_next_round(plan, results)), (["cup-001", "cup-002", "cup-003", "cup-004"], []))
            results = self.play(plan, lambda match: [0, 100])
            # The replaced match does not count, so nothing waits for it.
            del results["cup-001"]
            self.assertEqual([match.id for match in plan_next_round(plan, results)], ["cup-006", "cup-007", "cup-008", "cup-009"])
            refuse_lost_results(plan, results)
            self.assertEqual(self.read().matches, plan.matches)
            late = "cup-002 can't be played again: it is in round 1, and the next round was paired by the results of that round"
            self.assert_refused(late, lambda: order_again(self.folder.path, REFEREE, "cup-002", "x"))
            self.folder.again.write_bytes(self.folder.again.read_bytes() + again_text((Again("cup-010", "cup-002", "x"),)).splitlines(True)[1])
            self.assert_refused(late)

    def test_the_seeds_are_those_of_the_other_table_until_a_match_is_played(self):
        self.write(2, 'kind = "knockout"', 'seeds = "other.csv"')
        for first, last, pair in (("p1", "p0", ("p1", "p0")), ("p0", "p1", ("p0", "p1")), ("p1", "p0", ("p0", "p1"))):
            (self.folder.path / "other.csv").write_text(f"game,player\nall games,{first}\nall games,{last}\n")
            plan = self.make()
            self.assertEqual((plan.matches[0].players, self.read().matches), (pair, plan.matches))
            _ = self.play(plan) if first == "p0" else None

    def test_the_schedule_is_written_last(self):
        self.write(2, SWISS.format(2), 'ids = "random"')
        with mock.patch("ggp_tools.competition.plan.write_whole") as written:
            self.make()
        # An interrupted `plan` leaves no checksums without the rules, and no schedule without any of the others.
        self.assertEqual([call.args[0].name for call in written.call_args_list], ["ids.key", "game.kif", "DESCRIPTIONS.sha256", "SHA256SUMS", "planned.toml", "schedule.tsv"])

    def test_ids_that_nobody_guesses(self):
        self.write(4, SWISS.format(2), 'ids = "random"')
        plan = self.make()
        ids, key = [match.id for match in plan.matches], self.folder.key.read_bytes()
        self.assertEqual((len(set(ids)), [found[:8] for found in ids]), (4, [f"cup-00{at}-" for at in range(1, 5)]))
        self.assertEqual(self.folder.key.stat().st_mode & 0o77, 0)
        for found in ids:
            self.assertRegex(found, r"\Acup-00\d-[a-z2-7]{12}\Z")
        # With the same key, the ids stay the same if the schedule is lost, if it grows, or if a match is played again.
        self.folder.schedule.unlink()
        self.assertEqual([match.id for match in self.make().matches], ids)
        self.play(plan)
        with mock.patch("ggp_tools.competition.plan.checks", is_lawful):
            self.assertRegex(order_again(self.folder.path, REFEREE, ids[0], "x").id, r"\Acup-005-[a-z2-7]{12}\Z")
        plan = self.read()
        results = self.play(plan)
        del results[ids[0]]
        self.assertEqual(len(plan_next_round(plan, results)), 4)
        self.assertEqual((self.read().matches, self.folder.key.read_bytes()), (plan.matches, key))
        self.write(4, SWISS.format(3), 'ids = "random"')
        self.assertEqual(self.make().matches, plan.matches)
        # With another key, or without one, the ids would be different.
        self.folder.key.unlink()
        for call in (self.read, self.make):
            self.assert_refused("ids.key is missing: put it back: the ids of the matches follow from it", call)
        self.assertFalse(self.folder.key.exists())
        self.folder.key.write_bytes(key)
        self.write(4, SWISS.format(3))
        self.assert_refused("ids was 'random' and is now 'counted'", self.make)
        # The opposite change is refused too.
        self.folder.planned.write_bytes(self.folder.competition.read_bytes())
        self.folder.key.unlink()
        self.write(4, SWISS.format(3), 'ids = "random"')
        self.assert_refused("ids was 'counted' and is now 'random'", self.make)

    def test_the_ids_of_another_competition_of_this_name_are_others(self):
        self.write(4, SWISS.format(2), 'ids = "random"')
        ids = {match.id for match in self.make().matches}
        for file in (self.folder.key, self.folder.schedule):
            file.unlink()
        self.assertFalse(ids & {match.id for match in self.make().matches})


class Refusals(unittest.TestCase):
    def test_a_bracket_has_each_seed_once(self):
        for count in range(1, 70):
            seeds = bracket(count)
            self.assertEqual(sorted(seeds), list(range(len(seeds))))
            self.assertTrue(len(seeds) == 1 or len(seeds) < 2 * count)
            sums = [seed + second for seed, second in zip(seeds[::2], seeds[1::2])]
            self.assertEqual(set(sums), {len(seeds) - 1} if sums else set())

    def test_pairs_that_have_met_exchange_with_the_nearest_ones(self):
        for order, met, wanted in (
            # c has met all players below it: its pair is the second of three.
            ("abcdef", "cd ce cf", "ac bd ef"),
            # Both new pairs of c come from e and f. Only then can c and d swap with the next pair below.
            ("abcdef", "ac cd ce cf ef", "ae fd bc"),
            # g and h swap with c and d. Then e and f could swap with the next pair below, but they swap with a pair far above.
            ("abcdefgh", "ce ef eg eh gh", "ae cg bf dh"),
            # b and d come down, so e and f could swap with two pairs below. They swap with the nearer one.
            ("abcdefghij", "ae ce cg ef eg eh ei ej gh gi gj ij", "ag ci hf be dj"),
        ):
            found = paired(order, Counter(map(frozenset, met.split())))
            self.assertEqual(" ".join(map("".join, found)), wanted)

    def test_where_all_have_met_each_meets_whom_it_has_met_least(self):
        self.assertEqual(paired("abcd", Counter(map(frozenset, "ba ba ca da cb db dc".split()))), [("a", "c"), ("b", "d")])

    def test_how_many_rounds_and_matches_are_to_come(self):
        players, games = [(f"p{at}", f"h:{at + 1}") for at in range(7)], [("one", "f"), ("two", "f")]
        first = Round(1, (("p0", "p1"), ("p2", "p3"), ("p4", "p5")), ("p6",))
        absent, final = replace(first, absent=(("p5", "x"), ("p6", "x"))), f"{SWISS}\nfinal = {{}}"
        # With 7 players and 2 games: 3 pairings of 4 matches in each of 4 further rounds; in a knockout 6 pairings in all.
        for form, found, rounds, left in (
            (SWISS.format(5), [first], 5, 48), (SWISS.format(5), [absent], 5, 32), (final.format(5, 4), [first], 7, 60), (final.format(1, 2), [first], 2, 4),
            (final.format(1, 4), [first, Round(2, first.pairs[:2], ())], 3, 4), ('kind = "knockout"', [first], 3, 12), ('kind = "round_robin"', [], 0, None),
        ):
            competition = read_competition(toml(players, games, form).encode())
            self.assertEqual(rounds_of(competition), rounds, form)
            self.assertEqual(left and matches_to_come(competition, found), left, form)

    def test_matches_that_a_player_has_left_out_count_as_byes_of_its_opponents(self):
        rounds = [Round(1, (("p0", "p3"), ("p1", "p2")), ())]
        record = {"goalValues": [100, 0], "moves": [[]], "errors": [["", ""]], "strikes": 0, "phase": "finished", "cause": None}
        results = [result_of(record, Match("cup-1", "one", 1, 1, pair, 1)) for pair in rounds[0].pairs]
        # One match of each pair is over. p3 has withdrawn, so only the other match of p0 is a bye, or both are if the first one is void.
        for kind, points, byes, opponents in (("keep", [2, 1, 0, 0], [0] * 4, ["p3", "p2", "p1", "p0"]), ("void", [2, 1, 0, 0], [1, 0, 0, 0], ["", "p2", "p1", ""])):
            players = [(f"p{at}", f"h:{at + 1}", *["withdrawn = true"] * (at == 3)) for at in range(4)]
            found = read_competition(toml(players, [("one", "f")], SWISS.format(2), f'withdrawn_results = "{kind}"').encode())
            scores = scores_of(found, rounds, results)
            self.assertEqual([[of[f"p{at}"] for at in range(4)] for of in (scores.points, scores.byes)], [points, byes], kind)
            self.assertEqual(["".join(scores.opponents[f"p{at}"]) for at in range(4)], opponents, kind)

    def test_sums_of_what_was_planned_stay(self):
        first, other = "0" * 64, "1" * 64
        old, more, changed = sums_text({"a.kif": first}), sums_text({"a.kif": first, "b.kif": other}), sums_text({"a.kif": other, "b.kif": other})
        folder = Folder(self.enterContext(tempfile.TemporaryDirectory()))
        folder.make(folder.rules)

        def is_growth(file, before, after):
            file.write_bytes(before)
            return grows(folder, file, after)

        for file in (folder.rule_sums, folder.description_sums):
            self.assertEqual([is_growth(file, old, new) for new in (old, more, changed, b"", b"x")], [True, True, False, False, False])
            self.assertEqual([is_growth(file, spoilt, more) for spoilt in (b"", b"x", old * 2)], [False] * 3)

    def test_a_schedule_only_loses_matches_without_a_record(self):
        folder = Folder(self.enterContext(tempfile.TemporaryDirectory()))
        folder.make(folder.records)
        head, *rows = (f"{name}\tgame\t1\t1\tann bob\n".encode() for name in ("id", "cup-1", "cup-2", "cup-3"))
        folder.schedule.write_bytes(head + b"".join(rows))
        folder.record("cup-2").touch()
        for kept, may_change in ((3, True), (2, True), (1, False), (0, False)):
            self.assertEqual(grows(folder, folder.schedule, head + b"".join(rows[:kept])), may_change, kept)
        self.assertTrue(grows(folder, folder.schedule, head + b"".join(rows) + b"cup-4\tgame\t1\t1\tann bob\n"))
        self.assertFalse(grows(folder, folder.schedule, head + rows[0] + b"cup-9\tgame\t1\t1\tann bob\n"))
        # The last row may be cut off.
        folder.schedule.write_bytes(head + rows[0] + rows[1][:9])
        self.assertTrue(grows(folder, folder.schedule, head + b"".join(rows)))

    def test_a_line_has_no_round(self):
        self.assertEqual(Match("cup-1", "game", 1, 2, ("a", "b"), 3).line(), "cup-1\tgame\t1\t2\ta b\n")
