"""The table in special cases. `test_recount.py` compares the table with a simple recount of random results."""

import csv
import json
import unittest
from collections import Counter
from dataclasses import replace

from ggp_tools.competition.competition_file import Faults, read_competition
from ggp_tools.competition.files import Folder, Refused
from ggp_tools.competition.plan import Plan
from ggp_tools.competition.ratings import Rating
from ggp_tools.competition.results import Result, Retirement
from ggp_tools.competition.rounds import Round
from ggp_tools.competition.schedule import Match
from ggp_tools.competition.table import Line, Table, tables_of
from ggp_tools.competition.table_text import (
    HEADS, METHOD, crosstable_rows, csv_text, fields, forfeit_rule, in_order, joined, method_of, notes, rating_text, standings_rows, table_files, table_text,
    without_record,
)
from ggp_tools.descriptions.loading import Rules
from support import toml

NAMES = ["ann", "bob", "cid", "dan"]


def competition(head=""):
    return read_competition(toml([(name, f"h:{at + 1}") for at, name in enumerate(NAMES)], [("two", "f"), ("one", "f")], head=head).encode())


def result(players, goals, wrong=None, retired=None, game="two"):
    """Returns the result of a match where this many moves of each player were replaced."""
    wrong = wrong or [0] * len(players)
    errors = tuple(Counter({"TO": count} if count else {}) for count in wrong)
    retirements = tuple(Retirement(("TO",), 5) if gone else None for gone in retired or [False] * len(players))
    return Result(Match("m", game, 1, 1, tuple(players)), tuple(goals), 5, errors, retirements, "finished", None, True)


class Tables(unittest.TestCase):
    def test_the_order_and_places(self):
        # Means of 33.333.. and 33.33 are printed in the same way. So wins decide, and then losses. If these are equal too, the rank is
        # shared.
        line = Line("x", matches=3, scored=3, goals=100, won=1, lost=2)
        changes = [
            ({}, {"goals": 101}, 1), ({"goals": 3333, "scored": 100}, {"won": 0}, -1), ({}, {"goals": 3333, "scored": 100}, 0),
            ({}, {"won": 0, "lost": 0}, -1), ({}, {"lost": 1}, 1), ({"goals": 0, "scored": 0}, {"goals": 0}, 0), ({}, {"drawn": 2, "replaced": 7}, 0),
        ]
        for change_before, change_after, sign in changes:
            orders = [replace(line, **change).order("goals") for change in (change_before, change_after)]
            self.assertEqual((orders[0] > orders[1]) - (orders[0] < orders[1]), sign, (change_before, change_after))
        results = [result(["dan", "bob"], [100, 0]), result(["cid", "ann"], [0, 50]), result(["bob", "cid"], [50, 50]), result(["ann", "dan"], [0, 50])]
        results += [result(["bob", "cid"], [0, 0])]
        table = tables_of(competition(), results)[0]
        found = [(place, standing.player, standing.mean(), standing.won, standing.lost) for place, standing in zip(table.ranks(), table.standings())]
        self.assertEqual(found, [(1, "dan", 75, 2, 0), (2, "ann", 25, 1, 1), (3, "bob", 16.67, 0, 1), (3, "cid", 16.67, 0, 1)])
        self.assertEqual([row[:2] for row in standings_rows(table)][1:], [["1", "dan"], ["2", "ann"], ["3", "bob"], ["3", "cid"]])
        self.assertEqual([row[0] for row in crosstable_rows(table)], ["", "1", "2", "3", "4"])
        alone = tables_of(competition(), [result([name], [40], game="one") for name in ("bob", "cid", "dan")] + [result(["ann"], [30], game="one")])[0]
        self.assertEqual((alone.ranks(), [standing.player for standing in alone.standings()]), ([1, 1, 1, 4], ["bob", "cid", "dan", "ann"]))

    def test_who_made_no_move_is_told(self):
        results = [result(["ann", "bob"], [100, 0], [0, 5]), result(["bob", "ann"], [0, 100], [5, 0]), result(["bob", "cid"], [100, 0], [5, 4])]
        text = table_files(Plan(None, competition(), {}, [played.match for played in results]), tables_of(competition(), results))["table.txt"].decode()
        self.assertIn("* bob made no move of its own: all of its moves were replaced", text)

    def test_a_match_that_all_have_forfeited_shows_the_forfeits(self):
        table = tables_of(competition(), [result(["ann", "bob"], [50, 50], [5, 5], retired=[True, True])])[0]
        rows = list(standings_rows(table))
        self.assertEqual([row[rows[0].index("by forfeit")] for row in rows[1:]], ["0 won, 1 lost"] * 2)

    def test_substituted_moves_do_not_decide_places(self):
        # By goals only, bob would be above ann, although he has fewer wins.
        results = [result(["ann", "cid"], [0, 100], [0, 5], retired=[False, True])] * 10 + [result(["ann", "dan"], [100, 0])] * 8
        results += [result(["ann", "dan"], [0, 100])] * 2 + [result(["bob", "dan"], [100, 0])] * 17 + [result(["bob", "dan"], [0, 100])] * 3
        table = tables_of(competition("forfeit = true"), results)[0]
        self.assertEqual([(of.player, of.won, of.mean()) for of in table.standings()][:2], [("ann", 18, 90), ("bob", 17, 85)])
        rows = list(standings_rows(table))
        self.assertEqual([row[rows[0].index("by forfeit")] for row in rows[1:]], ["10 won, 0 lost", "0 won, 0 lost", "0 won, 0 lost", "0 won, 10 lost"])
        self.assertNotIn("by forfeit", next(standings_rows(tables_of(competition(), results[10:])[0])))

    def test_the_points_are_shown_if_they_decide(self):
        table = tables_of(competition('order = "points"'), [result(["ann", "bob"], [60, 70]), result(["bob", "cid"], [40, 40])])[0]
        self.assertEqual([row[3] for row in standings_rows(table)], ["points", "1.5", "0.5", "0"])

    def test_a_match_that_was_ordered_again_counts_for_nobody(self):
        first, second = result(["ann", "bob"], [100, 0]), result(["ann", "bob"], [0, 100])
        first = replace(first, match=replace(first.match, again="m2", reason="the host's cable"))
        found = competition('strikes = 1\nforfeit = true\nfaults = {replaced = 2}\norder = "points"')
        tables = tables_of(found, [first, second])
        self.assertEqual([(of.player, of.matches, of.won) for of in tables[0].standings()], [("bob", 1, 1), ("ann", 1, 0)])
        files = table_files(Plan(None, found, {}, [first.match, second.match]), tables)
        self.assertEqual([json.loads(files["table.json"])[key] for key in ("matches", "planned", "forfeit", "replaced", "order")], [1, 1, True, 2, "points"])
        self.assertIn("cup: 1 of 1 matches\n", files["table.txt"].decode())
        self.assertIn("* m does not count: m2 replaces it: the host's cable\n", files["table.txt"].decode())

    def by_rounds(self, kind, rounds, results, final=""):
        """Returns the tables of a competition in rounds. Each result is given by the players of a match, the goals, the round, and the match that
        replaces it."""
        players = [(name, f"h:{at + 1}") for at, name in enumerate(NAMES[:3])]
        found = read_competition(toml(players, [("two", "f"), ("other", "f")], f'kind = "{kind}"' + "\nrounds = 2" * (kind == "swiss") + final).encode())
        made = [replace(played, match=replace(played.match, round=number, again=again)) for played, number, again in ((result(names, goals), number, again) for names, goals, number, again in results)]
        return tables_of(found, made, rounds)

    def test_a_swiss_table_counts_byes_and_the_points_of_opponents(self):
        rounds = [Round(1, (("ann", "bob"),), ("cid",)), Round(2, (("cid", "ann"),), ("bob",))]
        results = [(("ann", "bob"), [100, 0], 1, ""), (("bob", "ann"), [50, 50], 1, ""), (("bob", "ann"), [100, 0], 1, "m2"), (("cid", "ann"), [0, 100], 2, "")]
        whole, two, other = self.by_rounds("swiss", rounds, results)
        self.assertEqual([(of.player, of.byes, of.points(), of.buchholz, of.rounds_won) for of in whole.standings()],
                         [("bob", 1, 4.5, 2.5, None), ("cid", 1, 4, 2.5, None), ("ann", 0, 2.5, 8.5, None)])
        self.assertEqual((whole.ranks(), whole.rounds, whole.by, whole.matches, len(whole.again)), ([1, 2, 3], rounds, "swiss", 3, 1))
        # The tables of single games have no rounds.
        self.assertEqual([(of.player, of.byes, of.points()) for of in two.standings()], [("ann", 0, 2.5), ("bob", 0, 0.5), ("cid", 0, 0)])
        self.assertEqual((two.by, two.rounds, other.standings()), ("points", (), []))
        # A bye of the final is not counted.
        whole, *_ = self.by_rounds("swiss", [*rounds, Round(3, (("cid", "ann"),), ("bob",))], results, "\nfinal = 3")
        self.assertEqual([(of.player, of.byes) for of in whole.standings()], [("bob", 1), ("cid", 1), ("ann", 0)])

    def test_who_had_a_bye_alone_stands_in_the_table(self):
        whole, *_ = self.by_rounds("swiss", [Round(1, (("ann", "bob"),), ("cid",))], [])
        self.assertEqual([(of.player, of.matches, of.rating) for of in whole.standings()], [("cid", 0, None)])

    def test_a_knockout_table_counts_rounds(self):
        rounds = [Round(1, (("bob", "cid"),), ("ann",)), Round(2, (("ann", "cid"),), ())]
        first = [(pair, goals, 1, "") for pair, goals in ((("bob", "cid"), [0, 100]), (("cid", "bob"), [100, 0])) for _ in range(2)]
        whole, two, _ = self.by_rounds("knockout", rounds, [*first, (("ann", "cid"), [100, 0], 2, "")])
        self.assertEqual([(of.player, of.rounds_won, of.byes, of.buchholz) for of in whole.standings()], [("ann", 1, 1, None), ("cid", 1, 0, None), ("bob", 0, 0, None)])
        self.assertEqual((whole.ranks(), whole.by, two.by), ([1, 1, 3], "knockout", "points"))

    def test_a_rating_next_to_nothing_has_no_sign(self):
        for rating, said in ((-0.4, "0 +- 118"), (0.4, "0 +- 118"), (-0.6, "-1 +- 118"), (-118.5, "-118 +- 118")):
            lines = {"ann": Line("ann", matches=1, rating=Rating(rating, 118.2, 1))}
            self.assertEqual(rating_text(Table("two", lines), lines["ann"]), said)

    def test_a_rating_next_to_nothing_has_no_sign_in_a_file(self):
        for rating, said in ((-0.04, "0.0"), (-0.0, "0.0"), (0.04, "0.0"), (-0.06, "-0.1")):
            line = Line("ann", matches=1, rating=Rating(rating, 118.24, 1))
            text, row = csv_text(HEADS, [fields(line)]), fields(line)
            self.assertEqual([json.dumps(row["rating"]), *(cells[key] for cells in csv.DictReader(text.splitlines()) for key in ("rating", "half"))], [said, said, "118.2"])

    def test_why_there_is_no_rating_is_told(self):
        lines = {name: Line(name, matches=1, rating=Rating(*found)) for name, found in (("ann", (None, None, 1)), ("bob", (None, None, None)), ("cid", (7, 2, 2)))}
        said = ["no rating: bob (the results do not determine a rating)", "no rating: ann (the results determine a rating so weakly that it can't be computed)"]
        self.assertEqual(list(notes(Table("two", lines, met={("ann", "bob"): 1}))), said)
        self.assertEqual(rating_text(Table("two", lines), lines["ann"]), "none")

    def test_files_say_the_same(self):
        results = [result(["ann", "bob"], [100, 0]), result(["bob", "ann"], [50, 50]), result(["cid"], [30], game="one")]
        files = table_files(Plan(None, competition(), {}, [played.match for played in results]), tables_of(competition(), results))
        said = json.loads(files["table.json"])
        lines = [line.split(",") for line in files["table.csv"].decode().splitlines()[1:]]
        self.assertEqual(len(lines), sum(len(of_game["lines"]) for of_game in said["tables"]))
        flat = [(table["game"], row["player"], row["goals"], row["rating"]) for table in said["tables"] for row in table["lines"]]
        self.assertEqual([(line[0], line[1], float(line[3]), float(line[11]) if line[11] else None) for line in lines], flat)
        self.assertIn("all games,ann,bob,2,1.5\n", files["crosstable.csv"].decode())
        # The notes do not mention rounds.
        row = next(csv.DictReader(files["table.csv"].decode().splitlines()))
        self.assertEqual([row[key] for key in ("byes", "buchholz", "rounds_won")], ["0", "", ""])


class Texts(unittest.TestCase):
    TEXT = """cup: 2 of 3 matches

all games

   player                    matches   goals  won  drawn  lost  replaced  absent  retired  rating
1  ann                             1  100.00    1      0     0    0 of 5       0        0    none
2  cid                             1   50.00    0      1     0    1 of 5       0        0    none
3  bob (no move of its own)        2   25.00    0      1     1  10 of 10       2        0    none

points / matches
   player    1      2      3
1  ann       .      .    1/1
2  cid       .      .  0.5/1
3  bob     0/1  0.5/1      .
* bob made no move of its own: all of its moves were replaced
"""

    def test_the_text_of_a_table(self):
        results = [result(["ann", "bob"], [100, 0], [0, 5]), result(["bob", "cid"], [50, 50], [5, 1])]
        plan = Plan(None, competition(), {}, [*(played.match for played in results), Match("m3", "two", 1, 1, ("ann", "bob"))])
        self.assertEqual(table_text(plan, tables_of(competition(), results, is_rated=False)[:1]), f"{self.TEXT}\nRatings: {METHOD}.\n")

    def test_how_ratings_are_shifted(self):
        for head, said in (("", ""), ("anchor = {ann = 1500}", "; shifted so that ann has 1500"), ("anchor = {ann = 1500, bob = -3}", "; shifted so that ann has 1500 and bob has -3 on average")):
            self.assertEqual(method_of(competition(head)), METHOD + said)

    def test_who_loses_a_match_is_explained(self):
        retired, replaced = "it was retired", "1,000 or more of its moves were replaced (forced moves do not count)"
        lapses = "[faults]\nreplaced = 1000"
        for head, said in (("forfeit = true", retired), (lapses, replaced), (f"forfeit = true\n{lapses}", f"{retired}, or if {replaced}")):
            self.assertTrue(forfeit_rule(competition(head)).startswith(f"A player loses a match if {said}. It then gets 0."))
        self.assertEqual(forfeit_rule(competition()), "")

    def test_the_group_of_a_rating_is_told_if_there_are_several(self):
        for groups, said in (((1, 1), "7 +- 2"), ((1, 2), "7 +- 2 in 1"), ((1, None), "7 +- 2")):
            lines = {name: Line(name, matches=1, rating=Rating(7, 2, group)) for name, group in zip(NAMES, groups)}
            self.assertEqual(rating_text(Table("two", lines), lines["ann"]), said)

    def test_which_notes_there_are(self):
        rounds = [Round(1, (("ann", "bob"),), ("cid",)), Round(2, (("cid", "ann"),), ())]
        lines = {"ann": Line("ann", matches=2, absent=1), "bob": Line("bob", matches=1), "cid": Line("cid", byes=1), "dan": Line("dan", matches=1, absent=1)}
        said = ["round 1; bye: cid", "ann made no move of its own in 1 of its 2 matches", "dan made no move of its own: all of its moves were replaced"]
        table = Table("two", lines, rounds=rounds)
        self.assertEqual(sorted(notes(table)), sorted(said))
        self.assertEqual([row[1] for row in standings_rows(table)], ["player", "ann", "bob", "cid", "dan (no move of its own)"])

    def test_results_are_in_the_order_of_the_schedule(self):
        matches = [Match(f"m{at}", "two", 1, 1, ("ann", "bob"), withdrawn="gone" * (at == 3)) for at in range(4)]
        results = {match.id: replace(result(["ann", "bob"], [0, 0]), match=replace(match, reason="old")) for match in (matches[2], matches[0])}
        plan = Plan(None, competition(), {}, matches)
        self.assertEqual([played.match for played in in_order(plan, results)], [matches[0], matches[2]])
        self.assertEqual(without_record(plan, results.values()), [matches[1]])


class Joined(unittest.TestCase):
    def plan(self, name, players, games, head="", form='kind = "round_robin"', digest="1"):
        """Returns the plan of a competition without matches. `digest` is the checksum of the rules."""
        text = toml([(player, f"h:{at}", *more) for at, (player, *more) in enumerate(players, 1)], [(game, "f") for game in games], form, head)
        found = read_competition(text.replace('"cup"', f'"{name}"').encode())
        return Plan(Folder(name), found, {game: Rules(b"(role a)", digest, ("a",)) for game in games}, [Match(f"{name}-001", games[0], 1, 1, ("ann",))])

    def test_one_table_has_the_players_and_games_of_all_and_the_anchors_of_the_first(self):
        first = self.plan("cup", [("ann",), ("bob", "withdrawn = true")], ["two"], "anchor = {ann = 1500, bob = 1000}")
        second = self.plan("last", [("cid", "withdrawn = true"), ("bob",), ("ann",)], ["one", "two"], "anchor = {ann = 1600, cid = 900}")
        found = joined([first, second])
        self.assertEqual(joined([first]), first)
        self.assertEqual((found.competition.name, [match.id for match in found.matches]), ("cup + last", ["cup-001", "last-001"]))
        self.assertEqual(found.competition.anchor, {"ann": 1500, "bob": 1000, "cid": 900})
        self.assertEqual([player.name for player in found.competition.players], ["ann", "bob", "cid"])
        self.assertEqual(([game.name for game in found.competition.games], [*found.rules]), (["two", "one"], ["two", "one"]))
        self.assertEqual(found.competition.withdrawn(), {})

    def test_rules_that_differ_are_not_those_of_the_table(self):
        forfeit, lapse, points, swiss = "forfeit = true", "[faults]\nreplaced = 3", 'order = "points"', {"form": 'kind = "swiss"\nrounds = 1\nfinal = 2'}
        for heads, forms, rules in (
            ((forfeit, forfeit), ({}, {}), (True, Faults(0), "goals")), ((forfeit, ""), ({}, {}), (False, Faults(0), "goals")),
            ((lapse, lapse), ({}, {}), (False, Faults(3), "goals")), ((lapse, ""), ({}, {}), (False, Faults(0), "goals")),
            ((points, ""), ({}, {}), (False, Faults(0), "points")), (("", points), ({}, {}), (False, Faults(0), "goals")),
            (("", ""), ({}, swiss), (False, Faults(0), "points")), (("", ""), (swiss, {}), (False, Faults(0), "points")),
        ):
            plans = [self.plan(name, [("ann",), ("bob",)], ["two"], head, **form) for name, head, form in zip(("cup", "last"), heads, forms)]
            found = joined(plans).competition
            self.assertEqual((found.forfeit, found.faults, found.order), rules, (heads, forms))
            self.assertEqual((found.form.kind, found.form.final), ("round_robin", 0))

    def test_which_competitions_have_no_table_together(self):
        first = self.plan("cup", [("ann",)], ["two"])
        for other, said in (
            (self.plan("cup", [("bob",)], ["two"]), "two of the directories have a competition named cup; a joint table needs different names"),
            (self.plan("last", [("bob",)], ["one", "two"], digest="2"), "the rules of two in last differ from those in an earlier directory"),
        ):
            with self.assertRaises(Refused) as caught:
                joined([first, other])
            self.assertEqual(str(caught.exception), said)
