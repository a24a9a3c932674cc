"""A competition that grows: planned matches stay as they are, and new matches come after them. If a change is refused, the message names the
change."""

import contextlib
import unittest
from collections import Counter
from dataclasses import replace
from unittest import mock

import pytest

from ggp_tools.competition import history
from ggp_tools.competition.competition_file import Command, Competition, Faults, Form, Game, Launcher, Mistaken, Player, keys_of, read_competition
from ggp_tools.competition.growth import Again, History, Misfit, fixed, grown, refuse_changes, refuse_unchanged, shape
from ggp_tools.competition.plan import read_plan
from ggp_tools.competition.results import Result
from ggp_tools.competition.schedule import asked
from ggp_tools.referee import Referee
from planning import nothing_known, planned
from support import GAMES, InFolder, program, raised, run, toml

ROLES = {"two": 2, "one": 1, "three": 3}


def competition(count, rounds=1, games=("two", "one"), form=None, head=""):
    form = form or f'kind = "round_robin"\nrounds = {rounds}'
    return read_competition(toml([(f"p{at}", f"h:{at + 1}") for at in range(count)], [(game, "f") for game in games], form, head).encode())


def ids(growing):
    return [match.id for match in growing.matches]


def seated(matches):
    return Counter((match.game, match.players) for match in matches)


class Growth(unittest.TestCase):
    def grown(self, *versions, again=()):
        """Plans the first file, and then replaces the file with each other file in turn. Returns the schedule."""
        history = History((), tuple(again))
        for before, after in zip(versions, versions[1:]):
            refuse_changes(before, after)
            history = History((*history.earlier, (len(grown(history, before, ROLES, nothing_known).matches), before)), history.again)
        return grown(history, versions[-1], ROLES, nothing_known)

    def test_each_version_is_planned_once(self):
        history = History(((4, competition(2)), (8, competition(2, 2))))
        with mock.patch("ggp_tools.competition.growth.asked", wraps=asked) as plan:
            grown(history, competition(3, 2), ROLES, nothing_known)
        self.assertEqual([len(call.args[0].players) for call in plan.call_args_list], [2, 2, 3])

    def test_new_players_in_a_game_of_three_roles(self):
        before, after = competition(4, 1, ("three",)), competition(6, 1, ("three",))
        found = self.grown(before, after).matches
        old = len(planned(before, ROLES))
        self.assertEqual(found[:old], planned(before, ROLES))
        self.assertTrue(all({"p4", "p5"} & set(match.players) for match in found[old:]))
        seats = Counter((seat, player) for match in found for seat, player in enumerate(match.players) if player in ("p4", "p5"))
        self.assertEqual(len(set(seats.values())), 1)
        self.assertEqual(seated(self.grown(before, competition(4, 3, ("three",))).matches), Counter(asked(competition(4, 3, ("three",)), ROLES)))
        why = raised(Misfit, self.grown, before, competition(5, 2, ("three",)))
        self.assertEqual(str(why), "three has more than two roles, so add rounds and players separately, and run `plan` in between")

    def test_lines_and_a_gauntlet(self):
        lines = 'kind = "schedule"\nlines = [{}]'
        one, two = competition(3, form=lines.format('"two p0 p1"')), competition(3, form=lines.format('"one p2", "two p0 p1", "two p0 p1"'))
        self.assertEqual([(match.game, match.players) for match in self.grown(one, two).matches], [("two", ("p0", "p1")), ("one", ("p2",)), ("two", ("p0", "p1"))])
        gauntlet = 'kind = "gauntlet"\none = "p0"\nrounds = {}'
        found = self.grown(competition(3, form=gauntlet.format(1)), competition(4, form=gauntlet.format(2)))
        self.assertEqual(seated(found.matches), Counter(asked(competition(4, form=gauntlet.format(2)), ROLES)))

    def test_what_would_change_is_named(self):
        lines = 'kind = "schedule"\nlines = [{}]'
        pair = lines.format('"two p0 p1", "two p1 p0"')
        for before, after, words in (
            (competition(3), competition(3, head="strikes = 1"), "strikes was 0 and is now 1"),
            (competition(3), competition(3, form='kind = "gauntlet"\none = "p0"'), "form.kind was 'round_robin' and is now 'gauntlet'"),
            (competition(3), competition(2), "the player p2 is missing"),
            (competition(3), competition(3, games=("two",)), "the game one is missing"),
            (competition(3), competition(3, head="play = 7"), "the clocks of two were 10 and 10, and are now 10 and 7"),
            (competition(3, 2), competition(3, 1), "cup-007 (two p0 p1) was planned, but is no longer among the matches"),
            (competition(2, form=pair), competition(2, form=lines.format('"two p0 p1", "two p0 p1"')), "cup-002 (two p1 p0) was planned, but is no longer among the matches"),
        ):
            self.assertEqual(str(raised(Misfit, self.grown, before, after)), words)

    def test_a_match_that_is_ordered_again(self):
        orders = Again("cup-005", "cup-002", "cut off"), Again("cup-011", "cup-005", "again")
        found = grown(History(((5, competition(2)),), orders), competition(3), ROLES, nothing_known)
        self.assertEqual([(match.id, match.players) for match in found.matches[3:6]], [("cup-004", ("p1",)), ("cup-005", ("p1", "p0")), ("cup-006", ("p1", "p2"))])
        told = [(match.id, match.again, match.reason, match.instead_of) for match in found.matches if match.again or match.instead_of]
        self.assertEqual(told, [("cup-002", "cup-005", "cut off", ""), ("cup-005", "cup-011", "again", "cup-002"), ("cup-011", "", "", "cup-005")])
        for again, words in (
            ([Again("cup-005", "cup-009", "x")], "cup-005 replaces cup-009, which is not a match that counts"),
            ([Again("cup-005", "cup-001", "x"), Again("cup-006", "cup-001", "x")], "cup-006 replaces cup-001, which is not a match that counts"),
            ([Again("cup-007", "cup-001", "x")], "the rematch cup-007 is not the next match of the schedule"),
        ):
            self.assertEqual(str(raised(Misfit, self.grown, competition(2), again=again)), words)

    def test_a_player_that_has_withdrawn_leaves_matches_out(self):
        before = competition(3, form='kind = "schedule"\nlines = ["two p0 p1", "two p1 p2", "two p2 p0"]')
        players = before.players[0], replace(before.players[1], withdrawn="why"), before.players[2]
        history = History(((3, before),), (Again("cup-004", "cup-001", "x"),))
        # A replaced match stays replaced. Its rematch also has a result.
        for results, out in (("keep", ["cup-002"]), ("void", ["cup-002", "cup-004"])):
            after = replace(before, players=players, withdrawn_results=results)
            found = grown(history, after, ROLES, lambda match: match.id in ("cup-001", "cup-004") or None).matches
            self.assertEqual([(match.id, match.withdrawn) for match in found if match.withdrawn], [(match, "p1 has withdrawn: why") for match in out])

    def test_the_number_of_matches_before_is_looked_at(self):
        why = raised(Misfit, grown, History(((5, competition(2)),)), competition(3), ROLES, nothing_known)
        self.assertEqual(str(why), "earlier/5.toml was replaced after 4 planned matches, not after 5 as its name says")

    def test_a_file_before_that_nothing_has_replaced(self):
        refuse_unchanged(History(((4, competition(2)),)), competition(3))
        for counts, name in (((2, 2), 4), ((2, 3), 8)):
            why = raised(Misfit, refuse_unchanged, History(tuple((4 * at, competition(count)) for at, count in enumerate(counts, 1))), competition(3))
            self.assertIn(f"earlier/{name}.toml asks for the same matches as the file after it", str(why))

    def test_the_limit_of_matches(self):
        orders = [Again("cup-005", "cup-001", "x"), Again("cup-006", "cup-002", "x")]
        more, same = (competition(3, 1, ("two",)), competition(4, 1, ("two",))), (competition(2),)
        # The first nine matches that follow from the second file do not include all matches of the first file.
        many = competition(3, 1, ("two",)), competition(6, 1, ("two",))
        cases = (12, more, [], False), (11, more, [], True), (6, same, orders, False), (5, same, orders, True), (8, many, [], True)
        for most, versions, again, is_past in cases:
            with mock.patch("ggp_tools.competition.schedule.MOST_MATCHES", most), contextlib.ExitStack() as refused:
                if is_past:
                    refused.enter_context(self.assertRaises(Mistaken))
                self.grown(*versions, again=again)

    def test_matches_of_a_form_without_rounds_are_of_none(self):
        self.assertEqual({match.round for match in planned(competition(3), ROLES)}, {0})

    def test_what_the_schedule_does_not_follow_from_is_free(self):
        one, other = competition(3), competition(3, head="wait = 3\nforfeit = true\nlauncher = {command = [\"x\"], slots = 2}")
        self.assertEqual(shape(one), shape(other))

    def test_all_that_the_schedule_follows_from_is_of_its_shape(self):
        lines = 'kind = "schedule"\nlines = [{}]'
        gauntlet = 'kind = "gauntlet"\none = "{}"'
        one = competition(3)
        for before, after in (
            (one, competition(3, 2)),
            (one, competition(4)),
            (one, replace(one, players=one.players[::-1])),
            (one, replace(one, games=one.games[::-1])),
            (one, replace(one, name="other")),
            (one, competition(3, head="start = 7")),
            (one, competition(3, head="play = 7")),
            (one, competition(3, form=gauntlet.format("p0"))),
            (competition(3, form=gauntlet.format("p0")), competition(3, form=gauntlet.format("p1"))),
            (competition(3, form=lines.format('"two p0 p1", "one p2"')), competition(3, form=lines.format('"one p2", "two p0 p1"'))),
        ):
            self.assertNotEqual(shape(before), shape(after))
            self.assertNotEqual(planned(before, ROLES), planned(after, ROLES))

    def test_ids_keep_the_width_of_the_first_file(self):
        for files, wanted in (([(1_000, 1)], ["cup-0001", "cup-0002", "cup-0003", "cup-1000"]), ([(2, 1), (1_000, 2)], ["cup-001", "cup-002", "cup-003", "cup-2000"])):
            found = ids(self.grown(*(competition(count, rounds, ("one",)) for count, rounds in files)))
            self.assertEqual([*found[:3], found[-1]], wanted)

    def test_what_is_added_has_the_clocks_of_its_game(self):
        found = self.grown(competition(2, head="start = 7\nplay = 3"), competition(3, head="start = 7\nplay = 3"))
        self.assertEqual({(match.start, match.play) for match in found.matches}, {(7, 3)})

    def test_matches_that_were_ordered_again_count_for_the_limit(self):
        versions, orders = (competition(3, 1, ("two",)), competition(4, 1, ("two",))), [Again("cup-007", "cup-001", "x")]
        with mock.patch("ggp_tools.competition.schedule.MOST_MATCHES", 13):
            self.assertEqual(len(self.grown(*versions, again=orders).matches), 13)
        with mock.patch("ggp_tools.competition.schedule.MOST_MATCHES", 12), self.assertRaises(Mistaken):
            self.grown(*versions, again=orders)

    def test_a_line_with_the_players_of_before_is_added_beside_a_new_player(self):
        lines = 'kind = "schedule"\nlines = [{}]'
        before = competition(3, games=("three",), form=lines.format('"three p0 p1 p2"'))
        after = competition(4, games=("three",), form=lines.format('"three p0 p1 p2", "three p1 p2 p0", "three p3 p0 p1"'))
        self.assertEqual([match.players for match in self.grown(before, after).matches], [("p0", "p1", "p2"), ("p1", "p2", "p0"), ("p3", "p0", "p1")])

    def test_what_is_refused_names_the_first(self):
        orders = Again("cup-007", "cup-001", "x"), Again("cup-009", "cup-002", "x")
        games = ("three", "more")
        for history, after, words in (
            (History((), orders), competition(2), "the rematch cup-007 is not the next match of the schedule"),
            (History(((8, competition(4, 1, games)),)), competition(5, 2, games), "more has more than two roles, so add rounds and players separately"),
            (History(((9, competition(3)),)), competition(3, head="strikes = 1"), "strikes was 0 and is now 1"),
        ):
            self.assertIn(words, str(raised(Misfit, grown, history, after, {**ROLES, "more": 3}, nothing_known)))


# A file with all kinds of tables: their keys, by the name of the table.
FILE = {
    "": {"name": '"cup"', "start": "10", "play": "10"},
    "launcher": {"command": '["srun"]', "slots": "2"},
    "faults": {"replaced": "3"},
    "form": {"kind": '"round_robin"', "rounds": "1"},
    "games": {"name": '"two"', "file": '"f"'},
    "players": {"name": '"p0"', "address": '"h:1"'},
    "started": {"name": '"p1"', "command": '["x", "{port}"]', "launcher": '["ssh"]'},
}
HEADS = {"games": "[[games]]", "players": "[[players]]", "started": "[[players]]"}
SWISS = {"form": {"kind": '"swiss"', "rounds": "2"}}
# What happens if a key changes after matches were played. REFUSED: the change is refused with its name and line. SHOWN: the archive shows the change,
# because the old file goes to `earlier`. FREE: no result of a played match depends on the key. The rules of a game are compared by their checksums.
REFUSED, SHOWN, FREE = "refused", "shown", "free"
CHANGES = (
    ("", "name", '"cup"', '"cop"', REFUSED, {}), ("", "start", "10", "9", REFUSED, {}), ("", "play", "10", "9", REFUSED, {}),
    ("", "strikes", "3", "2", REFUSED, {}), ("", "forfeit", "true", "false", REFUSED, {}), ("", "forfeit", "true", None, REFUSED, {}),
    ("", "order", '"goals"', '"points"', REFUSED, {}), ("", "order", None, '"points"', REFUSED, {}),
    ("", "anchor", "{p0 = 1500}", "{p1 = 1500}", REFUSED, {}), ("", "anchor", None, "{p0 = 1500}", REFUSED, {}),
    ("", "ids", '"counted"', '"random"', REFUSED, {}), ("", "seeds", '"a"', '"b"', REFUSED, {}),
    ("", "withdrawn_results", '"keep"', '"void"', SHOWN, {}),
    ("", "withdrawn_results", '"keep"', '"void"', REFUSED, {"players": {**FILE["players"], "withdrawn": "true"}}),
    ("", "absent_rounds", "1", "2", SHOWN, SWISS), ("", "forfeit", "true", "false", REFUSED, SWISS), ("", "pause", "true", "false", FREE, SWISS),
    ("", "absent", '"leave"', '"play"', FREE, {}), ("", "tries", "1", "2", FREE, {}), ("", "wait", "1", "2", FREE, {}), ("", "info", "1", "2", FREE, {}),
    ("launcher", "command", '["srun"]', '["ssh"]', FREE, {}), ("launcher", "slots", "2", "3", FREE, {}), ("launcher", "queue_seconds", "1", "2", FREE, {}),
    ("faults", "replaced", "3", "2", REFUSED, {}),
    ("form", "kind", '"round_robin"', '"knockout"', REFUSED, {"form": {}}), ("form", "rounds", "1", "2", SHOWN, {}), ("form", "rounds", "2", "1", REFUSED, {}),
    ("form", "rounds", "2", "1", REFUSED, SWISS), ("form", "final", None, "2", REFUSED, SWISS),
    ("form", "one", '"p0"', '"p1"', SHOWN, {"form": {"kind": '"gauntlet"'}}),
    ("form", "lines", '["two p0 p1"]', '["two p1 p0"]', REFUSED, {"form": {"kind": '"schedule"'}}),
    ("games", "name", '"two"', '"one"', REFUSED, {}), ("games", "start", "5", "6", REFUSED, {}), ("games", "play", "5", "6", REFUSED, {}),
    ("games", "player_rules", '"ground"', '"variables"', REFUSED, {}), ("games", "board", '"shape"', '"hex"', FREE, {}),
    *(("games", key, old, new, FREE, {}) for key, old, new in (("aborts", "false", "true"), ("large", "false", "true"), ("instantiate", "1", "2"))),
    ("games", "file", '"f"', '"g"', FREE, {}), ("games", "described", '"f"', '"g"', FREE, {}),
    ("players", "name", '"p0"', '"p2"', REFUSED, {}), ("players", "withdrawn", "false", "true", SHOWN, {}), ("players", "withdrawn", "true", "false", REFUSED, {}),
    ("players", "address", '"h:1"', '"h:2"', FREE, {}), ("players", "concurrent", "1", "2", FREE, {}),
    ("started", "command", '["x", "{port}"]', '["y", "{port}"]', FREE, {}), ("started", "launcher", '["ssh"]', '["srun"]', FREE, {}),
    ("started", "environment", '{A = "1"}', '{A = "2"}', FREE, {}), ("started", "memory", '"1G"', '"2G"', FREE, {}),
    ("started", "restart", '"never"', '"when_dead"', FREE, {}), ("started", "directory", '"a"', '"b"', FREE, {}),
    ("started", "processors", "1", "2", FREE, {}), ("started", "start_seconds", "1", "2", FREE, {}), ("started", "queue_seconds", "1", "2", FREE, {}),
)


def file_with(tables, section, key, value):
    """Returns a file with these tables, and the line of a key. The key has this value or is missing."""
    tables = {**FILE, **tables}
    tables[section] = {**tables[section], key: value}
    lines = [(name, of, f"{of} = {said}" if of else HEADS.get(name, f"[{name}]" if name else "")) for name, keys in tables.items() for of, said in {"": "", **keys}.items() if said is not None]
    return "\n".join(text for _, _, text in lines).encode(), next((at for at, line in enumerate(lines, 1) if line[:2] == (section, key)), 0)


@pytest.mark.parametrize("section, key, old, new, outcome, tables", CHANGES)
def test_what_comes_of_a_key_that_is_changed_once_matches_were_played(section, key, old, new, outcome, tables):
    (text, _), (other, line) = (file_with(tables, section, key, value) for value in (old, new))
    before, after = read_competition(text), read_competition(other)
    assert before != after or (section, key) == ("form", "final")
    history = History(((len(planned(before, ROLES)), before),))
    try:
        refuse_changes(before, after)
        grown(history, after, ROLES, nothing_known)
        assert outcome == (FREE if shape(before) == shape(after) else SHOWN)
    except Misfit as why:
        assert outcome == REFUSED
        assert why.line == line or (section, key) not in {(*["", *name.split(".")][-2:],) for name in fixed(before)}


def test_each_key_is_decided():
    kinds = {"": Competition, "launcher": Launcher, "faults": Faults, "form": Form, "games": Game, "players": Player, "started": Command}
    keys = {(section, key) for section, kind in kinds.items() for key in keys_of(kind)} - {("", section) for section in kinds}
    assert keys - {("players", "command")} == {(section, key) for section, key, *_ in CHANGES}


class ByRounds(unittest.TestCase):
    def swiss(self, rounds, game="two"):
        return competition(4, games=(game,), form=f'kind = "swiss"\nrounds = {rounds}')

    def result(self, match):
        """Returns the result of a match. The lower number wins the first and the second match of each pair, and loses a rematch."""
        is_won = (match.players[0] < match.players[1]) != bool(match.instead_of)
        return Result(match, (100, 0) if is_won else (0, 100), 1, (Counter(), Counter()), (None, None), "finished", None)

    def test_a_game_of_three_roles_is_refused(self):
        with self.assertRaises(Mistaken):
            grown(History(), self.swiss(1, "three"), ROLES, nothing_known)

    def test_only_the_match_that_was_ordered_again_pairs_the_next_round(self):
        # p2 has two points, p0 and p1 have one each; with the previous match, p0 would have two points, and a stronger opponent than p2.
        order = Again("cup-005", "cup-001", "x")
        for history, competition_before in ((History((), (order,)), self.swiss(2)), (History(((4, self.swiss(1)),), (order,)), self.swiss(2))):
            found = grown(history, competition_before, ROLES, self.result)
            self.assertEqual([(paired.pairs, paired.byes) for paired in found.rounds.found], [((("p0", "p1"), ("p2", "p3")), ()), ((("p2", "p0"), ("p1", "p3")), ())])
            self.assertEqual([match.id for match in found.matches if match.round == 2], [f"cup-00{number}" for number in range(6, 10)])


class Histories(InFolder):
    def write(self, count, rounds, head=""):
        text = toml([(f"p{at}", f"127.0.0.1:{at + 9000}") for at in range(count)], [("countdown", GAMES / "countdown.kif")], f'kind = "round_robin"\nrounds = {rounds}', head)
        (self.folder / "competition.toml").write_text(text)

    def planned(self):
        status, out, said = run(self.folder, "plan")
        self.assertEqual((status, said), (0, ""))
        return out.splitlines()[-1]

    def test_plan_says_what_it_adds(self):
        self.write(2, 1)
        self.assertEqual(self.planned(), "schedule.tsv: 2 matches of 2 players")
        self.write(3, 1)
        self.assertEqual(self.planned(), "schedule.tsv: 6 matches of 3 players")
        (self.folder / "records").mkdir()
        (self.folder / "records/cup-001.json").touch()
        first = (self.folder / "schedule.tsv").read_bytes()
        self.assertEqual(self.planned(), "schedule.tsv: 6 matches of 3 players; nothing added")
        self.write(3, 2)
        self.assertEqual(self.planned(), "schedule.tsv: 12 matches of 3 players; added: 6, cup-007 to cup-012")
        self.write(4, 2, "wait = 3")
        self.assertEqual(self.planned(), "schedule.tsv: 24 matches of 4 players; added: 12, cup-013 to cup-024")
        self.assertEqual(self.planned(), "schedule.tsv: 24 matches of 4 players; nothing added")
        self.assertTrue((self.folder / "schedule.tsv").read_bytes().startswith(first))
        self.assertEqual(sorted(file.name for file in (self.folder / "earlier").iterdir()), ["12.toml", "6.toml"])
        before = {file: file.read_bytes() for file in self.folder.rglob("*") if file.is_file() and file.name != "competition.toml"}
        self.write(4, 1)
        status, out, said = run(self.folder, "plan")
        self.assertEqual((status, out), (2, ""))
        self.assertRegex(said, r"competition.toml: cup-0\d\d \(countdown p\d p\d\) was planned, but is no longer among the matches: undo the change")
        self.write(4, 2)
        for lost in ("schedule.tsv", "rules/SHA256SUMS", "planned.toml"):
            (self.folder / lost).unlink()
            self.assertEqual(self.planned(), "schedule.tsv: 24 matches of 4 players" + ("" if lost == "schedule.tsv" else "; nothing added"))
            self.write(4, 2, "wait = 3")
        self.planned()
        self.assertEqual({file: file.read_bytes() for file in before}, before)
        (self.folder / "records/cup-001.json").unlink()
        # The history shows that matches were played, even if their records are gone.
        self.write(2, 1)
        self.assertEqual(run(self.folder, "plan")[0], 2)
        for name in ("6.toml", "12.toml"):
            (self.folder / "earlier" / name).unlink()
        self.assertEqual(self.planned(), "schedule.tsv: 2 matches of 2 players")

    def test_the_same_bytes_are_parsed_once(self):
        self.write(2, 1)
        self.planned()
        (self.folder / "records").mkdir()
        (self.folder / "records/cup-001.json").touch()
        for more, count in (("", 1), ("wait = 3", 2)):
            self.write(2, 1, more)
            with mock.patch.object(history, "read_competition", side_effect=history.read_competition) as read:
                read_plan(str(self.folder), Referee(program()))
            self.assertEqual(read.call_count, count)

    def test_growth_that_is_broken_off_is_made_up_for(self):
        self.write(2, 1)
        self.planned()
        (self.folder / "records").mkdir()
        (self.folder / "records/cup-001.json").touch()
        self.write(3, 1)
        # Simulates a `plan` that was killed after it wrote its first file.
        (self.folder / "earlier").mkdir()
        (self.folder / "earlier/2.toml").write_bytes((self.folder / "planned.toml").read_bytes())
        self.assertEqual(run(self.folder, "table")[0], 2)
        self.assertEqual(self.planned(), "schedule.tsv: 6 matches of 3 players; added: 4, cup-003 to cup-006")

    def test_what_can_not_be_ordered_again(self):
        self.write(2, 1)
        self.planned()
        for reason, said in (("x", "schedule.tsv has no match cup-009"), ("\N{BULLET}", "--reason: expected 1 to 200 printable ASCII characters, without a space at either end")):
            self.assertEqual(run(self.folder, "again", "cup-009", "--reason", reason), (2, "", f"ggp_competition: {said}\n"))
        self.assertFalse((self.folder / "again.tsv").exists())
