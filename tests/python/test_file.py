"""The contents of competition.toml, and each error in it with its line and key."""

import random
import unittest

from ggp_tools.competition.command import MOST_AT_ONCE
from ggp_tools.competition.competition_file import Command, Launcher, MOST_GAMES, MOST_OF_COMPETITION, MOST_PLAYERS, MOST_ROUNDS, MOST_SECONDS, MOST_STRIKES, Mistake, Mistaken, mistake_lines, read_competition
from ggp_tools.competition.history import MOST_EARLIER, MOST_OF_EARLIER
from ggp_tools.competition.schedule import MOST_MATCHES
from ggp_tools.competition.toml_lines import MOST_SIGNS
from planning import planned
from support import TOP, raised, toml

PLAYERS = [("ann", "10.0.0.1:9147"), ("bob", "[::1]:9148"), ("cid", "host.example:9149", "concurrent = 3")]
GAMES = [("chess", "chess.kif"), ("go", "go.kif")]
GOOD = toml(PLAYERS, GAMES, 'kind = "round_robin"\nrounds = 2', "start = 30\nstrikes = 3\nlauncher = {command = [\"srun\", \"-N1\"], slots = 9}")
# Changes to GOOD, and the mistakes that they cause: the line, the key, and the message.
MISTAKES = [
    ('name = "cup"', "", [(1, "name", "missing")]),
    ('name = "cup"', "name = 7", [(1, "name", "a text in quotes")]),
    ('name = "cup"', 'name = "a cup"', [(1, "name", "expected a name")]),
    ('name = "cup"', 'name = ".."', [(1, "name", "beginning with a letter or a digit")]),
    ('name = "cup"', f'name = "{"c" * 41}"', [(1, "name", "expected a name")]),
    ("start = 30", f"start = 0x{'f' * 5_000}", [(2, "start", "from 1 to 86,400, found a number with very many digits")]),
    ("start = 30", "start = true", [(2, "start", "a whole number")]),
    ("start = 30", "start = {}", [(2, "start", "found a table")]),
    ("start = 30", "start = [30]", [(2, "start", "found an array")]),
    ("start = 30", 'start = "1:75:00"', [(2, "start", "a whole number")]),
    ("strikes = 3", "striks = 3", [(3, "striks", "no such key")]),
    ("strikes = 3", "strikes 3", [(3, "strikes", "Expected '=' after a key")]),
    ("strikes = 3", 'forfeit = "yes"', [(3, "forfeit", "true or false")]),
    ("strikes = 3", 'order = "wins"', [(3, "order", "expected one of goals, points, found 'wins'")]),
    ("strikes = 3", 'absent = "wait"', [(3, "absent", "expected one of leave, play, found 'wait'")]),
    ("strikes = 3", "pause = true", [(3, "pause", "only the kinds swiss and knockout have this key")]),
    ("strikes = 3", "anchor = {ann = 1.5, bob = true, eve = 1_500}", [(3, "anchor", "expected for ann a whole number from -10,000 to 10,000, found 1.5"), (3, "anchor", "for bob"), (3, "anchor", "no player 'eve'")]),
    ("strikes = 3", "seeds = 7", [(3, "seeds", "a text in quotes")]),
    ('"round_robin"\nrounds = 2', '"swiss"\nrounds = 2\nfinal = 4', [(8, "form.final", "the competition has 3 players")]),
    ('"round_robin"\nrounds = 2', '"swiss"\nrounds = 2\nfinal = 1', [(8, "form.final", "from 2 to 1,000, found 1")]),
    ("rounds = 2", "final = 2", [(7, "form.final", "the kind round_robin has no such key")]),
    ("strikes = 3", "absent_rounds = 1", [(3, "absent_rounds", "only the kinds swiss and knockout have this key")]),
    ("strikes = 3", 'withdrawn_results = "drop"', [(3, "withdrawn_results", "one of keep, void")]),
    *(("concurrent = 3", f'withdrawn = "{why}"', [(23, "players.withdrawn", "expected true or a reason")]) for why in (" a reason", "x" * 201)),
    ("strikes = 3", "faults = {replace = 1}", [(3, "faults.replace", "no such key; expected one of replaced"), (3, "faults.replaced", "missing")]),
    ('["srun", "-N1"]', "[]", [(4, "launcher.command", "expected at least one text")]),
    ('["srun", "-N1"]', '["srun", 1]', [(4, "launcher.command", "a text in quotes")]),
    ('["srun", "-N1"]', '"srun"', [(4, "launcher.command", "an array of texts"), (4, "launcher.command", "at least one text")]),
    (", slots = 9", "", [(4, "launcher.slots", "missing")]),
    ("slots = 9", "slots = 9, nodes = 2", [(4, "launcher.nodes", "no such key; expected one of command, slots")]),
    ("launcher = {", "hosts = {", [(4, "hosts", "this key is now launcher")]),
    ("[form]", "[from]", [(1, "form", "expected one table [form]"), (5, "from", "no such key")]),
    ('"round_robin"', '"league"', [(6, "form.kind", "one of round_robin, gauntlet, schedule, swiss, knockout")]),
    ('"round_robin"', '"knockout"', [(7, "form.rounds", "the kind knockout has no such key")]),
    ('"round_robin"\nrounds = 2', '"swiss"', [(5, "form.rounds", "missing")]),
    ('"round_robin"\nrounds = 2', '"swiss"\nrounds = 2\none = "ann"', [(8, "form.one", "the kind swiss has no such key")]),
    ('"round_robin"', '"gauntlet"', [(5, "form.one", "missing")]),
    ('"round_robin"', '"gauntlet"\none = "eve"', [(7, "form.one", "no player 'eve'")]),
    ("rounds = 2", 'one = "ann"', [(7, "form.one", "has no such key")]),
    ('name = "go"', 'name = "chess"', [(12, "games.name", "line 9 already has 'chess'")]),
    ('name = "go"', 'name = "-go"', [(12, "games.name", "expected a name")]),
    ('name = "go"', 'name = "g/o"', [(12, "games.name", "expected a name")]),
    ('file = "go.kif"', "", [(11, "games.file", "missing")]),
    *(('file = "go.kif"', f'file = "go{sign}"', [(13, "games.file", "expected the path of a file")]) for sign in ("\\u0000", "\\u001f", "\\u007f", "\\u009f")),
    ('file = "go.kif"', 'file = "go.kif"\nplayer_rules = "both"', [(14, "games.player_rules", "one of ground, variables")]),
    ('file = "go.kif"', 'file = "go.kif"\naborts = 1', [(14, "games.aborts", "expected true or false, found 1")]),
    ('file = "go.kif"', 'file = "go.kif"\ntold = "variables"', [(14, "games.told", "this key is now player_rules")]),
    ('file = "go.kif"', 'file = "go.kif"\nseconds = 9', [(14, "games.seconds", "this key is now instantiate")]),
    ('file = "go.kif"', 'file = "go.kif"\nlarge = 1', [(14, "games.large", "expected true or false, found 1")]),
    ('file = "go.kif"', 'file = "go.kif"\nplayer_rules = true', [(14, "games.player_rules", "a text in quotes")]),
    ('file = "go.kif"', 'file = "go.kif"\n\ntell = "ground"', [(15, "games.tell", "no such key; expected one of name, file, described, instantiate, start, play, player_rules, aborts, large")]),
    ('name = "bob"', 'name = "ann"', [(18, "players.name", "line 15 already has 'ann'")]),
    *(('name = "bob"', f'name = "{name}"', [(18, "players.name", "expected a name of 1 to 64 letters")]) for name in ("b b", "b" * 65)),
    ('"[::1]:9148"', '"10.0.0.1:9147"', [(19, "players.address", "line 16 already has")]),
    ('"[::1]:9148"', '"10.0.0.1"', [(19, "players.address", "expected HOST:PORT")]),
    ('"[::1]:9148"', '"::1:9148"', [(19, "players.address", "expected HOST:PORT")]),
    ('"[::1]:9148"', '"bob@host:9148"', [(19, "players.address", "expected HOST:PORT")]),
    ('"[::1]:9148"', '"[fe80::1%]:9148"', [(19, "players.address", "expected HOST:PORT")]),
    ('"[::1]:9148"', '"[fe80::1%a b]:9148"', [(19, "players.address", "expected HOST:PORT")]),
    ('"[::1]:9148"', '"fe80%eth0:9148"', [(19, "players.address", "expected HOST:PORT")]),
    ('"[::1]:9148"', '"host:65536"', [(19, "players.address", "from 1 to 65,535, found 'host:65536'")]),
    ('"[::1]:9148"', '"host:0"', [(19, "players.address", "found 'host:0'")]),
    ('address = "[::1]:9148"', 'address = "[::1]:9148"\nmem = "1G"', [(20, "players.mem", "no such key; expected one of name, address, concurrent, command, withdrawn, launcher, directory, environment, memory")]),
    ('address = "[::1]:9148"', 'address = "[::1]:9148"\nlauncher = ["srun"]', [(20, "players.launcher", "only a player with a `command` has this key")]),
    ('address = "[::1]:9148"', 'command = ["x", "{port}"]\nlauncher = []', [(20, "players.launcher", "expected at least one text"), (17, "players.command", "launcher")]),
    ('address = "[::1]:9148"', 'address = "[::1]:9148"\nmemory = "1G"', [(20, "players.memory", "only a player with a `command` has this key")]),
    ('address = "[::1]:9148"', 'address = "[::1]:9148"\ncommand = ["x", "{port}"]', [(19, "players.address", "gets its address when it is started"), (17, "players.command", "a match that a launcher starts can't reach")]),
    *(('address = "[::1]:9148"', new, [(line, f"players.{key}", words), (17, "players.command", "launcher")]) for new, line, key, words in (
        ('command = []', 19, "command", "expected at least one text"), ('command = [""]', 19, "command", "expected at least one text"),
        ('command = ["\\u0000", "{port}"]', 19, "command", "expected at least one text"), ('command = ["x"]', 19, "command", "expected {port} in the command or in the environment"), ('command = ["x", 5, "{port}"]', 19, "command", "a text in quotes"),
        *((f'command = ["x", "{{port}}"]\n{more}', 20, more.split()[0], words) for more, words in (
            ('memory = "4X"', "found '4X'"), ('memory = "1000000K"', "found '1000000K'"), ('memory = 5', "a text in quotes"), ('restart = "always"', "one of when_dead, each_match, never"),
            ("environment = 5", "a table of texts"), ('environment = {"A=" = "x"}', "expected a variable"), ("environment = {A = 5}", "expected a variable"),
            *((f"environment = {{{entry}}}", "expected a variable") for entry in ('"" = "x"', '"A\\u0000" = "x"', 'A = "\\u0000"')),
            ('directory = ""', "expected the path of a file"),
        )),
    )),
    ('"cup"', '"c p"\nplay = 0', [(1, "name", "expected a name"), (2, "play", "from 1 to 86,400, found 0")]),
    ("strikes = 3", "# \N{GREEK SMALL LETTER ALPHA}\nstrikes = x", [(4, "strikes", "Invalid value")]),
]
# Changes that put a number into GOOD, each with the line, the key and the limits.
NUMBERS = [
    ("start = 30", "start = {}", 2, "start", 1, 86_400),
    *(("strikes = 3", f"{key} = {{}}", 3, key, *limits) for key, *limits in (
        ("strikes", 0, 255), ("play", 1, 86_400), ("tries", 1, 1_000), ("wait", 0, 86_400), ("info", 1, 10),
    )),
    ("strikes = 3", "anchor = {{ann = {}}}", 3, "anchor", -10_000, 10_000),
    (GOOD[GOOD.index("strikes") : GOOD.index("\nrounds")], 'absent_rounds = {}\n[form]\nkind = "swiss"', 3, "absent_rounds", 0, 1_000),
    ("strikes = 3", "faults = {{replaced = {}}}", 3, "faults.replaced", 1, 10_000),
    ("slots = 9", "slots = {}", 4, "launcher.slots", 1, 1_024),
    ("rounds = 2", "rounds = {}", 7, "form.rounds", 1, 1_000),
    *(('file = "go.kif"', f'file = "go.kif"\n{key} = {{}}', 14, f"games.{key}", 1, most) for key, most in (("start", 86_400), ("play", 86_400), ("instantiate", 1_000_000))),
    ("concurrent = 3", "concurrent = {}", 23, "players.concurrent", 1, 1_024),
    *(('address = "[::1]:9148"', f'command = ["x", "{{{{port}}}}"]\nlauncher = ["x"]\n{key} = {{}}', 21, f"players.{key}", *limits) for key, *limits in (
        ("processors", 0, 4_096), ("start_seconds", 1, 3_600),
    )),
]
SCHEDULES = [
    ("lines = []", [(4, "form.lines", "at least one line")]),
    ('lines = ["chess ann bob",\n"chess ann dan", "checkers ann bob"]', [(5, "form.lines", "no player 'dan'"), (5, "form.lines", "no game 'checkers'")]),
    ('lines = ["chess ann bob",\n"chess ann ann"]', [(5, "form.lines", "the line names the player 'ann' twice")]),
    ('lines = ["chess ann bob",\n""]', [(5, "form.lines", "no game ''")]),
    ("lines = [1]", [(4, "form.lines", "at least one line"), (4, "form.lines", "a text in quotes")]),
]


def mistakes_of(data):
    try:
        read_competition(data)
    except Mistaken as why:
        return [(mistake.line, mistake.key, mistake.words) for mistake in why.mistakes]
    return []


class CompetitionFile(unittest.TestCase):
    def assert_told(self, text, wanted):
        found = mistakes_of(text.encode())
        self.assertEqual(sorted(mistake[:2] for mistake in found), sorted(mistake[:2] for mistake in wanted), found)
        self.assertEqual(found, sorted(found, key=lambda mistake: mistake[0]))
        for *place, words in wanted:
            self.assertTrue(any(list(mistake[:2]) == place and words in mistake[2] for mistake in found), (words, found))

    def test_reads(self):
        found = read_competition(GOOD.encode())
        self.assertEqual((found.name, found.strikes, found.launcher), ("cup", 3, Launcher(("srun", "-N1"), 9)))
        self.assertEqual([(player.name, player.place(), player.concurrent) for player in found.players][1:], [("bob", "bob@[::1]:9148", 1), ("cid", "cid@host.example:9149", 3)])
        self.assertEqual([(game.name, game.start, game.play, game.instantiate) for game in found.games], [("chess", 30, 10, 60), ("go", 30, 10, 60)])

    def test_a_player_with_a_command(self):
        started = 'command = ["x", "--at", "{port}"]\ndirectory = "d"\nenvironment = {A = "1", B = ""}\nmemory = "512M"\nprocessors = 2\nrestart = "each_match"\nstart_seconds = 30'
        here = GOOD.replace('launcher = {command = ["srun", "-N1"], slots = 9}', "")
        found = read_competition(here.replace('address = "[::1]:9148"', started).encode()).players[1]
        self.assertEqual((found.command, found.address), (Command(("x", "--at", "{port}"), (), "d", (("A", "1"), ("B", "")), 512 << 20, 2, "each_match", 30), ""))
        plain = read_competition(here.replace('address = "[::1]:9148"', 'command = ["x"]\nenvironment = {PORT = "{port}"}').encode()).players
        self.assertEqual((plain[0].command, plain[1].command), (None, Command(("x",), (), "", (("PORT", "{port}"),), 0, 0, "when_dead", 10)))
        # The matches of a launcher can reach a player that is started elsewhere.
        launched = read_competition(GOOD.replace('address = "[::1]:9148"', 'command = ["x", "{port}"]\nlauncher = ["srun", "-c4"]').encode()).players[1]
        self.assertEqual((launched.command.words, launched.command.launcher), (("x", "{port}"), ("srun", "-c4")))
        found = mistakes_of(here.replace('address = "[::1]:9148"', 'command = ["x", "{port}"]\nrestart = "each_match"\nconcurrent = 2').encode())
        self.assertEqual(found, [(20, "players.restart", "'each_match' would end the other matches of the player: it needs `concurrent = 1`")])

    def test_a_competition_by_rounds_has_an_order_of_its_own(self):
        for kind in ('"swiss"\nrounds = 3', '"knockout"'):
            self.assertEqual(mistakes_of(toml(PLAYERS, GAMES, f"kind = {kind}").encode()), [])
            found = mistakes_of(toml(PLAYERS, GAMES, f"kind = {kind}", 'order = "goals"').encode())
            self.assertEqual(found, [(2, "order", f"the kind {kind.split(chr(34))[1]} determines the order, so this key is not allowed")])
        found = mistakes_of(toml(PLAYERS, GAMES, 'kind = "knockout"', 'withdrawn_results = "void"').encode())
        self.assertEqual(found, [(2, "withdrawn_results", "a knockout can't have \"void\": the matches that a withdrawn player has won must count, since other players have lost them")])

    def test_what_players_are_told(self):
        found = read_competition(GOOD.replace('file = "go.kif"', 'file = "go.kif"\nplayer_rules = "variables"').encode())
        self.assertEqual([(game.player_rules_line, game.tells_variables()) for game in found.games], [(8, False), (14, True)])

    def test_each_mistake_is_told(self):
        for old, new, wanted in MISTAKES:
            with self.subTest(new or old):
                self.assertEqual(GOOD.count(old), 1)
                self.assert_told(GOOD.replace(old, new), wanted)

    def test_numbers_have_limits(self):
        for old, new, line, key, least, most in NUMBERS:
            with self.subTest(key):
                self.assertEqual([mistakes_of(GOOD.replace(old, new.format(number)).encode()) for number in (least, most)], [[], []])
                for number in (least - 1, most + 1):
                    self.assert_told(GOOD.replace(old, new.format(number)), [(line, key, f"from {least:,} to {most:,}, found {number}")])
        for port in (1, 65_535):
            self.assertEqual(mistakes_of(GOOD.replace("[::1]:9148", f"host:{port}").encode()), [], port)

    def test_an_address_with_its_zone(self):
        found = read_competition(GOOD.replace("[::1]", "[fe80::1%eth0.7]").encode())
        self.assertEqual(found.players[1].place(), "bob@[fe80::1%eth0.7]:9148")

    def test_the_document_has_the_limits(self):
        text = (TOP / "docs/COMPETITION.md").read_text()
        limits = [
            f"at most {MOST_OF_COMPETITION:,} bytes", f"at most {MOST_SIGNS:,} of the characters", f"at most {MOST_PLAYERS:,} players, {MOST_GAMES:,} games", f"at most {MOST_MATCHES:,} matches", f"at most {MOST_EARLIER:,} files with {MOST_OF_EARLIER:,} bytes in total", f"`rounds`, 1 to {MOST_ROUNDS:,} (1)", f"0 to {MOST_STRIKES}",
            "`tries` | 1 to 1,000 (5)", f"0 to {MOST_SECONDS:,} (10)", f"N matches at the same time, 1 to {MOST_AT_ONCE:,}, by default 4", "`concurrent = N`, 1 to 1,024",
            "`name` | 1 to 40 letters", "`name`, 1 to 64 letters",
        ]
        self.assertEqual([limit for limit in limits if limit not in text], [])

    def test_a_byte_order_mark(self):
        self.assertEqual(mistakes_of(b"\xef\xbb\xbf" + GOOD.encode()), [(1, "", "the file begins with a byte order mark, the bytes EF BB BF: remove them")])

    def test_lines_of_a_schedule(self):
        for lines, wanted in SCHEDULES:
            with self.subTest(lines):
                self.assert_told(toml(PLAYERS, GAMES, f'kind = "schedule"\n{lines}'), wanted)

    def test_a_file_has_a_greatest_size(self):
        self.assertEqual(mistakes_of(GOOD.encode().ljust(4 << 20)), [])
        self.assertEqual(mistakes_of(GOOD.encode().ljust((4 << 20) + 1)), [(1, "", "the file has more than 4,194,304 bytes")])
        for key, more in (("games", 'name = "g{0}"\nfile = "f"'), ("players", 'name = "p{0}"\naddress = "h:{1}"')):
            text = GOOD + "".join(f"[[{key}]]\n{more.format(at, at + 1)}\n" for at in range(1_000))
            (line, found, words), *others = mistakes_of(text.encode())
            self.assertEqual((line > 2_900, found, words, others), (True, key, f"expected at most 1,000 tables [[{key}]], found {1_002 + (key == 'players'):,}", []))

    def test_no_text_and_no_tables(self):
        self.assertEqual([mistake[:2] for mistake in mistakes_of(b"name = 1\n\xff")], [(2, "")])
        self.assertEqual({mistake[1] for mistake in mistakes_of(b"")}, {"name", "form", "games", "players"})
        self.assertEqual({mistake[1] for mistake in mistakes_of(b'name = "c"\ngames = 1\nplayers = []\nform = 2')}, {"form", "games", "players"})

    def test_a_message_has_a_greatest_length(self):
        long = "x" * 1_000_000
        texts = [f'name = "{long}"', f'name = "cup"\n{long} = 1', "".join(f"{at}x = 1\n" for at in range(1_000)), f"anchor = {{{long} = 1}}", f'[form]\nkind = "schedule"\nlines = ["{long} {long} {long}"]']
        texts += [f'[[games]]\nname = "{long}"\n' * 2, f'start = {"9" * 4_000}', f'[[players]]\nname = "a"\ncommand = ["{{port}}"]\nenvironment = {{"{long}=" = 1}}']
        for text in texts:
            self.assertLess(max(map(len, mistake_lines("cup.toml", raised(Mistaken, read_competition, text.encode()).mistakes).splitlines())), 1_000)
        for count, last in ((100, "f:100: key: why"), (101, "f: 1 more mistake"), (102, "f: 2 more mistakes")):
            lines = mistake_lines("f", [Mistake(line, "key", "why") for line in range(1, count + 1)]).splitlines()
            self.assertEqual((len(lines), lines[99], lines[-1]), (min(count, 101), "f:100: key: why", last))

    def test_whatever_comes_is_read_or_told(self):
        chance = random.Random(1)
        for _ in range(2000):
            data = bytearray(GOOD.encode())
            for _ in range(chance.randrange(1, 5)):
                data[chance.randrange(len(data))] = chance.randrange(256)
            try:
                found = read_competition(bytes(data))
            except Mistaken as why:
                self.assertTrue(all(mistake.line >= 1 and mistake.words for mistake in why.mistakes))
            else:
                planned(found, {game.name: 2 for game in found.games})
