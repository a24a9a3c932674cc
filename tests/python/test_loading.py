"""How descriptions are loaded, and the errors for invalid ones."""

import hashlib
import os
import pathlib
import subprocess
from unittest import mock

from ggp_tools.descriptions import loading
from ggp_tools.instantiating.limits import LARGE_NOTE
from ggp_tools.descriptions.loading import NoDescription, Stopped, load_described, load_description, notes_of, read_text
from ggp_tools.referee import BadRules
from support import InFolder, raised

GROUND = b"; a comment\n(role x) (init a) (legal x m) (<= (next a) (true a)) (goal x 1)\n"
DEPENDS = "legal depends on does: (<= (legal x ?m) (does x ?m)); let `next` record what the moves did, and read that with `true`"
OPEN = b"(role x) (init a) (legal x m) (<= (next ?t) (true ?t)) (goal x 1)\n"


class Takes:
    """A fake referee. It accepts each text, or refuses each text, or refuses each text only with the usual limits."""

    def __init__(self, why=None, is_large=False, also_large=True):
        self.why, self.asked, self.is_large, self.also_large = why, [], is_large, also_large

    def taking(self, is_large):
        found = Takes(self.why, is_large, self.also_large)
        found.asked = self.asked
        return found

    def roles(self, text, name):
        self.asked.append((text, name))
        if self.why and (self.also_large or not self.is_large):
            raise BadRules(self.why)
        return ("x",)


def arguments(command):
    """Returns the arguments of a command that runs the module for grounding."""
    return command[command.index("ggp_tools.instantiating.command") + 1 :]


class Loading(InFolder):
    def setUp(self):
        super().setUp()
        self.enterContext(mock.patch.dict(os.environ, {"XDG_CACHE_HOME": str(self.folder / "cache")}))
        self.path, self.beside = self.folder / "-game.kif", self.folder / "beside.kif"
        self.runs, self.made = [], (GROUND, b"", 0)

    def load(self, text, told=False, referee=None, seconds=60):
        self.path.write_bytes(text)
        return load_description(self.path, referee or Takes(), told, seconds)

    def described(self, ground, text, told=False):
        self.path.write_bytes(ground)
        self.beside.write_bytes(text)
        return load_described(self.path, self.beside, Takes(), told)

    def instead(self):
        """Replaces the result of `ggp-instantiate`."""
        def run(words, **more):
            self.runs.append(words)
            out, said, status = self.made
            for at, word in enumerate(words):
                if word == "--player-rules":
                    pathlib.Path(words[at + 1]).write_bytes(b"(told ?x)\n")
            return subprocess.CompletedProcess(words, status, out, said)

        return mock.patch("ggp_tools.descriptions.loading.subprocess.run", run)

    def assert_refused(self, words, ask, *asked, kind=NoDescription):
        why = raised(NoDescription, ask, *asked)
        self.assertEqual((str(why), type(why)), (words, kind))

    def test_ground_rules_are_taken_as_they_are(self):
        referee = Takes()
        found, total = self.load(GROUND, True, referee), hashlib.sha256(GROUND).hexdigest()
        self.assertEqual((found.text, found.sum, found.roles, found.player_rules, found.description_sum, found.notes), (GROUND, total, ("x",), None, total, ()))
        self.assertEqual(referee.asked, [(GROUND, self.path)])
        self.assert_refused("line 1, column 1: bad", self.load, GROUND, False, Takes("line 1, column 1: bad"))

    def test_a_description_with_variables_is_instantiated_once(self):
        self.made = (b"; folded\n; and more\n" + GROUND[12:] + b"; no note\n", b"", 0)
        with self.instead():
            found = [self.load(OPEN, seconds=7) for _ in range(2)]
            self.assertEqual((found[0].text, found[0].notes, found[1].notes), (found[1].text, ("folded", "and more"), ("folded", "and more")))
            self.assertEqual((found[1].text, found[1].sum), (self.made[0], hashlib.sha256(self.made[0]).hexdigest()))
            self.assertEqual((found[1].description_sum, found[1].player_rules), (hashlib.sha256(OPEN).hexdigest(), None))
            self.assertEqual([arguments(words) for words in self.runs], [["--seconds=7", str(self.path)]])
            self.assertEqual([self.load(OPEN, True).player_rules for _ in range(2)], [b"(told ?x)\n"] * 2)
            self.assertEqual((len(self.runs), arguments(self.runs[1])[:2]), (2, ["--seconds=60", "--player-rules"]))
            # With the limits for large games, the result may be different.
            found = [self.load(OPEN, referee=Takes(is_large=True)).is_large for _ in range(2)]
            self.assertEqual((found, [arguments(words) for words in self.runs[2:]]), ([True] * 2, [["--seconds=60", "--large", str(self.path)]]))

    def test_why_nothing_was_made(self):
        for said, status, words, kind in (
            (b"ggp-instantiate: too large\n", 1, "ggp-instantiate: too large", NoDescription), (b"", 3, "ggp-instantiate ended with status 3", NoDescription),
            (b"a line\n  largest: sentence 1\n  largest: sentence 2\nggp-instantiate: past a limit\n", 1, "largest: sentence 1\nlargest: sentence 2\nggp-instantiate: past a limit", NoDescription),
            (b"so far:\n  largest: x\nggp-instantiate: stopped after 60 s\n", 1, "largest: x\nggp-instantiate: stopped after 60 s", Stopped),
        ):
            self.made = (b"", said, status)
            with self.instead():
                self.assert_refused(words, self.load, OPEN, kind=kind)

    def test_what_the_referee_refuses_of_rules_that_were_made(self):
        with self.instead():
            self.assert_refused("its ground rules, made by ggp-instantiate: line 2, column 1: bad", self.load, OPEN, False, Takes("line 2, column 1: bad"))

    def test_texts_that_are_no_descriptions(self):
        for text, words in (
            (b"", "line 1, column 1: there is no sentence"), (b" ; (\n", "line 1, column 1: there is no sentence"), (b"(role x)\n (a", "line 2, column 2: a list that is not closed; add a `)`"),
            (b"(role x)\n\n  (<= (legal x ?m) (does x ?m))", f"line 3, column 3: {DEPENDS}"),
        ):
            self.assert_refused(words, self.load, text)

    def test_a_file_is_read_up_to_its_limit(self):
        self.path.write_bytes(b"x" * (16 << 20))
        self.assertEqual(len(read_text(self.path)), 16_777_216)
        self.path.write_bytes(b"x" * ((16 << 20) + 1))
        self.assert_refused("it has 16,777,217 bytes; at most 1,048,576 are accepted, or 16,777,216 with --large", read_text, self.path)
        self.assert_refused("it can't be read: No such file or directory", read_text, self.folder / "none")
        self.assert_refused("it can't be read: Is a directory", read_text, self.folder)

    def test_variables_are_words_that_begin_with_a_question_mark(self):
        for text, has in ((b"(p ?x)", True), (b"(p x?)", False), (b"; ?x\n(p a)", False), (b"(p a?b)", False), (b"?", True)):
            self.assertEqual(loading.has_variables(text), has, text)

    def test_what_the_usual_limits_do_not_suffice_for_is_taken_by_those_for_large_games(self):
        noted = b"; %s\n%s" % (LARGE_NOTE.encode(), GROUND)
        for text, why, is_large, notes, asked in ((GROUND, None, False, (), 1), (GROUND, "too long", True, (LARGE_NOTE,), 2), (noted, None, True, (), 1)):
            referee = Takes(why, also_large=False)
            found = self.load(text, referee=referee)
            self.assertEqual((found.is_large, found.notes, len(referee.asked)), (is_large, notes, asked))

    def test_notes_stand_at_the_head_alone(self):
        self.assertEqual((notes_of(b"; a\n; b\n(role x)\n; c\n"), notes_of(b"(role x)\n; c\n"), notes_of(b";a\n")), (("a", "b"), (), ()))

    def test_ground_rules_with_a_description_beside_them(self):
        found = self.described(GROUND, OPEN)
        self.assertEqual((found.text, found.player_rules, found.description_sum, found.notes), (GROUND, None, hashlib.sha256(OPEN).hexdigest(), ()))
        told = self.described(GROUND, OPEN, True).player_rules
        self.assertEqual(told.splitlines(), [b"(role x)", b"(init a)", b"(legal x m)", b"(<= (next ?t) (true ?t))", b"(goal x 1)", b"(base a)", b"(input x m)"])

    def test_which_two_files_do_not_fit(self):
        self.assert_refused("it has variables, so it needs no other description", self.described, OPEN, OPEN)
        self.assert_refused(f"its description {self.beside} has no variables", self.described, GROUND, GROUND)
        self.assert_refused("line 1, column 1: there is no sentence", self.described, b"", OPEN)
        self.assert_refused(f"its description {self.beside}: line 1, column 1: there is no sentence", self.described, GROUND, b"")
        self.assert_refused(f"its description {self.beside}: line 1, column 1: {DEPENDS}", self.described, GROUND, b"(<= (legal x ?m) (does x ?m))")

    def test_the_text_for_players_has_a_limit_too(self):
        size = len(self.described(GROUND, OPEN, True).player_rules)
        self.assertGreater(size, len(GROUND))
        with mock.patch.object(loading, "MOST_BYTES_FOR_PLAYERS", size):
            self.described(GROUND, OPEN, True)
        with mock.patch.object(loading, "MOST_BYTES_FOR_PLAYERS", size - 1):
            self.assert_refused(f"the text for players has more than {size - 1} bytes", self.described, GROUND, OPEN, True)
