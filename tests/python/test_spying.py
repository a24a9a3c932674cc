"""During an open turn, the live pages show a player nothing about the answers of other players, not even that other players have answered."""

import contextlib
import dataclasses
import itertools
import os
import re
import stat
import tempfile
import threading
from collections import Counter
from dataclasses import dataclass
from unittest.mock import Mock, patch

from ggp_tools.competition import live, live_api, live_board, live_site
from ggp_tools.competition.competition_file import WHEN_DEAD
from ggp_tools.competition.files import STAGES
from ggp_tools.competition.live_site import LiveSite
from ggp_tools.match_log import Host, line_of
from ggp_tools.referee import Referee
from hypothesis import given, settings
from hypothesis import strategies as st
from live_support import SILENT, Missed, begin, line, opened, plan_in
from players import TestPlayer
from support import GAMES, InFolder, program, start
from test_serving import Served

# The possible answers: a legal move contains text that occurs nowhere else. A legal move follows each replaced one, so that no role is retired.
LEGAL = "(say zq{0}x{1})"
ILLEGAL = ("(bad zq{0}x{1})", "zq{0}x{1} ((", "(say zq{0}x{1})?", SILENT, Missed("CE (no connection)"), "lost (zq{0}x{1})", "zq{0}x{1}".ljust(400, "y"))
ANSWERS = (LEGAL, "; zq{0}x{1}\n(say zq{0}x{1})", *(answer for illegal in ILLEGAL for answer in (illegal, LEGAL)))


def filled(answer: str, turn: int, role: int) -> str:
    """Returns an answer for a turn and a role."""
    return answer if isinstance(answer, Missed) else answer.format(turn, role)


NAMES = ["ann", "bob", "cid"]


def rules_of(roles: tuple[str, ...]) -> bytes:
    """Returns a game where all roles say something at once. The next state shows what they said."""
    legal = "".join(f"(legal {role} (say zq{turn}x{at}))" for at, role in enumerate(roles) for turn in range(1, 20))
    said = "".join(f"(role {role}) (<= (next (said {role})) (does {role} (say zq1x0))) (goal {role} 50)" for role in roles)
    return f"(init (step 1)) {said} {legal}".encode()


class Spying(Served):
    STRIKES = "strikes = 2\n"

    def begin_with(self, roles):
        """Serves a competition of a game with this many roles, instead of the default one."""
        room = tempfile.TemporaryDirectory()
        self.addCleanup(room.cleanup)
        named = tuple(f"r{at}" for at in range(roles))
        self.plan = plan_in(room.name, NAMES, head=self.STRIKES, rules=rules_of(named), roles=named)
        self.site = self.server.site = LiveSite(self.plan, Referee(program()), lambda: self.plan)
        self.match = self.plan.matches[0]
        self.log = begin(self.plan, self.match)
        self.site.update()

    def all_pages(self):
        """Returns everything that `serve` sends, except for the time of day and the number of visitors."""
        paths = ["/", "/index.html", "/matches.html", "/games/heap.html", *(f"/matches/{match.id}.html" for match in self.plan.matches)]
        paths += [f"/players/player-{name}.html" for name in NAMES]
        paths += ["/api/table", "/api/matches", *(f"/api/matches/{match.id}" for match in self.plan.matches), "/metrics"]
        return {path: re.sub('data-now="[^"]*"|"now": [0-9.]*|ggp_serve_.*', "", self.page(path)) for path in paths}

    def lines(self, number, message, answers):
        return [line(self.match, role, number, message, answer) for role, answer in enumerate(answers)]

    def assert_nothing_is_shown_before_the_last(self, lines):
        """Writes these answers of a round to the log one by one. Returns all pages after the last one."""
        # `serve` draws a board only after somebody has opened its page.
        self.all_pages()
        self.site.update()
        before = self.all_pages()
        events = [self.events(before[path]) for path in ("/", f"/matches/{self.match.id}.html")]
        for text in lines[:-1]:
            self.say(self.log, text)
            self.assertEqual(self.all_pages(), before, text)
        self.say(self.log, lines[-1])
        after = self.all_pages()
        # The first event of a page is the end of the round. An open page shows the same data as a new one.
        for answer, path in zip(events, ("/", f"/matches/{self.match.id}.html")):
            self.assertNotEqual(after[path], before[path])
            told = str(self.next_event(answer))
            new = set(re.findall("zq[0-9x]+", after[path])) - set(re.findall("zq[0-9x]+", before[path]))
            self.assertEqual([word for word in new if word not in told], [])
            answer.close()
        return after

    def start(self):
        return f"(START {self.match.id} ... 10 5)"

    def test_nothing_of_an_open_round_is_served(self):
        for roles in (2, 3):
            self.begin_with(roles)
            self.assert_nothing_is_shown_before_the_last(self.lines(1, self.start(), ["ready", "zq0x1", "ready"][:roles]))
            moves = "NIL"
            for turn, answer in enumerate(ANSWERS, 1):
                with self.subTest(roles=roles, answer=answer):
                    answers = [filled(text, turn, role) for role, text in enumerate([*[answer] * (roles - 1), LEGAL])]
                    after = self.assert_nothing_is_shown_before_the_last(self.lines(turn + 1, f"(PLAY {self.match.id} {moves})", answers))
                    self.assertIn(f"zq{turn}x{roles - 1}", after[f"/matches/{self.match.id}.html"])
                moves = f"({' '.join(f'(say zq{turn}x{role})' for role in range(roles))})"

    def test_late_in_a_turn_it_is_named_who_is_awaited_and_nothing_else(self):
        shown = set()
        for answer in (*ILLEGAL, *ANSWERS[:2]):
            self.begin_with(3)
            self.say(self.log, "".join(self.lines(1, self.start(), ["ready"] * 3)))
            self.say(self.log, self.lines(2, f"(PLAY {self.match.id} NIL)", [filled(answer, 1, 0)])[0])
            seen = self.site.reader.open[self.match.id]
            seen.since = seen.began = 0.0
            self.site.update()
            pages = self.all_pages()
            self.assertIn(f"{self.match.players[1]}</a>, <a", pages[f"/matches/{self.match.id}.html"])
            shown.add(re.sub("after=[^\"]*|zq1x0|cid</a>|, [0-9] ms", "", str(pages)).replace("zq1", ""))
        self.assertEqual(len(shown), 1)


@dataclass(frozen=True)
class Step:
    """A step of a match: a role answers, and events follow until the next step. `text` is the line that is written to the log for the answer. If the
    line is lost, `text` is an empty string. `needed` is the number of answers that the round needs. The events are: time passes, `serve` restarts, or
    the directory is read, with or without questions to the referee."""

    run: int
    round: int
    needed: int
    text: str
    seconds: float
    is_served_anew: bool
    looks: tuple[bool, ...]


ANSWER = st.sampled_from((LEGAL, LEGAL, *ILLEGAL))
# The log gives the time of day of the host, which may be wrong, or no time.
TIMES = st.sampled_from((None, 0, 1_000, 1_795_000_000_000, 9_000_000_000_000))


@st.composite
def steps(draw, match, strikes):
    """Yields the steps of a match. The match may be aborted within a turn, and may begin again. Its roles answer in any order."""
    found, number = [], itertools.count()
    for run in range(draw(st.integers(1, 2))):
        rounds = [(1, [line_of(Host(match.id, "h")).decode()])] if run and draw(st.booleans()) else []
        for needed, lines in (*rounds, *draw(rounds_of(match, strikes))):
            at = next(number)
            for text in lines:
                text, seconds = text if draw(st.integers(0, 11)) else "", draw(st.sampled_from((0.0, 1.0, 7.0)))
                looks = tuple(draw(st.lists(st.booleans(), max_size=2)))
                found.append(Step(run, at, needed, text, seconds, draw(st.integers(0, 5)) == 5, looks))
    return found


@st.composite
def rounds_of(draw, match, strikes):
    """Yields the rounds of a run: the number of roles that must answer, and the lines of the roles that do, in order."""
    roles, missed = range(len(match.players)), Counter()

    def said(number, message, role, answer):
        return line(match, role, number, message, answer, 5, draw(TIMES))

    lines = [said(1, f"(START {match.id} ... 600 600)", role, "ready") for role in draw(st.permutations(roles))]
    rounds = [(1, [opened(match)]), (len(roles), lines)]
    for turn in range(1, draw(st.integers(0, 3)) + 1):
        playing = [role for role in draw(st.permutations(roles)) if not strikes or missed[role] < strikes]
        if not playing:
            break
        answers = {role: draw(ANSWER) for role in playing}
        for role, answer in answers.items():
            missed[role] = 0 if answer == LEGAL else missed[role] + 1
        rounds.append((len(playing), [said(turn + 1, f"(PLAY {match.id} x)", role, filled(answer, turn, role)) for role, answer in answers.items()]))
    if draw(st.booleans()):
        # Some roles do not answer the last turn, and all are sent ABORT.
        needed, lines = rounds.pop()
        rounds.append((needed, lines[: draw(st.integers(0, needed - 1))]))
        rounds.append((len(roles), [said(len(rounds) + 1, f"(ABORT {match.id})", role, "done") for role in draw(st.permutations(roles))]))
    return rounds


class Desk:
    """A fake desk for the game where all roles may always say something, because the real one would be too slow for many tests."""

    def desk(self, _, script):
        first, *calls = (row.split(" ", 4) for row in script.decode("latin-1").splitlines() if not row.startswith("next "))
        strikes, roles = int(first[4].split()[1]), len(first[4].split()) - 2
        answers = {(int(at), int(role)): word == "submit" and (at == "0" or bool(re.fullmatch(r"\(say \w+\) *", rest[0]))) for word, _, role, at, *rest in calls}
        errors, missed, at = [], Counter(), 0
        playing = set(range(roles))
        while playing and all((at, role) in answers for role in playing):
            if at:
                errors.append(["RT" if role not in playing else "" if answers[at, role] else "IL x" for role in range(roles)])
                missed = Counter({role: 0 if not error else missed[role] + 1 for role, error in enumerate(errors[-1])})
                playing = {role for role in playing if not strikes or missed[role] < strikes}
            at += 1
        phase = "starting" if not at else "playing" if playing else "aborting"
        record = {"phase": phase, "errors": errors, "moves": [[f"(say zq{turn}x{role})" for role in range(roles)] for turn in range(1, len(errors) + 1)]}
        replies = ["opened", *("taken" for _ in calls), *("owe x" if role in playing or not playing else "hold" for role in range(roles))]
        # Every second state says whose turn it is, although all roles may say something.
        states = [[f"(step {turn})", f"(control r{turn // 2 % roles})"][: 1 + turn % 2] for turn in range(len(errors) + 1)]
        return replies, record | {"states": states, "roles": [f"r{role}" for role in range(roles)]}

    def taking(self, _):
        return self


class Watched:
    """A match in a directory, and everything that `serve` sends about it."""

    def __init__(self, room, head, roles, delay):
        self.plan, self.delay = plan_in(room, NAMES, head=head, rules=rules_of(roles), roles=roles), delay
        players = tuple(dataclasses.replace(player, command=Mock(restart=WHEN_DEAD)) for player in self.plan.competition.players)
        self.plan.competition = dataclasses.replace(self.plan.competition, players=players)
        self.log = begin(self.plan, self.plan.matches[0])
        self.serve()
        first = self.plan.matches[0]
        self.paths = ["/index.html", f"/matches/{first.id}.html", f"/players/player-{first.players[0]}.html"]
        self.data = ["/api/table", "/api/matches", f"/api/matches/{first.id}", "/metrics"]

    def serve(self):
        """Begins to serve, as another process would."""
        self.site = LiveSite(self.plan, Desk(), lambda: self.plan, delay=self.delay)
        self.site.versions = itertools.count()

    def restart(self):
        """Notes in the journal that a player of the match was started again, for another match."""
        with open(self.plan.folder.journal, "a") as journal:
            journal.write(f"2026-01-02T03:04:05.000Z restart {self.plan.matches[1].id} {self.plan.matches[0].players[0]}: process 7, port 8\n")

    def look(self, is_judged):
        self.site.reader.next_advance = 0.0 if is_judged else float("inf")
        self.site.update()
        assert not self.site.reader.troubles_of_matches()

    def served(self):
        """Returns all pages and the data for programs, and the events of open pages."""
        pages = {path: self.site.page(path) for path in self.paths} | {path: self.site.data(path) for path in self.data}
        self.site.opened(live_api.FEED)
        for page in self.site.pages.values():
            page.viewers = 1
        return pages, {path: page.events for path, page in self.site.pages.items()}


class Whatever(InFolder):
    """Compares two sites that differ only in unfinished rounds: the log of one site lacks these answers, and its journal lacks the restart
    of a dead player."""

    @settings(max_examples=40)
    @given(st.data(), st.integers(2, 3), st.sampled_from((0, 2)), st.sampled_from((0, 0, 5.5)), st.sampled_from((1 << 20, 1 << 20, 700)))
    def test_what_is_served_follows_from_finished_rounds(self, data, roles, strikes, delay, most_of_script):
        names = tuple(f"r{at}" for at in range(roles))
        head = f"start = 600\nplay = 600\n{f'strikes = {strikes}' if strikes else ''}"
        self.moment, self.ticks = 1_000_000.0, itertools.count()

        def clock():
            """Returns a time that advances even while the directory is read."""
            return self.moment + next(self.ticks) * 1e-6

        with contextlib.ExitStack() as patches:
            for module, name, value in (
                (live, "clock", clock), (live, "SHARE", 0), (live, "REFEREE_SHARE", 0), (live_site, "FOLLOW", 1e9),
                (live_board, "MOST_OF_SCRIPT", most_of_script), (live.time, "time", lambda: self.moment),
            ):
                patches.enter_context(patch.object(module, name, value))
            one, other = (Watched(patches.enter_context(tempfile.TemporaryDirectory()), head, names, delay) for _ in range(2))
            counts, held = Counter(), {}
            taken = data.draw(steps(one.plan.matches[0], strikes))
            begins = [at for at, step in enumerate(taken) if step.needed > 1 and step.round != taken[at - 1].round]
            restart = data.draw(st.sampled_from([len(taken), *begins]))
            for at, step in enumerate(taken):
                if at == restart:
                    one.restart()
                counts[step.round] += 1
                held.setdefault(step.round, []).append(step.text)
                with open(one.log, "a") as log:
                    log.write(step.text)
                if counts[step.round] == step.needed:
                    with open(other.log, "a") as log:
                        log.write("".join(held.pop(step.round)))
                if at >= restart and (step.run > taken[restart].run or counts[taken[restart].round] == taken[restart].needed):
                    # The round of the restart is over, so one site may show the restart.
                    break
                if step.is_served_anew or at == restart and data.draw(st.booleans()):
                    one.serve()
                    other.serve()
                self.moment += step.seconds
                for is_judged in (*step.looks, True, True) if at == restart else step.looks:
                    for site in (one, other):
                        self.ticks = itertools.count()
                        site.look(is_judged)
                    self.assertEqual(one.served(), other.served())


class Files(InFolder):
    def test_what_an_open_match_was_answered_is_for_its_owner(self):
        players = [TestPlayer(name) for name in ("ann", "bob")]
        entrants = [(player.name, player.place()) for player in players]
        self.plan(entrants, [("roshambo", GAMES / "roshambo.kif")], head="start = 600\nplay = 600")
        found, held = {}, threading.Event()
        move = players[0].move

        planned = set(self.folder.rglob("*"))

        def look(*message):
            found.update({path: path.stat() for path in {self.folder / "open", *self.folder.rglob("*")} - planned})
            held.set()
            return move(*message)

        players[0].move = look
        before = os.umask(0o022)
        try:
            with start(self.folder, "play", "--at-once", "1") as playing:
                self.assertEqual((playing.communicate(), playing.returncode), (playing.communicate(), 0))
        finally:
            os.umask(before)
        self.assertTrue(held.is_set())
        self.assertLessEqual({"log.jsonl", "play.log"}, {path.name for path in found})
        # The addresses of the players and the stage of the match do not depend on answers, and a match whose record is checked is over.
        others = [path for path, status in found.items() if status.st_mode & (stat.S_IRWXG | stat.S_IRWXO)]
        self.assertLessEqual({path.name for path in others if path.parent.parent == self.folder / "open"}, {"players", "record", "account", *STAGES})
        others = {path.relative_to(self.folder).parts[0] for path in others if path.parent.parent != self.folder / "open"}
        self.assertLessEqual(others, {"records", "accounts", "logs"})
        for player in players:
            player.leave()
