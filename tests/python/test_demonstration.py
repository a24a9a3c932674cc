"""A Swiss competition of eight players over three games, from its plan to its archive; a player and a round are added later. Meanwhile a
browser shows the competition. `play` is killed twice, a match is played again, and the archive is published. Two players are bad, and one
of these two sends text that a page must not trust."""

import json
import re
import signal
import subprocess
import threading
import time

from browser import PHONE, WIDE, Browser, Page
from players import TestPlayer, example
from support import GAMES, InFolder, run, start, toml
from test_archive import files_of

HOSTILE = ("<script>document.title='1'</script>", "(</tbody></table><b>)", "\"'><img src=x onerror=document.title='2'>", "(<svg/onload=alert(1)>)", "&lt;<!--")
KINDS = {"eve": "hostile", "finn": "closing"}
NAMES, LATE = ("ann", "bob", "cid", "dora", "eve", "finn", "gus"), "zoe"
GAMES_OF_CUP = [
    ("tictactoe", GAMES / "tictactoe.kif"), ("countdown", GAMES / "countdown.kif"), ("connectfour", GAMES / "general/connectfour.kif", 'player_rules = "variables"'),
]
# The clocks are so long that none runs out during the tests. A player that does not answer INFO in time is asked again.
HEAD = "start = 3600\nplay = 3600\nstrikes = 2\nforfeit = true\ntries = 1000\nwait = 1\n"
# Three matches of the first round: the first match, one of a bad player, and the last match between the players of the first one.
FIRST, OF_EVE, OF_ANN = "cup-001", "cup-003", "cup-016"
BOARDS, BOARD = "document.getElementById('boards')", f"document.getElementById('board-{FIRST}')"
# The label of each place on the board of the first match, and its glyph.
CELLS = f"""
Object.fromEntries([...{BOARD}.querySelectorAll(".board i")].map((it) => {{
  const at = (axis) => it.style.getPropertyValue(axis);
  return [at("--x") + at("--y"), it.textContent];
}}))"""
WHILE = r"(\d+ s|\d+:\d\d:\d\d)"
SIGNS = {"x": "\u2715", "o": "\u25ef", "b": "\u00b7"}


class Hold:
    """A turn of a match. A player waits until it is released."""

    def __init__(self) -> None:
        self.reached, self.let_go = threading.Event(), threading.Event()


class Shown(TestPlayer):
    """A player of the competition. `holds` are keyed by player, match and turn."""

    def __init__(self, name: str, holds: dict[tuple[str, str, int], Hold]) -> None:
        self.holds, self.turns = holds, {}
        super().__init__(name, KINDS.get(name, "good"), len(name))

    def answer(self, message: tuple) -> str:
        if message[0] == "start":
            self.turns[message[1]] = 0
        return super().answer(message)

    def move(self, match: str, moves: object) -> str:
        self.turns[match] += 1
        move = super().move(match, moves)
        if hold := self.holds.get((self.name, match, self.turns[match])):
            hold.reached.set()
            hold.let_go.wait()
        # In the match OF_EVE, the player's first move is the first of these.
        at = int(match[-3:]) - int(OF_EVE[-3:]) + self.turns[match] - 1
        return HOSTILE[at % len(HOSTILE)] if self.kind == "hostile" else move


class Demonstration(InFolder):
    def setUp(self) -> None:
        super().setUp()
        self.holds: dict[tuple[str, str, int], Hold] = {}
        self.players = {name: Shown(name, self.holds) for name in (*NAMES, LATE)}

    # ---- the competition

    def ran(self, *words: str) -> list[str]:
        status, out, said = run(self.folder, *words)
        self.assertEqual((status, said), (0, ""), out)
        return out.splitlines()

    def write(self, names: tuple[str, ...], rounds: int) -> None:
        players = [(name, self.players[name].place()) for name in names]
        (self.folder / "competition.toml").write_text(toml(players, GAMES_OF_CUP, f'kind = "swiss"\nrounds = {rounds}', HEAD))

    def hold(self, *at: object) -> Hold:
        found = self.holds[at] = Hold()
        return found

    def play_until(self, hold: Hold) -> subprocess.Popen:
        """Starts `play`, and returns its process once a player waits."""
        playing = start(self.folder, "play", "--at-once", "4")
        self.addCleanup(playing.communicate)
        self.addCleanup(playing.kill)
        while not hold.reached.wait(0.1):
            self.assertIsNone(playing.poll(), "it ended too early")
        return playing

    def kill(self, playing: subprocess.Popen, hold: Hold) -> None:
        playing.send_signal(signal.SIGKILL)
        playing.wait()
        self.holds.clear()
        hold.let_go.set()

    # ---- the pages

    def serve(self, browser: Browser) -> Page:
        """Serves the live pages, and returns the first one in the browser."""
        self.serving = start(self.folder, "serve", "--port", "0")
        self.addCleanup(self.serving.communicate)
        self.addCleanup(self.serving.kill)
        self.browser, self.address = browser, self.serving.stdout.readline().strip()
        page = browser.page(self.address)
        page.screen(*WIDE)
        return page

    def assert_harmless(self, page: Page) -> None:
        """Checks that texts of players did no harm to a page: none of their scripts ran or had to be blocked, and no element of the page
        comes from them."""
        title = page.value("document.title")
        self.assertIn("cup", title)
        self.assertLessEqual(page.value("document.scripts.length"), 1)
        self.assertEqual(page.value("document.querySelectorAll('img, object, iframe, svg:not([role=img]), tbody b, [onload], [onerror]').length"), 0)
        self.assertEqual(self.browser.said, [])
        self.assertEqual([address for address in self.browser.asked if not address.startswith((self.address, "file://"))], [])

    def see_without_scripts(self, browser: Browser) -> Page:
        """Returns the first page in a browser that runs no scripts."""
        page = browser.page("about:blank")
        page.tell("Emulation.setScriptExecutionDisabled", value=True)
        page.go(self.address)
        return page

    def look_at_an_open_match(self, page: Page) -> None:
        """Checks the first page while one player of a match is thinking."""
        self.await_turn(page, 3)
        self.assertIn("ann (xplayer), bob (oplayer)", page.value(f"{BOARD}.innerText"))
        self.assertRegex(page.value(f"document.getElementById('open-{FIRST}').innerText"), rf"ann, bob\s+3\s+xplayer to move: ann\s+{WHILE}")
        # The page shows the state where the player must move.
        terms = [example.show(term).strip("()").split() for term in self.players["ann"].matches[FIRST][2]]
        self.assertEqual(page.value(CELLS), {term[1] + term[2]: SIGNS[term[3]] for term in terms if term[0] == "cell"})
        page.screen(*PHONE)
        for what in (f"#board-{FIRST} .board", "#standings th:nth-child(4)"):
            self.assertLessEqual(page.value(f"document.querySelector('{what}').getBoundingClientRect().right"), PHONE[0], what)
        page.screen(*WIDE)

    def await_turn(self, page: Page, turn: int) -> None:
        """Waits, without reloading, until the first page says whose turn it is."""
        page.until(f"({BOARD} || document.head).textContent.includes('after turn {turn - 1}; xplayer to move: ann (')")
        self.assertTrue(page.value("window.isFirst"))

    def go_by_keyboard(self, page: Page, hold: Hold) -> None:
        """Moves the focus to the match, link by link. The focus must stay when the board changes, and Enter must open the page of the
        match."""
        found = []
        while not found or found[-1][1] != f"matches/{FIRST}.html":
            page.press("Tab")
            found.append(page.reached())
            self.assertTrue(found[-1][2], found)
        self.assertEqual([at for at, _, _ in found], list(range(len(found))))
        hold.let_go.set()
        self.await_turn(page, 5)
        self.assertEqual(page.reached(), found[-1])
        page.press("Enter")
        text = page.until(f"location.pathname === '/matches/{FIRST}.html' && document.readyState === 'complete' && document.body.innerText")
        self.assertIn(f"Match {FIRST}: ann (xplayer), bob (oplayer)", text)
        self.assertRegex(text, rf"The match is open; xplayer to move: ann \({WHILE}\)\.\s+After turn 4: xplayer to move")
        self.assertEqual(page.unreadable(), [])
        # A focused place of the board has its label as text, even if it shows a glyph.
        while not re.match(r"\d \d: [xo]$", page.reached()[1]):
            page.press("Tab")
        self.assertEqual(json.loads(page.value("getComputedStyle(document.activeElement, '::after').content")), page.reached()[1])

    def look_at_pages(self, page: Page, address: str) -> None:
        """Checks each kind of page that shows texts of players."""
        for path in ("index", "matches", "games/connectfour", "players/player-eve", "players/player-ann", f"matches/{OF_EVE}"):
            page.go(f"{address}{path}.html")
            self.assert_harmless(page)
            self.assertEqual(page.unreadable(), [])
            if path in ("players/player-eve", f"matches/{OF_EVE}"):
                self.assertIn(HOSTILE[0], page.text(), path)

    # ---- from the plan to the archive

    def test_it(self) -> None:
        began = time.monotonic()
        self.write(NAMES, 1)
        self.assertEqual(self.ran("plan")[-2:], ["round 1 of 1: cup-001 to cup-018; bye: gus", "schedule.tsv: 18 matches of 7 players"])
        with Browser() as browser:
            page = self.serve(browser)
            still = self.see_without_scripts(browser)
            self.assertIn("0 of 18 matches are over.", page.text())
            self.watch_first_run(page)
            self.watch_second_run(page)
            self.dispute()
            self.grow(page)
            still.until("document.body.innerText.includes('42 of 42 matches are over.')")
            still.close()
            self.publish(page)
        print(f"43 matches of eight players, watched, killed twice and disputed, in {time.monotonic() - began:.0f} s", flush=True)

    def watch_first_run(self, page: Page) -> None:
        # Reloading the page would remove this variable.
        page.value("window.isFirst = true")
        hold, next_hold = self.hold("ann", FIRST, 3), self.hold("ann", FIRST, 5)
        playing = self.play_until(hold)
        self.look_at_an_open_match(page)
        self.go_by_keyboard(page, hold)
        page.go(self.address)
        self.kill(playing, next_hold)
        page.until("document.getElementById('now').innerText.includes('play is not running')")

    def watch_second_run(self, page: Page) -> None:
        hold = self.hold("ann", OF_ANN, 2)
        playing = self.play_until(hold)
        page.until(f"{{}}.textContent.includes('{OF_ANN}') && document.getElementById('replaced').innerText.includes('<script>')".format(BOARDS))
        self.look_at_pages(page, self.address)
        page.go(self.address)
        self.kill(playing, hold)

    def dispute(self) -> None:
        """Asks what happened to a player, and has a match played again."""
        said = "\n".join(self.ran("why", ".", OF_EVE, "eve"))
        self.assertRegex(said, r"turn 2: PLAY was answered `.*not a legal move.*turn 2 in a row without a move of its own, so it is retired\.")
        self.assertEqual(self.ran("why", ".", OF_ANN, "ann")[-1], "the match has no record that counts")
        again = self.ran("again", FIRST, "--reason", "the power of ann's machine was out")
        self.assertEqual(again, [f"cup-019 tictactoe ann bob replaces {FIRST}"])

    def grow(self, page: Page) -> None:
        """Adds a player and a round, plays to the end, and checks that the page shows this."""
        page.value("window.isFirst = true")
        self.write((*NAMES, LATE), 2)
        self.assertIn("8 players", self.ran("plan")[-1])
        page.until("!window.isFirst")
        out = self.ran("play", "--at-once", "4")
        self.assertIn("round 2 of 2: cup-020 to cup-043", "\n".join(out))
        self.assertEqual(out[-1], "42 of 42 matches have a lawful record; 1 match does not count")
        page.until("document.body.innerText.includes('42 of 42 matches are over.')")
        self.assertRegex(page.value("document.getElementById('standings').innerText"), rf"\d\s+{LATE}\s+6\s")

    def publish(self, page: Page) -> None:
        """Publishes and checks, and compares the pages of the archive with the live ones."""
        self.ran("publish", "--to", "published.tar.gz")
        self.assertIn("43 records and call logs, the table and the pages are right", self.ran("check", "published.tar.gz")[0])
        standings = page.value("document.getElementById('standings').innerText")
        self.serving.terminate()
        page.until("!document.getElementById('lost').hidden")
        # The page reports that the server is gone.
        page.go("about:blank")
        self.browser.said.clear()
        for name, data in files_of(self.folder / "published.tar.gz").items():
            file = self.folder / "unpacked" / name
            file.parent.mkdir(parents=True, exist_ok=True)
            file.write_bytes(data)
        address = f"{(self.folder / 'unpacked/cup/pages').as_uri()}/"
        self.look_at_pages(page, address)
        page.go(f"{address}index.html")
        self.assertEqual(page.value("document.getElementById('standings').innerText"), standings)
        self.assertIn(f"{FIRST} does not count: cup-019 replaces it", page.text())
