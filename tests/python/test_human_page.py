"""A person plays in a browser, by clicks on the board and by the keyboard. Hostile rules cannot harm the page."""

import threading
import unittest

from ggp_tools.human.seat import Seat
from ggp_tools.human.server import Server
from browser import HANGS, Browser, Page
from support import GAMES

RULES = (GAMES / "tictactoe.kif").read_text(encoding="ascii")
EVIL = "<img/src=x/onerror=document.title=1>"
HOSTILE = f"(role {EVIL}) (init (cell 1 1 {EVIL})) (init (cell 2 2 b)) (init </script><b>) (legal {EVIL} {EVIL}) (legal {EVIL} <script>document.title=1</script>)"
# A piece moves, and may become one of two others.
PROMOTING = "(role a) (init (cell 1 1 pawn)) (init (cell 2 2 none)) (legal a pass) (legal a (move 1 1 2 2 queen)) (legal a (move 1 1 2 2 rook)) terminal (goal a 100)"
# Hex on nine places. A player may swap instead of placing a stone.
HEX = f"""(role red) (role blue) {' '.join(f'(p {x} {y})' for x in (1, 2, 3) for y in (1, 2, 3))} (init (cell 1 1 none)) (init (cell 3 3 none))
(<= (next (cell ?x ?y red)) (does red (place ?x ?y))) (<= (next (cell ?x ?y ?c)) (true (cell ?x ?y ?c)))
(<= (legal red (place ?x ?y)) (p ?x ?y) (not (true (cell ?x ?y red)))) (legal red swap) (legal blue noop)
(<= terminal (true (cell 1 1 blue))) (goal red 50) (goal blue 50)"""
MOVE = "document.querySelector('#moves button')"
CELLS = "[...document.querySelectorAll('.board button')]"


class InBrowser(unittest.TestCase):
    def setUp(self) -> None:
        self.seat, self.answers, self.sender = Seat(), [], ""
        server = Server(("127.0.0.1", 0), self.seat)
        threading.Thread(target=server.serve_forever, daemon=True).start()
        self.addCleanup(server.server_close)
        self.addCleanup(server.shutdown)
        self.browser = self.enterContext(Browser())
        self.page = self.browser.page(f"http://127.0.0.1:{server.server_address[1]}{server.page}")

    def ask(self, text: str) -> threading.Thread:
        """Lets the seat answer a message in another thread, as the server does with messages from the referee."""
        thread = threading.Thread(target=lambda: self.answers.append(self.seat.answer(text, sender=self.sender)), daemon=True)
        thread.start()
        return thread

    def answered(self, asked: threading.Thread) -> str | None:
        asked.join(HANGS)
        return self.answers.pop()

    def begin(self, role: str, rules: str) -> Page:
        self.assertEqual(self.answered(self.ask(f"(START M {role} ({rules}) {HANGS} {HANGS})")), "ready")
        return self.page

    def cells(self) -> dict[str, str]:
        """Returns the text that the board shows at each place."""
        return dict(self.page.value(f"{CELLS}.map((cell) => [cell.title, cell.innerText.trim()])"))

    def test_a_person_plays_by_mouse_and_by_keyboard(self) -> None:
        page = self.begin("xplayer", RULES)
        asked = self.ask("(PLAY M NIL)")
        page.until("document.querySelectorAll('.board button.can').length === 9")
        self.assertIn("Match M, turn 1: you are xplayer", page.text())
        page.until("/^[0-9]+ of [0-9]+ s$/.test(document.getElementById('clock').textContent)")
        self.assertEqual(set(self.cells().values()), {"\u00b7"})
        self.assertEqual(page.unreadable(), [])
        page.click(f"{CELLS}.find((cell) => cell.title.startsWith('2 2'))")
        self.assertEqual(self.answered(asked), "(mark 2 2)")
        # If there is only one legal move, it is made without asking.
        self.assertEqual(self.answered(self.ask("(PLAY M ((mark 2 2) noop))")), "noop")
        asked = self.ask("(PLAY M (noop (mark 1 3)))")
        page.until("document.querySelectorAll('.board button.can').length === 7")
        shown = self.cells()
        self.assertEqual((shown["2 2: x"], shown["1 3: o"]), ("\u2715", "\u25ef"))
        self.go_to(page, "3 1: b")
        page.press("Enter")
        self.assertEqual(self.answered(asked), "(mark 3 1)")
        # The filter leaves only the moves that match the typed text.
        self.assertEqual(self.answered(self.ask("(PLAY M ((mark 3 1) noop))")), "noop")
        asked = self.ask("(PLAY M (noop (mark 1 2)))")
        page.until("document.querySelectorAll('.board button.can').length === 5")
        page.value("document.getElementById('filter').focus()")
        page.tell("Input.insertText", text="1 1")
        page.until("document.querySelectorAll('#moves button').length === 1")
        page.click(MOVE)
        self.assertEqual(self.answered(asked), "(mark 1 1)")
        self.assertEqual(self.answered(self.ask("(STOP M ((mark 1 1) noop))")), "done")
        # The page still shows the end if the player exits at once, for example after a single match.
        page.until("document.getElementById('note').textContent.includes('The match is over')")
        page.value("events.onerror()")
        self.assertRegex(page.text(), r"The match is over: xplayer .*, oplayer .*\. The player does not answer")

    def go_to(self, page: Page, place: str) -> None:
        """Moves the focus with the keyboard, place by place, to a place of the board. Each place on the way must show that it has the focus."""
        reached = ""
        while reached != place:
            page.press("Tab")
            _, reached, is_seen = page.reached()
            self.assertTrue(is_seen, reached)

    def test_a_move_is_made_by_its_column_by_its_place_and_by_a_button(self) -> None:
        page = self.begin("red", (GAMES / "general/connectfour.kif").read_text(encoding="ascii"))
        asked = self.ask("(PLAY M NIL)")
        page.until("document.querySelectorAll('.board button.can').length === 42 && !document.querySelector('#moves button')")
        page.click(f"{CELLS}.find((cell) => cell.title.startsWith('3 5'))")
        self.assertEqual(self.answered(asked), "(drop 3)")
        self.assertEqual(self.answered(self.ask("(PLAY M ((drop 3) noop))")), "noop")
        asked = self.ask("(PLAY M (noop (drop 4)))")
        page.until("view.phase === 'moving'")
        rows = page.value("[...document.querySelectorAll('#players tr')].map((row) => row.innerText.trim().split(/\\s*\\t\\s*/))")
        self.assertEqual(rows, [["red", "you", "(drop 3)", "to move"], ["yellow", "(drop 4)"]])
        self.assertEqual(page.value(f"{CELLS}.filter((cell) => cell.matches('.new')).map((cell) => cell.title)"), ["4 1: yellow"])
        self.answered(self.ask("(ABORT M)"))
        asked.join(HANGS)
        # Moves that share their places, and moves without places, are buttons.
        page = self.begin("a", PROMOTING)
        asked = self.ask("(PLAY M NIL)")
        page.until("document.querySelectorAll('#moves button').length === 1")
        for place in ("1 1", "2 2"):
            page.click(f"{CELLS}.find((cell) => cell.title.startsWith('{place}'))")
        page.until("document.querySelectorAll('#moves button').length === 2")
        page.click(MOVE)
        self.assertIn(self.answered(asked), ("(move 1 1 2 2 queen)", "(move 1 1 2 2 rook)"))

    def test_the_person_leaves_a_match_and_a_referee(self) -> None:
        self.sender = "192.0.2.9"
        page = self.begin("xplayer", RULES)
        asked = self.ask("(PLAY M NIL)")
        # A board that appeared between finding and clicking the button would move it.
        page.until("document.querySelectorAll('.board button.can').length === 9")
        self.leave(page, "Referee: 192.0.2.9 (leave this match)")
        self.assertIsNone(self.answered(asked))
        self.assertIn("You have left match M", page.text())
        self.assertEqual(self.answered(self.ask("(INFO)")), "available")
        self.leave(page, "Referee: 192.0.2.9")
        self.assertEqual(self.browser.said, [])

    def leave(self, page: Page, shown: str) -> None:
        """Leaves the match, or the referee, with the button below the message."""
        page.until(f"document.getElementById('sender').textContent === '{shown}' && !document.getElementById('referee').hidden")
        page.click("document.getElementById('sender')")
        page.until("document.body.innerText.includes('restart ggp-human with --referee ADDRESS')")
        self.assertEqual(page.unreadable(), [])
        page.click("document.getElementById('leave')")
        page.until("document.getElementById('referee').hidden")
        self.assertEqual((self.seat.match, self.seat.referees), ("", set()))

    def test_a_board_of_hexagons(self) -> None:
        self.seat.is_hex = True
        page = self.begin("red", HEX)
        asked = self.ask("(PLAY M NIL)")
        page.until("document.querySelectorAll('.board.hex button.can').length === 9")
        place = "(cell => (box => [Math.round(box.x), Math.round(box.y), Math.round(box.width)])(cell.getBoundingClientRect()))"
        (x, y, wide), (right, same, _), (up, above, _) = (
            page.value(f"{place}({CELLS}.find((cell) => cell.title.startsWith('{at}')))") for at in ("1 1", "2 1", "1 2")
        )
        # A row is half a place to the right of the one below it.
        self.assertEqual(same, y)
        self.assertAlmostEqual(right - x, wide, delta=4)
        self.assertAlmostEqual(up - x, (right - x) / 2, delta=1)
        self.assertLess(above, y)
        self.assertEqual(page.unreadable(), [])
        page.click(f"{CELLS}.find((cell) => cell.title.startsWith('2 3'))")
        self.assertEqual(self.answered(asked), "(place 2 3)")
        # A move without a place is made by its button.
        asked = self.ask("(PLAY M ((place 2 3) noop))")
        page.until("document.querySelectorAll('.board.hex button.can').length === 8")
        self.assertEqual(page.value(f"{CELLS}.filter((cell) => cell.matches('.new')).map((cell) => cell.title)"), ["2 3: red"])
        page.click(MOVE)
        self.assertEqual(self.answered(asked), "swap")
        self.assertEqual(self.browser.said, [])

    def test_what_a_referee_says_is_text(self) -> None:
        page = self.begin(EVIL, HOSTILE)
        asked = self.ask("(PLAY M NIL)")
        page.until("document.querySelectorAll('#moves button').length === 2")
        for words in (f"you are {EVIL}", "</script><b>", "<script>document.title=1</script>"):
            self.assertIn(words, page.text())
        self.assertEqual(page.value("[document.title, document.scripts.length, document.querySelectorAll('img, h1 *, li *:not(button), .board button *').length]"), ["A match", 1, 0])
        self.assertEqual(page.unreadable(), [])
        page.click("document.querySelectorAll('#moves button')[0]")
        self.assertEqual(self.answered(asked), EVIL)
        self.assertEqual((self.browser.said, {address.split("/")[2] for address in self.browser.asked}), ([], {page.value("location.host")}))
