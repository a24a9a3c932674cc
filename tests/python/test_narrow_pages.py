"""Pages on a narrow screen with the longest names and moves, and the page of a long match in parts, as a browser draws them."""

import json
from unittest.mock import patch

from ggp_tools.competition.live import Reader
from ggp_tools.competition.pages import Pages
from ggp_tools.records import show
from browser import Browser
from html_pages import parsed
from live_support import begin, end, line, plan_in, record_of, started
from test_serving import Served

NAMES = [letter * 64 for letter in "abc"]
MOVE = f"({'w' * 200})"


class Narrow(Served):
    def setUp(self):
        super().setUp()
        plan = plan_in(str(self.plan.folder.path), NAMES)
        self.site.begin(Reader(plan, self.site.referee, self.site.delay))
        self.plan, self.site.read_plan = plan, lambda: plan
        match, other = plan.matches[:2]
        begin(plan, match, started(match) + "".join(line(match, role, 2, f"(PLAY {match.id} NIL)", MOVE) for role in (0, 1)))
        end(plan, other, record_of(other, [[MOVE, "noop"]], [[f"IL {MOVE}", "TO"]], [0, 100]), line(other, 0, 2, f"(PLAY {other.id} NIL)", MOVE))
        self.look()

    def test_no_page_is_wider_than_the_screen(self):
        match, other = self.plan.matches[:2]
        places = ["", "matches.html", "games/heap.html", f"players/player-{NAMES[0]}.html", *(f"matches/{shown.id}.html" for shown in (match, other))]
        files = Pages(self.plan)
        files.write(list(self.site.reader.results.values()))
        addresses = [f"http://127.0.0.1:{self.port}/{place}" for place in places]
        addresses += [f"file://{files.folder}/{place}" for place in ("index.html", *places[1:4], f"matches/{other.id}.html")]
        for place in places:
            self.page(f"/{place}")
        self.look()
        self.assertIn(f'id="board-{match.id}"', self.page("/"), json.dumps(self.site.trouble))
        with Browser() as browser:
            page = browser.page("about:blank")
            for address in addresses:
                page.go(address)
                with self.subTest(address):
                    self.assertEqual(page.unreadable(), [])


class Long(Served):
    def test_a_long_match_comes_in_parts(self):
        match, turns = self.plan.matches[0], 6
        record = record_of(match, [["(take 1)", "noop"]] * turns, [["", ""]] * turns, [0, 100])
        end(self.plan, match, record | {"states": [[f"(heap {turn})", f"(step {turn})"] for turn in range(turns + 1)]})
        self.look()
        # The states in one part of the page have at most five terms in total.
        self.enterContext(patch.object(show, "MOST_OF_PART", 5))
        shown = []
        for part in ("", "~1", "~2", "~3", "~4"):
            page = parsed(self.page(f"/matches/{match.id}{part}.html"))
            shown.append(([state["id"] for state in page.select(".state")], [link.text for link in page.select(".turn a")]))
        parts = [(["turn=0", "turn=1"], ["1"]), (["turn=2", "turn=3"], ["2", "3"]), (["turn=4", "turn=5"], ["4", "5"]), (["turn=6"], ["6"])]
        self.assertEqual(shown, [parts[-1], *parts])
        for part in ("~5", "~0", "~x", "~"):
            self.assertEqual(self.ask(f"/matches/{match.id}{part}.html")[0], 404, part)
        with Browser() as browser:
            page = browser.page("about:blank")
            # The last part links to the part with this turn.
            page.tell("Page.navigate", url=f"http://127.0.0.1:{self.port}/matches/{match.id}.html#turn=3")
            for key, turn in (("", 3), ("ArrowRight", 4), ("ArrowLeft", 3), ("Home", 0), ("End", 6), ("ArrowLeft", 5)):
                if key:
                    page.click(f"document.querySelector('[data-key={key}]')")
                page.until(f"location.hash === '#turn={turn}' && document.querySelector('.state.shown')?.innerText.includes('(heap {turn})')")
