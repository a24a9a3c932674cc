"""Data of `serve` for other programs: JSON, events and numbers. Other sites may embed the pages only if the host allows it. All this is
tested with and without a proxy."""

import dataclasses
import errno
import json
import os
import pathlib
import re
import shutil
import socket
import subprocess
import tempfile
from unittest.mock import patch

import pytest
from ggp_tools.competition import live_api
from ggp_tools.competition.live_site import LiveSite
from ggp_tools.competition.serving import origin
from ggp_tools.referee import Referee
from html_pages import parsed, text_of
from live_support import SILENT, begin, end, record_of, started
from packages import searched
from support import TOP, program, run
from test_serving import Served


class Data(Served):
    def json(self, path):
        return json.loads(self.page(path))

    def feed(self, after=""):
        """Opens the stream of events for programs."""
        return self.opened(f"/api/events{after}")

    def test_a_match_from_its_begin_to_its_end(self):
        match, lost = self.plan.matches[:2]
        own, feed = f"/api/matches/{match.id}", self.feed()
        self.assertEqual(self.json("/api/matches")["matches"][0], {"id": match.id, "game": "heap", "players": ["ann", "bob"], "state": "waiting"})
        log = begin(self.plan, match, started(match) + self.play(match, 2, "NIL", ["(take 1)", "noop"]))
        self.look()
        said = self.json(own)
        shown = {"state": "open", "stage": "playing", "turns": 1, "awaited": [match.players[1]], "moves": [["(take 1)", "noop"]], "errors": [["", ""]], "trouble": ""}
        self.assertEqual({key: said[key] for key in shown}, shown)
        self.assertEqual([state["turn"] for state in said["states"]], [0, 1])
        self.assertIn("(heap 2)", said["states"][1]["terms"])
        self.assertEqual((said["roles"], said["messages"]), (["red", "blue"], [[["start", 20], ["play", 5]]] * 2))
        told = self.next_event(feed)
        self.assertEqual(([(row["id"], row["turns"]) for row in told["matches"]], told["table"]), ([(match.id, 1)], False))
        moves, errors = [["(take 1)", "noop"], ["noop", "(take 2)"]], [["", ""], ["TO", ""]]
        end(self.plan, match, record_of(match, moves, errors, [0, 100]), log.read_text() + self.play(match, 3, "x", [SILENT, "(take 2)"]))
        self.write_journal([f"no record {lost.id}: ann is silent"])
        self.look()
        told = self.next_event(feed)
        self.assertEqual(([(row["id"], row["state"]) for row in told["matches"]], told["table"]), ([(match.id, "over"), (lost.id, "given up")], True))
        rows, said = self.json("/api/matches")["matches"], self.json(own)
        self.assertEqual(rows[0] | said, said)
        ended = {"goals": [0, 100], "outcomes": ["lost", "won"], "replaced": [1, 0], "moves": moves, "errors": errors, "turns": 2}
        self.assertEqual({key: said[key] for key in ended}, ended)
        self.assertEqual((len(said["states"]), said["messages"][0]), (3, [["start", 20], ["play", 5], ["play", 5]]))
        self.assertEqual((rows[1]["why"], self.json("/api/table")["matches"]), ("ann is silent", 1))
        numbers = dict(row.rsplit(" ", 1) for row in self.page("/metrics").splitlines())
        wanted = {'ggp_matches{state="over"}': "1", 'ggp_matches{state="given up"}': "1", 'ggp_matches{state="waiting"}': "4", "ggp_serve_viewers": "1"}
        wanted |= {'ggp_player_replaced{player="ann"}': "1", "ggp_play_running": "0", "ggp_records_unread": "0"}
        self.assertEqual({name: numbers[name] for name in wanted}, wanted)

    def test_a_match_that_is_not_played_is_not_waiting(self):
        gone, replaced, _, last, *rest = self.plan.matches
        gone, replaced = dataclasses.replace(gone, withdrawn="cid has withdrawn"), dataclasses.replace(replaced, again=last.id, reason="a <fault>")
        self.plan.matches = [gone, replaced, *self.plan.matches[2:]]
        self.plan.folder.record(replaced.id).write_text("{}")
        self.site = self.server.site = LiveSite(self.plan, Referee(program()), lambda: self.plan)
        self.look()
        rows = self.json("/api/matches")["matches"]
        whys = {gone.id: "cid has withdrawn", replaced.id: f"{last.id} replaces it: a <fault>"}
        self.assertEqual({row["id"]: row["why"] for row in rows if row["state"] == "not played"}, whys)
        numbers = self.page("/metrics")
        self.assertIn('{state="not played"} 2\n', numbers)
        self.assertIn('{state="waiting"} 4\n', numbers)
        self.assertIn("0 matches are open, 4 are waiting.", self.page("/"))
        for name, why in whys.items():
            self.assertEqual(text_of(parsed(self.page(f"/matches/{name}.html")).find(id="now")), f"It is not played: {why}.")

    def test_a_match_that_is_open_again_is_not_the_one_before(self):
        match, found = self.plan.matches[0], []
        for move in ("(take 1)", "(take 2)"):
            log = begin(self.plan, match, started(match) + self.play(match, 2, "NIL", [move, "noop"]))
            self.look()
            found.append(self.json(f"/api/matches/{match.id}")["moves"])
            shutil.rmtree(log.parent)
            self.look()
        self.assertEqual(found, [[["(take 1)", "noop"]], [["(take 2)", "noop"]]])

    def test_what_is_known_stays_if_a_directory_cannot_be_listed(self):
        over, opened = self.plan.matches[:2]
        begin(self.plan, opened, started(opened))
        end(self.plan, over, record_of(over, [["(take 1)", "noop"]], [["", ""]], [0, 100]))
        self.look()
        before = self.json("/api/matches")
        self.assertEqual([row["state"] for row in before["matches"][:2]], ["over", "open"])
        with patch("os.listdir", side_effect=OSError(errno.EMFILE, os.strerror(errno.EMFILE))):
            self.look()
            said = self.json("/api/matches")
            self.assertEqual((said["matches"], self.json("/api/table")["matches"]), (before["matches"], 1))
            self.assertIn("The directory records can't be read (Too many open files)", said["trouble"])
            self.assertIn("The directory records", self.page("/"))
        self.look()
        self.assertEqual(self.json("/api/matches")["trouble"], "")

    def test_a_list_of_many_matches_comes_in_pages_and_many_changes_at_once_are_not_told(self):
        feed = self.feed()
        with patch.object(live_api, "MOST_LISTED", 4):
            found = [self.json(f"/api/matches{page}") for page in ("", "?page=2")]
            self.assertEqual([[row["id"] for row in said["matches"]] for said in found], [[match.id for match in part] for part in (self.plan.matches[:4], self.plan.matches[4:])])
            self.assertEqual([said["pages"] for said in found], [2, 2])
        # The last page is full, so there is no page after it.
        with patch.object(live_api, "MOST_LISTED", 3):
            self.assertEqual([self.json(f"/api/matches?page={page}")["pages"] for page in (1, 2)], [2, 2])
            self.assertEqual(self.ask("/api/matches?page=3")[0], 404)
        with patch.object(live_api, "MOST_LISTED", 4):
            for match in self.plan.matches:
                end(self.plan, match, record_of(match, [], [], [50, 50]))
            self.look()
            self.assertTrue(self.next_event(feed)["reload"])

    def test_events_go_on_where_they_were_interrupted(self):
        feed = self.feed()
        for match in self.plan.matches[:2]:
            begin(self.plan, match)
            self.look()
        version = re.search(rb"id: (\d+)", feed.readline())[1].decode()
        missed = self.feed(f"?after={version}")
        self.assertEqual([row["id"] for row in self.next_event(missed)["matches"]], [self.plan.matches[1].id])
        # After an unknown version, the client is sent the current one.
        self.assertTrue(self.next_event(self.feed("?after=1"))["reload"])

    def test_what_is_not_there(self):
        for path in ("/api/matches/none", "/api/matches?page=2", "/api/matches?page=0", "/api/table?x", "/api/", "/api/matches/..%2f"):
            status, text = self.ask(path)
            self.assertEqual((status, json.loads(text)), (404, {"error": f"Not Found: {path}"}), path)


class Front(Served):
    BASE, NAMES, ORIGINS = "/cup", ["cup.example.org"], ["https://club.example"]

    def test_pages_below_a_path_under_a_name_and_in_a_frame(self):
        for path, host, status in (
            ("/cup/", "cup.example.org:80", 200), ("/cup/api/table", "CUP.example.org", 200), ("/cup/", "evil.example", 403), ("/cup", "localhost", 308),
            ("/", "localhost", 404), ("/cups/", "localhost", 404), ("/cup/api/events", "evil.example", 403),
        ):
            self.assertEqual(self.ask(path, Host=host)[0], status, path)
        for origin, known in (("https://club.example", "https://club.example"), ("https://evil.example", None)):
            answer = self.opened("/cup/api/matches", Origin=origin)
            headers = "Content-Security-Policy", "Access-Control-Allow-Origin", "Content-Type"
            self.assertEqual(list(map(answer.getheader, headers)), ["frame-ancestors https://club.example", known, "application/json; charset=utf-8"])
        self.assertEqual(self.opened("/cup", Host="localhost").getheader("Location"), "/cup/")

    def test_behind_the_proxy_of_the_document(self):
        """nginx is configured as in docs/SERVING.md, except for the ports."""
        server = re.search(r"(?ms)^    server \{.*?^    \}", (TOP / "docs/SERVING.md").read_text())[0]
        # nginx takes over a socket that is already listening, as it does when it replaces another nginx.
        listening = self.enterContext(socket.create_server(("127.0.0.1", 0)))
        server = server.replace(":8000;", f":{self.port};")
        self.port = listening.getsockname()[1]
        server = server.replace("listen 80;", f"listen 127.0.0.1:{self.port};")
        room = pathlib.Path(self.enterContext(tempfile.TemporaryDirectory()))
        paths = "".join(f"{name}_temp_path {room}/{name};" for name in ("client_body", "proxy", "fastcgi", "uwsgi", "scgi"))
        (room / "conf").write_text(f"daemon off; pid {room}/pid; events {{}} http {{ access_log off; {paths} {server} }}")
        words = [shutil.which("nginx", path=searched()), "-p", room, "-c", room / "conf", "-e", room / "log"]
        nginx = subprocess.Popen(words, env={**os.environ, "NGINX": f"{listening.fileno()};"}, pass_fds=[listening.fileno()])
        self.addCleanup(nginx.wait)
        self.addCleanup(nginx.terminate)
        host = {"Host": "cup.example.org"}
        self.assertEqual(self.ask("/cup/", **host)[0], 200)
        links = re.findall('href="([^"#]+)"|data-events="([^"]+)"', self.ask("/cup/", **host)[1])
        self.assertTrue(links and not any(link.startswith("/") for found in links for link in found))
        feed = self.opened("/cup/api/events", **host)
        begin(self.plan, self.plan.matches[0])
        self.look()
        # The event is passed on while the stream is open.
        self.assertEqual(self.next_event(feed)["matches"][0]["state"], "open")


@pytest.mark.parametrize(
    "text, known",
    [
        ("HTTPS://Example.org:443", "https://example.org"),
        ("http://club.example:0080", "http://club.example"),
        ("http://club.example:443", "http://club.example:443"),
        ("https://CLUB.example:8443", "https://club.example:8443"),
    ],
)
def test_an_origin_is_kept_as_browsers_write_it(text, known):
    assert origin(text) == known


@pytest.mark.parametrize(
    "words, said",
    [
        (("--embed", "https://club.example:65536"), "found 'https://club.example:65536'"),
        (("--embed", "https://club.example:0"), "found 'https://club.example:0'"),
        (("--base-path", "cup"), "expected a path that begins with / and does not end with it, such as /cup, found 'cup'"),
        (("--base-path", "/cup/"), "found '/cup/'"),
        (("--host", "cup:80"), "expected a host name, such as cup.example.org, found 'cup:80'"),
        (("--embed", "club.example"), "expected an origin, such as https://club.example, found 'club.example'"),
        (("--embed", "https://club.example/x"), "found 'https://club.example/x'"),
        (("--embed", "*"), "found '*'"),
    ],
)
def test_what_is_asked_wrong(words, said, tmp_path):
    status, _, error = run(tmp_path, "serve", *words)
    assert status == 2 and said in error
