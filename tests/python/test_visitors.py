"""The limits of `serve`: how many connections and event streams a client may have, how long they last, and how much is sent at once."""

import asyncio
import contextlib
import itertools
import socket
import struct
import threading
import time
from http import HTTPStatus
from unittest.mock import AsyncMock, Mock, patch

from ggp_tools.competition import http_server, live_site
from ggp_tools.records import show
from live_support import end, record_of
from test_serving import Served


class Limits(Served):
    MOST = 8

    def connect(self, said=b""):
        """Opens a connection and sends the beginning of a request."""
        connection = self.enterContext(socket.create_connection(("127.0.0.1", self.port), timeout=60))
        connection.sendall(said)
        return connection

    def until(self, is_so):
        while not self.in_loop(is_so):
            time.sleep(0.01)

    def hold(self, count, is_idle):
        """Opens this many connections, with or without a request, and waits until the server has accepted them."""
        held = [self.connect() for _ in range(count)]
        self.until(lambda: len(self.visitors.connections) == count)
        for connection in self.visitors.connections if not is_idle else ():
            self.in_loop(connection.has_asked)
        return held

    def test_connections(self):
        held = self.hold(self.MOST, is_idle=False)
        self.assertTrue(self.connect().recv(100).startswith(b"HTTP/1.1 503 "))
        for connection in held:
            connection.close()
        self.until(lambda: not self.visitors.connections)
        # Visitors with event streams cannot take all connections.
        page = self.page("/")
        answers = [self.events(page) for _ in range(self.MOST)]
        self.assertEqual([answer.status for answer in answers], [200] * 7 + [503])
        self.until(lambda: len(self.visitors.connections) == 7)
        self.assertEqual(self.ask("/")[0], 200)

    def test_a_connection_that_asks_for_nothing_is_ended(self):
        with patch.object(http_server, "HEAD", 0):
            self.assertEqual(self.connect(b"GET / HTTP/1.1\r\nHost: ").recv(100), b"")

    def test_half_requests_of_an_address_give_way(self):
        half = self.hold(self.MOST, is_idle=True)
        # New visitors are served, and the oldest connections are closed.
        for at in range(3):
            self.assertEqual(self.ask("/")[0], 200)
            self.assertEqual(half[at].recv(100), b"")

    def test_a_head_has_an_end_and_only_one_request_is_read(self):
        self.assertEqual(self.connect(b"GET / HTTP/1.1\r\n" + b"X: y\r\n" * 4_096).recv(100), b"")
        many = self.connect(b"GET /none.html HTTP/1.1\r\nHost: localhost\r\n\r\n" * 300)
        answer = b"".join(iter(lambda: many.recv(65_536), b""))
        self.assertEqual(answer.count(b"HTTP/1.1 404 "), 1)

    def test_a_compressed_body_is_not_decompressed(self):
        with patch("zlib.decompressobj", side_effect=AssertionError) as decompressing:
            asked = self.connect(b"GET /none.html HTTP/1.1\r\nHost: localhost\r\nContent-Encoding: gzip\r\nContent-Length: 9\r\n\r\n123456789")
            self.assertTrue(asked.recv(100).startswith(b"HTTP/1.1 404 "))
        decompressing.assert_not_called()

    def test_who_takes_nothing_is_ended(self):
        with patch.object(self.site, "page", return_value=b"x" * (64 << 20)), patch.object(http_server, "PATIENCE", 0.2):
            slow = self.connect(b"GET / HTTP/1.1\r\nHost: localhost\r\n\r\n")
            self.until(lambda: len(self.visitors.connections) == 1)
            self.until(lambda: not self.visitors.connections)
            taken = 0
            with contextlib.suppress(ConnectionResetError):
                taken = sum(map(len, iter(lambda: slow.recv(1 << 20), b"")))
            self.assertLess(taken, 64 << 20)

    def test_the_kernel_ends_a_connection_to_a_computer_that_is_gone(self):
        self.hold(1, is_idle=True)
        (connection,) = self.visitors.connections
        milliseconds = connection.transport.get_extra_info("socket").getsockopt(socket.IPPROTO_TCP, socket.TCP_USER_TIMEOUT)
        self.assertEqual(milliseconds, http_server.PATIENCE * 1_000)

    def pieces_taken(self, seconds):
        """Returns the number of pieces of an answer that are sent to a slow visitor. By the clock of the event loop, the visitor needs this
        many seconds for each piece."""
        loop, now, taken = asyncio.new_event_loop(), [0.0], []

        async def write(piece):
            now[0] += seconds[len(taken)]
            for _ in range(3):
                await asyncio.sleep(0)
            taken.append(piece)

        request = Mock(raw_path="/", method="GET", headers={}, protocol=Mock(client="a"))
        response = Mock(prepare=AsyncMock(), write=write, write_eof=AsyncMock())
        with patch.object(loop, "time", lambda: now[0]), patch.object(http_server.web, "StreamResponse", return_value=response):
            with contextlib.closing(loop), contextlib.suppress(TimeoutError):
                loop.run_until_complete(self.server.send(request, HTTPStatus.OK, bytes(len(seconds) * http_server.PIECE)))
        return len(taken)

    def test_a_visitor_that_reads_slowly_is_served_and_one_that_stops_or_crawls_is_not(self):
        # Each piece of 64 KiB may take 2 seconds on average, and all pieces together may take 20 seconds more.
        cases = ([1.9] * 300, 300), ([2.7] * 300, 25), ([0.1] * 100 + [21] + [0.1] * 100, 100)
        self.assertEqual([self.pieces_taken(seconds) for seconds, _ in cases], [taken for _, taken in cases])

    def ask_and_leave(self, path):
        """Sends a request, and resets the connection."""
        asking = socket.create_connection(("127.0.0.1", self.port), timeout=60)
        asking.setsockopt(socket.SOL_SOCKET, socket.SO_LINGER, struct.pack("ii", 1, 0))
        asking.sendall(f"GET {path} HTTP/1.1\r\nHost: localhost\r\n\r\n".encode())
        self.until(lambda: any(connection.asking for connection in self.visitors.connections))
        asking.close()
        self.until(lambda: not self.visitors.connections)

    def test_who_is_gone_is_not_answered(self):
        made, held = [], threading.Event()
        self.addCleanup(held.set)

        def page(path):
            made.append(path)
            held.wait(60)

        with patch.object(self.site, "page", page):
            for at in range(20):
                self.ask_and_leave(f"/{at}")
            # The thread was already working on the first request. It does no work for the others.
            held.set()
            self.assertEqual(self.ask("/last")[0], 404)
        self.assertEqual(made, ["/0", "/last"])

    def test_of_each_client_one_thing_at_a_time_waits_for_the_thread(self):
        made, held = [], threading.Event()
        self.addCleanup(held.set)

        async def ask():
            asked = [asyncio.create_task(self.server.for_client(client, made.append, client)) for client in "aaaabb"]
            await asyncio.sleep(0)
            held.set()
            await asyncio.gather(*asked)

        self.server.thread.submit(held.wait)
        self.in_loop(ask)
        self.assertEqual("".join(made), "ababaa")
        self.assertFalse(self.server.turns)

    def test_one_client_does_not_take_all_connections(self):
        eighth, whole = [True] * 4 + [False], [True] * 32 + [False]
        # A customer with IPv6 has many addresses. An IPv4 address may be written in IPv6 notation.
        cases = (
            (["192.0.2.1"], eighth), (["127.0.0.1"], whole), (["::1", "::ffff:127.0.0.2", "127.0.0.1"], whole),
            ([f"2001:db8::{at:x}:{at:x}" for at in range(8)], eighth), (["192.0.2.1", "::ffff:192.0.2.1"], eighth),
            ([f"fe80::{at:x}%eth{at}" for at in range(8)], eighth), ([f"2001:db8:0:{at:x}00::1" for at in range(8)], eighth),
            ([f"2001:db8:{at:x}::1" for at in range(8)], whole),
        )
        for addresses, has_room in cases:
            visitors, found = http_server.Visitors(32), []
            for client, _ in zip(itertools.cycle(map(http_server.client_of, addresses)), has_room):
                found.append(visitors.has_room_for(client))
                visitors.come(Mock(client=client, is_idle=False))
            self.assertEqual(found, has_room, addresses)

    def test_a_connection_takes_as_much_work_as_the_first_one(self):
        visitors, asked = http_server.Visitors(1_000), []

        class Visitor:
            client = property(lambda self: asked.append(self) or http_server.THIS_COMPUTER)
            is_idle = False

        counts = []
        for _ in range(100):
            before, visitor = len(asked), Visitor()
            self.assertTrue(visitors.has_room_for(visitor.client))
            visitors.come(visitor)
            counts.append(len(asked) - before)
        self.assertEqual(set(counts), {counts[0]})
        for visitor in list(visitors.connections):
            visitors.go(visitor)
            visitors.go(visitor)
        self.assertEqual((visitors.connections, visitors.counts), ({}, {}))

    def test_a_busy_connection_of_the_client_with_most_gives_way_to_another_client(self):
        visitors, busy = http_server.Visitors(8, spares_busy=False), [Mock(client=client, is_idle=False) for client in "abbccdde"]
        for connection in busy:
            visitors.come(connection)
        self.assertEqual([visitors.has_room_for(client) for client in "zab"], [True, False, False])
        self.assertEqual([connection.client for connection in busy if connection.end.called], ["b"])
        busy[1].end.assert_called_once()

    def stream(self, *addresses):
        """Opens the event stream as a visitor that comes through a proxy."""
        return self.opened("/api/events", **{"X-Forwarded-For": ", ".join(addresses)})

    def test_a_new_stream_takes_the_place_of_the_oldest_one_of_the_client_with_most(self):
        answers = [self.stream(f"192.0.2.{client}") for client in (1, 1, 1, 2, 2, 3, 3, 4)]
        self.assertEqual([answer.status for answer in answers], [200, 200, 503, 200, 200, 200, 200, 200])
        # The proxy itself has seen only the last address.
        answers.append(self.stream("192.0.2.99", "192.0.2.5"))
        self.look()
        # The oldest stream ends without an error, so a browser opens it again.
        answers[0].read()
        answers += [self.stream(f"192.0.2.{client}") for client in (4, 2)]
        self.assertEqual([answer.status for answer in answers[8:]], [200, 503, 503])
        self.assertEqual(len(self.visitors.viewers), 7)

    def test_streams_leave_a_connection_for_pages(self):
        for most in (1, 3, 7, 16, 63, 256):
            for clients in (["a"], map(str, itertools.count())):
                visitors = http_server.Visitors(most, spares_busy=False)
                with contextlib.ExitStack() as streams:
                    for client, _ in zip(itertools.cycle(clients), range(2 * most)):
                        connection = Mock(client=client, is_idle=False)
                        if visitors.has_room_for(client):
                            visitors.come(connection)
                            if not streams.enter_context(visitors.viewing(connection)):
                                visitors.go(connection)
                    self.assertTrue(visitors.has_room_for(client), (most, client))

    def test_what_a_proxy_says_of_others_counts_only_from_this_computer(self):
        connection = Mock(client="192.0.2.1")
        self.assertTrue(http_server.Connection.is_served(connection, ["192.0.2.2"]))
        self.assertEqual(connection.client, "192.0.2.1")
        answers = [self.stream(said) for said in ("", "unknown", "192.0.2.1, 192.0.2.1:80")]
        self.assertEqual([answer.status for answer in answers], [200] * 3)
        self.assertEqual({viewer.client for viewer in self.visitors.viewers}, {http_server.THIS_COMPUTER})

    def test_answers_that_nobody_takes_have_a_limit_together(self):
        with patch.object(self.site, "page", lambda path: bytes(64 << 20)), patch.object(http_server, "MOST_SENT", 100 << 20):
            slow, other = (self.connect() for _ in range(2))
            for asking in (slow, other):
                asking.sendall(b"GET / HTTP/1.1\r\nHost: localhost\r\n\r\n")
                self.assertTrue(asking.recv(20).startswith(b"HTTP/1.1 200 "))
            taken = 0
            with contextlib.suppress(ConnectionResetError):
                taken = sum(map(len, iter(lambda: slow.recv(1 << 20), b"")))
            self.assertLess(taken, 64 << 20)

    def test_the_changes_of_a_page_have_a_limit(self):
        page = self.site.opened("/index.html")
        with patch.object(live_site, "BYTES_OF_EVENTS", 1):
            for at in range(5):
                self.site.trouble = f"trouble {at}"
                self.site.renew("/index.html", page)
        self.assertEqual((len(page.events), len(page.news(page.events[0][0])[0])), (2, 1))


class Long(Served):
    """Pages of matches with many or long terms."""

    def end_match(self, **more):
        match, moves = self.plan.matches[0], [["(take 1)", "noop"]] * 3
        end(self.plan, match, record_of(match, moves, [["", ""]] * 3, [0, 100]) | more)
        self.look()
        return match.id

    def test_a_long_match_is_parsed_once(self):
        self.enterContext(patch.object(show, "MOST_OF_PART", 1))
        with patch.object(live_site, "read_record", side_effect=live_site.read_record) as read:
            match = self.end_match()
            statuses = [self.ask(f"/matches/{match}{part}.html")[0] for part in ("~5", "", "~1", "~2", "~4", "~5", "~99999")]
            self.assertEqual((statuses, read.call_count), ([404, *[200] * 4, 404, 404], 1))
            # The page of another record is split into parts differently.
            self.end_match(moves=[], errors=[], states=[["(heap 3)"]])
            self.assertEqual([self.ask(f"/matches/{match}~{part}.html")[0] for part in (1, 2)], [200, 404])

    def test_a_part_of_a_long_match_has_few_letters(self):
        self.enterContext(patch.object(show, "MOST_OF_PART", 16))
        self.assertEqual(show.parts_of([["x" * 400]] * 5), [range(0, 2), range(2, 4), range(4, 5)])

    def test_a_state_that_is_too_large_for_a_part_is_listed(self):
        states = [[f"(cell {x} {y} x)" for x in range(1, 9) for y in range(1, count)] for count in (3, 9, 3)]
        with patch.object(show, "MOST_OF_PART", 40):
            match = self.end_match(states=states, moves=[["noop", "noop"]] * 2, errors=[["", ""]] * 2)
            parts = [self.page(f"/matches/{match}~{part}.html") for part in (1, 2, 3)]
        self.assertEqual([(text.count('class="board"'), text.count("<li>"), "and 24 more" in text) for text in parts], [(1, 0, False), (0, 40, True), (1, 0, False)])

    def test_a_long_term_is_shortened(self):
        term, move = "t" * 100_000, f"(take {'m' * 100_000})"
        states = [[f"(cell 1 1 {term})", f"(cell 2 2 {at})", term + str(at)] for at in range(4)]
        match = self.end_match(states=states, moves=[[move, "noop"]] * 3, errors=[[f"IL {move}", ""]] * 3)
        for path in (f"matches/{match}.html", "", "players/player-ann.html"):
            text = self.page(f"/{path}")
            self.assertLess(len(text), 60_000, path)
        self.assertIn(f"{'t' * 990}", self.page(f"/matches/{match}.html"))
        text = self.page(f"/api/matches/{match}")
        self.assertTrue(term in text and move in text)


class Flood(Served):
    MOST = 64

    def ask_for(self, client):
        """Sends a request, as a proxy does for a client."""
        connection = self.enterContext(socket.create_connection(("127.0.0.1", self.port), timeout=60))
        connection.sendall(f"GET /none.html HTTP/1.1\r\nHost: localhost\r\nX-Forwarded-For: {client}\r\n\r\n".encode())
        return connection

    def test_many_requests_of_one_client_end_no_request_of_another(self):
        held = threading.Event()
        self.addCleanup(held.set)
        # All requests arrive before the first connection is accepted.
        self.loop.call_soon_threadsafe(held.wait)
        asked = [self.ask_for(client) for client in ("192.0.2.1", *["192.0.2.2"] * 100)]
        held.set()
        answers = [connection.recv(100) for connection in asked]
        self.assertTrue(answers[0].startswith(b"HTTP/1.1 404 "))
