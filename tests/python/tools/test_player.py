"""The example player: its answers to all messages, including unexpected ones. After an unexpected message, it must continue."""
import contextlib
import io
import os
import queue
import socket
import subprocess
import sys
import threading
import time
import unittest
import unittest.mock

import player
from ports import free_ports

TOP = os.path.dirname(os.path.dirname(os.path.dirname(os.path.dirname(os.path.realpath(__file__)))))

RULES = "((role red) (init p) (legal red go) (legal red (stay 1)))"
TWO_ROLES = "((role red) (role blue) (init p) (<= (next q) (true p)) (<= (legal red go) (true p)) (legal blue late) (<= (legal blue stay) (true p)))"
SECONDS = 600
TRIES = 5


def asked(port, body, size=None):
    """Returns the status and the body of the answer to a message with this length field, or None if there is no answer."""
    head = f"POST / HTTP/1.0\r\nReceiver: ann\r\nContent-Length: {len(body) if size is None else size}\r\n\r\n"
    with socket.create_connection(("127.0.0.1", port), SECONDS) as connection:
        connection.sendall((head + body).encode())
        said = b""
        while piece := connection.recv(65536):
            said += piece
    head, _, answer = said.decode().partition("\r\n\r\n")
    return (int(head.split()[1]), answer) if said else None


@contextlib.contextmanager
def server():
    """The port of a server in this process, and its output."""
    with contextlib.redirect_stderr(io.StringIO()) as said, player.Server(("127.0.0.1", 0), player.Player(lambda moves: moves[0])) as host:
        threading.Thread(target=host.serve_forever, daemon=True).start()
        try:
            yield host.server_port, said
        finally:
            host.shutdown()


@contextlib.contextmanager
def started(name, errors):
    """The port of a running player process. Another process may take the port before it does."""
    for port in free_ports(TRIES):
        with subprocess.Popen([sys.executable, "-B", f"{TOP}/examples/players/{name}.py", str(port), "1"], stderr=errors) as child:
            try:
                if is_there(child, port):
                    yield port
                    return
            finally:
                child.kill()
    raise AssertionError("no player was begun")


def is_there(child, port):
    """Waits until a player accepts connections. Returns False if it has ended."""
    while child.poll() is None:
        with socket.socket() as connection:
            if connection.connect_ex(("127.0.0.1", port)) == 0:
                return True
        time.sleep(0.02)
    return False


class Answers(unittest.TestCase):
    def setUp(self):
        self.player, self.now = player.Player(lambda moves: moves[-1]), 0.0
        clock = unittest.mock.patch.object(player, "time", unittest.mock.Mock(monotonic=lambda: self.now))
        clock.start()
        self.addCleanup(clock.stop)

    def answer(self, text, receiver="ann"):
        return self.player.answer(player.read_message(text), receiver)

    def test_a_match(self):
        said = [self.answer(message) for message in ("(INFO)", f"(START m red {RULES} 1 1)", "INFO", "(PLAY m NIL)", "(STOP m (go))", "(INFO)")]
        self.assertEqual(said, ["available", "ready", "busy", "(stay 1)", "done", "available"])

    def test_the_end_of_another_match_ends_none(self):
        self.assertEqual(self.answer("(ABORT other)"), "done")
        self.answer(f"(START m red {RULES} 1 1)")
        for other in "(ABORT other)", "(STOP other NIL)":
            self.assertEqual((self.answer(other), self.answer("(INFO)"), self.answer("(PLAY m NIL)")), ("done", "busy", "(stay 1)"))
        self.assertEqual((self.answer("(ABORT m)"), self.answer("(INFO)")), ("done", "available"))

    def test_two_roles_of_one_match(self):
        for receiver, role in ("ann", "red"), ("bob", "blue"):
            self.assertEqual(self.answer(f"(START m {role} {TWO_ROLES} 1 1)", receiver), "ready")
        self.assertEqual([self.answer("(PLAY m NIL)", receiver) for receiver in ("ann", "bob")], ["go", "stay"])

    def test_messages_for_another_player_change_nothing(self):
        self.answer(f"(START m red {TWO_ROLES} 1 1)")
        for message in f"(START other blue {TWO_ROLES} 1 1)", "(ABORT m)", "(STOP m NIL)", f"(START m blue {TWO_ROLES} 1 1)", "(PLAY m (go stay))":
            self.answer(message, "bob")
            self.assertEqual((self.answer("(INFO)"), self.answer("(PLAY m NIL)")), ("busy", "go"), message)

    def test_a_match_of_another_player_leaves_this_one_free(self):
        self.answer(f"(START other blue {TWO_ROLES} 1 1)", "bob")
        said = [self.answer(message) for message in ("(INFO)", f"(START m red {TWO_ROLES} 1 1)", "(PLAY m NIL)", "(STOP m NIL)", "(INFO)")]
        self.assertEqual(said, ["available", "ready", "go", "done", "available"])

    def test_a_match_after_one_that_got_no_stop(self):
        for match in "lost", "m":
            self.assertEqual(self.answer(f"(START {match} red {RULES} 1 1)"), "ready")
        said = [self.answer(message) for message in ("(PLAY lost NIL)", "(ABORT lost)", "(PLAY m NIL)", "(STOP m NIL)", "(INFO)")]
        self.assertEqual(said, ["busy", "done", "(stay 1)", "done", "available"])

    def test_a_referee_that_sends_nothing_more(self):
        for clocks in "20 5", "5 20":
            for message in f"(START m red {RULES} {clocks})", "(PLAY m NIL)":
                self.answer(message)
                self.now += 20 + player.PATIENCE - 1
                self.assertEqual(self.answer("(INFO)"), "busy")
            self.now += 1
            self.assertEqual([self.answer(message) for message in ("(INFO)", "(PLAY m (go))", "(INFO)")], ["available", "(stay 1)", "busy"])

    def test_capitals_count_in_the_id_alone(self):
        self.answer(f"(Start ; (x)\n M RED {RULES.upper()} 1 1)")
        said = [self.answer(message) for message in ("(play m NIL)", "(PLAY M nil)", "(stop m nil)", "(Info)", "(abort M)", "info")]
        self.assertEqual(said, ["busy", "(stay 1)", "done", "busy", "done", "available"])

    def test_a_start_that_fails_leaves_the_match(self):
        self.answer(f"(START m red {RULES} 1 1)")
        for rules in "(())", "((role red) (<= (init p)) (<= (init)))":
            with self.assertRaises(IndexError):
                self.answer(f"(START other red {rules} 1 1)")
            self.assertEqual(self.answer("(PLAY m NIL)"), "(stay 1)")

    def test_a_move_that_is_too_long_to_be_answered(self):
        for size, chosen in (player.MOST_ANSWER, "long"), (player.MOST_ANSWER + 1, "short"):
            long = f"(m {'x' * (size - 4)})"
            self.answer(f"(START m red ((role red) (legal red go) (legal red {long})) 1 1)")
            self.assertEqual(self.answer("(PLAY m NIL)"), {"long": long, "short": "go"}[chosen])
        self.answer(f"(START m red ((role red) (legal red {long})) 1 1)")
        self.assertEqual(self.answer("(PLAY m NIL)"), long)

    def test_lists_in_one_another(self):
        most = player.MOST_LISTS
        self.assertEqual(player.show(player.read("(" * most + ")" * most)[0]), "(" * most + ")" * most)
        self.assertRaises(ValueError, player.read, "(" * (most + 1) + ")" * (most + 1))


class Serving(unittest.TestCase):
    def test_a_length_that_is_none_or_too_large(self):
        with server() as (port, _):
            for size in "-1", "x", "", str(player.MOST_BYTES + 1), "1" * 5000:
                self.assertEqual(asked(port, "(INFO)", size)[0], 400, size)
            self.assertEqual(asked(port, "(INFO)"), (200, "available"))

    def test_a_large_game(self):
        """A game with more bytes than the usual limits allow, and with rules that are nested more deeply."""
        count, lists = 4_500, 60
        steps = (f"(<= (c {number}) {'(or ' * lists}(c {number + 1}){')' * lists})" for number in range(count))
        rules = f"((role red) (legal red go) (<= (legal red deep) (c 0)) {' '.join(steps)} (c {count}) (f {'x' * 16_777_216}))"
        with server() as (port, _):
            self.assertEqual(asked(port, f"(START m red {rules} 1 1)"), (200, "ready"))
            self.assertEqual(asked(port, "(PLAY m NIL)"), (200, "go"))

    def test_a_connection_that_sends_nothing_is_closed(self):
        with unittest.mock.patch.object(player.Handler, "timeout", 0.5), server() as (port, _):
            with socket.create_connection(("127.0.0.1", port), SECONDS) as silent:
                self.assertEqual(asked(port, "(INFO)"), (200, "available"))
                self.assertEqual(silent.recv(1), b"")

    def test_connections_that_are_slow_hold_up_nobody(self):
        with unittest.mock.patch.object(player.Handler, "timeout", None), server() as (port, _), contextlib.ExitStack() as slow:
            for part in (b"", b"POST", b"POST / HTTP/1.0\r\nContent-Length: 9\r\n\r\n(PLAY") * 3:
                slow.enter_context(socket.create_connection(("127.0.0.1", port), SECONDS)).sendall(part)
            self.assertEqual(asked(port, "(INFO)"), (200, "available"))

    def test_messages_are_answered_in_their_order(self):
        came, may_go = threading.Semaphore(0), threading.Event()

        class Queue(queue.SimpleQueue):
            def put(self, item):
                super().put(item)
                came.release()

        def answer(message):
            may_go.wait(SECONDS)
            heard.append(message)
            return "done"

        heard, sent = [], [f"m{number:02}" for number in range(20)]
        with contextlib.ExitStack() as held:
            held.enter_context(unittest.mock.patch.object(player.queue, "SimpleQueue", Queue))
            held.enter_context(unittest.mock.patch.object(player.Player, "answer", lambda _, text, receiver: answer(text)))
            port, _ = held.enter_context(server())
            for body in sent:
                connection = held.enter_context(socket.create_connection(("127.0.0.1", port), SECONDS))
                connection.sendall(f"POST / HTTP/1.0\r\nContent-Length: 3\r\n\r\n{body}".encode())
                self.assertTrue(came.acquire(timeout=SECONDS))
            may_go.set()
            asked(port, "end")
        self.assertEqual(heard, [*sent, "end"])

    def test_what_is_said_is_visible(self):
        with server() as (port, said):
            self.assertEqual(asked(port, "\x1b[2J\x07\rx\r\n"), (200, "busy"))
            self.assertIsNone(asked(port, ""))
        self.assertRegex(said.getvalue(), r"\Aann: \?\[2J\?\?x\?\n -> busy\n[ -~\n]*IndexError[ -~\n]*\Z")

    def test_a_message_that_is_none_leaves_the_next_one(self):
        with server() as (port, said):
            self.assertIsNone(asked(port, ""))
            self.assertEqual(asked(port, "(INFO)"), (200, "available"))
        self.assertIn("IndexError", said.getvalue())

    def test_nobody_reads_what_a_player_says(self):
        for name in "player", "interpreting":
            ours, theirs = os.pipe()
            os.close(ours)
            with started(name, theirs) as port:
                os.close(theirs)
                self.assertEqual(asked(port, f"(START m red {RULES} 1 1)"), (200, "ready"))
                self.assertIsNone(asked(port, ""))
                self.assertEqual(asked(port, "(PLAY m NIL)")[0], 200)

    def test_a_pipe_that_nobody_reads(self):
        ours, theirs = os.pipe()
        for name in "player", "interpreting":
            with started(name, theirs) as port:
                for _ in range(100):
                    self.assertIsNone(asked(port, ")"))
                self.assertEqual(asked(port, "(INFO)"), (200, "available"))
        os.close(ours)
        os.close(theirs)

    def test_as_many_rules_and_lists_as_a_game_may_have(self):
        chain = " ".join(f"(<= p{number} {'(or ' * 60}p{number + 1}{')' * 60})" for number in range(3_000))
        with started("player", subprocess.DEVNULL) as port:
            self.assertEqual(asked(port, f"(START m red ((role red) (init s) (<= (legal red go) p0) {chain} (<= p3000 (true s))) 1 1)"), (200, "ready"))
            self.assertEqual(asked(port, "(PLAY m NIL)"), (200, "go"))

    def test_a_chain_of_as_many_rules_as_a_game_may_have(self):
        chain = " ".join(f"(<= (a {number + 1}) (or (b {number}) (not (not (a {number})))))" for number in range(8186))
        rules = f"((role red) (init p) (a 0) {chain} (<= (legal red go) (a 8186)))"
        with started("player", subprocess.DEVNULL) as port:
            self.assertEqual(asked(port, f"(START m red {rules} 1 1)"), (200, "ready"))
            self.assertEqual(asked(port, "(PLAY m NIL)"), (200, "go"))
