"""The referee's command for ABORT, with players that answer and players that do not."""

import asyncio
import pathlib
import socket
import tempfile
import threading
import unittest
import unittest.mock

from ggp_tools.competition import children
from ggp_tools.competition.children import send_aborts
from ggp_tools.referee import Referee
from support import command_of, program


def sent(*words):
    return asyncio.run(send_aborts(*words))


class Aborts(unittest.TestCase):
    def player(self, reply):
        """Starts a player that answers each message with this text, and returns its address."""
        listening = socket.create_server(("127.0.0.1", 0))
        self.addCleanup(listening.close)

        def run():
            while True:
                try:
                    connection, _ = listening.accept()
                except OSError:
                    return  # the test is over
                with connection:
                    connection.recv(4096)
                    connection.sendall(reply)

        threading.Thread(target=run, daemon=True).start()
        return f"ann@127.0.0.1:{listening.getsockname()[1]}"

    def test_who_answers(self):
        answering = self.player(b"HTTP/1.0 200 OK\r\nContent-Length: 4\r\n\r\ndone")
        other = self.player(b"HTTP/1.0 500 No\r\nContent-Length: 0\r\n\r\n")
        self.assertEqual(sent(Referee(program()), {"cup-001": [answering, other], "cup-002": [answering]}), {"cup-001": [other]})

    def test_more_players_than_are_asked_at_a_time(self):
        answering = self.player(b"HTTP/1.0 200 OK\r\nContent-Length: 4\r\n\r\ndone")
        with unittest.mock.patch.object(children, "MOST_ABORTS", 2):
            self.assertEqual(sent(Referee(program()), {f"cup-{number:03}": [answering, "bob@a..b:80"] for number in range(3)}), {
                f"cup-{number:03}": ["bob@a..b:80"] for number in range(3)
            })

    def test_a_host_that_is_no_name(self):
        places = ["ann@a..b:80", f"bob@{'a' * 64}.example:80"]
        self.assertEqual(sent(Referee(program()), {"cup-001": places}), {"cup-001": places})


class Words:
    """A fake referee. The command of this referee for an address runs the address as a script."""

    def __init__(self):
        self.begun = []

    def abort_words(self, match, place):
        self.begun.append((match, place))
        return ["sh", "-c", place]


class Processes(unittest.TestCase):
    """`abort` ends its processes in all cases."""

    def setUp(self):
        self.room = pathlib.Path(self.enterContext(tempfile.TemporaryDirectory()))

    def test_only_status_0_is_an_answer(self):
        places = {"a": ["exit 0", "exit 1", "exit 3", "kill -9 $$"], "b": ["exit 0"], "c": ["exit 2"]}
        self.assertEqual(sent(Words(), places), {"a": ["exit 1", "exit 3", "kill -9 $$"], "c": ["exit 2"]})

    def test_a_process_that_can_not_be_started_is_no_answer_and_the_others_are_sent(self):
        begun = iter([OSError(11, "none")])
        plain = children.run

        def start(words):
            for error in begun:
                raise error
            return plain(words)

        with unittest.mock.patch.object(children, "run", start):
            self.assertEqual(sent(Words(), {"a": ["exit 0", "exit 0;"], "b": ["exit 0"]}), {"a": ["exit 0"]})

    def test_with_no_time_none_has_answered(self):
        self.assertEqual(sent(Words(), {"b": ["exec sleep 600", "exec sleep 60"], "a": ["exec sleep 6000"]}, 0), {"b": ["exec sleep 60", "exec sleep 600"], "a": ["exec sleep 6000"]})
        self.assertEqual(sent(Words(), {}), {})

    def test_only_so_many_at_a_time_and_those_that_are_left_at_the_end_are_ended(self):
        referee, script = Words(), f"echo $$ > {self.room}/%s; exec sleep 600"
        with unittest.mock.patch.object(children, "MOST_ABORTS", 2):
            self.assertEqual(sent(referee, {"a": [script % 1], "b": [script % 2], "c": ["exit 0"]}, 0.5), {"a": [script % 1], "b": [script % 2], "c": ["exit 0"]})
        self.assertEqual([match for match, _ in referee.begun], ["a", "b"])
        for file in self.room.iterdir():
            self.assertEqual(command_of(file.read_text().strip() or "none"), b"")

    def test_ctrl_c_at_the_terminal_does_not_reach_them(self):
        self.assertEqual(sent(Words(), {"a": ["test $(cut -d' ' -f6 /proc/$$/stat) = $$"]}), {})
