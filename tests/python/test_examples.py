"""The example scripts with wrong arguments and with outputs that fail. Each script reports an error in one line, without a traceback."""

import json
import os
import resource
import socket
import subprocess
import sys
import unittest

from ggp_tools.records import countdown
from support import TOP, InFolder, outside, script

INSTANTIATE, SHOW_RECORD = (TOP / f"python/ggp-{name}" for name in ("instantiate", "show-record"))
PLAY_A_MATCH = TOP / "examples/play-a-match"
PLAYERS = [TOP / f"examples/players/{name}.py" for name in ("player", "interpreting")]
NIM, GROUND = TOP / "examples/games/general/nim.kif", TOP / "examples/games/countdown.kif"
RECORD = TOP / "examples/records/countdown-3-second_version.record"
FULL = "standard output: No space left on device"


def run(*words, **more):
    """Runs a script. Returns the exit status, the output and the errors."""
    done = subprocess.run([sys.executable, *map(str, words)], stdin=subprocess.DEVNULL, stderr=subprocess.PIPE, text=True, **{"stdout": subprocess.PIPE, **more})
    return done.returncode, done.stdout, done.stderr


def play_a_match(*words):
    """Runs `play-a-match` without waiting for players. Returns the exit status, the output and the errors."""
    environment = {**os.environ, "PATIENCE": "0"}
    done = subprocess.run([PLAY_A_MATCH, *words], stdin=subprocess.DEVNULL, capture_output=True, text=True, env=environment)
    return done.returncode, done.stdout, done.stderr


class Examples(InFolder):
    def test_seconds(self):
        status, out, said = run(INSTANTIATE, "--seconds=-1", GROUND)
        self.assertEqual((status, out), (2, ""))
        self.assertIn("ggp-instantiate: error: argument --seconds: -1 is not a number above 0 and up to 1,000,000\n", said)
        # Chess takes seconds of processor time, so the timer fires before the end. Nim may end first.
        chess = TOP / "examples/games/general/large/chess.kif"
        self.assertRegex(run(INSTANTIATE, "--seconds", "0.000001", chess)[2], "^ggp-instantiate: stopped after 1e-06 s")

    def test_help_of_instantiate(self):
        status, out, said = run(INSTANTIATE, "--help", env={**os.environ, "COLUMNS": "200"})
        self.assertEqual((status, said), (0, ""))
        self.assertIn("\nReads a GDL file with variables, and writes a ground GDL file", out)
        for option in ("FILE", "--seconds N", "--folded", "--unfolded", "--player-rules FILE"):
            self.assertRegex(out, rf"\n  {option} +[a-z]")

    def test_a_full_output(self):
        with open("/dev/full", "w") as full:
            status, _, said = run(INSTANTIATE, GROUND, stdout=full)
            self.assertEqual((status, said.splitlines()[-1], "Traceback" in said), (1, f"ggp-instantiate: {FULL}", False), said)
            self.assertEqual(run(SHOW_RECORD, RECORD, stdout=full), (2, None, f"ggp-show-record: {FULL}\n"))

    def test_a_reader_that_is_gone(self):
        for wanted, words in ((1, (INSTANTIATE, GROUND)), (2, (SHOW_RECORD, RECORD))):
            reader, writer = os.pipe()
            os.close(reader)
            status, _, said = run(*words, stdout=writer)
            os.close(writer)
            self.assertEqual((status, "Traceback" in said), (wanted, False), said)

    def test_streams_that_are_closed(self):
        status, out, said = run(SHOW_RECORD, preexec_fn=lambda: os.close(0))
        self.assertEqual((status, out, said), (2, "", "ggp-show-record: standard input: it is closed\n"))
        self.assertEqual(run(SHOW_RECORD, preexec_fn=lambda: os.close(2)), (1, "", ""))
        for number in (0, 2):
            self.assertEqual(run(SHOW_RECORD, RECORD, preexec_fn=lambda: os.close(number)), run(SHOW_RECORD, RECORD))
        said = f"ggp-show-record: {FULL.partition(':')[0]}: Bad file descriptor\n"
        for closed in ((1, 2), (0, 2)):
            self.assertEqual(run(SHOW_RECORD, RECORD, preexec_fn=lambda: os.closerange(*closed)), (2, "", said))

    def test_streams_that_are_closed_to_instantiate(self):
        whole = run(INSTANTIATE, GROUND)[1]
        for number in (0, 2):
            self.assertEqual(run(INSTANTIATE, GROUND, preexec_fn=lambda: os.close(number))[:2], (0, whole))
        status, out, said = run(INSTANTIATE, GROUND, preexec_fn=lambda: os.close(1))
        self.assertEqual((status, out, said.splitlines()[-1].partition(":")[0]), (1, "", "ggp-instantiate"))
        self.assertRegex(run(INSTANTIATE, preexec_fn=lambda: os.close(0))[2], r"ggp-instantiate: standard input: it is closed")

    def test_a_record_with_its_account(self):
        record, page = RECORD.read_bytes(), run(SHOW_RECORD, RECORD)[1]
        self.assertTrue(page.startswith("<!DOCTYPE html>") and page.endswith("</html>\n"))
        account = b"0\topen m1 0 1 1 ann bob\topened\r\n1\tnext m1 0\tover\n"
        refused = "Pass one record, or make a page of each with `ggp-records pages`"
        file = self.folder / "played"
        pretty = json.dumps(json.loads(record), indent=1).encode()
        for text in (record + account, record + account.rstrip(b"\n"), record, record.rstrip(b"\n"), pretty):
            file.write_bytes(text)
            self.assertEqual(run(SHOW_RECORD, file), (0, page, ""), text)
        for text, line in ((record + account + record + account, "4 is not a line of the record's call log"), (record + record, "2 is another record")):
            file.write_bytes(text)
            self.assertEqual(run(SHOW_RECORD, file), (1, "", f"ggp-show-record: no record: line {line}. {refused}\n"))

    def test_the_longest_record(self):
        record, most = RECORD.read_bytes().rstrip(b"\n"), 16 << 20
        file = self.folder / "record"
        for more, end, is_read in ((0, b"\n", True), (0, b"", True), (1, b"", False), (1, b"\n", False), (2, b"\n", False), (1_000, b"", False)):
            file.write_bytes(record[:-1] + b" " * (most + more - len(record)) + b"}" + end)
            status, page, said = run(SHOW_RECORD, file)
            wanted = (0, "") if is_read else (1, "ggp-show-record: no record: it is longer than 16 MiB\n")
            self.assertEqual((status, said, bool(page)), (*wanted, is_read), (more, end))

    def test_many_boards_in_many_states(self):
        record = json.loads(RECORD.read_text())
        turns, terms = 9_999, [f"(r{board} {at} {at} v)" for board in range(4) for at in (1, 3)]
        for boards, is_drawn in ((3, True), (4, False)):
            more = {"errors": [["", ""]] * turns, "moves": [["a", "b"]] * turns, "states": [terms[: 2 * boards], *[[]] * turns]}
            file = self.folder / "record"
            file.write_text(json.dumps({**record, **more}))
            status, page, said = run(SHOW_RECORD, file)
            self.assertEqual((status, said, page.count('<div class="board"')), (0, "", boards * (turns + 1) * is_drawn))

    def test_out_of_memory(self):
        most = 100 << 20
        text = json.dumps({**json.loads(RECORD.read_text()), "states": [["a"] * (3 << 20)], "moves": [], "errors": []})
        file = self.folder / "record"
        file.write_text(text)
        done = run(SHOW_RECORD, file, preexec_fn=lambda: resource.setrlimit(resource.RLIMIT_AS, (most, most)))
        self.assertEqual(done, (2, "", "ggp-show-record: out of memory\n"))

    def test_a_match_of_no_game(self):
        file = self.folder / "game.kif"
        faults = [(None, "can't be read: No such file or directory"), *((text, "is not a ground GDL file") for text in (b"", b"\xff", b"(role a))", b"()", b"(role)", b"(init x)"))]
        for text, words in faults:
            if text is not None:
                file.write_bytes(text)
            self.assertEqual(play_a_match("none", file), (1, "", f"play-a-match: {file} {words}\n"))
        self.assertEqual(play_a_match("none"), (2, "", "usage: play-a-match PROGRAM RULES-FILE [OPTION ..]\n"))

    def test_players_that_were_not_there_are_named_at_the_end(self):
        for marks, named in (('"",""', ""), ('"","CE"', "bob"), ('"TO",null', "ann bob")):
            record = f'{{"startClock":10,"startMarks":[{marks}],"states":[["x"]]}}'
            referee = script(self.folder / "referee", f"#!/bin/sh\ncase $1 in info) exit 1 ;; run) echo '{record}'; exit 3 ;; esac\n")
            status, out, errors = play_a_match(referee, GROUND)
            said = [line for line in errors.splitlines() if line.startswith("play-a-match: ")]
            wanted = [f"play-a-match: no answer to START from {named}: the first legal move is played for players that do not answer"] if named else []
            self.assertEqual((status, out, said), (3, f"{record}\n", wanted), marks)

    def test_words_of_players(self):
        for player in PLAYERS:
            for word in ("x", "0", "65536", "-1", "9147.5", ""):
                status, out, said = run(player, word)
                self.assertEqual((status, out, said.splitlines()[-1]), (2, "", f"{player.name}: error: argument PORT: expected a port from 1 to 65535, found {word!r}"))
            for seed in ("x", "1.5", "9" * 19, ""):
                status, out, said = run(player, "9147", seed)
                told = f"{player.name}: error: argument SEED: expected a whole number of at most 18 digits, found {seed!r}"
                self.assertEqual((status, out, said.splitlines()[-1]), (2, "", told))

    def test_a_port_that_is_taken(self):
        with socket.create_server(("127.0.0.1", 0)) as taken:
            port = taken.getsockname()[1]
            for player in PLAYERS:
                self.assertEqual(run(player, port, "1"), (1, "", f"port {port}: Address already in use\n"))

    def test_a_folder_in_the_place_of_the_text_for_players(self):
        status, out, said = run(INSTANTIATE, "--player-rules", self.folder, NIM)
        self.assertEqual((status, out), (1, ""))
        self.assertEqual(said.splitlines()[-1], f"ggp-instantiate: {self.folder}: Is a directory")


class BuiltIn(unittest.TestCase):
    def test_countdown_is_that_of_the_examples(self):
        read = outside("ground_games").expressions
        self.assertEqual(set(read(countdown.countdown(3))), set(read(GROUND.read_text())))
