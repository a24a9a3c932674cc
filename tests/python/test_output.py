"""Tests that no command prints a long line or a control character from a description, record or log that somebody else wrote."""

import json
import os
import re
import subprocess
import sys

import pytest
from ggp_tools.printable import MOST_OF_LINE
from support import TOP, program

LONG, CONTROL = "a" * 50_000, "\x1b[31m\x07\r\x85\x9b"
GAME = (
    "(role red) (role blue) (init (heap 1)) (legal red go) (legal blue go) (<= (next (heap 0)) (true (heap 1))) (<= terminal (true (heap 0)))"
    " (goal red 100) (goal blue 0)\n"
)
# The conflicting rules of a ground GDL file: 50 sentences that depend on each other, and 50 roles that are named twice.
CYCLE = "".join(f"(<= (p{number} {LONG[:2_000]}) (not (p{(number + 1) % 50} {LONG[:2_000]})))\n" for number in range(50))
ROLES = "".join(f"(role {LONG[:2_000]}{number}) (role {LONG[:2_000]}{number})\n" for number in range(50))
DESCRIPTIONS = {
    "role": GAME.replace("red", LONG),
    "term": GAME.replace("heap", LONG),
    "goal": GAME.replace("(goal red 100)", f"(goal red {LONG})"),
    "goals": GAME + f"(goal red 50) (<= (goal red 20) (true ({LONG} 1)))\n",
    "head": GAME + f"(true {LONG})\n",
    "body": GAME + f"(<= terminal (next {LONG}))\n",
    "term of another form": GAME + f"(<= terminal (true (?x {LONG})))\n",
    "not a sentence": GAME + f"(not {LONG} {LONG})\n",
    "unsafe": GAME + f"(<= (legal red (m ?{LONG})) (true (heap 1)))\n",
    "condition": GAME + f"(<= (legal red (m ?x)) (true ({LONG} ?x)))\n",
    "no role": GAME + f"(legal {LONG} stay) (goal {LONG} 50)\n",
    "dependence": GAME + f"(<= terminal (p {LONG})) (<= (p {LONG}) {LONG}) (<= {LONG} (does red go))\n",
    "dependence with variables": GAME + f"(<= terminal {LONG}) (<= {LONG} (does red ?x))\n",
    "endless": GAME + f"(<= (next ({LONG} (s ?x))) (true ({LONG} ?x))) (init ({LONG} 0))\n",
    "cycle": GAME + CYCLE + "(<= terminal (p0 " + LONG[:2_000] + "))\n",
    "cycle with variables": GAME + CYCLE + "(<= terminal (p0 ?x) (true (heap ?x)))\n",
    "roles": GAME + ROLES,
    "bytes": GAME + f"(<= (legal red {CONTROL}) (true (heap 1)))\n",
    "lists": GAME + f"(legal red {'(' * 70}{LONG}{')' * 70})\n",
    "open": GAME + "(" * 50_000,
}
RECORD = {
    "cause": None, "endMarks": ["", ""], "errors": [["", ""]], "goalValues": [100, 0], "matchId": "m", "moves": [["go", "go"]], "phase": "finished",
    "playClock": 1, "players": ["ann", "bob"], "roles": ["red", "blue"], "startClock": 1, "startMarks": ["", ""], "states": [["(heap 1)"], ["(heap 0)"]],
    "strikes": 0, "version": 2,
}
HOSTILE = LONG + CONTROL
VALUES = {
    "cause": HOSTILE, "endMarks": [HOSTILE, ""], "errors": [[f"IL {HOSTILE}", "IL " + LONG[:8_000]]], "goalValues": [int("9" * 4_000), 0], "matchId": HOSTILE,
    "moves": [[HOSTILE, "go"]], "phase": HOSTILE, "players": [HOSTILE] * 2, "roles": [HOSTILE] * 40, "states": [[HOSTILE] * 40, ["(heap 0)"]], HOSTILE: HOSTILE,
}
EVENT = {"event": "end", "match": "m", "time": 1, "kind": "STOP"}
LOGS = {
    "message": {
        "event": "message", "match": "m", "role": 0, "player": "ann", "number": 1, "kind": "START", "round": None, "time": 1, "ms": 1, "message": HOSTILE[:60_000],
        "answer": None, "error": "CE", "reason": HOSTILE[:60_000].encode("latin-1").decode("latin-1"),
    },
    "event": {"event": HOSTILE, "match": HOSTILE, HOSTILE: HOSTILE},
    "text": HOSTILE,
}


@pytest.fixture
def files(tmp_path):
    """Returns a directory with a game, a lawful record and its log."""
    (tmp_path / "rules").mkdir()
    (tmp_path / "rules" / "game.kif").write_text(GAME)
    (tmp_path / "record").write_text(json.dumps(RECORD, separators=(",", ":")) + "\n")
    (tmp_path / "log").write_text(json.dumps(EVENT) + "\n")
    return tmp_path


def assert_short(files, name, *words, has_output=True):
    """Runs a command, and checks what it prints. With `has_output`, standard output is also meant for people."""
    environment = {**os.environ, "PYTHONIOENCODING": "utf-8"}
    done = subprocess.run([sys.executable, TOP / "python" / name, *words], cwd=files, capture_output=True, env=environment)
    lines = [line for output in (done.stdout * has_output, done.stderr) for line in output.splitlines()]
    assert lines or not done.returncode
    assert b"Traceback" not in done.stderr
    assert max(map(len, lines), default=0) <= MOST_OF_LINE + 100
    assert [line for line in lines if re.search(rb"[^\t -~]", line)] == []


def records_words(*words):
    return "ggp-records", "--program", program(), "--rules", "rules", "--jobs", "1", *words


@pytest.mark.parametrize("name", DESCRIPTIONS)
def test_a_description(files, name):
    (files / "rules" / "game.kif").write_text(DESCRIPTIONS[name], encoding="latin-1")
    limits = "--seconds", "20", "--instantiate", "20", "--matches", "2"
    assert_short(files, "ggp_competition", "game", "--program", program(), *limits, "rules/game.kif")
    assert_short(files, "ggp-instantiate", "--seconds", "20", "rules/game.kif", has_output=False)
    assert_short(files, "ggp-hold-against", "rules/game.kif", "record")
    assert_short(files, "ggp-explain-record", program(), "record", "--rules-file", "rules/game.kif")
    assert_short(files, *records_words("check", "--explain", "record"))


@pytest.mark.parametrize("name", [*VALUES, "text"], ids=lambda name: name[:20].strip("a") or "key")
def test_a_record(files, name):
    text = CONTROL.replace("\r", "") + LONG if name == "text" else json.dumps({**RECORD, name: VALUES[name]}, ensure_ascii=False, separators=(",", ":"))
    (files / "record").write_text(text + "\n", encoding="utf-8")
    assert_short(files, "ggp-hold-against", "rules/game.kif", "record")
    assert_short(files, "ggp-explain-record", program(), "record", "--rules-file", "rules/game.kif")
    assert_short(files, "ggp-explain-record", program(), "record", "--lines", "--rules-file", "rules/game.kif")
    assert_short(files, "ggp-show-record", "record", has_output=False)
    assert_short(files, *records_words("check", "--explain", "record"))
    assert_short(files, *records_words("facts", "--log", "log", "facts", "record"))


@pytest.mark.parametrize("name", LOGS)
def test_a_log(files, name):
    (files / "log").write_text(json.dumps(LOGS[name]) + "\n")
    assert_short(files, "ggp-records", "log", "log")
    assert_short(files, *records_words("pgn", "--log", "log", "pgn", "record"))
