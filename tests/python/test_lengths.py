"""Records of more than 16 MiB: their maximum length, and which parts are read."""

import json
import subprocess

import pytest
from ggp_tools.records import record as records
from ggp_tools.records.lengths import USUAL_RECORD, states_in, longest_record, without_states
from ggp_tools.records.record import NoRecord, read_record
from ggp_tools.records.show import page_of
from support import GAMES, program

STATES = [["(heap 2)"], ["(heap 1)", '(a "b" ],"strikes":)'], ["(heap 0)"]]
RECORD = {
    "cause": None, "endMarks": ["", ""], "errors": [["", 'IL "states":['], ["", ""]], "goalValues": [0, 100], "matchId": "m", "moves": [["a", "b"], ["c", "d"]],
    "phase": "finished", "playClock": 1, "players": ["ann", "bob"], "roles": ["red", "blue"], "startClock": 1, "startMarks": ["", ""], "states": STATES,
    "strikes": 0, "version": 2,
}
DATA = json.dumps(RECORD, separators=(",", ":")).encode() + b"\n"


def test_a_record_without_its_states():
    assert json.loads(without_states(DATA)) == {**RECORD, "states": []}
    for other in (b"", b"{}", b'{"states":[', b'],"strikes":0', b'],"strikes":0,"states":['):
        assert without_states(other) == other


def test_its_first_states():
    begin = DATA.index(b'"states":[') + 10
    ends = [DATA.index(b"]", DATA.index(b"heap 2")) + 1 - begin, DATA.index(b'"]', DATA.index(b":)")) + 2 - begin, DATA.index(b']],"strikes') + 1 - begin]
    for count, end in enumerate(ends, 1):
        assert (list(states_in(DATA, end)), list(states_in(DATA, end - 1))) == (STATES[:count], STATES[: count - 1])


def test_a_page_of_a_long_record_has_its_first_states(monkeypatch):
    whole = page_of(read_record(DATA))
    assert b"The record has more than" not in whole
    rest = len(without_states(DATA)) + 10
    monkeypatch.setattr(records, "LONGEST_RECORD", rest)
    data = DATA.replace(b'["(heap 0)"]', b'["(heap 0)","' + b"x" * rest + b'"]')
    record = read_record(data)
    assert (record["states"], len(record["moves"])) == (STATES[:2], 2)
    page = page_of(record)
    assert b"The record has more than 16 MiB. These are the first 2 of its states." in page
    assert (page.count(b'class="state"'), page.count(b'<tr class="turn">')) == (2, 2)
    for wrong in (data.replace(b'],"strikes":', b'],"other":'), data.replace(b"(heap 2)", b"x" * rest)):
        with pytest.raises(NoRecord):
            read_record(wrong)


@pytest.mark.parametrize("game", ["countdown", "tictactoe", "buttons", "crossing"])
def test_no_record_of_a_game_is_longer(game):
    """In matches on the desk, no state, move or answer takes more bytes than the limit assumes."""
    rules = (GAMES / f"{game}.kif").read_bytes()
    per_turn = (longest_record(rules) - USUAL_RECORD) / 10_001
    roles = [word.split(b")")[0] for word in rules.split(b"(role ")[1:]]
    script = [f"open m 0 1 1 {' '.join('p' * len(roles))}"]
    for turn in range(12):
        for role in range(len(roles)):
            script += [f"next m {role}", f"submit m {role} {turn} {'x' * 64}"]
    done = subprocess.run([program(), "desk", f"--rules-file={GAMES / game}.kif"], input="\n".join(script).encode(), stdout=subprocess.PIPE)
    records = [line for line in done.stdout.splitlines() if line.startswith(b"{")]
    assert len(records) == 1
    record = json.loads(records[0])
    assert record["moves"]
    for state, moves, errors in zip(record["states"], record["moves"], record["errors"]):
        assert sum(len(json.dumps(part, separators=(",", ":"))) for part in (state, moves, errors)) <= per_turn
