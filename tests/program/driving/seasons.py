"""Plays seasons of Countdown between the players of a script, and checks the records of the seasons."""
import json
import subprocess
import tempfile

from driving import GAMES
from driving.players import ROLES

GAME = GAMES / "countdown.kif"
BEGUN = "ggp_manager: "
# examples/season/README.md describes this command too.
CUT_OFF = """[ -z "$(tail -c 1 records)" ] || sed -i '$d' records"""
PATIENCE = 1800


def schedule(pairs, clocks="600 600", name="m"):
    """Returns a schedule with a match for each pair in `pairs`, the red player first, and the ids of the matches."""
    ids = [f"{name}{number}" for number in range(len(pairs))]
    return "".join(f"{match} {clocks} {red.address()} {blue.address()}\n" for match, (red, blue) in zip(ids, pairs)), ids


def paired(players, matches):
    """Returns the two players of each match. Neighbours in the list play each other, and the pairs take turns."""
    pairs = list(zip(players[::2], players[1::2]))
    return [pairs[number % len(pairs)] for number in range(matches)]


def run(program, words, text=""):
    return subprocess.run([program, *words], input=text, capture_output=True, text=True, timeout=PATIENCE)


def start(program, words, plan, records, **more):
    """Starts a season with the schedule `plan`. The records of the season are written to the file `records`."""
    with tempfile.TemporaryFile() as given:
        given.write(plan.encode())
        given.seek(0)
        return subprocess.Popen([program, "season", *words], stdin=given, stdout=records, **more)


def all_said(child):
    """Returns what a program writes to its pipes until it ends. Kills a program that does not end."""
    try:
        return child.communicate(timeout=PATIENCE)
    except subprocess.TimeoutExpired:
        child.kill()
        return child.communicate()


def ended(child):
    """Returns the exit status of a program. If its standard error is a pipe, also returns the standard error. Kills a program that does not
    end."""
    messages = all_said(child)[1]
    return child.returncode, messages


def whole_lines(text):
    """Returns the whole lines of a file, and an incomplete last line, if any."""
    whole, feed, cut = text.rpartition(b"\n")
    return (whole + feed).splitlines(keepends=True), cut


def partial_records(lines):
    """Returns the line numbers, counted from 1, of records whose call logs are incomplete. A complete call log ends with `over` for each
    role."""
    places = [place for place, line in enumerate(lines) if line.startswith(b"{")]
    ends = [*places[1:], len(lines)]
    return [place + 1 for place, end in zip(places, ends) if sum(line.endswith(b"\tover\n") for line in lines[place:end]) != len(ROLES)]


def cut_off(folder):
    """Removes an incomplete last line from the file `records` in this directory."""
    subprocess.run(["bash", "-c", CUT_OFF], cwd=folder, check=True)


def events_in(log, event="message"):
    """Returns the objects of this event in a log that may also have other lines."""
    objects = [json.loads(line) for line in log.splitlines() if line.startswith('{"event":')]
    return [entry for entry in objects if entry["event"] == event]


def records_in(lines):
    """Returns the records among these lines; the lines of call logs begin with a digit."""
    return [json.loads(line) for line in lines if not line[:1].isdigit()]


def errors_of(record):
    """Returns the errors of the moves in a record, and the errors of the answers to START, STOP and ABORT."""
    return [error for turn in (*record["errors"], record["startMarks"], record["endMarks"]) for error in turn if error]


def faults_of_records(program, game, text, ids, players):
    """Yields the errors in the records of a season. Each match must have one lawful record. The record must contain the moves that the players sent,
    and no errors."""
    try:
        records = records_in(whole_lines(text)[0])
    except ValueError as fault:
        yield f"a line is not a record: {fault}"
        return
    recorded = [record["matchId"] for record in records]
    if sorted(recorded) != sorted(ids):
        yield f"{len(ids)} matches: lost {sorted({*ids} - {*recorded})}, twice {sorted({match for match in recorded if recorded.count(match) > 1})}"
    checked = run(program, ["verify", "--lines", *game], text.decode())
    if checked.stdout != "lawful\n" * len(ids):
        yield f"not every record is lawful: {checked.stderr.strip()}"
    by_name = {player.name: player for player in players}
    for record in records:
        match = record["matchId"]
        if errors := errors_of(record):
            yield f"{match}: its players have errors: {errors}"
        for place, (role, name) in enumerate(zip(ROLES, record["players"])):
            seat = by_name[name].over.get(match)
            moves = [turn[place] for turn in record["moves"]]
            if seat is None or (seat.role, seat.sent) != (role, moves):
                yield f"{match}: {name} sent {seat and seat.sent} as {seat and seat.role}, and {moves} was played"
