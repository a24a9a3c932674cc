"""Shared by the tests: the program, a competition's directory, and runs of `ggp_competition`."""

import functools
import importlib
import json
import os
import pathlib
import subprocess
import sys
import tempfile
import time
import types
import unittest

TOP = pathlib.Path(__file__).resolve().parents[2]
# Modules that share no code with the package: the oracles, and the example players.
OUTSIDE = [str(TOP / "tests/oracle"), str(TOP / "examples/players")]

# The grounding cache of the tests lasts only for this run.
CACHE = tempfile.TemporaryDirectory()
os.environ["XDG_CACHE_HOME"] = CACHE.name
COMMAND = TOP / "python/ggp_competition"
GAMES = TOP / "examples/games"
# Three roles play one turn. A role wins if neither of the others makes the same move.
ODD = """
(role one) (role two) (role three) (init new)
(<= (legal one head) (true new)) (<= (legal one tail) (true new))
(<= (legal two head) (true new)) (<= (legal two tail) (true new))
(<= (legal three head) (true new)) (<= (legal three tail) (true new))
(<= odd_one (does one head) (does two tail) (does three tail)) (<= odd_one (does one tail) (does two head) (does three head))
(<= odd_two (does two head) (does one tail) (does three tail)) (<= odd_two (does two tail) (does one head) (does three head))
(<= odd_three (does three head) (does one tail) (does two tail)) (<= odd_three (does three tail) (does one head) (does two head))
(<= (next (odd one)) odd_one) (<= (next (odd two)) odd_two) (<= (next (odd three)) odd_three) (<= (next over) (true new))
(<= terminal (true over))
(<= (goal one 100) (true (odd one))) (<= (goal one 0) (not (true (odd one))))
(<= (goal two 100) (true (odd two))) (<= (goal two 0) (not (true (odd two))))
(<= (goal three 100) (true (odd three))) (<= (goal three 0) (not (true (odd three))))
"""


def verdict_rows(*faults):
    """Returns the output of `verify --json` for records with the given faults. The fault None stands for a lawful record."""
    verdicts = ({"verdict": "not_lawful", "fault": fault} if fault else {"verdict": "lawful"} for fault in faults)
    return "".join(json.dumps(verdict, separators=(",", ":")) + "\n" for verdict in verdicts).encode()


def outside(name):
    """Loads a module from outside the package."""
    sys.path += [folder for folder in OUTSIDE if folder not in sys.path]
    return importlib.import_module(name)


@functools.cache
def program():
    """Returns the path of the referee: GGP_MANAGER, or the output of tools/program."""
    return os.environ.get("GGP_MANAGER") or subprocess.run([TOP / "tools/program"], stdout=subprocess.PIPE, text=True, check=True).stdout.strip()


def slowness():
    """Returns how many times slower this computer is than an idle one."""
    return min(5, max(1, round(os.getloadavg()[0] / os.cpu_count())))


def stand_in(**answers):
    """Returns a fake referee that gives these answers, with and without the limits for large games."""
    referee = types.SimpleNamespace(is_large=False, **answers)
    referee.taking = lambda _: referee
    return referee


def wait_until(holds):
    """Waits until a condition holds. If the condition never holds, the time limit of the whole test run ends the wait."""
    while not holds():
        time.sleep(0.02)


def raised(kind, ask, *arguments, **more):
    """Returns the exception of this kind that a call raises."""
    try:
        ask(*arguments, **more)
    except kind as why:
        return why
    raise AssertionError(f"{kind.__name__} is not raised")


def toml(players, games, form='kind = "round_robin"', head=""):
    """Returns the text of a competition.toml. Each player is given by its name, its address and further keys, and each game by its name,
    its file and further keys."""
    lines = ['name = "cup"', *head.splitlines(), "[form]", *form.splitlines()]
    for name, file, *more in games:
        lines += ["[[games]]", f'name = "{name}"', f'file = "{file}"', *more]
    for name, address, *more in players:
        lines += ["[[players]]", f'name = "{name}"', f'address = "{address}"', *more]
    return "\n".join(lines) + "\n"


def start(folder, *words, **more):
    """Starts a run of `ggp_competition`."""
    return subprocess.Popen(
        [sys.executable, COMMAND, *words, *([] if "--program" in words else ["--program", program()])],
        cwd=folder, text=True, **{"stdout": subprocess.PIPE, "stderr": subprocess.PIPE, **more},
    )


def run(folder, *words, **more):
    """Runs `ggp_competition`. Returns the exit status, the output and the errors."""
    started = start(folder, *words, **more)
    out, said = started.communicate(timeout=900)
    return started.returncode, out, said


def run_into_full(folder, *words):
    """Runs `ggp_competition` with a full disk as standard output. Returns the exit status and the errors."""
    with open("/dev/full", "w") as full:
        status, _, said = run(folder, *words, stdout=full)
    return status, said


class Reports:
    """A reporter that records its lines."""

    def __init__(self):
        self.lines, self.notes, self.begun, self.ended, self.shown, self.drawn = [], [], [], [], [], []
        self.fault, self.journal, self.is_shown = None, types.SimpleNamespace(fault=None), True
        self.line, self.note, self.draw = self.lines.append, self.notes.append, self.drawn.append

    def begins(self, match, host=None):
        self.begun.append((match.id, host))

    def ends(self, result, seconds):
        self.ended.append((result, seconds))

    def progress(self, *numbers):
        self.shown.append(numbers)

    def clear(self):
        self.draw("")


def script(path, text):
    """Writes a program. Returns its path."""
    path.write_text(text)
    path.chmod(0o755)
    return path


def program_but(path, asked, done):
    """Writes a program that behaves like the referee, but runs the shell command `done` if the condition `asked` holds. Both are shell code."""
    return script(path, f'#!/bin/bash\nif [[ {asked} ]]; then {done}; fi\nexec {program()} "$@"\n')


def command_of(process):
    """Returns the command line of a process, or no bytes if the process has ended."""
    try:
        return pathlib.Path(f"/proc/{process}/cmdline").read_bytes()
    except OSError:
        return b""


def call(*words, data=b""):
    """Returns the output of the referee."""
    return subprocess.run([program(), *map(str, words)], input=data, capture_output=True).stdout


def assert_spoilt(test, files, spoilings):
    """Checks that `check` refuses an archive of these files after each of these corruptions, with the expected message."""
    for name, (spoil, words) in spoilings.items():
        with test.subTest(name):
            (test.folder / "spoilt.tar.gz").write_bytes(spoil(dict(files)))
            status, out, said = run(test.folder, "check", "spoilt.tar.gz")
            test.assertEqual((status, out), (1, ""))
            test.assertIn(words, said)


class InFolder(unittest.TestCase):
    """A test with its own directory."""

    def setUp(self):
        self.folder = pathlib.Path(self.enterContext(tempfile.TemporaryDirectory()))

    def plan(self, *words, **more):
        """Writes competition.toml and plans it."""
        (self.folder / "competition.toml").write_text(toml(*words, **more))
        status, out, said = run(self.folder, "plan")
        self.assertEqual((status, said), (0, ""), out)
        return [line.split("\t") for line in (self.folder / "schedule.tsv").read_text().splitlines()[1:]]

    def records(self):
        return {file.stem: json.loads(file.read_bytes()) for file in sorted((self.folder / "records").glob("*.json"))}

    def assert_sound(self, schedule):
        """Checks, using only the referee, that each match of the schedule has a lawful record, and a call log that reproduces it."""
        self.assertEqual(sorted(file.stem for file in (self.folder / "records").glob("*.json")), sorted(planned[0] for planned in schedule))
        for match, game, start_clock, play_clock, players in schedule:
            record = (self.folder / f"records/{match}.json").read_bytes()
            rules = self.folder / f"rules/{game}.kif"
            self.assertEqual(call("verify", "--rules-file", rules, data=record), b"lawful\n", match)
            replayed = call("replay", "--rules-file", rules, data=(self.folder / f"accounts/{match}.txt").read_bytes())
            self.assertEqual(replayed.partition(b"\n")[2], record, match)
            read = json.loads(record)
            self.assertEqual((read["matchId"], " ".join(read["players"])), (match, players))
            self.assertEqual((str(read["startClock"]), str(read["playClock"])), (start_clock, play_clock))
