"""Finds and calls the referee, the program `ggp_manager`."""

import contextlib
import itertools
import json
import os
import pathlib
import re
import shutil
import subprocess
import sys
import tempfile
from collections.abc import Iterator, Sequence
from typing import TYPE_CHECKING

from ggp_tools.kif import expressions, head_of, spelled
from ggp_tools.printable import message_lines
from ggp_tools.processes import ended_words, run_whole

if TYPE_CHECKING:
    from ggp_tools.competition.schedule import Match

PROGRAM = "ggp_manager"
LAWFUL = "lawful"
# With this option, verdicts are JSON. Exit status 1 means a negative verdict, and all errors have a greater exit status.
JSON, NO = "--json", 1
VERSION_LINE = re.compile(rb"ggp_manager [0-9]+\.[0-9]+\.[0-9]+\n")
# The first version that writes logs in JSON.
FIRST_WITH_EVENTS = 0, 3, 0
BAD_RULES = "ggp_manager: bad description"
TOO_LONG = f"{BAD_RULES}: it has "
# The maximum length of a script of `desk`, and of an answer that is a move.
MOST_OF_SCRIPT, MOST_OF_MOVE = 1 << 20, 4_096


class NoReferee(Exception):
    """There is no referee, or the program is not the referee."""


class BadRules(Exception):
    """The reason why the referee refuses a ground GDL file, and the place of the error."""


class Unchecked(Exception):
    """The referee gave no verdict, because it ran out of a resource such as memory, or was killed."""


def find_program(given: str | None) -> str:
    """Returns the path of the referee: the given one, or else the first one that exists next to this program, in bin/ of the repository, or
    on the PATH of the shell."""
    if given:
        if not shutil.which(given):
            raise NoReferee(f"{given} is not an executable program")
        return os.path.abspath(shutil.which(given))
    beside = pathlib.Path(sys.argv[0]).absolute().parent
    inside = pathlib.Path(__file__).resolve().parents[2] / "bin"
    folders = list(dict.fromkeys((beside, beside.parent / "bin", inside)))
    for file in (*(folder / PROGRAM for folder in folders), shutil.which(PROGRAM)):
        if file and os.access(file, os.X_OK):
            return str(file)
    places = ", ".join(map(str, folders))
    raise NoReferee(f"{PROGRAM} is not in {places}, nor on the PATH of the shell; name it with `--program FILE`")


def has_events(version: bytes) -> bool:
    """Returns whether the referee writes the current log format. `version` is the output of the referee for `--version`."""
    return tuple(map(int, version.split()[1].split(b"."))) >= FIRST_WITH_EVENTS


def last_line(said: subprocess.CompletedProcess) -> str:
    """Returns the last line of a run's standard error."""
    return (message_lines(said.stderr) or [""])[-1]


def records_replayed(output: bytes) -> list[bytes]:
    """Returns the records that `replay` printed for each call log. `replay` prints the verdict on a call log first; it includes the number of
    the records that follow."""
    lines = iter(output.splitlines(True))
    verdicts = (json.loads(line) for line in lines)
    return [b"".join(itertools.islice(lines, verdict["records"])) for verdict in verdicts if verdict["verdict"] == "replayed"]


def unchecked(said: subprocess.CompletedProcess, name: object) -> Unchecked:
    """Returns the error of a run that gave no verdict. The message calls the rules `name`."""
    words = last_line(said).removeprefix("ggp_manager: ") or "it printed nothing"
    return Unchecked(f"`{PROGRAM} {said.args[1]}` gave no verdict for {name}: {words}; {ended_words(said.returncode)}")


@contextlib.contextmanager
def rules_file(rules: bytes) -> Iterator[str]:
    """Yields the path of a temporary file with these rules. If the file cannot be written, the exception names the file."""
    with tempfile.NamedTemporaryFile() as file:
        try:
            pathlib.Path(file.name).write_bytes(rules)
        except OSError as why:
            raise OSError(why.errno, why.strerror, file.name) from None
        yield file.name


def read_objects(said: subprocess.CompletedProcess) -> list[dict] | None:
    """Returns the records or verdicts that a run printed, or None if a line is not JSON."""
    try:
        return [json.loads(line) for line in said.stdout.splitlines() if line.startswith(b"{")]
    except (ValueError, RecursionError):
        return None


class Referee:
    """Runs the referee at a path, with the usual limits or with those for large games. Options are written as `--name=FILE`, because the
    name of a file may begin with a hyphen."""

    def __init__(self, path: str, is_large: bool = False) -> None:
        self.path, self.is_large = path, is_large

    def taking(self, is_large: bool) -> "Referee":
        """Returns the referee with the limits for large games, or with the usual ones."""
        return self if is_large == self.is_large else Referee(self.path, is_large)

    def rules_words(self, rules_path: pathlib.Path | str) -> list[str]:
        """Returns the arguments for the rules and their limits."""
        return [f"--rules-file={rules_path}", *(["--large"] if self.is_large else [])]

    def call(self, *words: object, data: bytes = b"") -> subprocess.CompletedProcess:
        return run_whole([self.path, *map(str, words)], input=data)

    def version(self) -> str:
        run = self.call("--version")
        if not VERSION_LINE.fullmatch(run.stdout):
            raise NoReferee(f"{self.path} is not {PROGRAM}: `--version` does not print `{PROGRAM} N.N.N`")
        return run.stdout.decode("ascii").strip()

    def roles(self, rules: bytes, name: object) -> tuple[str, ...]:
        """Returns the names of the roles of a ground GDL text. Raises `BadRules` if the text is invalid; the message calls it `name`."""
        with rules_file(rules) as path:
            self.check_rules(path, name)
        facts = map(head_of, expressions(rules.decode("latin-1")))
        return tuple(spelled(fact[1]) for fact in facts if fact[0] == "role")

    def run_words(
        self, rules_path: pathlib.Path | str, player_rules_path: pathlib.Path | str | None, match: "Match", strikes: int, places: list[str], log: object = "-"
    ) -> list[str]:
        """Returns the command line that plays a match. If `player_rules_path` is given, START contains the rules in that file. `log` is the
        log file, or `-` for standard error."""
        player_rules = [] if player_rules_path is None else [f"--player-rules={player_rules_path}"]
        options = f"--id={match.id}", f"--start={match.start}", f"--play={match.play}", f"--strikes={strikes}", "--history", f"--log={log}"
        return [self.path, "run", *self.rules_words(rules_path), *player_rules, *options, "--", *places]

    def abort_words(self, match: str, place: str) -> list[str]:
        return [self.path, "abort", "--", match, place]

    def info_words(self, place: str) -> list[str]:
        return [self.path, "info", JSON, "--", place]

    def desk_words(self, rules_path: pathlib.Path | str) -> list[str]:
        return [self.path, "desk", *self.rules_words(rules_path)]

    def desk(self, rules_path: pathlib.Path | str, script: bytes) -> tuple[list[str], dict]:
        """Returns the replies of `desk` to a script of one match, and the record of the match so far."""
        run = self.call("desk", *self.rules_words(rules_path), data=script)
        records = read_objects(run)
        if run.returncode or not records:
            raise unchecked(run, rules_path)
        return [line.decode("ascii", "replace") for line in run.stdout.splitlines() if not line.startswith(b"{")], records[0]

    def check_rules(self, rules_path: pathlib.Path | str, name: object = None) -> None:
        """Refuses a file that is not ground GDL. If the path is temporary, error messages use `name` instead."""
        run = self.call("verify", "--lines", JSON, *self.rules_words(rules_path))
        last = last_line(run)
        if last.startswith(TOO_LONG):
            raise BadRules(last.removeprefix(f"{BAD_RULES}: "))
        if last == BAD_RULES:
            # The second-to-last line gives the place and the reason.
            raise BadRules(message_lines(run.stderr)[-2:][0].removeprefix("ggp_manager: "))
        if run.returncode:
            raise unchecked(run, name or rules_path)

    def verdicts(self, rules_path: pathlib.Path | str, records: Sequence[bytes]) -> list[str]:
        """Returns the verdict of `verify` for each record, as text. Each record is one line that begins with `{`."""
        run = self.call("verify", "--lines", JSON, *self.rules_words(rules_path), data=b"".join(records))
        verdicts = [LAWFUL if verdict["verdict"] == LAWFUL else f"not lawful: {verdict['fault']}" for verdict in read_objects(run) or ()]
        if len(verdicts) != len(records) or run.returncode != (0 if verdicts.count(LAWFUL) == len(verdicts) else NO):
            raise unchecked(run, rules_path)
        return verdicts

    def replays(self, rules_path: pathlib.Path | str, accounts: Sequence[bytes], records: Sequence[bytes]) -> list[bool]:
        """Returns whether the calls of each call log reproduce its record. `replay` stops at the first call log that does not, so this
        method runs `replay` again for the remaining ones. The line `{` before each call log ends the previous one."""
        results = []
        while len(results) < len(accounts):
            done = len(results)
            run = self.call("replay", JSON, *self.rules_words(rules_path), data=b"".join(b"{\n" + account for account in accounts[done:]))
            is_refused = run.returncode == NO
            replayed = records_replayed(run.stdout) if run.returncode in (0, NO) else []
            if not is_refused and (run.returncode != 0 or len(replayed) != len(accounts) - done):
                raise unchecked(run, rules_path)
            results += [reproduced == record for reproduced, record in zip(replayed, records[done:])]
            results += [False] if is_refused else []
        return results
