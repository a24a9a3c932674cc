"""Loads game descriptions: reads and checks them, grounds them if they have variables, and passes them to the referee."""

import hashlib
import itertools
import os
import pathlib
import re
import subprocess
import sys
import tempfile
from dataclasses import dataclass

from ggp_tools import kif
from ggp_tools.descriptions import kept
from ggp_tools.instantiating.limits import LARGE, LARGE_NOTE, MOST
from ggp_tools.gdl import Relations, all_rules, as_read
from ggp_tools.instantiating.for_players import text_for_players
from ggp_tools.processes import run_whole
from ggp_tools.referee import BadRules, Referee

# The directory of this package.
FOLDER = pathlib.Path(__file__).resolve().parents[2]
# The maximum lengths of a description, and of the text for players.
MOST_BYTES, MOST_BYTES_FOR_PLAYERS = LARGE["bytes"], 1 << 20
# The name of the command and of the file, which precede the place of a sentence in a message.
PLACED = re.compile(r"ggp-instantiate: .*?: (?=line [0-9]+, column [0-9]+: )")
STOPPED = re.compile(r"ggp-instantiate: stopped after ")


class NoDescription(Exception):
    """The reason why a text is not a description, in lines. If the place of the error is known, the reason includes it."""


class Stopped(NoDescription):
    """The time limit was reached before the description was found to be valid or invalid."""


@dataclass(frozen=True)
class Rules:
    """The ground GDL text of a game: the text, checksum and roles. `player_rules` is the description for players, if it differs from the text.
    `description_sum` is the checksum of the source file, if known."""

    text: bytes
    sum: str
    roles: tuple
    player_rules: bytes | None = None
    description_sum: str | None = None
    notes: tuple = ()
    is_large: bool = False


def sum_of(data: bytes) -> str:
    return hashlib.sha256(data).hexdigest()


def sentence_starts(text: bytes) -> list[int]:
    """Returns the index where each sentence begins. Refuses a text that is not KIF, or has no sentence."""
    description = text.decode("latin-1")
    try:
        indices = kif.starts(description)
    except kif.KifFault as why:
        raise NoDescription(kif.told(description, why)) from None
    if not indices:
        raise NoDescription("line 1, column 1: there is no sentence")
    return indices


def look_at_sentences(text: bytes) -> None:
    """Checks the sentences of a text as `ggp-instantiate` does before grounding."""
    description = text.decode("latin-1")
    try:
        Relations(all_rules(kif.expressions(description))).refuse_dependence()
    except kif.Refused as why:
        raise NoDescription(kif.told(description, why)) from None


def has_variables(text: bytes) -> bool:
    return kif.has_variables(text.decode("latin-1"))


def run_module(name: str, *words: str, data: bytes | None = None) -> subprocess.CompletedProcess:
    """Runs a module of this package as a command."""
    return run_whole([sys.executable, "-B", "-P", "-m", f"ggp_tools.{name}", *words], env={"PYTHONPATH": str(FOLDER)}, input=data)


def why_not(made: subprocess.CompletedProcess) -> str:
    """Returns why a run of `ggp-instantiate` failed: the last line that it printed. If a limit was exceeded, the lines with the most
    expensive sentences come before it."""
    lines = made.stderr.decode(errors="replace").strip().splitlines() or [f"ggp-instantiate ended with status {made.returncode}"]
    return "\n".join([*(line.strip() for line in lines[:-1] if line.startswith("  largest: ")), PLACED.sub("", lines[-1])])


def instantiated(path: pathlib.Path, text: bytes, tells_variables: bool, seconds: float, is_large: bool = False) -> tuple[bytes, bytes | None]:
    """Returns the ground GDL text that `ggp-instantiate` makes from a file, and the text for players if it differs."""
    large = ["--large"] if is_large else []
    key = kept.sum_of_work(text, [*large, *(["--player-rules"] if tells_variables else [])])
    if result := kept.kept(key):
        return result[0], result[1] if tells_variables else None
    with tempfile.TemporaryDirectory() as directory:
        player_rules = pathlib.Path(directory) / "player_rules"
        words = [f"--seconds={seconds}", *large, *(["--player-rules", str(player_rules)] if tells_variables else [])]
        # A path that begins with a hyphen would be parsed as an option.
        run = run_module("instantiating.command", *words, os.path.abspath(path))
        if run.returncode:
            raise (Stopped if STOPPED.match(why_not(run).splitlines()[-1]) else NoDescription)(why_not(run))
        result = run.stdout, player_rules.read_bytes() if tells_variables else None
    kept.keep(key, result[0], result[1] or b"")
    return result


def notes_of(ground: bytes) -> tuple[str, ...]:
    """Returns the notes of `ggp-instantiate` at the top of a ground GDL text."""
    return tuple(note[2:].decode() for note in itertools.takewhile(lambda line: line.startswith(b"; "), ground.splitlines()))


def rules_of(
    text: bytes, name: pathlib.Path | str, referee: Referee, player_rules: bytes | None = None, description_sum: str | None = None,
    notes: tuple[str, ...] = (),
) -> Rules:
    """Returns the rules of a ground GDL text, with the roles that the referee finds in it. If the text exceeds the usual limits,
    the large limits apply. If the referee refuses the rules, raises an error with the referee's message."""
    large = referee.taking(True)
    programs = [large] if referee.is_large or LARGE_NOTE in notes_of(text) else [referee, large]
    for program in programs:
        try:
            roles = program.roles(text, name)
        except BadRules as refused:
            why = refused
            continue
        notes = notes if program is programs[0] else (LARGE_NOTE, *notes)
        return Rules(text, sum_of(text), roles, player_rules, description_sum, notes, program.is_large)
    raise NoDescription(str(why)) from None


def read_text(path: pathlib.Path) -> bytes:
    """Reads a description."""
    try:
        with open(path, "rb") as file:
            text, size = file.read(MOST_BYTES + 1), os.fstat(file.fileno()).st_size
    except OSError as why:
        raise NoDescription(f"it can't be read: {why.strerror}") from None
    if len(text) > MOST_BYTES:
        raise NoDescription(f"it has {max(size, len(text)):,} bytes; at most {MOST['bytes']:,} are accepted, or {MOST_BYTES:,} with --large")
    return text


def load_description(path: pathlib.Path, referee: Referee, tells_variables: bool, seconds: float) -> Rules:
    """Returns the rules of a game that a file describes. If the file has no variables, players get the rules themselves."""
    text = read_text(path)
    sentence_starts(text)
    description_sum = sum_of(text)
    if not has_variables(text):
        return rules_of(text, path, referee, None, description_sum)
    look_at_sentences(text)
    ground, player_rules = instantiated(path, text, tells_variables, seconds, referee.is_large)
    try:
        return rules_of(ground, path, referee, player_rules, description_sum, notes_of(ground))
    except NoDescription as why:
        raise NoDescription(f"its ground rules, made by ggp-instantiate: {why}") from None


def load_described(path: pathlib.Path, described: pathlib.Path, referee: Referee, tells_variables: bool) -> Rules:
    """Returns the rules of a ground file. The text for players is made from `described`, the description of the same game with
    variables."""
    ground = read_text(path)
    if has_variables(ground):
        raise NoDescription("it has variables, so it needs no other description")
    sentence_starts(ground)
    try:
        text = read_text(described)
        sentence_starts(text)
        look_at_sentences(text)
    except NoDescription as why:
        raise NoDescription(f"its description {described}: {why}") from None
    if not has_variables(text):
        raise NoDescription(f"its description {described} has no variables")
    player_rules = None
    if tells_variables:
        heads = list(map(kif.head_of, kif.expressions(ground.decode("latin-1"))))
        player_rules = text_for_players(list(map(as_read, kif.expressions(text.decode("latin-1")))), heads).encode("ascii")
        if len(player_rules) > MOST_BYTES_FOR_PLAYERS:
            raise NoDescription(f"the text for players has more than {MOST_BYTES_FOR_PLAYERS:,} bytes")
    return rules_of(ground, path, referee, player_rules, sum_of(text))
