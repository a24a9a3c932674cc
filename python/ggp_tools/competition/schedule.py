"""Computes the matches of a competition, each with its game and its players, and the text of schedule.tsv. The matches of the same competition
are always the same."""

import base64
import hmac
import itertools
import re
from collections.abc import Iterable, Iterator, Mapping, Sequence
from dataclasses import dataclass

from ggp_tools.competition.competition_file import ROUND_KINDS, Competition, Mistake, Mistaken
from ggp_tools.printable import counted

HEAD = "id\tgame\tstart\tplay\tplayers\n"
# The maximum number of matches, and of bytes of a row with 1,000 players.
MOST_MATCHES, MOST_OF_ROW = 100_000, 1 << 17
# The number of letters and digits of a random id that are computed from the key: 60 bits.
SECRET_LETTERS = 12
# A row of schedule.tsv: the match, its game, its clocks, and the players.
ROW = re.compile(rb"([A-Za-z0-9_.-]{1,60})\t([A-Za-z0-9_.-]{1,40})\t([0-9]{1,5})\t([0-9]{1,5})\t([A-Za-z0-9_. -]+)\n?")


@dataclass(frozen=True)
class Match:
    """A match: its id, its game, its clocks, its players' names in the order of the roles, and its round, if there are rounds. If another
    match replaces it, `again` is that match, and `reason` says why. If it replaces another match, `instead_of` is that match. If it does not count
    or is not played because a player has withdrawn, `withdrawn` names the player."""

    id: str
    game: str
    start: int
    play: int
    players: tuple[str, ...]
    round: int = 0
    again: str = ""
    reason: str = ""
    instead_of: str = ""
    withdrawn: str = ""

    def counts(self) -> bool:
        return not self.again and not self.withdrawn

    def why_not(self) -> str:
        """Returns why the match does not count, or an empty string if the match counts."""
        return self.withdrawn or self.again and f"{self.again} replaces it: {self.reason}"

    def line(self) -> str:
        return f"{self.id}\t{self.game}\t{self.start}\t{self.play}\t{' '.join(self.players)}\n"


def circle_steps(count: int, roles: int, rounds: int) -> Iterator[tuple[int, ...]]:
    """Places the players in a circle. Yields, for each block of matches, the distances from the player of the first role to the players of all
    roles. A block has one match for each place in the circle, so each player plays each role once. With two roles, each distance occurs once in a
    round. With more roles, each distance is one of those that occurred least often."""
    if roles == 1:
        yield from [(0,)] * rounds
        return
    if roles == 2:
        yield from [(0, step) for step in range(1, count)] * rounds
        return
    blocks, met = -(-2 * (count - 1) // (roles * (roles - 1))), [0] * count
    for _ in range(blocks * rounds):
        steps = [0]
        for _ in range(1, roles):
            free = (step for step in range(1, count) if step not in steps)
            steps.append(min(free, key=lambda step: (sum(met[(step - other) % count] for other in steps), step)))
            for other in steps[:-1]:
                met[(steps[-1] - other) % count] += 1
                met[(other - steps[-1]) % count] += 1
        yield tuple(steps)


def round_robin(players: Sequence[str], roles: int, rounds: int) -> Iterator[tuple[str, ...]]:
    """Yields the players of each match. With two roles, each pair plays in both orders. With one role, each player plays alone."""
    for steps in circle_steps(len(players), roles, rounds):
        for first in range(len(players)):
            yield tuple(players[(first + step) % len(players)] for step in steps)


def gauntlet(players: Sequence[str], one: str, roles: int, rounds: int) -> Iterator[tuple[str, ...]]:
    """Yields the players of each match between one player and all others. That player plays each role in turn."""
    if roles == 1:
        yield from round_robin(players, 1, rounds)
        return
    others = [player for player in players if player != one]
    for role in [*range(roles)] * rounds:
        for first in range(len(others)):
            opponents = [others[(first + offset) % len(others)] for offset in range(roles - 1)]
            yield (*opponents[:role], one, *opponents[role:])


def pairings(competition: Competition, roles: Mapping[str, int]) -> Iterator[tuple[str, tuple[str, ...]]]:
    form, players = competition.form, [player.name for player in competition.players]
    for name, *of_line in (line.text.split() for line in form.lines):
        yield name, tuple(of_line)
    for game in competition.games if form.kind != "schedule" else ():
        count = roles[game.name]
        matches = gauntlet(players, form.one, count, form.rounds) if form.kind == "gauntlet" else round_robin(players, count, form.rounds)
        yield from ((game.name, pairing) for pairing in matches)


def asked(competition: Competition, roles: Mapping[str, int]) -> list[tuple[str, tuple[str, ...]]]:
    """Returns the matches that competition.toml asks for, each as a game and its players. `roles` gives the number of roles of each game."""
    refuse_numbers(competition, roles)
    matches = list(itertools.islice(pairings(competition, roles), MOST_MATCHES + 1))
    refuse_too_many(competition, len(matches))
    return matches


def refuse_numbers(competition: Competition, roles: Mapping[str, int]) -> None:
    """Refuses games, and lines of the schedule, whose number of players does not fit the roles."""
    form, count, mistakes = competition.form, len(competition.players), []
    for line in form.lines:
        name, *players = line.text.split()
        if len(players) != roles[name]:
            words = f"{name} has {counted(roles[name], 'role')}, but the line names {counted(len(players), 'player')}"
            mistakes.append(Mistake(line.line, "form.lines", words))
    for game in competition.games if form.kind != "schedule" else ():
        of_game = roles[game.name]
        if form.kind in ROUND_KINDS and of_game != 2:
            words = f"the kind {form.kind} is for games of two roles, but {game.name} has {of_game}"
            mistakes.append(Mistake(game.line, "games.file", words))
        elif of_game > count:
            words = f"{game.name} has {counted(of_game, 'role')}, but the competition has {counted(count, 'player')}"
            mistakes.append(Mistake(game.line, "games.file", words))
    if mistakes:
        raise Mistaken(mistakes)


def refuse_too_many(competition: Competition, count: int) -> None:
    if count > MOST_MATCHES:
        raise Mistaken([Mistake(competition.form.line, "form", f"there are more than {MOST_MATCHES:,} matches")])


def id_of(competition: Competition, number: int, width: int, key: bytes) -> str:
    """Returns the id of the match with a number, counted from 1. The number has at least as many digits as the numbers in the first plan.
    If the id is computed with a key, it cannot be guessed without the key."""
    counted = f"{competition.name}-{number:0{max(3, width)}}"
    digest = base64.b32encode(hmac.digest(key, counted.encode("ascii"), "sha256")).decode("ascii").lower() if key else ""
    return f"{counted}-{digest[:SECRET_LETTERS]}" if key else counted


def matches_in(schedule: Iterable[bytes], competition: Competition) -> list[Match]:
    """Returns the matches in the rows of a schedule. Skips rows that are not matches of the competition."""
    games, names = {game.name for game in competition.games}, {player.name for player in competition.players}
    rows = ([field.decode("ascii") for field in row.groups()] for line in schedule if (row := ROW.fullmatch(line)))
    matches = [Match(match, game, int(start), int(play), tuple(players.split())) for match, game, start, play, players in rows]
    return [match for match in matches if match.game in games and names.issuperset(match.players)]


def id_in(line: bytes) -> str | None:
    """Returns the id of the match in a line of schedule.tsv, or None if the line has no id."""
    row = ROW.fullmatch(line)
    return row[1].decode("ascii") if row else None


def schedule_rows(matches: Iterable[Match]) -> Iterator[bytes]:
    yield HEAD.encode("ascii")
    yield from (match.line().encode("ascii") for match in matches)


def schedule_text(matches: Iterable[Match]) -> bytes:
    return b"".join(schedule_rows(matches))
