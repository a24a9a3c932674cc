"""Computes the schedule of a competition that grows: after the first match, you can still add rounds, players, games and pairings, and order
rematches. The planned matches stay as they are, and the new matches come after them.

The schedule follows from all versions of competition.toml, and from the rematches. Each version adds the matches that it requests and that
the previous version did not request. If a version adds players, a game of more than two roles gets only the matches where a new player
plays."""

import itertools
from collections import Counter
from collections.abc import Callable, Mapping, Sequence
from dataclasses import dataclass, replace
from pathlib import Path

from ggp_tools.competition.competition_file import KNOCKOUT, SWISS, Competition
from ggp_tools.competition.results import Result
from ggp_tools.competition.rounds import Round, Rounds, is_by_rounds, meetings, rounds_of, withdrawn_by, withdrawn_words
from ggp_tools.competition.schedule import Match, asked, id_of, refuse_numbers, refuse_too_many
from ggp_tools.printable import counted

# A game and its players in the order of the roles.
GameAndPlayers = tuple[str, tuple[str, ...]]
# A function that returns the result of a match, or None if the result is unknown.
ResultOf = Callable[[Match], Result | None]


class Misfit(Exception):
    """The reason why a schedule can't grow as requested. If the error is in competition.toml, `line` is the line of the error."""

    def __init__(self, words: str, line: int = 0) -> None:
        super().__init__(words)
        self.line = line

    def at(self, path: Path) -> str:
        """Returns the message, after the path of competition.toml."""
        return f"{path}:{self.line}: {self}" if self.line else f"{path}: {self}"


@dataclass(frozen=True)
class Again:
    """A rematch, the match that it replaces, and the reason."""

    match: str
    instead_of: str
    reason: str


@dataclass(frozen=True)
class History:
    """The earlier versions of competition.toml, each with the number of matches that were planned when the next version replaced it; the
    rematches; and the key for the random ids of matches."""

    earlier: tuple[tuple[int, Competition], ...] = ()
    again: tuple[Again, ...] = ()
    key: bytes = b""


def shape(competition: Competition) -> tuple[object, ...]:
    """Returns the values that determine the schedule of a competition."""
    form, games = competition.form, [(game.name, game.start, game.play) for game in competition.games]
    names = [(player.name, player.withdrawn is None) for player in competition.players]
    rules = competition.name, competition.ids, competition.withdrawn_results, competition.absent_rounds
    return *rules, form.kind, form.rounds, form.one, form.final, [line.text.split() for line in form.lines], games, names


def refuse_unchanged(history: History, competition: Competition) -> None:
    """Refuses an earlier version that requests the same matches as the version after it."""
    for (until, before), (_, after) in itertools.pairwise((*history.earlier, (None, competition))):
        if shape(before) == shape(after):
            raise Misfit(f"earlier/{until}.toml asks for the same matches as the file after it, so it was not replaced; delete it")


def fixed(competition: Competition) -> dict[str, object]:
    """Returns, by key, the values that must not change once matches have been played, because they determine how matches count and how the table
    is computed."""
    form = competition.form
    values = {"form.kind": form.kind, "faults.replaced": competition.faults.replaced}
    values |= {key: getattr(competition, key) for key in ("name", "ids", "seeds", "strikes", "forfeit", "order", "anchor")}
    if is_by_rounds(competition):
        # These values also determine the pairs of later rounds.
        values |= {"form.final": form.final, "the number of games": len(competition.games)}
        values |= {"form.rounds": form.rounds} if form.final else {}
        values |= {"the number of players": len(competition.players)} if form.kind == KNOCKOUT else {}
    if competition.withdrawn() or competition.absent_rounds:
        values["withdrawn_results"] = competition.withdrawn_results
    return values


def spelled(value: object) -> str:
    return str(value).lower() if isinstance(value, bool) else repr(value)


def refuse_changes(before: Competition, after: Competition) -> None:
    """Refuses changes to values that must not change once matches have been played."""
    now = fixed(after) | {"withdrawn_results": after.withdrawn_results}
    for key, old in fixed(before).items():
        if old != now.get(key, old):
            raise Misfit(f"{key} was {spelled(old)} and is now {spelled(now[key])}", after.line_of(*key.split(".")))
    if after.form.kind == SWISS and after.form.rounds < before.form.rounds:
        raise Misfit(f"form.rounds was {before.form.rounds} and is now {after.form.rounds}", after.line_of("form", "rounds"))
    games = {game.name: game for game in after.games}
    for old in before.games:
        if not (game := games.get(old.name)):
            raise Misfit(f"the game {old.name} is missing")
        if (game.start, game.play) != (old.start, old.play):
            raise Misfit(f"the clocks of {game.name} were {old.start} and {old.play}, and are now {game.start} and {game.play}", game.line)
        if game.player_rules != old.player_rules:
            raise Misfit(f"player_rules of {game.name} was {old.player_rules!r} and is now {game.player_rules!r}", game.player_rules_line)
    if gone := new_players(after, before):
        raise Misfit(f"the player {gone[0]} is missing")
    if back := [name for name in before.withdrawn() if name not in after.withdrawn()]:
        raise Misfit(f"the player {back[0]} has withdrawn, and can't come back")


def new_players(before: Competition, after: Competition) -> list[str]:
    known = {player.name for player in before.players}
    return [player.name for player in after.players if player.name not in known]


class Growing:
    def __init__(self, history: History, roles: Mapping[str, int], result_of: ResultOf) -> None:
        self.roles, self.result_of, self.width, self.key = roles, result_of, 0, history.key
        self.matches: list[Match] = []
        self.places: dict[str, int] = {}
        self.again = {order.match: order for order in history.again}
        self.rounds = Rounds()
        # The matches that the last version requests.
        self.asked: list[GameAndPlayers] = []

    def take(self, before: Competition | None, competition: Competition, until: int | None, most: int | None) -> None:
        """Plans the matches that a version adds, and its rematches. If another version follows, plans only up to `until` matches. After
        `most` matches, no further round is planned."""
        if is_by_rounds(competition):
            refuse_numbers(competition, self.roles)
            self.add_again(competition, until)
            while following := self.next_round(competition, most):
                self.rounds.add(following)
                self.add_all(competition, meetings(competition, following), following.number)
                self.add_again(competition, until)
            return
        known, self.asked = self.asked, asked(competition, self.roles)
        additions = self.asked if before is None else self.added(before, competition, Counter(known))
        self.width = self.width or len(str(len(additions)))
        # A player that has withdrawn plays no further match.
        withdrawn = competition.withdrawn()
        self.add_all(competition, [(game, players) for game, players in additions if withdrawn.keys().isdisjoint(players)])
        self.add_again(competition, until)

    def added(self, before: Competition, after: Competition, known: Counter[GameAndPlayers]) -> list[GameAndPlayers]:
        """Returns the matches that a version adds to the known ones. Refuses a version that lacks a known match."""
        additions, new = [], set(new_players(before, after))
        shared = {game.name for game in before.games if new and self.roles[game.name] > 2 and after.form.lines == ()}
        if shared and before.form.rounds != after.form.rounds:
            raise Misfit(f"{min(shared)} has more than two roles, so add rounds and players separately, and run `plan` in between")
        for game, players in self.asked:
            if game in shared:
                additions += [(game, players)] if new.intersection(players) else []
            elif known[game, players]:
                known[game, players] -= 1
            else:
                additions.append((game, players))
        for (game, players), count in known.items():
            if count and game not in shared:
                gone = [match.id for match in self.matches if (match.game, match.players) == (game, players)][-count:]
                raise Misfit(f"{gone[0]} ({game} {' '.join(players)}) was planned, but is no longer among the matches")
        return additions

    def next_round(self, competition: Competition, most: int | None) -> Round | None:
        """If the last round is over, returns the next one, otherwise None. After `most` matches, returns only a round without matches, for
        example if all players except one have withdrawn."""
        number, withdrawn, is_full = len(self.rounds.found), competition.withdrawn(), most is not None and len(self.matches) >= most
        if number == rounds_of(competition) or is_full and not withdrawn and not competition.absent_rounds:
            return None
        results = {match: self.result_of(match) for match in self.of_round(number)}
        if any(result is None and not withdrawn.keys() & match.players for match, result in results.items()):
            return None
        following = self.rounds.next(competition, [result for result in results.values() if result])
        return None if is_full and following.pairs else following

    def of_round(self, number: int) -> list[Match]:
        """Returns the matches of the last round that count."""
        last = itertools.takewhile(lambda match: match.round == number, reversed(self.matches)) if number else ()
        return [match for match in last if not match.again][::-1]

    def add_all(self, competition: Competition, matches: Sequence[GameAndPlayers], round_number: int = 0) -> None:
        refuse_too_many(competition, len(self.matches) + len(matches))
        games = {game.name: game for game in competition.games}
        for name, players in matches:
            game = games[name]
            self.add(Match(self.next_id(competition), name, game.start, game.play, players, round_number))

    def add(self, match: Match) -> None:
        self.places[match.id] = len(self.matches)
        self.matches.append(match)

    def next_id(self, competition: Competition) -> str:
        return id_of(competition, len(self.matches) + 1, self.width, self.key)

    def leave_out(self, competition: Competition) -> None:
        """Marks the matches that do not count or are not played because a player has withdrawn."""
        withdrawn = withdrawn_by(competition, self.rounds.found)
        for at, match in enumerate(self.matches) if withdrawn else ():
            name = next((player for player in match.players if player in withdrawn), None)
            if name and not match.again and (competition.is_void(match.players, withdrawn) or self.result_of(match) is None):
                self.matches[at] = replace(match, withdrawn=withdrawn_words(name, withdrawn[name]))

    def add_again(self, competition: Competition, until: int | None) -> None:
        """Adds the rematches that come next in the schedule."""
        while (until is None or len(self.matches) < until) and (order := self.again.pop(self.next_id(competition), None)):
            refuse_too_many(competition, len(self.matches) + 1)
            at = self.places.get(order.instead_of)
            if at is None or self.matches[at].again:
                raise Misfit(f"{order.match} replaces {order.instead_of}, which is not a match that counts")
            old = self.matches[at]
            if old.round < len(self.rounds.found):
                why = f"it is in round {old.round}, and the next round was paired by the results of that round"
                raise Misfit(f"{old.id} can't be played again: {why}")
            self.matches[at] = replace(old, again=order.match, reason=order.reason)
            self.add(replace(old, id=order.match, instead_of=old.id))


def grown(history: History, competition: Competition, roles: Mapping[str, int], result_of: ResultOf, most: int | None = None) -> Growing:
    """Returns the schedule that follows from a competition, its history and its results. After `most` matches, no further round is
    planned."""
    growing, before = Growing(history, roles, result_of), None
    for until, version in (*history.earlier, (None, competition)):
        if before is not None:
            refuse_changes(before, version)
        growing.take(before, version, until, most if until is None else until)
        if until is not None and len(growing.matches) != until:
            planned = counted(len(growing.matches), "planned match")
            raise Misfit(f"earlier/{until}.toml was replaced after {planned}, not after {until} as its name says")
        before = version
    growing.leave_out(competition)
    if growing.again:
        raise Misfit(f"the rematch {min(growing.again)} is not the next match of the schedule")
    return growing
