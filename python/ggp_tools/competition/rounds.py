"""Plans the rounds of a Swiss competition or a knockout. The results of the earlier rounds determine the pairs of the next round, as "Swiss and
knockout" in docs/COMPETITION.md describes. The two players of a pair play each game twice, once in each order of the roles."""

import itertools
from collections import Counter, defaultdict
from collections.abc import Collection, Iterable, Mapping, Sequence
from dataclasses import dataclass, replace

from ggp_tools.competition.competition_file import KNOCKOUT, ROUND_KINDS, SWISS, Competition
from ggp_tools.competition.results import DRAWN, WON, Result
from ggp_tools.printable import counted

# A pairing: its round and its two players.
Meeting = tuple[int, frozenset[str]]


@dataclass(frozen=True)
class Round:
    """A round: its number, counted from 1; its pairs; the players with a bye; and the players that were withdrawn before this round because they
    were absent, each with the reason."""

    number: int
    pairs: tuple[tuple[str, str], ...]
    byes: tuple[str, ...]
    absent: tuple[tuple[str, str], ...] = ()

    def players(self) -> set[str]:
        return {*self.byes, *(name for pair in self.pairs for name in pair)}

    def byes_words(self) -> str:
        return f"; bye: {', '.join(self.byes)}" if self.byes else ""

    def absent_words(self) -> str:
        return f"; withdrawn: {', '.join(f'{name} ({why})' for name, why in self.absent)}" if self.absent else ""


class Scores:
    """The points, goals, opponents and byes of the players in these rounds."""

    def __init__(self, competition: Competition) -> None:
        self.meeting = 2 * len(competition.games)
        self.points: Counter[str] = Counter()
        self.goals: Counter[str] = Counter()
        self.byes: Counter[str] = Counter()
        self.opponents: dict[str, list[str]] = defaultdict(list)
        self.met: Counter[frozenset[str]] = Counter()

    def count_round(self, planned: Round, withdrawn: Mapping[str, str], of_meeting: Mapping[Meeting, list[Result]]) -> None:
        """Counts the pairs and the byes of a round. If a match is not played or does not count because a player has withdrawn, the other player
        gets a point for it, as in a bye."""
        for bye in planned.byes:
            self.byes[bye] += 1
            self.points[bye] += self.meeting
        for pair in planned.pairs:
            self.met[frozenset(pair)] += 1
            lacking = self.meeting - len(of_meeting[planned.number, frozenset(pair)]) if withdrawn.keys() & pair else 0
            for name, opponent in (pair, pair[::-1]):
                if lacking < self.meeting:
                    self.opponents[name].append(opponent)
                if name not in withdrawn:
                    self.byes[name] += lacking == self.meeting
                    self.points[name] += lacking

    def count_result(self, result: Result) -> None:
        for role, player in enumerate(result.match.players):
            self.points[player] += {WON: 1, DRAWN: 0.5}.get(result.outcome(role), 0)
            self.goals[player] += result.counted()[role] or 0

    def buchholz(self, player: str) -> float:
        """Returns the sum of the points of all opponents. If the player has met an opponent several times, that opponent counts each
        time."""
        return sum(self.points[opponent] for opponent in self.opponents[player])

    def swiss_order(self, player: str) -> tuple[float, float]:
        return -self.points[player], -self.buchholz(player)


def rounds_of(competition: Competition) -> int:
    """Returns how many rounds a competition has, or 0 if it is not planned by rounds."""
    form = competition.form
    if form.kind == KNOCKOUT:
        return (len(competition.players) - 1).bit_length()
    return form.rounds + (form.final and (form.final - 1).bit_length()) if form.kind == SWISS else 0


def swiss_rounds(competition: Competition) -> int:
    """Returns the number of rounds that do not belong to a knockout."""
    return competition.form.rounds if competition.form.kind == SWISS else 0


def matches_to_come(competition: Competition, rounds: Sequence[Round]) -> int:
    """Returns how many matches the rounds that are not planned yet will have if no more players withdraw."""
    swiss = swiss_rounds(competition) - len(rounds)
    if swiss < 0 or competition.form.kind == KNOCKOUT:
        # Each pairing eliminates one player.
        left = len(rounds[-1].pairs) + len(rounds[-1].byes) - 1
    else:
        left = swiss * ((len(competition.players) - len(withdrawn_by(competition, rounds))) // 2) + max(0, competition.form.final - 1)
    return max(0, left) * 2 * len(competition.games)


def withdrawn_by(competition: Competition, rounds: Iterable[Round]) -> dict[str, str]:
    """Returns the players that have withdrawn, or that were withdrawn before one of `rounds`, each with the reason."""
    return {name: why for planned in rounds for name, why in planned.absent} | competition.withdrawn()


def withdrawn_words(name: str, why: str) -> str:
    return f"{name} has withdrawn{f': {why}' if why else ''}"


def is_by_rounds(competition: Competition) -> bool:
    return competition.form.kind in ROUND_KINDS


def paired(order: Sequence[str], met: Counter[frozenset[str]]) -> list[tuple[str, str]]:
    """Splits an even number of players, which are given in the order of the standings, into pairs."""
    rest, pairs = list(order), []
    while rest:
        first = rest.pop(0)
        other = min(rest, key=lambda player: met[frozenset((first, player))])
        rest.remove(other)
        pairs.append((first, other))
    for at in range(len(pairs) - 1, -1, -1):
        if met[frozenset(pairs[at])]:
            exchange(pairs, at, met)
    return pairs


def exchange(pairs: list[tuple[str, str]], at: int, met: Counter[frozenset[str]]) -> None:
    """Swaps a player of a pair with a player of another pair, so that neither of the two new pairs has met before. Tries the pairs above, the
    nearest first, and then the pairs below. If no such swap exists, changes nothing."""
    first, other = pairs[at]
    for beside in (*range(at - 1, -1, -1), *range(at + 1, len(pairs))):
        high, low = pairs[beside]
        for new in (((high, first), (low, other)), ((high, other), (low, first))):
            if not any(met[frozenset(pair)] for pair in new):
                pairs[beside], pairs[at] = new
                return


def swiss_round(competition: Competition, number: int, scores: Scores, withdrawn: Mapping[str, str]) -> Round:
    order = sorted((player.name for player in competition.players if player.name not in withdrawn), key=scores.swiss_order)
    byes: tuple[str, ...] = ()
    if len(order) % 2:
        # Among the players with the fewest byes, the lowest in the standings gets the bye.
        byes = (min(reversed(order), key=lambda player: scores.byes[player]),)
        order.remove(byes[0])
    return Round(number, tuple(paired(order, scores.met)), byes)


def bracket(count: int) -> list[int]:
    """Returns the seeds, counted from 0, in the order of the bracket. Their number is a power of two that is at least `count`."""
    seeds = [0]
    while len(seeds) < count:
        seeds = [place for seed in seeds for place in (seed, 2 * len(seeds) - 1 - seed)]
    return seeds


def winner(pair: tuple[str, str], results: Collection[Result], scores: Scores, withdrawn: Mapping[str, str], seeds: Sequence[str]) -> str | None:
    """Returns the winner of a pairing that is over. If both players withdrew before all its matches were played, returns None. `scores`
    must be empty."""
    left = [name for name in pair if name not in withdrawn]
    for result in results:
        scores.count_result(result)
    if len(results) < scores.meeting and len(left) < 2:
        return left[0] if left else None
    return min(pair, key=lambda player: (-scores.points[player], -scores.goals[player], seeds.index(player)))


def knockout_round(size: int, names: Sequence[str], before: Sequence[Round], winners: Collection[str | None], withdrawn: Mapping[str, str]) -> Round:
    """Returns the next round of a knockout. `size` is the number of its players, and `names` lists them in the order of their seeds. The rounds
    `before` are over, and `winners` are the winners of the last one."""
    places: list[str | None] = [names[seed] if seed < len(names) else None for seed in bracket(size)]
    for going_on in [*(earlier.players() for earlier in before[1:]), {*winners, *before[-1].byes}] if before else ():
        places = [next((name for name in pair if name and name in going_on), None) for pair in zip(places[::2], places[1::2])]
    places = [None if name in withdrawn else name for name in places]
    pairs = list(zip(places[::2], places[1::2]))
    byes = tuple(first or second for first, second in pairs if (first is None) != (second is None))
    return Round(len(before) + 1, tuple(pair for pair in pairs if None not in pair), byes)


class Rounds:
    def __init__(self) -> None:
        self.found: list[Round] = []
        self.scores: Scores | None = None
        # The results so far, the number of whole rounds that each player missed, and the number of rounds that have been counted.
        self.results: list[Result] = []
        self.absences: Counter[str] = Counter()
        self.counted = 0
        self.withdrawn: dict[str, str] = {}
        # The players of the knockout, in the order of their seeds.
        self.seeds: list[str] = []

    def next(self, competition: Competition, results: Sequence[Result]) -> Round:
        """Returns the next round. `results` contains the results that count in the last round."""
        self.scores = self.scores or Scores(competition)
        if self.counted < len(self.found):
            self.count(results)
        known, least = withdrawn_by(competition, self.found), competition.absent_rounds or len(self.found) + 1
        new = {name: f"absent in {counted(count, 'whole round')}" for name, count in self.absences.items() if count >= least and name not in known}
        withdrawn = new | known
        if withdrawn.keys() != self.withdrawn.keys():
            self.scores = scores_of(competition, self.found, self.results, withdrawn)
        self.withdrawn = withdrawn
        if len(self.found) < swiss_rounds(competition):
            following = swiss_round(competition, len(self.found) + 1, self.scores, withdrawn)
        else:
            following = self.next_of_knockout(competition, by_meeting(results))
        return replace(following, number=len(self.found) + 1, absent=tuple(new.items()))

    def next_of_knockout(self, competition: Competition, of_meeting: Mapping[Meeting, list[Result]]) -> Round:
        """Returns the next round of a knockout: between all players, or between the best players of the earlier rounds."""
        before, final = self.found[swiss_rounds(competition) :], competition.form.final
        if not before:
            names = [player.name for player in competition.players if not final or player.name not in self.withdrawn]
            self.seeds = sorted(names, key=self.scores.swiss_order)[: final or None]
        of_pairs = [(pair, of_meeting[len(self.found), frozenset(pair)]) for pair in before[-1].pairs] if before else []
        winners = [winner(pair, results, Scores(competition), self.withdrawn, self.seeds) for pair, results in of_pairs]
        return knockout_round(final or len(competition.players), self.seeds, before, winners, self.withdrawn)

    def count(self, results: Sequence[Result]) -> None:
        self.counted = len(self.found)
        self.results += results
        plays: dict[str, list[bool]] = defaultdict(list)
        for result in results:
            self.scores.count_result(result)
            for role, player in enumerate(result.match.players):
                plays[player].append(result.is_absent(role))
        self.absences.update(player for player, absences in plays.items() if all(absences))

    def add(self, planned: Round) -> None:
        self.found.append(planned)
        self.scores.count_round(planned, {}, {})


def scores_and_seeds(competition: Competition, rounds: Sequence[Round], results: Iterable[Result]) -> tuple[Scores, list[str]]:
    """Returns the scores of the rounds before a knockout, from the results that count, and all players in the order of the knockout's seeds."""
    swiss = swiss_rounds(competition)
    of_swiss = [result for result in results if result.match.round <= swiss]
    scores = scores_of(competition, rounds[:swiss], of_swiss, withdrawn_by(competition, rounds))
    return scores, sorted((player.name for player in competition.players), key=scores.swiss_order)


def by_meeting(results: Iterable[Result]) -> dict[Meeting, list[Result]]:
    grouped: dict[Meeting, list[Result]] = defaultdict(list)
    for result in results:
        grouped[result.match.round, frozenset(result.match.players)].append(result)
    return grouped


def rounds_won(competition: Competition, rounds: Sequence[Round], results: Iterable[Result], seeds: Sequence[str]) -> Counter[str]:
    """Returns how many rounds of the knockout each player has won, by a bye or by a pairing that is over."""
    of_meeting, withdrawn, rounds_of_it = by_meeting(results), withdrawn_by(competition, rounds), rounds[swiss_rounds(competition) :]
    won = Counter(dict.fromkeys(rounds_of_it[0].players(), 0) if rounds_of_it else {})
    for current, following in itertools.zip_longest(rounds_of_it, rounds_of_it[1:]):
        won.update(current.byes)
        for pair in current.pairs:
            of_pair = of_meeting[current.number, frozenset(pair)]
            going_on = following.players().intersection(pair) if following else ()
            if going_on or len(of_pair) == 2 * len(competition.games) or withdrawn.keys() & pair:
                won.update([*going_on] or filter(None, [winner(pair, of_pair, Scores(competition), withdrawn, seeds)]))
    return won


def meetings(competition: Competition, planned: Round) -> list[tuple[str, tuple[str, str]]]:
    """Returns the matches of a round: for each game, all pairs in one order of the roles, and then all pairs in the other order."""
    return [(game.name, pair[::turn]) for game in competition.games for turn in (1, -1) for pair in planned.pairs]


def scores_of(competition: Competition, rounds: Sequence[Round], results: Iterable[Result], withdrawn: Mapping[str, str] | None = None) -> Scores:
    """Returns the scores of these rounds. The players in `withdrawn` determine which results count. By default, these are the players that
    competition.toml or the rounds list as withdrawn."""
    withdrawn = withdrawn_by(competition, rounds) if withdrawn is None else withdrawn
    scores, counted = Scores(competition), [result for result in results if not competition.is_void(result.match.players, withdrawn)]
    of_meeting = by_meeting(counted)
    for planned in rounds:
        scores.count_round(planned, withdrawn, of_meeting)
    for result in counted:
        scores.count_result(result)
    return scores
