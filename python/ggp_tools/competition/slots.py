"""Keeps track of the free players. Each player plays a limited number of matches at the same time. A player that was busy or silent is not
asked again for a while."""

import math
import time
from collections.abc import MutableSequence

from ggp_tools.competition.competition_file import Competition
from ggp_tools.competition.schedule import Match


class Slots:
    """Counts the free slots of each player, and how many times in a row each player was busy or did not answer."""

    def __init__(self, competition: Competition) -> None:
        self.free = {player.name: player.concurrent for player in competition.players}
        self.rests_until = dict.fromkeys(self.free, 0.0)
        self.failed = dict.fromkeys(self.free, 0)
        # When the last failed try of each player ended.
        self.failed_at = dict.fromkeys(self.free, 0.0)
        self.tries, self.wait = competition.tries, competition.wait
        # Unless a match ends, no match can begin before this time.
        self.idle_until = 0.0

    def has_free(self, match: Match, now: float) -> bool:
        return all(self.free[player] > 0 and self.rests_until[player] <= now for player in match.players)

    def take(self, match: Match) -> None:
        for player in match.players:
            self.free[player] -= 1

    def give_back(self, match: Match) -> None:
        self.idle_until = 0.0
        for player in match.players:
            self.free[player] += 1

    def count_answer(self, player: str) -> None:
        self.failed[player] = 0

    def count_failure(self, player: str, taken_at: float) -> bool:
        """Records that a player was busy or did not answer when it was asked for a match that took its slots at `taken_at`. Returns whether to ask
        the player again: after `tries` failed tries in a row, it is not asked again. If the player was asked for several matches at the same time,
        that counts as one try."""
        if taken_at <= self.failed_at[player]:
            return self.failed[player] < self.tries
        self.idle_until = 0.0
        self.failed_at[player] = time.monotonic()
        self.failed[player] += 1
        is_last = self.failed[player] >= self.tries
        self.rests_until[player] = self.failed_at[player] + (0 if is_last else self.wait)
        return not is_last

    def next_match(self, waiting: MutableSequence[Match], now: float) -> Match | None:
        """Finds the first waiting match that can begin, removes it from `waiting`, takes its slots, and returns it. If no match can begin,
        the next search waits until a slot is free again or a player has rested."""
        if now < self.idle_until:
            return None
        if any(self.free[player] > 0 and self.rests_until[player] <= now for player in self.free):
            for at, match in enumerate(waiting):
                if self.has_free(match, now):
                    del waiting[at]
                    self.take(match)
                    return match
        self.idle_until = min((until for until in self.rests_until.values() if until > now), default=math.inf)
        return None
