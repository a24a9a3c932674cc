"""Plans all matches of a competition at once, as `ggp_competition plan` does."""

from ggp_tools.competition.growth import History, grown


def nothing_known(_):
    """The result of a match if no match has been played."""


def planned(competition, roles):
    """Returns the matches of a competition that has not begun."""
    return grown(History(), competition, roles, nothing_known).matches
