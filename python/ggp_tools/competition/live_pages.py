"""The parts of the live pages about open matches: boards, awaited answers, replaced moves, and waiting matches."""

import dataclasses
import datetime
import typing

from ggp_tools.competition.competition_file import Competition
from ggp_tools.competition.live import LiveMatch, Reader
from ggp_tools.competition.live_board import Turn
from ggp_tools.competition.page_parts import Item, Items, PageParts, Part, html_of, list_part, rows_part
from ggp_tools.competition.player_pages import reason_of
from ggp_tools.competition.replaced import MOST_OF_MATCH, MOST_REPLACED, Replaced
from ggp_tools.competition.results import Result, winner_words
from ggp_tools.competition.round_pages import round_text
from ggp_tools.competition.schedule import Match
from ggp_tools.match_log import shown
from ggp_tools.records.show import Named, last_state, turn_of_page

if typing.TYPE_CHECKING:
    from markupsafe import Markup

# The first page has boards of at most BOARDS open matches and BOARDS_OVER matches that have just ended, and lists at most QUEUE waiting ones.
BOARDS, BOARDS_OVER, QUEUE = 12, 6, 20
# The maximum number of listed terms that no board shows.
MOST_TERMS = 60
STAGES = {"asking": "its players are asked whether they are free", "checking": "its record is being checked"}
OPEN_HEADS = ["match", "game", "players", "turn", "awaited", "for", "no answer"]
REPLACED = f"The last {MOST_REPLACED}, at most {MOST_OF_MATCH} of each match."


@dataclasses.dataclass(frozen=True)
class Status:
    """What an open match waits for, and since when: the role whose turn it is, or answers. In the first half of the clock, it names no other player,
    because the speed of an answer may reveal the answer."""

    text: str
    since: float
    is_of_players: bool = False
    players: tuple[str, ...] = ()
    mover: str = ""

    @property
    def clock(self) -> str:
        return datetime.datetime.fromtimestamp(self.since, datetime.timezone.utc).strftime("%H:%M:%S")


def live_part(name: str, macro: str = "", /, **values: object) -> Part:
    """Returns a part of a page, made by a macro of live.html. The macro has the part's name, unless another one is given."""
    return Part(name, html_of("live", macro or name, **values))


def status_of(live_match: LiveMatch) -> Status:
    if live_match.stage in STAGES:
        return Status(STAGES[live_match.stage], live_match.since)
    named, mover = live_match.named(), live_match.board.position.mover()
    what = "the last message" if live_match.is_ending() else f"turn {live_match.turn()}" if live_match.turn() else "START"
    if live_match.is_over() or named == []:
        return Status("all have answered", live_match.since)
    if named is None:
        return Status(f"the answers to {what}", live_match.since, True)
    players = tuple(live_match.match.players[role] for role in named)
    if named == [mover]:
        return Status("", live_match.since, False, players, live_match.roles[mover])
    return Status(what, live_match.since, True, players)


def open_row(live_match: LiveMatch) -> Item:
    match = live_match.match
    missed = [(match.players[role], count) for role, count in sorted(live_match.missed.items())]
    turn = live_match.turn() if live_match.stage == "playing" else ""
    return f"open-{match.id}", html_of("live", "open_row", match=match, turn=turn, status=status_of(live_match), missed=missed)


def state_html(states: list[list[str]], roles: tuple[str, ...], named: Named, notes: list[str]) -> "Markup":
    """Returns the last state as HTML, if there is one."""
    state = last_state(states, roles, named)
    more = max(0, len(state["terms"]) - MOST_TERMS) if state else 0
    shown = state and {**state, "terms": state["terms"][:MOST_TERMS], "gone": state["gone"][:MOST_TERMS], "more": more}
    return html_of("live", "state", found=shown, notes=notes)


def board_item(live_match: LiveMatch, state: "Markup") -> Item:
    """Returns the board of an open match on the first page."""
    match, turn = live_match.match, len(live_match.board.position.moves)
    name, status = f"board-{match.id}", status_of(live_match)
    return name, html_of("live", "board", name=name, match=match, roles=live_match.roles, turn=turn, status=status, result="", state=state)


def last_board_item(result: Result, state: "Markup", roles: tuple[str, ...]) -> Item:
    """Returns the last state of a finished match, with its result."""
    match, text = result.match, winner_words(result) or "It is over."
    name = f"board-{match.id}"
    return name, html_of("live", "board", name=name, match=match, roles=roles, turn=result.turns, status=None, result=text, state=state)


def restart_words(player: str, restarts: tuple[int, str]) -> str:
    """Says how often `play` restarted a player, and names the match of the last restart."""
    count, match = restarts
    return f"{player} was restarted {'once' if count == 1 else f'{count} times, the last time'}, for {match}"


def now_part(reader: Reader, waiting: int, given_up: int) -> Part:
    """Returns how many matches are open, and whether `play` is running."""
    faults = [f"{name} does not count: {why}" for name, why in list(reader.faults.items())[:QUEUE]]
    lines = [*faults, *reader.troubles_of_matches()[:QUEUE]]
    if reader.restarted:
        lines.append("; ".join(restart_words(*restart) for restart in reader.restarted.items()))
    counts = {"open": len(reader.open), "waiting": waiting, "lost": given_up}
    return live_part("now", is_running=reader.is_running, unread=len(reader.unread), lines=lines, **counts)


def replaced_part(replaced: list[tuple[Replaced, int]]) -> Part:
    """Returns the last replaced moves, the newest first. For each match, the list says how many earlier ones are left out."""
    rows = [(move, before, reason_of(move.error), move.error.partition(" ")[2]) for move, before in replaced]
    return live_part("replaced", rows=rows, intro=REPLACED)


def live_parts(reader: Reader, boards: list[Item]) -> PageParts:
    """Returns the parts of the first page about the matches that are not over."""
    left, why = reader.waiting(), reader.given_up
    given_up = [(match, why[match.id]) for match in left if match.id in why]
    waiting = [(match, "") for match in left if match.id not in why]
    rows = list(map(open_row, reader.open.values()))
    return [
        now_part(reader, len(waiting), len(given_up)),
        Items("boards", '<div class="boards" id="boards">', tuple(boards), "</div>"),
        rows_part("open", "Open matches", OPEN_HEADS, rows, "No match is open."),
        list_part("given-up", "Matches that were given up", "The next run of play plays them again.", given_up, QUEUE),
        replaced_part(reader.last_replaced()),
        list_part("queue", "Waiting matches", "Each match begins when all of its players are free.", waiting, QUEUE),
    ]


# ---- the page of a match that is open


def match_head(match: Match, competition: Competition, roles: tuple[str, ...]) -> Part:
    return live_part("head", "match_head", name=competition.name, match=match, roles=roles, round=round_text(competition, match))


def turn_row(turn: Turn) -> Item:
    """Returns the row of a turn: the moves, with the reasons for replaced ones."""
    moves = turn_of_page(turn.moves, turn.errors, turn.mover, lambda _, error: reason_of(error))
    return f"turn-{turn.number}", html_of("live", "turn_row", number=turn.number, moves=moves)


def answers_part(live_match: LiveMatch) -> Part:
    """Returns the last answer of each role in a finished round."""
    answers = sorted(live_match.last.items())
    rows = [(live_match.match.players[role], shown(answer.message), shown(answer.came()), answer.ms) for role, answer in answers]
    return live_part("answers", rows=rows) if rows else Part("answers", "")


def open_match_parts(live_match: LiveMatch, state: "Markup", head: Part) -> PageParts:
    board, roles = live_match.board, live_match.roles
    turns, mover = [turn_row(turn) for turn in reversed(board.turns())], board.position.mover()
    return [
        head,
        live_part("now", "match_now", status=status_of(live_match)),
        live_part("state", "match_state", turn=len(board.position.moves), mover="" if mover is None else roles[mover], state=state),
        rows_part("turns", "Last turns", ["turn", *roles], turns, "No turn is over.", html_of("boards", "idle_too")),
        answers_part(live_match),
    ]


def waiting_match_parts(fault: str, given_up: str, why_not: str, head: Part) -> PageParts:
    """Returns the page of a match that is neither open nor over. If the match will not be played, the page says why."""
    text = f"It is not played: {why_not}." if why_not else f"Its record does not count: {fault}" if fault else f"It was given up: {given_up}." if given_up else "It has not begun."
    return [head, live_part("now", "waiting", text=text)]
