"""Makes the pages of a competition: a directory of plain HTML, which a browser opens without a server. The pages depend only on the files of
the competition."""

import functools
import heapq
import io
import time
import typing
from collections import defaultdict
from collections.abc import Callable
from dataclasses import dataclass, replace

from ggp_tools.answers import MOST_RULES, game_of
from ggp_tools.competition.competition_file import BOARDS, KNOCKOUT
from ggp_tools.competition.files import UNFINISHED, drop_unfinished, write_whole
from ggp_tools.competition.known import Known, sum_of_parts, sum_or_none
from ggp_tools.competition.page_parts import Item, Items, PageParts, Part, html_of, list_part, part, rows_part
from ggp_tools.competition.plan import Plan
from ggp_tools.competition.player_pages import Appearance, appearances_of, page_name, player_parts, standing_texts
from ggp_tools.competition.plots import rating_plot
from ggp_tools.competition.results import WON, Result, remarks, winner_words
from ggp_tools.competition.round_pages import bracket_part, count_of_all, round_text, rounds_part, rounds_words
from ggp_tools.competition.side_by_side import made_side_by_side
from ggp_tools.competition.table import Table, loaded_ratings, tables_of
from ggp_tools.competition.table_text import crosstable_rows, forfeit_rule, method_of, notes, standings_rows, without_record
from ggp_tools.descriptions.loading import Rules, sum_of
from ggp_tools.holding.game import Game
from ggp_tools.match_log import Event, last_run
from ggp_tools.records.match_logs import Beginning, logged
from ggp_tools.records.show import Frame, Named, named_in, page_of, read_record
from ggp_tools.templating import environment, page

if typing.TYPE_CHECKING:
    from markupsafe import Markup

# While matches are played, the pages are written again after at least SECONDS seconds, and so rarely that writing takes at most one part in
# SHARE of the time.
SECONDS, SHARE = 2, 10
# The first page lists at most this many matches, and a crosstable has at most this many players.
LAST, MOST_CROSSED = 20, 100
# A page lists at most this many matches. The list of all matches has several pages.
MOST_LISTED = 500
# Pages are made in batches whose records have about this many bytes.
TOGETHER = 64 << 20
# At most this many bytes of a match's log are read.
MOST_OF_LOG, LOG_WORDS = 16 << 20, "16 MiB"

MATCH_HEADS = ["match", "game", "result", "players and goals", "turns", "replaced moves", "begin (UTC)", "seconds"]


def standings(table: Table, up: str) -> PageParts:
    """Returns the standings of a table, the plot of its ratings, and the crosstable. The pages of the players are below `up`."""
    heads, *rows = standings_rows(table)
    players = [line.player for line in table.standings()]
    crosstable = list(crosstable_rows(table))[1:] if len(players) <= MOST_CROSSED else []
    plot = rating_plot(table.standings()) if table.is_of_pairs() else ""
    return [
        part("standings", heads=heads, rows=list(zip(players, rows)), notes=list(notes(table)), up=up),
        part("ratings", plot, plot=plot),
        part("crosstable", table.is_of_pairs(), rows=crosstable),
    ]


def first_ranks(table: Table, is_over: bool) -> list[tuple[str, list[str]]]:
    """Returns the players of the first three ranks of a competition, by title. If the competition is not over, returns only the leaders, or nothing
    for a knockout."""
    titles = {1: "Winner", 2: "Second", 3: "Third"} if is_over else {1: "Leader"} if table.by != KNOCKOUT else {}
    by_rank: dict[int, list[str]] = {}
    for rank, line in zip(table.ranks(), table.standings()):
        by_rank.setdefault(rank, []).append(line.player)
    return [(titles[rank] + "s" * (rank == 1 < len(names)), names) for rank, names in by_rank.items() if rank in titles]


def seconds_of(log: Beginning) -> str:
    """Returns how long a match took, as text. If the log contains no times, returns an empty string."""
    if log.began is None or not log.ended:
        return ""
    return "the clock was set back" if log.is_set_back or log.ended < log.began else f"{(log.ended - log.began) / 1_000:.1f}"


def spelt(time: str | None) -> str:
    """Formats the time of an event, to the second."""
    return (time or "").replace("T", " ")[:19]


def match_row(result: Result, log: Beginning, up: str) -> Item:
    """Returns the row of a match in a list. `up` leads from the page of the list to the first page."""
    match = result.match
    goals = result.goals or ["none"] * len(match.players)
    cells = {
        "seats": [(player, goals[role], result.outcome(role) == WON) for role, player in enumerate(match.players)],
        "winner": winner_words(result).rstrip("."),
        "cause": result.cause,
        "remarks": list(remarks(result)),
        "turns": result.turns,
        "replaced": [(name, result.replaced(role)) for role, name in enumerate(match.players) if result.replaced(role)],
        "begin": spelt(log.times()[0]),
        "seconds": seconds_of(log),
    }
    return f"match-{match.id}", html_of("competition", "match_row", match=match, up=up, **cells)


def matches_part(rows: list[Item], title: str = "Matches") -> Items:
    return rows_part("matches", title, MATCH_HEADS, rows, "No match is over.")


def pages_of_all(results: list[Result]) -> dict[str, list[Result]]:
    """Returns the matches on each page of the list of all matches, by the name of the page. There is at least one page."""
    starts = range(0, len(results), MOST_LISTED) or [0]
    return {f"matches{f'-{at}' if at > 1 else ''}": results[start : start + MOST_LISTED] for at, start in enumerate(starts, 1)}


@functools.lru_cache(16)
def rules_part(rules: Rules) -> Part:
    """Returns the rules of a game. If players get other rules, these come first."""
    player_text = rules.player_rules
    player_sum = sum_of(player_text) if player_text is not None else ""
    return part("rules", text=rules.text, sum=sum_of(rules.text), player_text=player_text, player_sum=player_sum)


def match_page(data: bytes, game: Callable[[], Game] | None, answers: dict[tuple[int, int], str], frame: Frame) -> bytes:
    """Returns the page of a match: a head, and then the page that `ggp-show-record` makes of the record."""
    return page_of(read_record(data), game, answers, frame)


@dataclass(frozen=True)
class Ended:
    """The data that the pages show about a finished match: when it began and ended, its rows on the first page and on pages below it, and the
    appearances of its players. `is_cut` is set if the log of the match is too long, so that only its last lines were read."""

    result: Result
    begin: str | None
    end: str | None
    above: Item
    below: Item
    appearances: list[Appearance]
    is_cut: bool


def ended_match(result: Result, record: dict, run: list[Event], is_cut: bool) -> Ended:
    """Returns the data that the pages show about a match, from its record and the last run in its log."""
    log = logged(run)
    begin, end, _ = log.times()
    above, below = (match_row(result, log, up) for up in ("", "../"))
    return Ended(result, begin, end, above, below, appearances_of(result, record, run, end), is_cut)


def need_modules() -> None:
    """Ends the command at once if a module that the pages need is missing."""
    environment()
    loaded_ratings()


class Site:
    """Makes the contents of a competition's pages from its results. `ended` must have an entry for the match of each result. With `shows_gaps`,
    the first page lists the matches without a record."""

    def __init__(self, plan: Plan, shows_gaps: bool = False) -> None:
        self.plan, self.shows_gaps = plan, shows_gaps
        self.ended: dict[str, Ended] = {}
        self.games = {game.name: game for game in plan.competition.games}

    def add(self, result: Result, known: Known | None = None) -> bytes:
        """Reads the data that the pages show about a match, unless it is cached, and returns the match's record. Raises `NoRecord` if the record is
        too long."""
        match = result.match
        data = self.plan.read_record(match)
        log, is_cut = self.plan.folder.part_of_log(match.id, MOST_OF_LOG)
        key = sum_of_parts(repr(result).encode(), data, log, b"%d" % is_cut) if known else ""
        if known and (ended := known.get("ended", key)):
            self.ended[match.id] = replace(ended, result=result)
            return data
        self.ended[match.id] = ended_match(result, read_record(data), last_run(io.BytesIO(log), match.id), is_cut)
        if known:
            known.put("ended", key, self.ended[match.id])
        return data

    def match_head(self, result: Result) -> "Markup":
        """Returns the head of the page of a match, with links back and remarks."""
        competition = self.plan.competition
        texts = {"name": competition.name, "round": round_text(competition, result.match), "lines": list(remarks(result))}
        return html_of("competition", "way_of_match", match=result.match, **texts)

    def named(self, game: str) -> Named:
        """Returns how the pages draw the boards of a game. Does not read rules that are too long."""
        rules = self.plan.rules[game].text
        return named_in(rules if len(rules) <= MOST_RULES else b"", self.games[game].board == BOARDS[1])

    def answers(self, result: Result) -> dict[tuple[int, int], str]:
        """Returns the answers in a match's log that were not expressions, by role and turn, both counted from 0."""
        errors = [(appearance.role, error) for appearance in self.ended[result.match.id].appearances for error in appearance.errors]
        return {(role, error.turn - 1): error.answer for role, error in errors if error.error == "IL ?" and error.message}

    def match_work(self, result: Result) -> tuple[Callable[[], Game] | None, dict[tuple[int, int], str], Frame]:
        """Returns the arguments of `match_page` after the record. They include the game if a move was illegal and the rules are not too long, so that
        the page can list the legal moves."""
        rules = self.plan.rules[result.match.game].text
        game = functools.partial(game_of, rules) if any(errors["IL"] for errors in result.errors) and len(rules) <= MOST_RULES else None
        return game, self.answers(result), Frame(self.match_head(result), self.named(result.match.game), winner_words(result))

    def key_of_page(self, result: Result, data: bytes) -> str:
        """Returns a checksum of everything that the page of a match depends on."""
        head = self.plan.competition.name, round_text(self.plan.competition, result.match), result, self.answers(result)
        head += (self.games[result.match.game].board,)
        return sum_of_parts(repr(head).encode(), data, self.plan.rules[result.match.game].sum.encode())

    def own_matches(self, results: list[Result]) -> PageParts:
        """Returns the list of the last matches of a player or a game."""
        shown = results[-MOST_LISTED:]
        rows = matches_part([self.ended[result.match.id].below for result in shown])
        return [rows, part("more", len(shown) < len(results), shown=len(shown), count=len(results))]

    def last_matches(self, results: list[Result]) -> Items:
        """Returns the matches that ended last, the newest first."""
        last = heapq.nlargest(LAST, (self.ended[result.match.id] for result in results), lambda match: match.end or "")
        return matches_part([match.above for match in last], "Last matches")

    def gaps(self, results: list[Result]) -> Part:
        """Returns the list of the matches without a record."""
        missing = [(match, "") for match in without_record(self.plan, results)] if self.shows_gaps else []
        return list_part("gaps", "Matches without a record", "They do not count.", missing, MOST_LISTED, ", listed in GAPS.tsv")

    def span(self, results: list[Result]) -> tuple[str, str]:
        """Returns when the first match began, and when the last one ended. If no log contains these times, both strings are empty."""
        ended = [self.ended[result.match.id] for result in results]
        begins, ends = [match.begin for match in ended if match.begin], [match.end for match in ended if match.end]
        return (spelt(min(begins)), spelt(max(ends))) if begins and ends else ("", "")

    def head(self, table: Table, results: list[Result]) -> Part:
        plan = self.plan
        # As in the table, a match that was replaced by another one does not count.
        count, of_all, (begin, end) = sum(result.match.counts() for result in results), count_of_all(plan), self.span(results)
        counts = {"count": count, "of_all": of_all, "rounds": rounds_words(plan), "begin": begin, "end": end, "first": first_ranks(table, count == of_all)}
        return part("head", name=plan.competition.name, games=list(self.games), forfeit=forfeit_rule(plan.competition), **counts)

    def first_parts(self, tables: list[Table], results: list[Result]) -> PageParts:
        rounds = bracket_part(self.plan, results), rounds_part(self.plan, results, MOST_LISTED)
        head, method = self.head(tables[0], results), part("method", text=method_of(self.plan.competition))
        return [head, *rounds, *standings(tables[0], ""), method, self.gaps(results), self.last_matches(results)]

    def all_matches(self, results: list[Result], name: str) -> PageParts:
        """Returns one page of the list of all matches, with links to the other pages."""
        pages = pages_of_all(results)
        head = Part("head", html_of("competition", "all_matches", name=self.plan.competition.name))
        spans = [(page, f"{own[0].match.id} to {own[-1].match.id}") for page, own in pages.items()] if len(pages) > 1 else []
        return [head, part("pages", spans, spans=spans, own=name), matches_part([self.ended[result.match.id].above for result in pages[name]])]

    def game_parts(self, table: Table, results: list[Result]) -> PageParts:
        rules = self.plan.rules[table.game]
        head = part("game", name=self.plan.competition.name, title=table.game, roles=rules.roles, clocks=self.games[table.game])
        return [head, *standings(table, "../"), *self.own_matches(results), rules_part(rules)]

    def player_parts(self, player: str, standing: str, results: list[Result]) -> PageParts:
        ended = [self.ended[result.match.id] for result in results]
        own = [appearance for match in ended for appearance in match.appearances if match.result.match.players[appearance.role] == player]
        cut = [match.result.match.id for match in ended if match.is_cut]
        parts = player_parts(self.plan.competition.name, player, standing, own)
        return [*parts, part("cut", cut, ids=cut, words=LOG_WORDS), *self.own_matches(results)]


class PageOf(typing.NamedTuple):
    """A page: its title, the results and the text that it depends on, and a function that makes its parts."""

    title: str
    results: list[Result]
    words: str
    parts: Callable[[], PageParts]


def pages_of(site: Site, tables: list[Table], results: list[Result]) -> dict[str, PageOf]:
    """Returns all pages except those of matches, by name."""
    standings, of_game, of_player = standing_texts(tables[0]), defaultdict(list), defaultdict(list)
    for result in results:
        of_game[result.match.game].append(result)
        for player in dict.fromkeys(result.match.players):
            of_player[player].append(result)
    pages = {"index.html": PageOf("", results, "", functools.partial(site.first_parts, tables, results))}
    lists = pages_of_all(results)
    # Each list has links to the others, with the ids of their matches.
    ends = " ".join(own[-1].match.id for own in lists.values() if own)
    for name, own in lists.items():
        pages[f"{name}.html"] = PageOf("all matches", own, ends, functools.partial(site.all_matches, results, name))
    for table in tables[1:]:
        own, words = of_game[table.game], "rated" if any(line.rating for line in table.lines.values()) else ""
        pages[f"games/{table.game}.html"] = PageOf(table.game, own, words, functools.partial(site.game_parts, table, own))
    for name in (player.name for player in site.plan.competition.players):
        own = of_player[name]
        standing = standings.get(name) or f"It has played no match{' that counts' if own else ''}."
        pages[page_name(name)] = PageOf(name, own, standing, functools.partial(site.player_parts, name, standing, own))
    return pages


class Pages:
    """Writes the pages as files of a directory. A page is made again only if its contents have changed."""

    def __init__(self, plan: Plan, shows_gaps: bool = False, known: Known | None = None) -> None:
        if not known:
            need_modules()
        self.site, self.plan, self.folder, self.known = Site(plan, shows_gaps), plan, plan.folder.pages, known
        # The pages must not be written again before the time `next`. By name, `keys` says what each page was made from, and `sums` gives the checksum
        # of the page.
        self.next, self.keys, self.sums = 0.0, {}, {}

    def write_now_and_then(self, results: Callable[[], list[Result]]) -> None:
        """Writes the pages for the results that the function `results` returns. Does nothing if it tried to write them only a short time ago."""
        began = time.monotonic()
        if began < self.next:
            return
        try:
            self.write(results())
        finally:
            ended = time.monotonic()
            self.next = ended + max(SECONDS, SHARE * (ended - began))

    def write(self, results: list[Result]) -> set[str]:
        """Writes the pages, and returns their names. Deletes unfinished files, and the pages of matches, games and players that no longer
        exist."""
        for name in ("matches", "games", "players"):
            (self.folder / name).mkdir(parents=True, exist_ok=True)
        key = self.sum_of_sources(results) if self.known else ""
        sums = self.known.get("sites", key) if self.known else None
        if not sums or any(sum_or_none(self.folder / name) != digest for name, digest in sums.items()):
            sums = self.write_all(results)
            # If a file changes in the meantime, the pages may show either version.
            if self.known and key == self.sum_of_sources(results):
                self.known.put("sites", key, sums)
        names = set(sums)
        for form in ("matches-*.html", "matches/*.html", "games/*.html", "players/*.html"):
            for file in self.folder.glob(form):
                if str(file.relative_to(self.folder)) not in names and not file.name.startswith(UNFINISHED):
                    file.unlink(missing_ok=True)
            drop_unfinished((self.folder / form).parent)
        return names

    def sum_of_sources(self, results: list[Result]) -> str:
        """Returns a checksum of everything that the pages depend on."""
        plan, folder = self.plan, self.plan.folder
        files = [(sum_or_none(folder.record(result.match.id)), sum_or_none(folder.log(result.match.id))) for result in results]
        return sum_of_parts(repr((plan.competition, plan.rules, plan.matches, plan.rounds, self.site.shows_gaps, results, files)).encode())

    def write_all(self, results: list[Result]) -> dict[str, str]:
        """Writes all pages, except those that have not changed. Returns their checksums by name."""
        need_modules()
        self.write_matches(results)
        pages = pages_of(self.site, tables_of(self.plan.competition, results, self.plan.rounds, known=self.known), results)
        # The first page is written last, because its links must lead to existing pages.
        for name, page_of in reversed(pages.items()):
            self.put_if_changed(name, page_of)
        return {name: self.sums[name] for name in [*pages, *(f"matches/{result.match.id}.html" for result in results)]}

    def write_matches(self, results: list[Result]) -> None:
        """Writes the pages of matches. Skips pages that this object has already written, and pages whose checksum is right according to the cache."""
        left, size = [], 0
        for result in results:
            name = f"matches/{result.match.id}.html"
            # Another run with fewer matches may have deleted the page.
            if (ended := self.site.ended.get(result.match.id)) and ended.result == result and (self.folder / name).exists():
                continue
            data = self.site.add(result, self.known)
            key = self.site.key_of_page(result, data) if self.known else ""
            self.sums[name] = self.known.get("pages", key) if self.known else None
            if not self.sums[name] or self.sums[name] != sum_or_none(self.folder / name):
                left.append((name, key, (data, *self.site.match_work(result))))
                size += len(data)
            if size > TOGETHER:
                self.make_matches(left)
                left, size = [], 0
        self.make_matches(left)

    def make_matches(self, works: list[tuple[str, str, tuple]]) -> None:
        """Writes pages of matches. Each item of `works` consists of the name and the key of a page, and the arguments of `match_page`."""
        for (name, key, _), data in zip(works, made_side_by_side(match_page, [work for _, _, work in works])):
            self.put(name, data)
            if self.known:
                self.known.put("pages", key, self.sums[name])

    def put_if_changed(self, name: str, page_of: PageOf) -> None:
        """Writes a page, unless it exists and was made from the same matches and text."""
        key = hash(tuple(result.match.id for result in page_of.results)), page_of.words
        if self.keys.get(name) != key or not (self.folder / name).exists():
            self.put(name, page("parts", title=titled(self.plan, page_of.title), script="", live=None, parts=page_of.parts()))
            self.keys[name] = key

    def put(self, name: str, data: bytes) -> None:
        write_whole(self.folder / name, data, is_lasting=False)
        self.sums[name] = sum_of(data)


def titled(plan: Plan, title: str) -> str:
    """Returns the full title of a page, which begins with the name of the competition. The title of the first page is only this name."""
    return f"{plan.competition.name}: {title}" if title else plan.competition.name
