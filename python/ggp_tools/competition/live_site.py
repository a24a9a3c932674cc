"""The live pages of a competition. A page is made when somebody opens it, and again when its data changes. Only one thread changes data here. Another
thread makes the pages and the data of matches that are over from their files, which may take long."""

import contextlib
import functools
import itertools
import re
import threading
import time
import typing
from collections import OrderedDict, deque
from collections.abc import Callable, Iterator
from dataclasses import dataclass, replace
from operator import itemgetter

from ggp_tools.competition import live, live_api, live_pages
from ggp_tools.competition.files import Folder, Refused
from ggp_tools.competition.live import Delay, LiveMatch, Reader, for_visitors, identity_of
from ggp_tools.competition.page_parts import PageParts, changes, event_text
from ggp_tools.competition.pages import PageOf, Site, need_modules, pages_of, titled
from ggp_tools.competition.plan import Plan
from ggp_tools.competition.results import Result
from ggp_tools.competition.schedule import Match
from ggp_tools.competition.table import Table, tables_of
from ggp_tools.competition.table_text import in_order, json_text
from ggp_tools.records.show import NoRecord, page_of, parts_of, read_record
from ggp_tools.referee import NoReferee, Referee, Unchecked
from ggp_tools.streams import report
from ggp_tools.templating import page

if typing.TYPE_CHECKING:
    from markupsafe import Markup

# Computing tables takes at most a tenth of the time, and following boards takes at most FOLLOW seconds of each update. A plan that can't be read is
# read again after RETRY seconds or more.
SHARE, FOLLOW, RETRY = 10, 0.25, 10.0
# The seconds that a page without viewers is kept, the number of pages that are kept, and the number and the total bytes of the changes that are
# kept for each page.
IDLE, MOST_PAGES, MOST_EVENTS, BYTES_OF_EVENTS = 30.0, 200, 60, 1 << 20
# The bytes of the pages of finished matches that are kept. A browser without JavaScript reloads a page after this many seconds.
MOST_KEPT, RELOAD = 64 << 20, 10
# The bytes of the records that are kept parsed, because the page of a long match has several parts.
MOST_PARSED = 16 << 20
# How many plans wait until their delay is over. Each takes about 0.3 kB for each match.
MOST_PLANS = 16
# A function that the other thread calls.
Work = Callable[[], bytes | None]
Value = typing.TypeVar("Value")
FIRST, MATCH = "/index.html", re.compile(r"/matches/([A-Za-z0-9_.-]+)\.html")
# The page of a match that is over, or a part of it if the match is long.
OVER = re.compile(r"/matches/([A-Za-z0-9_.-]+)(?:~([1-9][0-9]{0,4}))?\.html")


def plan_stamp(folder: Folder) -> tuple:
    """Returns a value that changes when the plan is written again."""
    return tuple(map(identity_of, (folder.competition, folder.schedule, folder.rule_sums)))


def without_new_rounds(plan: Plan, seconds: float) -> Plan:
    """Returns a plan without the rounds whose pairings follow from record files that are younger than this many seconds."""
    for number in [planned.number for planned in plan.rounds[1:]] if seconds else ():
        files = [plan.folder.record(match.id) for match in plan.matches if match.round == number - 1]
        if any(file.stat().st_mtime > time.time() - seconds for file in files if file.exists()):
            matches = [match for match in plan.matches if match.round < number]
            return replace(plan, matches=matches, rounds=plan.rounds[: number - 1])
    return plan


def reason_for_visitors(folder: Folder, why: Exception) -> str:
    """Returns why a plan can't be read, without paths of this computer."""
    if isinstance(why, OSError):
        reason = f"{why.filename or 'a file'}: {why.strerror}"
    else:
        reason = why.words if isinstance(why, Refused) else "the referee program can't be run"
    return for_visitors(folder, reason)


@dataclass
class OpenPage:
    """A page that somebody has open, or had open a moment ago, or the data of the event stream. It was made from the data in `stamp`. `events` lists
    the last changes, each with the version of the page that it leads to. This tuple is replaced as a whole, so that another thread may read it."""

    title: str
    parts: PageParts | live_api.Keys
    stamp: tuple
    events: tuple[tuple[int, bytes], ...]
    viewers: int = 0
    touched: float = 0.0
    is_final: bool = False

    @property
    def version(self) -> int:
        return self.events[-1][0]

    def is_idle(self, now: float) -> bool:
        return not self.viewers and now - self.touched > IDLE

    def news(self, version: int) -> tuple[list[bytes], int, bool]:
        """Returns the changes since a version, the version that they lead to, and whether nothing more will change. If these changes are no longer
        kept, the page must be reloaded."""
        is_final, events = self.is_final, self.events
        if is_final or not events[0][0] <= version <= events[-1][0]:
            return [event_text(events[-1][0], {"reload": True})], events[-1][0], True
        return [text for number, text in events if number > version], events[-1][0], False


class Cache(typing.Generic[Value]):
    """The most recently used values: as many as fit into this many bytes, but at least one. Threads may share it."""

    def __init__(self, most: int, size_of: Callable[[Value], int]) -> None:
        self.most, self.size_of, self.lock = most, size_of, threading.Lock()
        # Each value, with the data that it was made from.
        self.values: OrderedDict[str, tuple[object, Value]] = OrderedDict()

    def get(self, name: str, made_of: object, make: Callable[[], Value]) -> Value:
        """Returns the value that was made from this data, or makes it."""
        with self.lock:
            known, value = self.values.pop(name, (None, None))
        if value is None or known != made_of:
            value = make()
        with self.lock:
            self.values[name] = made_of, value
            while len(self.values) > 1 and sum(self.size_of(other) for _, other in self.values.values()) > self.most:
                self.values.popitem(last=False)
        return value


class SiteOfShown(Site):
    """The pages of the results that are shown. Other files may replace the files of these results at any time."""

    def __init__(self, plan: Plan, reader: Reader) -> None:
        need_modules()
        super().__init__(plan)
        self.reader, self.ended = reader, reader.over
        # Pages and JSON of matches and tables by path, and records with their numbers of bytes by match.
        self.kept: Cache[bytes] = Cache(MOST_KEPT, len)
        self.records: Cache[tuple[dict, int]] = Cache(MOST_PARSED, itemgetter(1))

    def part_of_match(self, result: Result, number: int) -> bytes:
        """Returns a part of the page of a match, counted from 1; 0 is the last one."""
        match = result.match
        record, _ = self.records.get(match.id, self.reader.identities.get(match.id), lambda: self.read_record(match))
        if number > len(parts_of(record["states"])):
            raise NoRecord("its page has no such part")
        game, answers, frame = self.match_work(result)
        return page_of(record, game, answers, replace(frame, part=number - 1))

    def read_record(self, match: Match) -> tuple[dict, int]:
        data = self.plan.read_record(match)
        return read_record(data), len(data)

    def data_of_match(self, path: str, match: Match, make: Callable[[], bytes]) -> bytes | None:
        """Returns the data that `make` makes from a finished match, or None if other files have replaced those that are shown."""

        def made() -> bytes:
            data = make()
            self.reader.must_be_shown(match.id)
            return data

        files = self.reader.identities.get(match.id)
        try:
            return self.kept.get(path, files, made) if files else None
        except (OSError, NoRecord):
            return None


class LiveSite:
    """The pages, and the matches that they show."""

    def __init__(self, plan: Plan, referee: Referee, read_plan: Callable[[], Plan], stamp: tuple | None = None, delay: float = 0.0) -> None:
        self.referee, self.read_plan, self.delay = referee, read_plan, Delay(delay)
        # No two versions of pages are equal, not even in two runs.
        self.versions = itertools.count(time.time_ns())
        self.pages: OrderedDict[str, OpenPage] = OrderedDict()
        # `plan_stamp` is the stamp of the plan's files before they were last read. `plans` contains the plans that are not shown yet, each with its
        # time. If the files can't be read, `plans` contains the reason instead of a plan.
        self.plan_stamp, shown = plan_stamp(plan.folder) if stamp is None else stamp, without_new_rounds(plan, delay)
        self.plans: list[tuple[float, Plan | str]] = [] if shown is plan else [(live.clock(), plan)]
        self.trouble = self.fault = ""
        # Why the plan's files could not be read, and when they are read again.
        self.refusal, self.next_reading = "", 0.0
        self.begin(Reader(shown, referee, self.delay))

    def begin(self, reader: Reader) -> None:
        """Begins to show the plan of a reader."""
        # `newest` reads the directory. After a change of the plan, `newest` is shown only once it has read all records.
        self.plan, self.reader, self.newest, self.fault = reader.plan, reader, reader, ""
        for page in self.pages.values():
            page.is_final = True
        self.pages.clear()
        self.site = SiteOfShown(self.plan, reader)
        # The states of open matches as HTML, each with the version of its board.
        self.states: dict[str, tuple[int, "Markup"]] = {}
        self.tables: list[Table] = []
        # The pages of results.
        self.made: dict[str, PageOf] = {}
        self.tables_version, self.next_tables = None, 0.0

    # ---- reading the directory

    def update(self) -> None:
        """Reads new files, and renews the pages that somebody has open."""
        deque(self.steps(), 0)

    def steps(self) -> Iterator[bool]:
        """Does the work of `update` in steps, so that other pages can be made between them."""
        self.update_plan()
        for _ in self.newest.update():
            # Before the first update, there are no pages.
            if self.made:
                yield True
        if self.newest is not self.reader and self.is_read():
            self.begin(self.newest)
        self.count_results()
        yield True
        self.follow()
        self.drop_idle_pages()
        yield from self.renew_pages()
        if self.fault:
            self.reader.version, self.fault = self.reader.version + 1, ""
            yield from self.renew_pages()

    def fail(self, why: Exception) -> None:
        """Shows on the pages that an update has failed. The next one may succeed; until then the pages stay as they are."""
        self.fault = f"These pages may be out of date because of an error in ggp_competition: {why!r}"
        self.reader.version += 1
        with contextlib.suppress(Exception):
            deque(self.renew_pages(), 0)

    def renew_pages(self) -> Iterator[bool]:
        """Renews the pages that somebody has open. An error in one page does not affect the others."""
        faults = []
        for path, page in list(self.pages.items()):
            yield True
            try:
                if page.viewers:
                    self.renew(path, page)
            except Exception as why:
                page.stamp = ()
                faults.append(why)
        if faults:
            raise faults[0]

    def update_plan(self) -> None:
        """Reads the plan if it has changed. If it could not be read before, tries again, because the cause may be gone. When the new plan may be
        shown, begins to read its matches."""
        stamp, began = plan_stamp(self.plan.folder), time.monotonic()
        if stamp != self.plan_stamp or self.refusal and began >= self.next_reading:
            self.plan_stamp = stamp
            try:
                self.add_plan(self.read_plan())
                self.refusal = ""
            except (Refused, NoReferee, Unchecked, OSError) as why:
                self.refuse_plan(why)
            ended = time.monotonic()
            self.next_reading = ended + max(RETRY, SHARE * (ended - began))
        while self.plans and self.plans[0][0] <= live.clock() - self.delay.seconds:
            _, plan = self.plans.pop(0)
            if isinstance(plan, str):
                self.trouble = plan
                continue
            self.trouble, self.newest = "", Reader(plan, self.referee, self.delay, self.newest)
            # Incomplete pages are replaced at once.
            if not self.made or self.reader.unread:
                self.begin(self.newest)
        self.delay.coming = {match.id: match for _, plan in self.plans if isinstance(plan, Plan) for match in plan.matches}

    def refuse_plan(self, why: Exception) -> None:
        """Notes why the plan can't be read, unless this is known."""
        # The person who runs `serve` gets the whole message.
        refusal = f"ggp_competition: the plan has changed, but can't be read, so the pages show the previous one: {why}"
        if refusal != self.refusal:
            self.refusal = refusal
            report(refusal)
            reason = reason_for_visitors(self.plan.folder, why)
            self.add_plan(f"The plan has changed, but can't be read, so these pages show the previous plan: {reason}")

    def add_plan(self, plan: Plan | str) -> None:
        """Adds a plan, or the reason why it can't be read, to those that are shown later. If there are many, drops the last one to save memory."""
        if len(self.plans) == MOST_PLANS:
            self.plans.pop()
        self.plans.append((live.clock(), plan))

    def is_read(self) -> bool:
        """Returns whether the newest plan can be shown: its records are read, or a match has begun that the pages show as over or as another one. The
        directory of the open matches may stay unreadable, for example because another user runs `serve`."""
        shown, read = self.reader, self.newest
        is_other = any(name in shown.known and shown.known[name].line() != read.known[name].line() for name in (*read.open, *read.unread))
        return is_other or not read.open.keys().isdisjoint(shown.results) or not (read.unread or self.plan.folder.records.name in read.unlisted)

    def count_results(self) -> None:
        """Computes the tables if results have changed, but not too often."""
        began = time.monotonic()
        # Until all records are read, the ratings would be wrong.
        version = self.reader.results_version, not self.reader.unread
        if self.tables_version == version or began < self.next_tables:
            return
        results = in_order(self.plan, self.reader.results)
        self.tables = tables_of(self.plan.competition, results, self.plan.rounds, is_rated=not self.reader.unread)
        self.made = pages_of(self.site, self.tables, results)
        self.tables_version = version
        ended = time.monotonic()
        self.next_tables = ended + SHARE * (ended - began)

    def follow(self) -> None:
        """Follows the open matches for a while, first those that somebody watches."""
        now = time.monotonic()
        viewed = {path for path, page in self.pages.items() if not page.is_idle(now)}
        first = list(self.reader.open)[: live_pages.BOARDS] if FIRST in viewed else []
        self.reader.advance(now + FOLLOW, {*first, *(match[1] for match in map(MATCH.fullmatch, viewed) if match)})
        self.states = {name: state for name, state in self.states.items() if name in self.reader.open or name in self.reader.ended}

    def state(self, match: Match, version: int, states: Callable[[], list], notes: list[str]) -> "Markup":
        """Returns the last state of a match. Draws it again only if its version has changed."""
        if self.states.get(match.id, (None,))[0] != version:
            self.states[match.id] = version, live_pages.state_html(states(), self.plan.roles(match.game), self.site.named(match.game), notes)
        return self.states[match.id][1]

    def state_of(self, live_match: LiveMatch) -> "Markup":
        board = live_match.board
        return self.state(live_match.match, board.version, lambda: board.position.states, [board.trouble] if board.trouble else [])

    # ---- pages

    def shown_trouble(self) -> str:
        return self.trouble or self.fault or self.newest.trouble()

    def stamp(self, path: str) -> tuple | None:
        """Returns the data that a page is made from, or None if there is no such page. Equal data gives equal pages."""
        if path == live_api.FEED:
            own = self.reader.version, self.reader.results_version, self.tables_version
        elif path == FIRST:
            own = self.reader.version, self.tables_version
        elif made := self.made.get(path[1:]):
            own = tuple(made.results), made.words
        else:
            match = MATCH.fullmatch(path)
            own = match and self.match_stamp(match[1])
        return own and (*own, self.shown_trouble())

    def match_stamp(self, name: str) -> tuple | None:
        if name not in self.reader.known or name in self.reader.results:
            return None
        live_match = self.reader.open.get(name)
        return (live_match.version,) if live_match else ("waits", self.reader.faults.get(name), self.reader.given_up.get(name))

    def make(self, path: str) -> tuple[str, PageParts | live_api.Keys]:
        """Returns the title and the parts of a page that exists, or the data of the event stream."""
        if path == live_api.FEED:
            return "", live_api.snapshot(self.reader, self.tables_version)
        if made := self.made.get(path[1:]):
            title, parts = made.title, made.parts()
        else:
            title = MATCH.fullmatch(path)[1]
            parts = self.match_parts(title)
        if path == FIRST:
            head, bracket, rounds, standings, *rest = parts
            now, boards, opened, given_up, *more = live_pages.live_parts(self.reader, self.board_items())
            parts = [head, now, boards, bracket, rounds, standings, opened, given_up, *rest, *more]
        return titled(self.plan, title), [live_pages.live_part("trouble", text=self.shown_trouble()), *parts]

    def match_parts(self, name: str) -> PageParts:
        match, live_match = self.reader.known[name], self.reader.open.get(name)
        head = live_pages.match_head(match, self.plan.competition, self.plan.roles(match.game))
        if not live_match:
            return live_pages.waiting_match_parts(self.reader.faults.get(name, ""), self.reader.given_up.get(name, ""), match.why_not(), head)
        return live_pages.open_match_parts(live_match, self.state_of(live_match), head)

    def board_items(self) -> list[tuple[str, str]]:
        """Returns the boards of the first page, in the schedule's order."""
        items = {}
        for name, live_match in itertools.islice(self.reader.open.items(), live_pages.BOARDS):
            if live_match.stage != "asking":
                items[name] = live_pages.board_item(live_match, self.state_of(live_match))
        for name, (_, states) in sorted(self.reader.ended.items(), key=lambda ended: ended[1][0])[-live_pages.BOARDS_OVER :]:
            if result := self.reader.results.get(name):
                state = self.state(result.match, -1, lambda: states, [])
                items[name] = live_pages.last_board_item(result, state, self.plan.roles(result.match.game))
        return [items[name] for name in self.reader.known if name in items]

    def renew(self, path: str, page: OpenPage) -> None:
        """Makes a page again if its data has changed, and keeps the changes."""
        stamp = self.stamp(path)
        if stamp == page.stamp or page.is_final:
            return
        page.stamp = stamp
        if stamp is None:
            # The match is over, so it has another page now.
            page.is_final = True
            return
        page.title, parts = self.make(path)
        changed = live_api.news(self.reader, page.parts, parts) if path == live_api.FEED else changes(page.parts, parts)
        page.parts = parts
        if changed:
            version = next(self.versions)
            events = [*page.events[1 - MOST_EVENTS :], (version, event_text(version, {**changed, "now": self.delay.now()}))]
            # At least two changes are kept, because viewers still have the version that the second-to-last change led to.
            while len(events) > 2 and sum(len(text) for _, text in events) > BYTES_OF_EVENTS:
                del events[0]
            page.events = tuple(events)

    def opened(self, path: str) -> OpenPage | None:
        """Returns a page as it is now, or None if there is no such page, or if its match is over."""
        page = self.pages.get(path)
        if page:
            self.renew(path, page)
        if not page or page.is_final:
            stamp = self.stamp(path)
            if stamp is None or not self.made:
                return None
            page = self.pages[path] = OpenPage(*self.make(path), stamp, ((next(self.versions), b""),))
        page.touched = time.monotonic()
        self.pages.move_to_end(path)
        return page

    def page(self, path: str) -> bytes | Work | None:
        """Returns the page at a path, or a function that makes it, or None."""
        if opened := self.opened(path):
            # The page gets the changes after this version.
            events = f"{'../' * (path.count('/') - 1)}events{path}?after={opened.version}"
            live = {"now": self.delay.now(), "events": events, "reload": RELOAD}
            return page("parts", title=opened.title, script="live.js", live=live, parts=opened.parts)
        match = OVER.fullmatch(path)
        result = self.reader.results.get(match[1]) if match else None
        return result and functools.partial(self.page_of_match, self.site, path, result, int(match[2] or 0))

    def page_of_match(self, site: SiteOfShown, path: str, result: Result, part: int) -> bytes | None:
        """Returns the page of a match that is over."""
        data = site.data_of_match(path, result.match, lambda: site.part_of_match(result, part))
        trouble = live_pages.live_part("trouble", text=self.trouble).text.encode("ascii", "xmlcharrefreplace")
        return data and data.replace(b"<body>", b"<body>" + trouble, 1) if trouble else data

    def data(self, path: str) -> bytes | Work | None:
        """Returns the data for other programs at a path, or a function that makes it, or None."""
        if path == live_api.METRICS:
            return live_api.metrics(self.reader, self.tables[0]) if self.tables else None
        asked = live_api.API.fullmatch(path)
        if not asked:
            return None
        is_table, page, name = asked.groups()
        if is_table:
            return self.site.kept.get(path, self.tables_version, lambda: json_text(self.plan, self.tables).encode("ascii")) if self.tables else None
        if match := self.reader.known.get(name):
            if (stamp := self.match_stamp(name)) is not None:
                return self.site.kept.get(path, stamp, lambda: live_api.json_bytes(live_api.own_keys(self.reader, match)))
            keys, reader = live_api.own_keys(self.reader, match), self.reader
            return functools.partial(self.site.data_of_match, path, match, lambda: live_api.json_bytes(keys | live_api.record_keys(reader, match)))
        keys = None if name else live_api.list_keys(self.reader, int(page or 1))
        return keys and live_api.json_bytes({**keys, "now": self.delay.now(), "trouble": self.shown_trouble()})

    def drop_idle_pages(self) -> None:
        now = time.monotonic()
        idle = [path for path, page in self.pages.items() if page.is_idle(now)]
        rest = [path for path, page in self.pages.items() if not page.viewers and path not in idle]
        for path in [*idle, *rest[: max(0, len(self.pages) - len(idle) - MOST_PAGES)]]:
            # If somebody has just begun to watch a dropped page, the browser must load that page again.
            self.pages.pop(path).is_final = True
