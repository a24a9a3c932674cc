"""Serves the live pages. The server is read-only, and limits the number of connections."""

import asyncio
import concurrent.futures
import contextlib
import functools
import logging
import re
import socket
import sys
import time
import weakref
from collections.abc import Callable, Sequence
from http import HTTPStatus
from typing import TypeVar

from aiohttp import web

from ggp_tools.competition.live_api import FEED, METRICS, json_bytes, metrics_text
from ggp_tools.competition.live_site import FIRST, LiveSite, OpenPage
from ggp_tools.holding.game import MOST_CALLS
from ggp_tools.human.server import is_own_name
from ggp_tools.streams import report
from ggp_tools.visitors import THIS_COMPUTER, Visitors, client_of, oldest_of_most

Value = TypeVar("Value")
# The server reads the directory every INTERVAL seconds. As long as a page does not change, the server sends its visitor a row every ALIVE
# seconds, and thereby notices if the visitor has left.
INTERVAL, ALIVE = 1.0, 10.0
# The head of a request must arrive within HEAD seconds, and have at most LONGEST_HEAD bytes. The visitor must accept each piece of an answer
# within PATIENCE seconds, and the piece at byte N within PATIENCE + N / SLOWEST seconds after the beginning of the answer.
HEAD, LONGEST_HEAD, PATIENCE, SLOWEST = 5, 16_384, 20, 1 << 15
# The number of connections that may wait to be accepted, and the number that are accepted at a time. The second number is small, so that
# the server reads the heads of accepted connections before it accepts more: only the head of a request from a proxy shows the client, and
# without a head, the connection may be closed to make room for another.
BACKLOG, AT_A_TIME = 128, 4
BUSY = b"HTTP/1.1 503 Service Unavailable\r\nRetry-After: 10\r\nContent-Length: 0\r\nConnection: close\r\n\r\n"
HEADERS = {
    "Cache-Control": "no-store",
    "X-Content-Type-Options": "nosniff",
    "Referrer-Policy": "no-referrer",
    "Server": "ggp_competition",
}
# An answer is sent in pieces, because the event loop copies everything that the visitor has not accepted yet. All answers together have at
# most MOST_SENT bytes.
PIECE, MOST_SENT = 1 << 16, 256 << 20
# The content types of pages, and of data for programs.
PAGE, JSON, NUMBERS = "text/html", "application/json", "text/plain; version=0.0.4"
NOBODY = ("'none'",)
VERSION, METHODS = re.compile("[0-9]{1,20}"), ("GET", "HEAD")
# If a request cannot be read, only its sender needs to know this, so the error is not logged.
SILENT = logging.Logger("requests")
SILENT.addHandler(logging.NullHandler())


def kind_of(path: str) -> str:
    return JSON if path.startswith("/api/") else NUMBERS if path == METRICS else PAGE


class Connection(web.RequestHandler):
    """A connection with one request. `is_idle` is true until the head of the request has arrived. When the connection ends, the task that answers
    the request is cancelled."""

    __slots__ = ("visitors", "client", "is_idle", "left", "clock", "asking", "answer")

    def __init__(self, visitors: Visitors, server: web.Server) -> None:
        # Bodies are not read. Decompressing a body could fill the memory.
        loop = asyncio.get_running_loop()
        super().__init__(server, loop=loop, access_log=None, logger=SILENT, lingering_time=0, auto_decompress=False)
        self.visitors, self.client, self.is_idle, self.left = visitors, "", True, LONGEST_HEAD
        self.clock: asyncio.TimerHandle | None = None
        self.asking: asyncio.Task | None = None
        self.answer = b""

    def connection_made(self, transport: asyncio.Transport) -> None:
        self.client = client_of(transport.get_extra_info("peername")[0])
        if not self.visitors.has_room_for(self.client):
            self.left = 0
            transport.write(BUSY)
            transport.close()
            return
        self.visitors.come(self)
        # The kernel ends a connection whose visitor accepts no data.
        transport.get_extra_info("socket").setsockopt(socket.IPPROTO_TCP, socket.TCP_USER_TIMEOUT, round(PATIENCE * 1_000))
        transport.set_write_buffer_limits(0)
        self.clock = asyncio.get_running_loop().call_later(HEAD, self.end)
        super().connection_made(transport)

    def data_received(self, data: bytes) -> None:
        """Receives a part of the request. Ignores bytes after the request or beyond the limit."""
        self.left -= len(data)
        try:
            if self.left >= 0:
                super().data_received(data)
            elif self.is_idle:
                self.end()
        except ValueError:
            # aiohttp does not handle the error of an address such as `http://[`.
            self.end()

    async def start(self) -> None:
        """Answers the request, unless aiohttp cannot read its address."""
        try:
            await super().start()
        except ValueError:
            self.end()

    def connection_lost(self, why: Exception | None) -> None:
        for task in filter(None, (self.clock, self.asking)):
            task.cancel()
        self.visitors.go(self)
        super().connection_lost(why)

    def has_asked(self) -> None:
        """Records that the head has arrived, and that the calling task answers the request. This task is cancelled when the connection
        ends."""
        self.is_idle, self.asking = False, asyncio.current_task()
        self.clock.cancel()

    def is_served(self, forwarded: Sequence[str]) -> bool:
        """Returns whether the client may have this connection. If the connection comes from a proxy on this computer, the client is the
        last address in `forwarded`."""
        if self.client == THIS_COMPUTER and forwarded:
            self.visitors.go(self)
            with contextlib.suppress(ValueError):
                self.client = client_of(forwarded[-1].rpartition(",")[2].strip())
            is_served = self.visitors.has_room_for(self.client)
            self.visitors.come(self)
            return is_served
        return True

    def end(self) -> None:
        self.visitors.go(self)
        if self.transport:
            self.transport.abort()


class Server:
    """Serves a competition's live pages below the path `base`. One thread reads the directory and makes the pages. Another thread makes the pages
    of matches that are over. The event loop does everything else. Browsers may address the server by `names`. Pages of `origins` may show its
    pages and read its data."""

    def __init__(self, site: LiveSite, most: int, base: str = "", names: Sequence[str] = (), origins: Sequence[str] = ()) -> None:
        self.site, self.visitors, self.address, self.reported = site, Visitors(most, spares_busy=False), "", ""
        self.base, self.names, self.origins = base, ["localhost", *names], origins
        self.headers = {**HEADERS, "Content-Security-Policy": f"frame-ancestors {' '.join(origins or NOBODY)}"}
        self.thread, self.other_thread = concurrent.futures.ThreadPoolExecutor(1), concurrent.futures.ThreadPoolExecutor(1)
        sys.setrecursionlimit(MOST_CALLS)
        # There is one lock for each client that is waiting for a thread. There is also one lock for the pages that are computed from results,
        # because these take longer than the others.
        self.turns: weakref.WeakValueDictionary[str, asyncio.Lock] = weakref.WeakValueDictionary()
        self.long_turn = asyncio.Lock()
        self.updated = asyncio.Event()

    async def begin(self, address: str, port: int) -> tuple[str, int]:
        """Begins to serve, and returns the address and the port."""
        answering, family = web.Server(self.answer), socket.AF_INET6 if ":" in address else socket.AF_INET
        listening = socket.create_server((address, port), family=family, backlog=BACKLOG, dualstack_ipv6=address == "::")
        self.listener = await asyncio.get_running_loop().create_server(lambda: Connection(self.visitors, answering), sock=listening, backlog=AT_A_TIME)
        # `create_server` of asyncio would limit the queue to the number of connections that the event loop accepts at a time.
        listening.listen(BACKLOG)
        self.address, port, *_ = listening.getsockname()
        return self.address, port

    def end(self) -> None:
        self.listener.close()
        for connection in list(self.visitors.connections):
            connection.end()
        for thread in (self.thread, self.other_thread):
            thread.shutdown(wait=False, cancel_futures=True)

    async def on_site(self, function: Callable[..., Value], *values: object) -> Value:
        """Calls a function in the site's thread."""
        return await asyncio.get_running_loop().run_in_executor(self.thread, function, *values)

    async def for_client(self, client: str, function: Callable[[str], Value], path: str) -> Value:
        """Calls a function for a client in the site's thread. If it returns another function, calls that function in the other thread. At
        any time, only one call of each client, and only one call for a page that is computed from results, waits for the threads."""
        is_long = path != FIRST and path[1:] in self.site.made
        async with self.turns.setdefault(client, asyncio.Lock()), self.long_turn if is_long else contextlib.nullcontext():
            result = await self.on_site(function, path)
            return await asyncio.get_running_loop().run_in_executor(self.other_thread, result) if callable(result) else result

    async def update(self) -> None:
        """Reads the directory, and wakes the connections whose page has changed."""
        try:
            steps = self.site.steps()
            while await self.on_site(next, steps, False):
                pass
        except Exception as why:
            await self.on_site(self.site.fail, why)
            if repr(why) != self.reported:
                self.reported = repr(why)
                report(f"ggp_competition: can't update the pages: {self.reported}")
        updated, self.updated = self.updated, asyncio.Event()
        updated.set()

    async def watch(self) -> None:
        while True:
            await asyncio.sleep(0 if self.site.newest.unread else INTERVAL)
            await self.update()

    # ---- requests

    def is_open_to(self, host: str) -> bool:
        """Returns whether a browser may use this name for the server. If the server listens on a loopback address, only known names are allowed,
        because the name of another site may lead to this address."""
        return not host or client_of(self.address) != THIS_COMPUTER or any(is_own_name(host, name) for name in self.names)

    async def answer(self, request: web.BaseRequest) -> web.StreamResponse:
        """Answers a request. If the visitor does not accept the answer in time, ends the connection."""
        request.protocol.has_asked()
        whole, _, query = request.raw_path.partition("?")
        asked = whole.removeprefix(self.base) if whole.startswith(f"{self.base}/") else ""
        try:
            if request.method not in METHODS:
                return await self.send(request, HTTPStatus.METHOD_NOT_ALLOWED)
            if not self.is_open_to(request.headers.get("Host", "")):
                return await self.send(request, HTTPStatus.FORBIDDEN)
            if not request.protocol.is_served(request.headers.getall("X-Forwarded-For", ())):
                return await self.send(request, HTTPStatus.SERVICE_UNAVAILABLE)
            if not asked:
                return await self.send(request, HTTPStatus.PERMANENT_REDIRECT if whole == self.base else HTTPStatus.NOT_FOUND)
            if asked == FEED or asked.startswith("/events/"):
                known = request.headers.get("Last-Event-ID") or query.removeprefix("after=")
                return await self.send_events(request, asked.removeprefix("/events"), known)
            if kind_of(asked) == PAGE:
                data = await self.for_client(request.protocol.client, self.site.page, "/index.html" if asked == "/" else asked)
            else:
                data = await self.for_client(request.protocol.client, self.site.data, request.raw_path.removeprefix(self.base))
            if asked == METRICS and data:
                data += metrics_text({"serve_connections": {"": len(self.visitors.connections)}, "serve_viewers": {"": len(self.visitors.viewers)}})
            return await self.send(request, HTTPStatus.NOT_FOUND if data is None else HTTPStatus.OK, data)
        except (OSError, TimeoutError):
            request.protocol.end()
            raise
        except Exception as why:
            report(f"ggp_competition: can't make the page {asked!r}: {why!r}")
            return await self.send(request, HTTPStatus.INTERNAL_SERVER_ERROR)

    def note_answer(self, connection: Connection, answer: bytes) -> None:
        """Records the answer that is being sent. If all answers together are too long, ends connections of the client with the most bytes."""
        connection.answer = answer
        while sum(map(len, {id(other.answer): other.answer for other in self.visitors.connections}.values())) > MOST_SENT:
            answered = [other for other in self.visitors.connections if other.answer]
            oldest_of_most(answered, lambda other: len(other.answer)).end()

    def headers_of(self, request: web.BaseRequest, kind: str) -> dict[str, str]:
        """Returns the headers of an answer. Only the server's own pages and those of `origins` may read the answer."""
        origin = request.headers.get("Origin")
        known = {"Access-Control-Allow-Origin": origin} if origin in self.origins else {}
        return {**self.headers, **known, "Vary": "Origin", "Content-Type": f"{kind}; charset=utf-8"}

    async def send(self, request: web.BaseRequest, status: HTTPStatus, data: bytes | None = None) -> web.StreamResponse:
        """Sends the data. Without data, sends the text of the status."""
        path = request.raw_path.removeprefix(self.base)
        kind = kind_of(path)
        if data is None:
            data = json_bytes({"error": f"{status.phrase}: {path}"}) if kind == JSON else status.phrase.encode()
            kind = JSON if kind == JSON else "text/plain"
        more = {HTTPStatus.PERMANENT_REDIRECT: {"Location": f"{self.base}/"}, HTTPStatus.METHOD_NOT_ALLOWED: {"Allow": ", ".join(METHODS)}}
        headers = self.headers_of(request, kind) | more.get(status, {})
        response = web.StreamResponse(status=status, headers={**headers, "Content-Length": str(len(data))})
        response.force_close()
        self.note_answer(request.protocol, data)
        clock = asyncio.get_running_loop().time
        began = clock()
        async with asyncio.timeout(PATIENCE) as limit:
            await response.prepare(request)
            for at in range(0, len(data) if request.method != "HEAD" else 0, PIECE):
                limit.reschedule(min(clock(), began + at / SLOWEST) + PATIENCE)
                await response.write(memoryview(data)[at : at + PIECE])
            await response.write_eof()
        return response

    async def send_events(self, request: web.BaseRequest, path: str, known: str) -> web.StreamResponse:
        """Sends the changes to a page since a version, or from now on if no version is given, as long as the visitor accepts them."""
        with self.visitors.viewing(request.protocol) as has_room:
            page = await self.for_client(request.protocol.client, self.site.opened, path) if has_room else None
            if page is None:
                return await self.send(request, HTTPStatus.NOT_FOUND if has_room else HTTPStatus.SERVICE_UNAVAILABLE)
            response = web.StreamResponse(headers={**self.headers_of(request, "text/event-stream"), "X-Accel-Buffering": "no"})
            response.force_close()
            writer = await response.prepare(request)
            if request.method == "HEAD":
                # An answer to HEAD has no body, so it must not have a last chunk either.
                writer.chunked = False
                return response
            page.viewers += 1
            try:
                stays = functools.partial(self.visitors.viewers.__contains__, request.protocol)
                await self.send_changes(response, page, int(known) if VERSION.fullmatch(known) else -1 if known else page.version, stays)
            finally:
                page.viewers, page.touched = page.viewers - 1, time.monotonic()
            return response

    async def send_changes(self, response: web.StreamResponse, page: OpenPage, version: int, stays: Callable[[], bool]) -> None:
        """Sends the changes to a page since a version, until the page is final or another stream replaces this one. If the visitor has
        left, sending fails."""
        is_last = False
        while not is_last and stays():
            with contextlib.suppress(TimeoutError):
                async with asyncio.timeout(ALIVE):
                    while page.version == version and not page.is_final and stays():
                        await self.updated.wait()
            texts, version, is_last = page.news(version)
            async with asyncio.timeout(PATIENCE):
                await response.write(b"".join(texts) or b": still there\n\n")
