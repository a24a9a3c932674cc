"""Serves the referee and the person's browser on one port: POST / is a message from the referee, GET /TOKEN/ is the page. Only the person has the
token, so other users of this computer and pages of other sites cannot see the page or the move."""

import contextlib
import io
import ipaddress
import json
import re
import secrets
import select
import socket
import sys
import threading
import time
from collections import Counter
from collections.abc import Iterator, Mapping
from http.server import BaseHTTPRequestHandler, ThreadingHTTPServer
from http import HTTPStatus

from ggp_tools.human.seat import MOST_MESSAGE, Seat, Unread
from ggp_tools.instantiating.limits import LARGE
from ggp_tools.templating import source
from ggp_tools.visitors import THIS_COMPUTER, Visitors, client_of

# START contains the whole rules. In a file, an atom and the gap after it take at least two bytes. In the message, there may be one more space for
# each atom.
MOST_BYTES, MOST_MOVE = LARGE["bytes"] * 3 // 2 + MOST_MESSAGE, 65_536
# The server reads at most this many bytes of the head of a request, because parsing a longer head may take minutes.
LONGEST_HEAD = 16_384
# After this many seconds without a change, the server sends a line to the page. This also detects that the page was closed.
ALIVE = 1.0
# A request must arrive within this many seconds, and one more for each MiB of its body. The client must accept the answer within PATIENCE seconds.
REQUEST_SECONDS, PATIENCE = 5, 30
# The maximum number of connections. Within PERIOD seconds, strangers (clients that are neither the referee nor this computer) may open at most the
# same number of connections.
MOST_CONNECTIONS, PERIOD = 128, 1.0
# The maximum number of long bodies that are read at the same time, so that few of them are in memory.
MOST_LONG = 8
# The files of the page, by their paths below the token. The page may load and run only these.
FILES = {"": ("human.html", "text/html"), "style.css": ("style.css", "text/css"), "human.js": ("human.js", "text/javascript")}
HEADERS = {"X-Content-Type-Options": "nosniff", "Referrer-Policy": "no-referrer"}
HEADERS["Content-Security-Policy"] = "default-src 'none'; style-src 'self' 'unsafe-inline'; script-src 'self'; connect-src 'self'; base-uri 'none'; form-action 'none'; frame-ancestors 'none'"


def is_own_name(host: str, own: str) -> bool:
    """Returns whether a page may be opened under this name: an address, or a name of this computer."""
    name = re.sub(":[0-9]*$", "", host).strip("[]").lower()
    try:
        ipaddress.ip_address(name)
    except ValueError:
        return name in ("localhost", own.lower(), socket.gethostname().lower())
    return True


class Request(io.RawIOBase):
    """A request that is read from a socket within a deadline, and up to a number of bytes. `visitors` counts it as a connection."""

    def __init__(self, connection: socket.socket, client: str, visitors: Visitors) -> None:
        self.connection, self.client, self.visitors = connection, client, visitors
        self.is_idle, self.began, self.received, self.most = True, time.monotonic(), 0, LONGEST_HEAD
        self.ends = self.began + REQUEST_SECONDS
        # Set once the message has been taken, or the request has turned out not to be a message. The next message waits for this.
        self.is_taken, self.before = threading.Event(), None

    def readable(self) -> bool:
        return True

    def readinto(self, data: memoryview) -> int:
        if self.received >= self.most:
            raise ConnectionError("the request is too long")
        self.connection.settimeout(max(0.001, self.ends - time.monotonic()))
        count = self.connection.recv_into(data)
        self.received += count
        return count

    def rate(self) -> float:
        """Returns the bytes that have arrived per second."""
        return self.received / (time.monotonic() - self.began + 0.001)

    def is_whole(self) -> None:
        """Records that the request has arrived. From now on, the connection is not closed in favour of another one, and the answer has a separate
        deadline."""
        self.is_idle = False
        self.connection.settimeout(PATIENCE)
        # The kernel ends a connection whose client has disappeared without closing it, for example because its computer is offline.
        self.connection.setsockopt(socket.IPPROTO_TCP, socket.TCP_USER_TIMEOUT, PATIENCE * 1_000)

    def wait_for_turn(self) -> None:
        """Waits until the message before this one has been taken."""
        if self.before:
            self.before.wait(REQUEST_SECONDS)

    def end(self) -> None:
        self.visitors.go(self)
        with contextlib.suppress(OSError):
            self.connection.shutdown(socket.SHUT_RDWR)


class Handler(BaseHTTPRequestHandler):
    """Handles one request."""

    server: "Server"

    def setup(self) -> None:
        super().setup()
        self.asked = self.server.requests[self.connection]
        self.rfile = io.BufferedReader(self.asked)

    def do_GET(self) -> None:
        self.asked.is_whole()
        self.asked.is_taken.set()
        if not is_own_name(self.headers["Host"] or "", self.server.server_name):
            self.send_error(HTTPStatus.FORBIDDEN)
        elif self.path == f"{self.server.page}events":
            self.send_events()
        elif self.path.startswith(self.server.page) and (name := self.path.removeprefix(self.server.page)) in FILES:
            file, kind = FILES[name]
            self.reply(HTTPStatus.OK, f"{kind}; charset=utf-8", source(file).encode())
        else:
            self.send_error(HTTPStatus.NOT_FOUND)

    def do_HEAD(self) -> None:
        """Answers like GET, without the body."""
        self.do_GET()

    def refuse_method(self) -> None:
        self.reply(HTTPStatus.METHOD_NOT_ALLOWED, "text/plain", b"", {"Allow": "GET, HEAD, POST"})

    do_DELETE = do_OPTIONS = do_PATCH = do_PUT = refuse_method

    def do_POST(self) -> None:
        is_move = self.path == f"{self.server.page}move"
        is_trusted = is_move or self.server.seat.may_be_referee(self.client_address[0])
        body = self.body(MOST_BYTES if is_trusted and not is_move else MOST_MOVE)
        self.asked.is_whole()
        if not is_move and self.path != "/":
            self.send_error(HTTPStatus.NOT_FOUND)
        elif not is_own_name(self.headers["Host"] or "localhost", self.server.server_name):
            self.send_error(HTTPStatus.FORBIDDEN)
        elif not is_move and (self.headers["Origin"] is not None or self.headers["Sec-Fetch-Site"] is not None):
            # Browsers send one of these headers when a page posts; referees send neither.
            self.send_error(HTTPStatus.FORBIDDEN)
        elif not is_trusted:
            # Long messages from unknown senders are not read, because parsing them could take minutes.
            self.reply(HTTPStatus.OK, "text/acl", b"busy")
        elif body is None:
            self.send_error(HTTPStatus.BAD_REQUEST)
        elif is_move:
            self.take_move(body)
        else:
            self.take_message(body)

    def body(self, most: int) -> bytes | None:
        """Returns the body of a request. Returns None if the body is cut off, or if its length is missing or too large."""
        size = self.headers["Content-Length"] or ""
        if not re.fullmatch("[0-9]{1,8}", size) or int(size) > most:
            return None
        self.asked.ends, self.asked.most = self.asked.ends + (int(size) >> 20), self.asked.received + int(size)
        with self.server.reading(self.asked) if int(size) > MOST_MESSAGE else contextlib.nullcontext():
            body = self.rfile.read(int(size))
        return body if len(body) == int(size) else None

    def take_message(self, body: bytes) -> None:
        """Answers the referee. If there is no move in time, the connection is closed without an answer."""
        self.asked.wait_for_turn()
        try:
            answer = self.server.seat.answer(body.decode("latin-1"), self.headers["Receiver"] or "", self.client_address[0], self.asked.is_taken.set)
        except (Unread, RecursionError, MemoryError) as why:
            self.send_error(HTTPStatus.BAD_REQUEST, ascii(str(why)[:200]))
            return
        if answer is None:
            self.close_connection = True
            return
        self.reply(HTTPStatus.OK, "text/acl", answer.encode("latin-1"))

    def take_move(self, body: bytes) -> None:
        """Takes the person's move, or a request to leave the match."""
        seat = self.server.seat
        try:
            values = json.loads(body)
            why = seat.leave(values["leave"]) if "leave" in values else seat.move(values["move"], values["asked"])
        except (ValueError, KeyError, TypeError, RecursionError):
            why = "that is not a move"
        self.reply(HTTPStatus.CONFLICT if why else HTTPStatus.OK, "text/plain", (why or "taken").encode())

    def send_events(self) -> None:
        """Sends the view each time it changes, as long as the page is open."""
        self.send_response(HTTPStatus.OK)
        self.send_header("Content-Type", "text/event-stream")
        self.send_header("Cache-Control", "no-store")
        self.end_headers()
        if self.command == "HEAD":
            return
        version, seat = -1, self.server.seat
        seat.page_opens(1)
        try:
            while True:
                newer, view = seat.next_view(version, ALIVE)
                line = f"data: {json.dumps(view)}\n\n" if newer != version else ": still there\n\n"
                version = newer
                self.wfile.write(line.encode("ascii"))
        except OSError:
            return
        finally:
            seat.page_opens(-1)

    def reply(self, status: HTTPStatus, kind: str, body: bytes, more: Mapping[str, str] = HEADERS) -> None:
        self.send_response(status)
        for name, value in {"Content-Type": kind, "Content-Length": str(len(body)), **HEADERS, **more}.items():
            self.send_header(name, value)
        self.end_headers()
        if self.command != "HEAD":
            self.wfile.write(body)

    def log_message(self, format: str, *arguments: object) -> None:
        pass


class Server(ThreadingHTTPServer):
    """Serves a person's seat."""

    daemon_threads = True
    request_queue_size = socket.SOMAXCONN

    def __init__(self, address: tuple[str, int], seat: Seat) -> None:
        super().__init__(address, Handler)
        self.seat, self.page = seat, f"/{secrets.token_urlsafe(16)}/"
        self.visitors, self.requests, self.readers = Visitors(MOST_CONNECTIONS), {}, set()
        # The last request that had arrived before its connection was accepted.
        self.last: Request | None = None
        # The end of the period, and the clients of the strangers' connections that began in it.
        self.ends, self.strangers = 0.0, []

    def verify_request(self, request: socket.socket, client_address: tuple[str, int]) -> bool:
        """Returns whether a connection gets a thread, which costs much more than a refusal. A client that is neither the referee nor this computer
        gets no thread once it has used up its share of connections. If there are too many connections, closes the oldest one without a complete
        request."""
        client = client_of(client_address[0])
        is_stranger = client != THIS_COMPUTER and client_address[0] not in self.seat.referees
        if is_stranger and not self.is_in_share(client) or not self.visitors.has_room_for(client):
            return False
        self.requests[request] = asked = Request(request, client, self.visitors)
        self.visitors.come(asked)
        if client_address[0] in self.seat.referees:
            self.put_in_order(asked)
        return True

    def put_in_order(self, asked: Request) -> None:
        """Makes a message wait for the one before it if both had to wait until they were accepted, for example because this computer was asleep. A
        connection that has not received anything yet delays no message, because a browser may open it in advance."""
        asked.before = self.last and self.last.is_taken
        if select.select([asked.connection], [], [], 0)[0]:
            self.last = asked

    def is_in_share(self, client: str) -> bool:
        """Returns whether a stranger may have one more connection. Each stranger has a share of the open connections, and a share of the connections
        that begin in a period."""
        if time.monotonic() >= self.ends:
            self.ends, self.strangers = time.monotonic() + PERIOD, []
        count = max(self.visitors.counts[client], self.strangers.count(client))
        is_in_share = len(self.strangers) < MOST_CONNECTIONS and count < self.visitors.most_of(client)
        self.strangers += [client] * is_in_share
        return is_in_share

    def shutdown_request(self, request: socket.socket) -> None:
        if asked := self.requests.pop(request, None):
            asked.is_taken.set()
            self.visitors.go(asked)
        super().shutdown_request(request)

    def handle_error(self, request: socket.socket, client_address: tuple[str, int]) -> None:
        """Prints errors, except those of connections, because visitors can cause them."""
        if not isinstance(sys.exception(), OSError):
            # Standard error may no longer have a reader.
            with contextlib.suppress(OSError):
                super().handle_error(request, client_address)

    @contextlib.contextmanager
    def reading(self, request: Request) -> Iterator[None]:
        """Counts a request whose long body is being read. If there are too many, ends the slowest request of the client that has the most."""
        with self.visitors.lock:
            if len(self.readers) == MOST_LONG:
                counts = Counter(reader.client for reader in (*self.readers, request))
                gone = max(self.readers, key=lambda reader: (counts[reader.client], -reader.rate()))
                self.readers.remove(gone)
                gone.end()
            self.readers.add(request)
        try:
            yield
        finally:
            with self.visitors.lock:
                self.readers.discard(request)
