"""Limits the connections of a server. If there are too many connections, the server closes the oldest connection whose whole request has not
arrived. If there is no such connection, the server closes a connection of the client that has the most connections."""

import contextlib
import ipaddress
import threading
from collections import Counter
from collections.abc import Callable, Collection, Iterator
from typing import Protocol

# The clients with loopback addresses.
THIS_COMPUTER = "this computer"


def client_of(address: str) -> str:
    """Returns the client that an address belongs to. With IPv6, one customer may have all addresses with the same first 48 bits. An IPv4 address may
    be in IPv6 notation. Raises ValueError if the text is not an address."""
    parsed = ipaddress.ip_address(address.partition("%")[0])
    parsed = getattr(parsed, "ipv4_mapped", None) or parsed
    if parsed.is_loopback:
        return THIS_COMPUTER
    return str(parsed if parsed.version == 4 else ipaddress.ip_network((int(parsed), 48), strict=False))


class Connection(Protocol):
    """A connection of a client. It is idle until a whole request has arrived. `end` closes the connection, and calls
    `Visitors.go`."""

    client: str
    is_idle: bool

    def end(self) -> None: ...


def oldest_of_most(connections: Collection[Connection], size_of: Callable[[Connection], int] = lambda connection: 1) -> Connection | None:
    """Returns the oldest connection of the client whose connections have the largest total size; by default, each has the size 1. If there
    are no connections, returns None."""
    counts: Counter[str] = Counter()
    for connection in connections:
        counts[connection.client] += size_of(connection)
    return max(connections, key=lambda connection: counts[connection.client], default=None)


def one_for(client: str, connections: Collection[Connection]) -> Connection | None:
    """Returns the connection to close when a client opens a new one: the one that `oldest_of_most` returns, unless its client has at most one
    connection more than this client."""
    counts, gone = Counter(connection.client for connection in connections), oldest_of_most(connections)
    return gone if gone and counts[client] + 1 < counts[gone.client] else None


class Visitors:
    """At most `most` open connections. One client may have an eighth of them, but this computer may have all, because
    it may run a proxy. Unless `spares_busy` is set, a connection whose request has arrived may also be closed in favour of another. Threads
    may share this object."""

    def __init__(self, most: int, spares_busy: bool = True) -> None:
        self.most, self.spares_busy, self.lock = most, spares_busy, threading.RLock()
        # The oldest one is first.
        self.connections: dict[Connection, None] = {}
        # The number of connections of each client that has any.
        self.counts: Counter[str] = Counter()
        # The connections that stay open to get changes. The oldest one is first.
        self.viewers: dict[Connection, None] = {}

    def most_of(self, client: str) -> int:
        return self.most if client == THIS_COMPUTER else max(3, self.most // 8)

    def has_room_for(self, client: str) -> bool:
        """Returns whether one more connection of a client can be accepted. If necessary, closes an idle connection to make this possible: the oldest
        one of this client if the client has used up its share, otherwise the oldest one of the client with the most idle connections. If no
        connection is idle, may close a busy one."""
        with self.lock:
            is_own = self.counts[client] >= self.most_of(client)
            if not is_own and len(self.connections) < self.most:
                return True
            idle = [connection for connection in self.connections if connection.is_idle and (not is_own or connection.client == client)]
            gone = oldest_of_most(idle)
            if not idle and not is_own and not self.spares_busy:
                gone = one_for(client, self.connections)
            if gone:
                gone.end()
            return gone is not None

    def come(self, connection: Connection) -> None:
        with self.lock:
            self.connections[connection] = None
            self.counts[connection.client] += 1

    def go(self, connection: Connection) -> None:
        with self.lock:
            if connection in self.connections:
                del self.connections[connection]
                self.counts[connection.client] -= 1
                if not self.counts[connection.client]:
                    del self.counts[connection.client]

    @contextlib.contextmanager
    def viewing(self, connection: Connection) -> Iterator[bool]:
        """Yields whether a connection may stay open to get changes. When another connection has replaced it among the viewers, it must end. An
        eighth of all connections, and of those of a client, but at least one, is reserved for loading pages."""
        client, (most, own) = connection.client, (many - max(1, many // 8) for many in (self.most, self.most_of(connection.client)))
        is_served = sum(viewer.client == client for viewer in self.viewers) < own
        if is_served and len(self.viewers) >= most:
            gone = one_for(client, self.viewers)
            is_served = gone is not None
            self.viewers.pop(gone, None)
        self.viewers |= {connection: None} if is_served else {}
        try:
            yield is_served
        finally:
            self.viewers.pop(connection, None)
