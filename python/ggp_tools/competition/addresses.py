"""Looks up the addresses of the players. Reports addresses that can't be used, and addresses that several players share."""

import errno
import ipaddress
import socket
import threading
import time
from collections.abc import Iterable, Iterator

from ggp_tools.competition.competition_file import Competition, Mistake, Player

# The time limit for all lookups together, in seconds. A resolver may never answer.
SECONDS = 10
LOOPBACK = {4: "127.0.0.1", 6: "::1"}
# An address and a port. A link-local IPv6 address includes its interface, for example `fe80::1%2`.
Place = tuple[str, int]


def address_of(resolved: tuple) -> str:
    """Returns an address from `getaddrinfo` in canonical form. An IPv4 address in IPv6 notation becomes an IPv4 address, and the
    unspecified address becomes the loopback address."""
    address = ipaddress.ip_address(resolved[0].partition("%")[0])
    address = getattr(address, "ipv4_mapped", None) or address
    text = LOOPBACK[address.version] if address.is_unspecified else str(address)
    return f"{text}%{resolved[3]}" if resolved[3:] and resolved[3] else text


def addresses_of(host: str, flags: int = 0) -> list[str]:
    """Returns the addresses of a host. The list may be empty."""
    try:
        return [address_of(resolved) for *_, resolved in socket.getaddrinfo(host.strip("[]"), None, type=socket.SOCK_STREAM, flags=flags)]
    except (OSError, UnicodeError):
        return []


def looked_up(hosts: Iterable[str]) -> dict[str, list[str]]:
    """Returns the addresses of each host. If the lookup of a host takes too long, its list is empty."""
    addresses = {host: addresses_of(host, socket.AI_NUMERICHOST) for host in hosts}

    def look_up(name: str) -> None:
        addresses[name] = addresses_of(name)

    # If a resolver does not answer, its thread continues to run, but does not keep the process alive.
    threads = [threading.Thread(target=look_up, args=(host,), daemon=True) for host, numeric in addresses.items() if not numeric]
    until = time.monotonic() + SECONDS
    for thread in threads:
        thread.start()
    for thread in threads:
        thread.join(max(0, until - time.monotonic()))
    return dict(addresses)


def are_same(one: str, other: str) -> bool:
    """Returns whether two strings of the form HOST:PORT currently lead to the same address. Looks up the hosts only if the ports are equal."""
    (host, _, port), (other_host, _, other_port) = one.rpartition(":"), other.rpartition(":")
    if int(port) != int(other_port):
        return False
    addresses = looked_up({host, other_host})
    return not set(addresses[host]).isdisjoint(addresses[other_host])


def refusal(place: Place) -> str:
    """Returns the reason why the system refuses connections to `place`, or an empty string if it does not. The check sends nothing."""
    address = ipaddress.ip_address(place[0])
    if address.is_multicast:
        return "a multicast address accepts no connection"
    by_interface = address.version == 6 and address.is_link_local
    if by_interface and not address.scope_id:
        return "a link-local address needs its interface, for example [fe80::1%eth0]"
    try:
        with socket.socket(socket.AF_INET6 if address.version == 6 else socket.AF_INET, socket.SOCK_DGRAM) as probe:
            probe.connect((place[0].partition("%")[0], place[1], 0, int(address.scope_id)) if by_interface else place)
    except OSError as error:
        if error.errno == errno.EACCES:
            return "the system refuses connections to it, for example because it is a broadcast address"
        if by_interface and error.errno == errno.ENETUNREACH:
            return "this interface can't reach link-local addresses"
    return ""


def places_now(competition: Competition) -> dict[str, list[Place]]:
    """Returns the current addresses of each player, by name. Leaves out the players that the competition starts, because they have no address yet."""
    hosts = {player.name: player.address.rpartition(":") for player in competition.players if not player.command}
    addresses = looked_up(host for host, _, _ in hosts.values())
    return {name: [(address, int(port)) for address in dict.fromkeys(addresses[host])] for name, (host, _, port) in hosts.items()}


def takes_connections(place: Place) -> bool:
    try:
        socket.create_connection(place, 1).close()
    except OSError:
        return False
    return True


def written(name: str, places: list[Place]) -> str:
    """Formats a player as an argument for the referee. The argument contains the first of the player's addresses that now accepts a
    connection, or the first address if none does."""
    host, port = next(filter(takes_connections, places), places[0]) if len(places) > 1 else places[0]
    return f"{name}@[{host}]:{port}" if ":" in host else f"{name}@{host}:{port}"


def mistakes_of_addresses(competition: Competition, places_of: dict[str, list[Place]]) -> Iterator[Mistake]:
    """Yields a mistake for each player whose address can't be used, and for each player that shares an address with an earlier one."""
    known: dict[Place, Player] = {}
    for player in competition.players:
        places, port = places_of.get(player.name, []), player.address.rpartition(":")[2]
        if "%" in player.address and not places:
            yield Mistake(player.line, "players.address", f"{player.address!r}: this computer has no such interface, or the address is not link-local")
        elif reasons := list(filter(None, map(refusal, places))):
            yield Mistake(player.line, "players.address", f"{player.address!r}: {reasons[0]}")
        elif others := [place for place in places if place in known]:
            other = known[others[0]]
            fault = f"{player.address!r} and {other.address!r}, the address of {other.name}, are the same: {others[0][0]}, port {port}"
            yield Mistake(player.line, "players.address", fault)
        known |= {place: player for place in places if place not in known}
