"""The addresses of players: which addresses the system refuses, and which are equal."""

import json
import socket
import threading
from unittest import mock

import pytest
from ggp_tools.competition import addresses
from ggp_tools.competition.addresses import are_same, looked_up, mistakes_of_addresses, places_now, written
from ggp_tools.competition.competition_file import read_competition
from support import call, toml

BROADCAST = "the system refuses connections to it, for example because it is a broadcast address"
MULTICAST = "a multicast address accepts no connection"
LINK_LOCAL = "a link-local address needs its interface, for example [fe80::1%eth0]"
# Addresses that no operating system connects to.
NO_HOSTS = [
    ("255.255.255.255", BROADCAST), ("127.255.255.255", BROADCAST), ("[::ffff:255.255.255.255]", BROADCAST), ("224.0.0.1", MULTICAST),
    ("239.255.255.255", MULTICAST), ("[ff02::1]", MULTICAST), ("[::ffff:224.0.0.1]", MULTICAST), ("[fe80::1]", LINK_LOCAL),
]


def mistakes(*given):
    """Returns the line and the message of each error of players with these addresses."""
    players = [(f"p{at}", address) for at, address in enumerate(given)]
    competition = read_competition(toml(players, [("nim", "f")]).encode())
    return [(mistake.line, mistake.words) for mistake in mistakes_of_addresses(competition, places_now(competition))]


@pytest.mark.parametrize("other", ["127.1:9147", "0.0.0.0:9147", "[::ffff:127.0.0.1]:9147", "2130706433:9147", "localhost:9147", "127.0.0.1:09147"])
def test_two_players_at_one_address(other):
    own = "are the same: 127.0.0.1, port"
    found = mistakes("127.0.0.1:9147", "127.0.0.1:9148", other)
    assert found == [(13, f"{other!r} and '127.0.0.1:9147', the address of p0, {own} {other.rpartition(':')[2]}")]
    assert [are_same(other, f"127.0.0.1:{port}") for port in (9147, 9148)] == [True, False]
    assert mistakes(other, "127.0.0.1:9147")[0][1] == f"'127.0.0.1:9147' and {other!r}, the address of p0, {own} 9147"


def test_addresses_of_ipv6_with_interfaces():
    assert mistakes("[::]:9147", "[0:0::1]:9147") == [(10, "'[0:0::1]:9147' and '[::]:9147', the address of p0, are the same: ::1, port 9147")]
    assert mistakes("127.0.0.1:9147", "127.0.0.2:9147", "[::1]:9148") == []
    without = [(address, "this computer has no such interface, or the address is not link-local") for address in ("[fe80::1%nope]:9147", "[::1%lo]:9147")]
    through = [(address, "this interface can't reach link-local addresses") for address in ("[fe80::1%lo]:9147", "[fe80::1%1]:9148")]
    assert mistakes(*(address for address, _ in without + through)) == [
        (line, f"{address!r}: {why}") for line, (address, why) in zip(range(7, 19, 3), without + through)
    ]


@pytest.mark.parametrize(("host", "why"), NO_HOSTS)
def test_an_address_that_takes_no_connection(host, why):
    assert mistakes("127.0.0.1:1", f"{host}:9147") == [(10, f"'{host}:9147': {why}")]


def test_the_program_blames_players_at_the_addresses_that_plan_refuses():
    roles = range(len(NO_HOSTS))
    rules = "(init over) (<= terminal (true over))" + "".join(f"(role r{at}) (goal r{at} 50) (legal r{at} go)" for at in roles)
    players = [f"p{at}@{host}:9147" for at, (host, _) in enumerate(NO_HOSTS)]
    record = json.loads(call("run", "--rules", rules, "--id", "m", "--start", "1", "--play", "1", *players))
    assert (record["startMarks"], record["endMarks"]) == (["CE"] * len(NO_HOSTS), ["CE"] * len(NO_HOSTS))


def test_names():
    known = {"ann.example": ["10.0.0.1", "10.0.0.2"], "bob.example": ["10.0.0.2"], "cid.example": ["10.0.0.3"], "dan.example": ["10.0.0.4", "224.0.0.1"]}

    def lookup(host, port, type, flags):
        if flags or host not in known:
            raise socket.gaierror(socket.EAI_NONAME, "Name or service not known")
        return [(socket.AF_INET, type, 6, "", (address, 0)) for address in known[host]]

    with mock.patch.object(addresses.socket, "getaddrinfo", lookup):
        words = "'bob.example:1' and 'ann.example:1', the address of p0, are the same: 10.0.0.2, port 1"
        assert mistakes("ann.example:1", "bob.example:1", "cid.example:1", "none.example:1", "other.example:1") == [(10, words)]
        # A third player at an address shares it with the first one.
        found = mistakes("ann.example:1", "bob.example:1", "bob.example:01", "dan.example:1")
        assert found == [(10, words), (13, words.replace("bob.example:1", "bob.example:01").replace("port 1", "port 01")), (16, f"'dan.example:1': {MULTICAST}")]


def test_a_place_is_written_for_the_referee():
    assert [written("ann", [place]) for place in (("10.0.0.1", 9147), ("::1", 9147), ("fe80::1%2", 9147))] == ["ann@10.0.0.1:9147", "ann@[::1]:9147", "ann@[fe80::1%2]:9147"]
    with socket.create_server(("127.0.0.1", 0)) as listener:
        port = listener.getsockname()[1]
        assert written("ann", [("127.0.0.2", port), ("127.0.0.1", port)]) == f"ann@127.0.0.1:{port}"
    assert written("ann", [("127.0.0.2", port), ("127.0.0.1", port)]) == f"ann@127.0.0.2:{port}"


def test_a_resolver_that_does_not_answer_holds_up_nothing():
    waits = threading.Event()

    def lookup(host, port, type, flags):
        if flags:
            raise socket.gaierror(socket.EAI_NONAME, "Name or service not known")
        waits.wait()
        return []

    with mock.patch.object(addresses.socket, "getaddrinfo", lookup), mock.patch.object(addresses, "SECONDS", 0):
        assert looked_up(["ann.example", "bob.example"]) == {"ann.example": [], "bob.example": []}
    waits.set()
