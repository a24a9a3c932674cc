#!/usr/bin/env python3
"""Finds free ports for players that a script will start.

    ports.py RULES-FILE

prints a free port for each role of a ground GDL file.
"""

import argparse
import random
import socket
import sys
from itertools import islice

sys.dont_write_bytecode = True
from player import Game, read

# By default, Linux uses ports from 32,768 up for outgoing connections. So no such connection can take a lower port before the player
# listens on it.
PORTS = range(20000, 32768)


def is_free(port):
    with socket.socket() as endpoint:
        try:
            endpoint.bind(("127.0.0.1", port))
        except OSError:
            return False
    return True


def free_ports(count):
    """Returns free ports of 127.0.0.1."""
    return list(islice(filter(is_free, random.sample(PORTS, len(PORTS))), count))


def roles_of(file: str) -> list:
    """Returns the roles of the game in this file, or an empty list if it is not a ground GDL file."""
    try:
        with open(file, encoding="ascii") as rules:
            return Game(read(rules.read())).roles
    except OSError as why:
        sys.exit(f"play-a-match: {file} can't be read: {why.strerror}")
    except (IndexError, ValueError):
        return []


def main() -> None:
    words = argparse.ArgumentParser(description=__doc__, formatter_class=argparse.RawDescriptionHelpFormatter)
    words.add_argument("rules", metavar="RULES-FILE")
    file = words.parse_args().rules
    roles = roles_of(file)
    if not roles:
        sys.exit(f"play-a-match: {file} is not a ground GDL file")
    print(*free_ports(len(roles)))


if __name__ == "__main__":
    main()
