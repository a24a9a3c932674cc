"""The beginning and the end of each test: parsing the command line, and reporting the result."""
import argparse
import os
import resource
import signal
import socket
import sys
from collections.abc import Callable, Iterable
from typing import NoReturn


def runnable(word: str) -> str:
    """Returns the path of the program in an argument."""
    path = os.path.abspath(word)
    if os.path.isdir(path) or not os.access(path, os.X_OK):
        raise argparse.ArgumentTypeError(f"{path} is not an executable program")
    return path


def words_with_program(about: str) -> argparse.ArgumentParser:
    """Returns a parser for command lines that begin with the program. `--help` prints the description of the test."""
    words = argparse.ArgumentParser(description=about, formatter_class=argparse.RawDescriptionHelpFormatter)
    words.add_argument("program", metavar="PROGRAM", type=runnable)
    return words


def program_of(about: str) -> str:
    """Returns the path of the program, the only argument."""
    return words_with_program(about).parse_args().program


def tell(name: str, faults: Iterable[str], well: str) -> int:
    """Prints each error with the test's name before it, or `well` if there are no errors. Returns the exit status."""
    errors = [f"{name}: {fault}" for fault in faults]
    print(*errors or [well], sep="\n")
    return int(bool(errors))


def run_test(about: str, faults: Callable[[str], Iterable[str]], well: str) -> NoReturn:
    """Runs a test whose only argument is the program. Ends this process with the test's exit status."""
    sys.exit(tell(os.path.basename(sys.argv[0]), faults(program_of(about)), well))


def little_room(size: int, reaction: Callable | signal.Handlers | int | None) -> Callable[[], None]:
    """Returns a function that limits the size of the files that a process writes. A write past the limit fails, and `reaction` says how the
    process handles the signal."""

    def limit() -> None:
        signal.signal(signal.SIGXFSZ, reaction)
        resource.setrlimit(resource.RLIMIT_FSIZE, (size, size))

    return limit


def closed_port() -> socket.socket:
    """Returns a socket whose port accepts no connection. While the socket is open, only a server of this process can listen on the port."""
    endpoint = socket.socket()
    endpoint.setsockopt(socket.SOL_SOCKET, socket.SO_REUSEADDR, 1)
    endpoint.bind(("127.0.0.1", 0))
    return endpoint
