"""Reads and writes files, which may be compressed, and standard streams. Formats error messages."""

import argparse
import contextlib
import errno
import gzip
import ipaddress
import os
import pathlib
import sys
import zlib
from collections.abc import Callable, Iterator
from typing import BinaryIO, TextIO

from ggp_tools.printable import MORE, shown

STANDARD_INPUT, STANDARD_OUTPUT = "standard input", "standard output"
PACKED = b"\x1f\x8b"
MOST_SECONDS, MOST_DIGITS = 1_000_000, 20


class Ended(Exception):
    """Ends a command with a message and an exit status."""

    def __init__(self, words: str, status: int) -> None:
        super().__init__(words)
        self.status = status


@contextlib.contextmanager
def opened(name: str | pathlib.Path) -> Iterator[BinaryIO]:
    """Opens a file, or standard input if the name is `-`. Decompresses a gzip file. Errors name the file."""
    is_input = str(name) == "-"
    where = STANDARD_INPUT if is_input else str(name)
    try:
        if is_input and not sys.stdin:
            raise OSError(errno.EBADF, "it is closed")
        with open(0 if is_input else name, "rb", closefd=not is_input) as file:
            yield gzip.GzipFile(fileobj=file) if file.peek(2)[:2] == PACKED else file
    except (EOFError, zlib.error, gzip.BadGzipFile):
        raise OSError(errno.EINVAL, "the gzip data is cut off or damaged", where) from None
    except OSError as why:
        raise OSError(why.errno, why.strerror, why.filename or where) from None


def limited_lines(file: BinaryIO, most: int) -> Iterator[tuple[bytes, bool]]:
    """Yields at most this many bytes of each line of a file, and whether that is the whole line. The rest of a long line is never in
    memory."""
    while line := file.readline(most):
        rest = line
        while len(rest) == most and not rest.endswith(b"\n"):
            rest = file.readline(most)
        yield line, rest is line


def lead_nowhere(output: TextIO | None) -> None:
    """Discards the buffer of an output, and everything that is written to the output from now on."""
    os.dup2(os.open(os.devnull, os.O_WRONLY), output.fileno())


def ready_streams() -> None:
    """Opens /dev/null for each closed standard stream, so that no other file gets the stream's number. Standard output and standard error
    write an escape for each character that their encoding lacks."""
    for number, (name, mode) in enumerate((("stdin", "r"), ("stdout", "w"), ("stderr", "w"))):
        if getattr(sys, name) is None:
            opened_number = os.open(os.devnull, os.O_RDWR)
            if opened_number != number:
                os.dup2(opened_number, number)
                os.close(opened_number)
            os.set_inheritable(number, True)
            setattr(sys, name, open(number, mode, closefd=False))
    for stream in (sys.stdout, sys.stderr):
        if stream.errors == "strict":
            stream.reconfigure(errors="backslashreplace")


def say(text: str, end: str = "\n") -> None:
    """Writes to standard output without delay. If this fails, raises an error that names standard output, and discards all later output."""
    if not sys.stdout:
        raise OSError(errno.EBADF, "it is closed", STANDARD_OUTPUT)
    try:
        print(text, end=end, flush=True)
    except OSError as why:
        lead_nowhere(sys.stdout)
        raise OSError(why.errno, why.strerror, STANDARD_OUTPUT) from None


def put_bytes(data: bytes) -> None:
    """Writes bytes to standard output. If this fails, the error names standard output."""
    try:
        with open(1, "wb", closefd=False) as output:
            output.write(data)
    except OSError as why:
        raise OSError(why.errno, why.strerror, STANDARD_OUTPUT) from None


def report(text: str) -> None:
    """Writes lines to standard error. If standard error is closed, writes nothing, because `print` would then use standard output."""
    if sys.stderr:
        with contextlib.suppress(OSError):
            print("\n".join(map(shown, text.splitlines())), file=sys.stderr)


def error_words(why: OSError) -> str:
    """Returns an error message, after the name of the file if there is one."""
    return f"{why.filename}: {why.strerror}" if why.filename else str(why.strerror or why)


def status_of(command: str, perform: Callable[[], int], failed: int, known: tuple[type[Exception], ...] = ()) -> int:
    """Runs a command and returns its exit status. The status is `failed` if an operating-system error occurs, memory runs out, or one of the
    known errors is raised."""
    try:
        return perform()
    except Ended as why:
        words, failed = str(why), why.status
    except KeyboardInterrupt:
        return 130
    except BrokenPipeError:
        return failed
    except MemoryError:
        words = "out of memory"
    except OSError as why:
        # The reader of the output has exited.
        words = "" if why.errno == errno.EPIPE else error_words(why)
    except known as why:
        words = str(why)
    if words:
        # A message of the referee already begins with the referee's name.
        report("\n".join(line if line.startswith("ggp_manager: ") else f"{command}: {line}" for line in words.splitlines()))
    return failed


def whole(least: int, most: int) -> Callable[[str], int]:
    """Returns a parser of whole numbers within these limits."""

    def parse(text: str) -> int:
        if text.isascii() and text.isdigit() and len(text) <= MOST_DIGITS and least <= int(text) <= most:
            return int(text)
        raise argparse.ArgumentTypeError(f"expected a number from {least:,} to {most:,}, found {ascii(text[:MOST_DIGITS] + MORE * (len(text) > MOST_DIGITS))}")

    return parse


def address(text: str) -> str:
    """Parses an IP address."""
    try:
        return str(ipaddress.ip_address(text))
    except ValueError:
        raise argparse.ArgumentTypeError(f"expected an IP address, such as 192.0.2.7 or ::1, found {ascii(text)}") from None


def seconds(text: str) -> float:
    """Parses a number of seconds."""
    with contextlib.suppress(ValueError):
        if 0 < (parsed := float(text)) <= MOST_SECONDS:
            return parsed
    raise argparse.ArgumentTypeError(f"{shown(text, MOST_DIGITS)} is not a number above 0 and up to {MOST_SECONDS:,}")
