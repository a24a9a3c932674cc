"""Runs `ggp_manager verify --lines` on all processors of this computer.

    ggp-verify-records [--jobs N] [--piece BYTES] PROGRAM -- OPTIONS < records > verdicts

PROGRAM is `ggp_manager`, and OPTIONS are those of `verify --lines`, such as `--rules-file FILE`. Standard input is split at line ends into
pieces of about BYTES bytes (4,194,304 by default). N processes, by default one for each processor, check one piece each. The output, the
messages on standard error and the exit status are those of one process that checks all lines; docs/COMMANDS.md explains them. There
are three differences: verdicts are written piece by piece; the number of reads is not limited; and the file of rules cannot be a pipe,
because each process reads it.

N is at most 1,024. At most N + 2 pieces and their verdicts are in memory. Errors of this command begin with `ggp-verify-records: `. As with
`--why`, exit status 1 means that a record is not lawful, and every other error gives 2. If a signal kills a process, the status is 128 plus
the number of the signal. If OPTIONS contain `--json`, the verdicts are JSON.

The command needs only Python 3.11 or later."""

import argparse
import collections
import concurrent.futures
import contextlib
import json
import os
import queue
import signal
import subprocess
import sys
import threading
from collections.abc import Iterator
from dataclasses import dataclass

from ggp_tools.streams import whole

LONGEST_LINE = 64 << 30
PIECE = 4 << 20
MOST_PIECE = 1 << 30
MOST_JOBS = 1_024
# The maximum number of bytes of one read.
CHUNK = 1 << 20
# The name of the referee, its option for verdicts as JSON, and the text of each verdict.
REFEREE, JSON = "ggp_manager", "--json"
IN_WORDS = {"lawful": "lawful\n", "not_lawful": "not lawful: {fault}\n", "skipped": ""}


class Fault(Exception):
    """Ends the check with a message and an exit status."""

    def __init__(self, said: bytes, status: int = 2) -> None:
        self.said, self.status = said, status


@dataclass
class Checked:
    """The result of a piece: the verdicts, the numbers of lines of call logs and of lines without a lawful record, and the error that ended
    the check, if any."""

    verdicts: bytes = b""
    skipped: int = 0
    unlawful: int = 0
    fault: Fault | None = None


def write_whole(stream: int, text: bytes) -> None:
    left = memoryview(text)
    while left:
        left = left[os.write(stream, left) :]


def say(text: bytes) -> None:
    """Writes to standard error. Errors in doing so are ignored."""
    with contextlib.suppress(OSError):
        write_whole(2, text)


def pieces(size: int) -> Iterator[bytes]:
    """Yields standard input in pieces of whole lines. If reading fails, the error is raised after the last piece. The first piece is empty,
    so that the referee reports errors of its arguments or the rules before there is input. A line that is too long ends the last piece."""
    yield b""
    parts, count, of_line = [], 0, 0
    try:
        while of_line <= LONGEST_LINE and (part := os.read(0, min(size, CHUNK))):
            end = part.rfind(b"\n") + 1
            of_line = len(part) - end if end else of_line + len(part)
            parts.append(part)
            count += len(part)
            if end and count >= size:
                yield b"".join([*parts[:-1], part[:end]])
                parts, count = [part[end:]], of_line
    except OSError:
        # The unfinished last line is dropped.
        lines, end, _ = b"".join(parts).rpartition(b"\n")
        yield lines + end
        raise Fault(b"ggp_manager: read fault\n") from None
    if count:
        yield b"".join(parts)


def own_words(text: str) -> bytes:
    """Returns the bytes of a message of this command. Paths in the message are printed as they were given."""
    return os.fsencode(f"ggp-verify-records: {text}\n")


def check(words: list[str], piece: bytes) -> Checked:
    """Runs the referee on a piece. If `words` contain `--json`, the verdicts are JSON, otherwise text."""
    is_json = JSON in words
    try:
        ran = subprocess.run([*words, *[JSON] * (not is_json)], input=piece, capture_output=True)
    except OSError as error:
        return Checked(fault=Fault(own_words(f"cannot run {words[0]}: {error.strerror}")))
    try:
        objects = [json.loads(line) for line in ran.stdout.splitlines(True) if line.endswith(b"\n")]
        text = "".join(IN_WORDS[verdict["verdict"]].format(**verdict) for verdict in objects)
    except (KeyError, TypeError, ValueError):
        return Checked(fault=Fault(own_words(f"{words[0]} did not print verdicts: is it {REFEREE}?")))
    counts = collections.Counter(verdict["verdict"] for verdict in objects)
    verdicts = ran.stdout if is_json else text.encode()
    if ran.returncode < 0:
        return Checked(verdicts, fault=Fault(ran.stderr + own_words(f"{words[0]} was killed by signal {-ran.returncode}"), 128 - ran.returncode))
    if ran.returncode == (1 if counts["not_lawful"] else 0):
        return Checked(verdicts, counts["skipped"], counts["not_lawful"])
    return Checked(verdicts, fault=Fault(ran.stderr))


def feed(words: list[str], jobs: int, size: int, checks: queue.Queue) -> None:
    """Submits each piece to a pool of threads, and passes on the futures in order, followed by None, or by the error that ended the
    input."""
    ended = concurrent.futures.Future()
    try:
        pool = concurrent.futures.ThreadPoolExecutor(jobs)
        for piece in pieces(size):
            checks.put(pool.submit(check, words, piece))
    except RuntimeError:
        # If a thread cannot be started, this counts as running out of memory.
        ended.set_exception(MemoryError())
    except (Fault, MemoryError) as why:
        ended.set_exception(why)
    else:
        ended = None
    checks.put(ended)


def check_all(words: list[str], jobs: int, size: int) -> None:
    """Checks standard input with `jobs` processes at a time, and writes the verdicts in order until there is an error. Only the pieces of the
    queue, one that is being read, and one that is being written are in memory."""
    checks, skipped, unlawful = queue.Queue(jobs), 0, 0
    try:
        threading.Thread(target=feed, args=(words, jobs, size, checks), daemon=True).start()
    except RuntimeError:
        raise MemoryError from None
    for future in iter(checks.get, None):
        checked = future.result()
        try:
            write_whole(1, checked.verdicts)
        except OSError:
            raise Fault(b"ggp_manager: write fault\n") from None
        if checked.fault:
            raise checked.fault
        skipped, unlawful = skipped + checked.skipped, unlawful + checked.unlawful
    if skipped:
        say(f"ggp_manager: call log lines skipped: {skipped}\n".encode())
    if unlawful:
        raise Fault(f"ggp_manager: records not lawful {unlawful}\n".encode(), 1)


def hold_closed_streams() -> None:
    """Opens /dev/null for each closed standard stream, so that no other file gets the stream's number. The file is opened in a mode in
    which using the stream still fails."""
    for stream, mode in enumerate((os.O_WRONLY, os.O_RDONLY, os.O_RDONLY)):
        try:
            os.fstat(stream)
        except OSError:
            os.open(os.devnull, mode)


def arguments(words: list[str]) -> tuple[argparse.Namespace, list[str]]:
    """Returns the arguments before `--`, and the arguments after it, which are passed to the referee."""
    about, usage, more = __doc__.split("\n\n", 2)
    reader = argparse.ArgumentParser("ggp-verify-records", usage=usage.strip(), description=about, epilog=more)
    jobs = len(os.sched_getaffinity(0))
    reader.add_argument("--jobs", type=whole(1, MOST_JOBS), default=jobs, metavar="N", help="at most N processes at a time (default: one for each processor)")
    reader.add_argument("--piece", type=whole(1, MOST_PIECE), default=PIECE, metavar="BYTES", help=f"the size of a piece (default: {PIECE})")
    reader.add_argument("program", metavar="PROGRAM", help="ggp_manager")
    end = words.index("--") if "--" in words else len(words)
    parsed = reader.parse_args(words[:end])
    if end == len(words):
        reader.error("expected `--` and the options of `verify --lines` after PROGRAM")
    return parsed, words[end + 1 :]


def main() -> int:
    parsed, options = arguments(sys.argv[1:])
    hold_closed_streams()
    if signal.getsignal(signal.SIGINT) is signal.default_int_handler:
        # Ctrl-C ends this command and its processes. Remaining processes end when their input ends.
        signal.signal(signal.SIGINT, signal.SIG_DFL)
    status = 0
    try:
        check_all([parsed.program, "verify", "--lines", *options], parsed.jobs, parsed.piece)
    except Fault as fault:
        say(fault.said)
        status = fault.status
    except MemoryError:
        say(b"ggp_manager: want of memory\n")
        status = 2
    # Everything has been written, but a thread may still be waiting for input.
    os._exit(status)

