"""Code that the measuring scripts share."""
import argparse
import contextlib
import os
import pathlib
import re
import resource
import shutil
import socket
import subprocess
import sys
import tempfile
from collections.abc import Iterator

TOP = pathlib.Path(__file__).resolve().parent.parent


def program_there(path: str) -> str:
    if not shutil.which(path):
        raise argparse.ArgumentTypeError(f"{path} does not exist: run `make build` first")
    return os.path.abspath(path)


def reader(text: str) -> argparse.ArgumentParser:
    """Returns an argument parser. The first argument is the program that is measured."""
    arguments = argparse.ArgumentParser(description=text, formatter_class=argparse.RawDescriptionHelpFormatter)
    arguments.add_argument("program", nargs="?", type=program_there, default=str(TOP / "bin/ggp_manager"), help="default: bin/ggp_manager")
    return arguments


def head(*columns: str) -> None:
    """Prints the head of a Markdown table."""
    print(f"| {' | '.join(columns)} |\n{'|---' * len(columns)}|", flush=True)


def row(*cells: object) -> None:
    print(f"| {' | '.join(map(str, cells))} |", flush=True)


def spent() -> float:
    """Returns the processor seconds of finished child processes."""
    used = resource.getrusage(resource.RUSAGE_CHILDREN)
    return used.ru_utime + used.ru_stime


def cost(words: list[str], file: str) -> tuple[float, float]:
    """Returns the processor milliseconds and the maximum MB of a command that reads a file. GNU time starts the command, which adds about a
    millisecond. If Python started it, the measured memory would include that of Python."""
    with open(file, "rb") as given, tempfile.NamedTemporaryFile("r") as most:
        before = spent()
        subprocess.run(["/usr/bin/time", "-f", "%M", "-o", most.name, *words], stdin=given, stdout=subprocess.DEVNULL, stderr=subprocess.DEVNULL)
        return 1e3 * (spent() - before), int(most.read().split()[-1]) * 1024 / 1e6


def instructions(words: list[str], file: str) -> float:
    """Returns the millions of instructions that valgrind counts for a command that reads a file."""
    with open(file, "rb") as given:
        counting = ["valgrind", "--tool=callgrind", "--callgrind-out-file=/dev/null", *words]
        said = subprocess.run(counting, stdin=given, stdout=subprocess.DEVNULL, stderr=subprocess.PIPE, text=True).stderr
    return int(re.search(r"Collected : (\d+)", said)[1]) / 1e6


@contextlib.contextmanager
def load(is_busy: bool) -> Iterator[None]:
    """If `is_busy` is set, keeps each processor busy with two processes while the block runs."""
    count = 2 * os.cpu_count() if is_busy else 0
    workers = [subprocess.Popen([sys.executable, "-c", "while True: pass"]) for _ in range(count)]
    try:
        yield
    finally:
        for worker in workers:
            worker.kill()
            worker.wait()


def counted(turns: int, roles: int = 2) -> str:
    """Returns the rules of a game of this many turns where each role has one move."""
    lines = [f"(role r{k}) (legal r{k} go) (goal r{k} 50)" for k in range(roles)]
    lines += [f"(<= (next {k + 1}) (true {k}))" for k in range(turns)]
    return "\n".join(["(init 0)", *lines, f"(<= terminal (true {turns}))"])


def reply(text: str) -> bytes:
    return f"HTTP/1.0 200 OK\r\nContent-Length: {len(text)}\r\n\r\n{text}".encode()


def request_from(stream: socket.socket) -> bytes:
    """Returns the bytes of the request on a connection. If the connection ends early, returns the bytes that came before."""
    heard = b""
    while True:
        top, end, body = heard.partition(b"\r\n\r\n")
        lengths = [line for line in top.lower().split(b"\r\n") if line.startswith(b"content-length:")]
        if end and lengths and len(body) >= int(lengths[0].split(b":")[1]):
            return heard
        more = stream.recv(65536)
        if not more:
            return heard
        heard += more
