"""Runs the program with any standard streams, in a terminal, and against bad servers."""
import contextlib
import os
import pty
import re
import resource
import socket
import struct
import subprocess
import tempfile
import threading
import time
from typing import NamedTuple

PATIENCE = 900
LINE_OFF = struct.pack("ii", 1, 0)


class Said(NamedTuple):
    """The result of a run of the program."""

    status: int
    output: bytes
    errors: str


def checks_memory(program):
    """Returns whether a program is unproved. Such a program checks memory at run time."""
    with open(program, "rb") as file:
        return b"AddressSanitizer" in file.read()


@contextlib.contextmanager
def begun(words, **streams):
    """Starts a program, and yields its process. Kills the process after the time limit or after an exception, so that no read and no wait
    lasts forever."""
    child = subprocess.Popen(words, **streams)
    patience = threading.Timer(PATIENCE, child.kill)
    patience.daemon = True
    patience.start()
    try:
        with child:
            try:
                yield child
            except BaseException:
                child.kill()
                raise
    finally:
        patience.cancel()


def wait_until(is_so, seconds, rest=0.01):
    """Waits until a condition is true, or until the time limit. Returns whether it became true."""
    ends = time.monotonic() + seconds
    while not is_so():
        if time.monotonic() > ends:
            return False
        time.sleep(rest)
    return True


def asked(program, words, text=b""):
    """Returns the result of the program with these arguments and this input."""
    ran = subprocess.run([program, *words], input=text, capture_output=True, timeout=PATIENCE)
    return Said(ran.returncode, ran.stdout, ran.stderr.decode())


def asked_for_seconds(program, words, text=b""):
    """Returns the result of the program, and the processor seconds that it took. In the meantime, no other child process may end, because
    its time would be counted too."""
    before = resource.getrusage(resource.RUSAGE_CHILDREN)
    said = asked(program, words, text)
    after = resource.getrusage(resource.RUSAGE_CHILDREN)
    return said, after.ru_utime + after.ru_stime - before.ru_utime - before.ru_stime


def asked_in_shell(program, words, streams, text=b"", before=""):
    """Like `asked`, but with redirections by the shell in `streams`; for example, `>&-` closes standard output. The shell runs the command
    `before` first, if it is given."""
    call = ["bash", "-c", f'{before} exec "$0" "$@" {streams}', program, *words]
    ran = subprocess.run(call, input=text, capture_output=True, timeout=PATIENCE)
    return Said(ran.returncode, ran.stdout, ran.stderr.decode(errors="replace"))


def asked_by_bytes(program, words, count):
    """Like `asked`, but each read of the input returns one byte."""
    ours, theirs = socket.socketpair(socket.AF_UNIX, socket.SOCK_SEQPACKET)
    with begun([program, *words], stdin=theirs, stdout=subprocess.PIPE, stderr=subprocess.PIPE) as child:
        theirs.close()
        try:
            for _ in range(count):
                ours.send(b"a")
        except OSError:
            # The program has stopped reading.
            pass
        ours.close()
        output, errors = child.communicate()
    return Said(child.returncode, output, errors.decode())


def asked_with_closed_pipe(program, words, text=b""):
    """Like `asked`, but the reader of standard output has exited."""
    ours, theirs = os.pipe()
    os.close(ours)
    ran = subprocess.run([program, *words], input=text, stdout=theirs, stderr=subprocess.PIPE, timeout=PATIENCE)
    os.close(theirs)
    return Said(ran.returncode, b"", ran.stderr.decode())


def read_to_close(end, look=lambda said: None):
    """Returns all output of a terminal until the program closes its end. A function can inspect the output as it arrives."""
    said = b""
    try:
        while piece := os.read(end, 4096):
            said += piece
            look(said)
    except OSError:
        # The program has closed the other end.
        pass
    os.close(end)
    return said.decode().replace("\r\n", "\n")


def asked_in_terminal(program, words, stream="stderr", text=b"", look=lambda said: None):
    """Returns the exit status, the output of the standard stream that is a terminal, and the output of the other stream. A function can inspect the
    terminal's output as it arrives."""
    other = "stdout" if stream == "stderr" else "stderr"
    ours, theirs = pty.openpty()
    with tempfile.TemporaryFile() as given, tempfile.TemporaryFile() as kept:
        given.write(text)
        given.seek(0)
        with begun([program, *words], stdin=given, **{stream: theirs, other: kept}) as child:
            os.close(theirs)
            shown = read_to_close(ours, look)
        kept.seek(0)
        return child.returncode, shown, kept.read().decode()


def body_of(connection):
    """Returns the body of a request."""
    text = b""
    while b"\r\n\r\n" not in text:
        text += received(connection)
    head, _, body = text.partition(b"\r\n\r\n")
    size = int(re.search(rb"Content-Length: (\d+)", head)[1])
    while len(body) < size:
        body += received(connection)
    return body.decode()


def received(connection):
    more = connection.recv(65536)
    if not more:
        raise ConnectionError
    return more


class Server(threading.Thread):
    """A server on its own port instead of a player. It passes each connection to a function, one after the other."""

    def __init__(self, serve, receives=None):
        super().__init__(daemon=True)
        self.serve = serve
        self.socket = socket.socket()
        if receives:
            self.socket.setsockopt(socket.SOL_SOCKET, socket.SO_RCVBUF, receives)
        self.socket.bind(("127.0.0.1", 0))
        self.socket.listen(16)
        self.start()

    def address(self, name="ann"):
        return f"{name}@127.0.0.1:{self.socket.getsockname()[1]}"

    def run(self):
        while True:
            connection, _ = self.socket.accept()
            with connection:
                try:
                    self.serve(connection)
                except OSError:
                    # The program has closed the connection.
                    pass


def reset(connection):
    """Closes a connection by a reset."""
    connection.setsockopt(socket.SOL_SOCKET, socket.SO_LINGER, LINE_OFF)
    connection.close()


def answers(reply, thinking=0):
    """Returns a function that reads a request, waits, and sends the bytes `reply`."""

    def serve(connection):
        body_of(connection)
        time.sleep(thinking)
        connection.sendall(reply)

    return serve


def told(answer, thinking=0):
    """Returns a function that reads a request, waits, and sends `answer`."""
    return answers(f"HTTP/1.0 200 OK\r\nContent-Length: {len(answer)}\r\n\r\n{answer}".encode(), thinking)
