"""Files and standard streams: error messages and exit status."""

import argparse
import errno
import gzip
import os
import subprocess
import sys

import pytest
from ggp_tools.streams import Ended, address, error_words, opened, put_bytes, report, say, seconds, status_of, whole
from support import TOP, raised

FULL = OSError(errno.ENOSPC, "No space left on device", "file")


@pytest.mark.parametrize(
    ("text", "wanted"), [("0.5", 0.5), ("1000000", 1e6), ("2e2", 200), *((text, None) for text in ("-1", "0", "-0.0", "nan", "inf", "-inf", "1000000.1", "1e308", "x"))]
)
def test_a_number_of_seconds(text, wanted):
    if wanted:
        assert seconds(text) == wanted
        return
    with pytest.raises(argparse.ArgumentTypeError) as why:
        seconds(text)
    assert str(why.value) == f"{text} is not a number above 0 and up to 1,000,000"


def test_whole_numbers_and_addresses():
    assert [whole(1, 9)(text) for text in "19"] == [1, 9]
    assert [address(text) for text in ("::1", "192.0.2.7")] == ["::1", "192.0.2.7"]
    for parse, text in (*((whole(1, 9), text) for text in ("0", "10", "x", "", "\u0663")), (address, "localhost")):
        assert str(raised(argparse.ArgumentTypeError, parse, text)).endswith(f", found {ascii(text)}")


@pytest.mark.parametrize(("error", "words"), [(FULL, "file: No space left on device"), (OSError(5, "Input/output error"), "Input/output error"), (OSError("odd"), "odd")])
def test_the_words_of_an_error(error, words):
    assert error_words(error) == words


@pytest.mark.parametrize(
    ("error", "status", "said"),
    [
        (None, 0, ""), (Ended("no record", 1), 1, "it: no record\n"), (KeyboardInterrupt(), 130, ""), (BrokenPipeError(), 3, ""), (MemoryError(), 3, "it: out of memory\n"),
        (FULL, 3, "it: file: No space left on device\n"), (ValueError("one\x1b\nggp_manager: two"), 3, "it: one\\u{1b}\nggp_manager: two\n"),
    ],
)
def test_the_exit_status_of_a_command(error, status, said, capsys):
    def perform():
        if error:
            raise error
        return 0

    assert (status_of("it", perform, 3, (ValueError,)), capsys.readouterr()) == (status, ("", said))


def test_an_error_that_is_not_known_is_raised():
    with pytest.raises(ValueError):
        status_of("it", lambda: int("x"), 3)


@pytest.mark.parametrize("name", ["file", "-"])
@pytest.mark.parametrize("pack", [bytes, gzip.compress])
def test_a_file_is_read_also_if_it_is_packed(name, pack, tmp_path):
    path = tmp_path / "file"
    path.write_bytes(pack(b"\x1f text"))
    descriptor = os.dup(0)
    try:
        os.dup2(os.open(path, os.O_RDONLY), 0)
        with opened(path if name == "file" else "-") as file:
            assert file.read() == b"\x1f text"
        # Standard input stays open.
        os.fstat(0)
    finally:
        os.dup2(descriptor, 0)


def test_an_error_of_a_file_names_it(tmp_path, monkeypatch):
    (tmp_path / "file").write_bytes(gzip.compress(b"text")[:-1])
    monkeypatch.setattr(sys, "stdin", None)
    for name, words in ((tmp_path / "file", "the gzip data is cut off or damaged"), (tmp_path / "none", "No such file or directory"), ("-", "it is closed")):
        with pytest.raises(OSError) as why, opened(name) as file:
            file.read()
        assert (why.value.strerror, why.value.filename) == (words, "standard input" if name == "-" else str(name))
        assert isinstance(why.value.errno, int)
    with pytest.raises(OSError) as why, opened(tmp_path / "file"):
        raise FULL
    assert why.value.filename == "file"


def test_an_output_that_is_closed(monkeypatch):
    monkeypatch.setattr(sys, "stdout", None)
    with pytest.raises(OSError) as why:
        say("text")
    assert (why.value.errno, why.value.strerror, why.value.filename) == (errno.EBADF, "it is closed", "standard output")
    monkeypatch.setattr(sys, "stderr", None)
    report("text")


def test_what_is_said(capsys):
    say("one", end="")
    report("\u00e9\n")
    assert capsys.readouterr() == ("one", "\\u{e9}\n")


@pytest.mark.parametrize("call", ["say('text')", "put_bytes(b'text')"])
def test_an_output_that_is_full(call):
    # The command discards later output; otherwise Python would report an error when it exits.
    script = f"from ggp_tools.streams import *\ntry:\n    {call}\nexcept OSError as why:\n    report(error_words(why))\nprint('more')\nsys.stdout.flush()"
    script = script if call.startswith("say") else script.partition("print(")[0]
    with open("/dev/full", "wb") as full:
        done = subprocess.run([sys.executable, "-c", script], cwd=TOP / "python", stdout=full, stderr=subprocess.PIPE)
    assert (done.returncode, done.stderr) == (0, b"standard output: No space left on device\n")


def test_bytes_are_put_and_standard_output_stays_open(tmp_path):
    descriptor = os.dup(1)
    try:
        os.dup2(os.open(tmp_path / "file", os.O_CREAT | os.O_WRONLY), 1)
        put_bytes(b"text\xff")
        os.fstat(1)
    finally:
        os.dup2(descriptor, 1)
    assert (tmp_path / "file").read_bytes() == b"text\xff"


@pytest.mark.parametrize("closed", [(0,), (1,), (2,), (0, 1), (0, 1, 2)])
def test_standard_streams_that_are_closed_are_those_of_no_file(closed, tmp_path):
    # A child process inherits the streams too, and characters that the encoding lacks are written as escapes.
    script = (
        "import os, subprocess, sys\nfrom ggp_tools.streams import ready_streams\nready_streams()\n"
        f"file = open({str(tmp_path / 'file')!r}, 'w')\nassert file.fileno() > 2\nassert sys.stdin.read() == ''\nprint('\\u00e9', flush=True)\nprint('x', file=sys.stderr, flush=True)\n"
        "subprocess.run(['sh', '-c', 'cat; echo y; echo z >&2'], check=True)\nprint(os.listdir('/proc/self/fd'), file=file)"
    )
    environment = {**os.environ, "PYTHONIOENCODING": "ascii", "PYTHONPATH": str(TOP / "python")}
    done = subprocess.run([sys.executable, "-c", script], env=environment, capture_output=True, preexec_fn=lambda: [os.close(number) for number in closed])
    streams_left = [b"" if 1 in closed else b"\\xe9\ny\n", b"" if 2 in closed else b"x\nz\n"]
    assert (done.returncode, done.stdout, done.stderr) == (0, *streams_left)
