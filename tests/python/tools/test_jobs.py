"""How the gate runs commands, and counts their tests."""
import os
import subprocess
import sys
import time

import pytest
from crates import TOP
from jobs import Counts, Job, Jobs, counts_in


@pytest.mark.parametrize(
    ("last_line", "is_well", "counts"),
    [
        ("374 passed, 0 failed", True, Counts(374)),
        ("2 failed, 1259 passed, 3 skipped, 1 error in 300.12s (0:05:00)", False, Counts(1259, 3, 3)),
        ("48 passed, 0 failed", False, Counts(48, 1)),
        ("each player has answered", True, Counts(1)),
        ("589 errors were caused: each has the expected message", True, Counts(1)),
        ("each player has answered", False, Counts(0, 1)),
        ("", False, Counts(0, 1)),
    ],
)
def test_the_last_line_is_counted(last_line: str, is_well: bool, counts: Counts) -> None:
    assert counts_in(last_line, is_well) == counts


def shell(name: str, script: str, **more: bool) -> Job:
    return Job(name, ["sh", "-c", script], **more)


def test_commands_are_counted_and_those_that_fail_are_named(capsys: pytest.CaptureFixture) -> None:
    jobs = Jobs()
    assert not jobs.side_by_side([shell("one", "echo 3 passed"), shell("two", "echo wrong; exit 1")], [Job("gone", ["no-such-command"])])
    assert (jobs.counts, jobs.failed, jobs.last_lines["two"]) == (Counts(3, 2), {"gone": [], "two": ["wrong\n"]}, "wrong")
    printed = capsys.readouterr().out
    assert "one: 3 passed\n" in printed and "== two: 0 passed, 1 failed, in 0 s\n" in printed and "gone: no-such-command cannot be run: " in printed


def test_after_a_needed_command_that_failed_the_chain_ends_and_others_go_on() -> None:
    jobs = Jobs()
    assert not jobs.side_by_side([shell("program", "exit 1", is_needed=True), shell("after", "echo 1 passed")], [shell("beside", "true")])
    assert (jobs.failed, "after" in jobs.last_lines, jobs.counts) == ({"program": []}, False, Counts(1, 1))
    assert Jobs().side_by_side([shell("program", "true", is_needed=True)])


def test_with_ends_early_one_failure_ends_all() -> None:
    jobs, began = Jobs(ends_early=True), time.monotonic()
    assert not jobs.side_by_side([shell("long", "sleep 300; echo 1 passed"), shell("after", "true")], [shell("wrong", "exit 3")])
    assert time.monotonic() - began < 200
    assert sorted(jobs.failed) == ["long", "wrong"] and "after" not in jobs.last_lines


def test_what_a_command_leaves_running_is_ended() -> None:
    jobs = Jobs()
    assert jobs.side_by_side([shell("leaves", "sleep 300 & echo $!")])
    left = subprocess.run(["ps", "-o", "stat=", "-p", jobs.last_lines["leaves"]], stdout=subprocess.PIPE, text=True).stdout
    assert left.strip() == "" or left.startswith("Z")


def test_an_interrupt_ends_all() -> None:
    # Under nohup, this process and the script ignore interrupts.
    script = (
        "import os, signal, threading\nfrom jobs import Job, Jobs\nsignal.signal(signal.SIGINT, signal.default_int_handler)\n"
        "threading.Timer(1, lambda: os.kill(os.getpid(), signal.SIGINT)).start()\n"
        "Jobs().side_by_side([Job('long', ['sleep', '300'])])\n"
    )
    ran = subprocess.run([sys.executable, "-c", script], capture_output=True, text=True, env={**os.environ, "PYTHONPATH": f"{TOP}/tools"}, timeout=200)
    assert "KeyboardInterrupt" in ran.stderr
