"""Jobs and the processes that play and check matches: how they end, and how their output is read."""

import asyncio
import gc
import os
import subprocess
import sys

import pytest
from ggp_tools.competition import children, jobs
from ggp_tools.competition.children import run
from ggp_tools.competition.guard import marked
from ggp_tools.competition.jobs import Job, Lost
from ggp_tools.processes import apart, ended_words
from support import TOP, command_of, wait_until

NODE = "import sys\nsys.stderr.write('ggp_competition: node n1\\n')\nsys.stderr.flush()\n"
CLEAR = "bad \x1b]0;title\x07 words \x9b31m"


class Kept(Job):
    """A job that records its output and its reports."""

    def __init__(self):
        super().__init__(self.keep, self.keep_lines)
        self.output, self.lines, self.calls = b"", [], 0

    async def keep(self, data):
        self.output += data

    async def keep_lines(self, data):
        self.lines += data.splitlines()
        self.calls += 1


async def begun(script, job=None):
    """Starts a Python script as a launcher, which ignores the command of the job."""
    job = job or Kept()
    job.start([sys.executable, "-c", script])
    return job


def ran(script, job=None):
    """Runs a script to its end."""
    async def go():
        found = await begun(script, job)
        await found.running
        return found

    return asyncio.run(go())


# ---- jobs

def test_a_job_that_runs_and_is_silent_is_lost(monkeypatch):
    monkeypatch.setattr(jobs, "LOST_SECONDS", 1)
    job = ran(f"{NODE}sys.stdin.read()")
    # The process ends when its input is closed.
    assert (job.why, job.node, job.status, job.process.returncode, job.goes_on) == ("it sent nothing for 1 s", "n1", None, 0, False)


def test_a_job_that_waits_in_a_queue_may_be_silent(monkeypatch):
    monkeypatch.setattr(jobs, "LOST_SECONDS", 0.1)
    job = ran("import time; time.sleep(1)")
    assert (job.why, job.status, job.process.returncode, job.node) == ("", None, 0, "")


def test_a_job_that_says_something_now_and_then_goes_on(monkeypatch):
    monkeypatch.setattr(jobs, "LOST_SECONDS", 8)
    job = ran(f"{NODE}import time\nfor _ in range(20):\n  print('ggp_competition: beat', flush=True, file=sys.stderr)\n  time.sleep(0.5)\nprint('ggp_competition: status 3', file=sys.stderr)")
    assert (job.why, job.status, job.lines) == ("", 3, [])


def test_what_a_job_says_is_told_from_what_others_say():
    event = '{"event":"open","match":"m","time":1}'
    said = f"motd\nggp_competition: node a\x1bb\nggp_competition: node c\n{event}\nggp_competition: statusx\nggp_competition: status 12345\nggp_competition: status -9\nend"
    job = ran(f"import sys; print('out', end=''); sys.stderr.write({said!r})")
    assert (job.node, job.status, job.lines, job.output) == ("a?b", -9, [b"motd", event.encode(), b"end"], b"out")


def test_a_line_without_an_end_ends_the_job(monkeypatch):
    monkeypatch.setattr(jobs, "LONGEST_LINE", 100_000)
    job = ran("import sys\nwhile True: sys.stderr.write('x' * 1000)")
    assert (job.why, job.lines) == ("it sent a line of more than 100,000 bytes", [])


def test_many_short_lines_are_passed_on_together():
    job = ran("import os\nfor _ in range(16): os.write(2, b'\\n' * 65_536)")
    # A pipe delivers at least a page at a time.
    assert (len(job.lines), job.calls < 1_000) == (1 << 20, True)


@pytest.mark.parametrize("stream", ["stdout", "stderr"])
def test_a_job_is_ended_when_it_is_given_up(stream):
    job = Kept()

    async def give_up(data):
        raise Lost("it is enough")

    job.take_output = job.take_lines = give_up
    ran(f"import sys\nwhile True: sys.{stream}.write('x' * 999 + '\\n')", job)
    assert (job.why, job.process.returncode is None) == ("it is enough", False)


def test_the_error_of_a_file_is_raised():
    job = Kept()

    async def fail(data):
        raise OSError(28, "full")

    job.take_lines = fail
    with pytest.raises(ExceptionGroup, match="unhandled errors"):
        ran("import sys; print('one', file=sys.stderr)", job)


def test_a_job_that_runs_gets_a_byte_now_and_then_and_its_task(monkeypatch):
    monkeypatch.setattr(jobs, "BEAT", 0.01)
    script = f"{NODE}given = ['', sys.stdin.readline()]\nwhile len(given[-1]) == 1: given.append(sys.stdin.readline())\nprint(given[1] == chr(10), given[-1])"

    async def go():
        job = await begun(script)
        assert await job.reports(job.runs)
        job.begin({"words": ["one", "two words"]})
        await job.running
        return job

    # A stray byte may precede the task.
    assert asyncio.run(go()).output.split(b" ", 1)[1] == b'{"words": ["one", "two words"]}\n\n'


def test_a_launcher_that_ends_without_reading_its_input_is_no_error(caplog):
    async def go():
        job = Kept()
        job.start(["sh", "-c", "sleep 0.1"], {"words": ["x" * (1 << 20)]})
        await job.running
        return job

    job = asyncio.run(go())
    gc.collect()
    assert (job.why, job.process.returncode, caplog.records) == ("", 0, [])


def test_what_a_process_leaves_behind_is_not_waited_for():
    job = ran("import subprocess; print(subprocess.Popen(['sleep', '600']).pid)")
    assert job.process.returncode == 0
    os.kill(int(job.output), 9)


@pytest.mark.parametrize("hears", [True, False])
def test_a_job_that_is_ended_is_ended_with_what_it_has_started(hears):
    async def go():
        job = Kept()
        job.has_begun, job.end_seconds = True, 600 if hears else 0.2
        script = f"sleep 600 & echo ggp_competition: node $! >&2; {'cat; kill $!' if hears else 'wait'}"
        job.start(["bash", "-c", script])
        assert await job.reports(job.runs)
        await job.end()
        return job

    job = asyncio.run(go())
    assert (job.goes_on, job.process.returncode) == (not hears, 0 if hears else -9)
    wait_until(lambda: not command_of(job.node))


# ---- other processes

def test_a_process_has_an_empty_input_and_its_streams_are_read():
    done = asyncio.run(run(["sh", "-c", "cat; echo one; echo why >&2; exit 3"]))
    assert (done.status, done.output, done.message(), done.seconds > 0) == (3, b"one\n", "why", True)


def test_a_verdict_is_the_object_that_is_printed():
    done = [asyncio.run(run(["printf", text])) for text in ('{"verdict":"ready"}\n', "")]
    assert [each.verdict() for each in done] == [{"verdict": "ready"}, {}]


def test_a_process_that_ends_without_a_word():
    assert asyncio.run(run(["true"])).message() == "it ended with status 0, without a message"


# Starts programs, prints their processes and that of the guard, and is killed at once.
KILLED = """
import os, sys
from ggp_tools.competition.children import spawned
from ggp_tools.processes import apart

with apart(sys.argv[1]):
    children = open(f"/proc/self/task/{os.getpid()}/children").read()
    print(children, *(spawned(["sh", "-c", "setsid sleep 600 & sleep 600"], 2, 2) for _ in range(5)), flush=True)
    for process in map(int, sys.argv[2:] and children.split()):
        os.kill(process, 9)
    os.kill(os.getpid(), 9)
"""


def killed(mark, *more):
    """Runs the script above, and returns the processes."""
    words = [sys.executable, "-c", KILLED, mark, *more]
    return subprocess.run(words, stdout=subprocess.PIPE, text=True, env={**os.environ, "PYTHONPATH": str(TOP / "python")}).stdout.split()


def test_programs_end_with_this_process_even_if_it_is_killed(tmp_path):
    processes = killed(str(tmp_path))
    assert len(processes) == 6
    wait_until(lambda: not any(map(command_of, processes)) and not marked(str(tmp_path)))


def test_programs_that_a_killed_process_and_its_guard_have_left_are_ended_first(tmp_path):
    _, *processes = killed(str(tmp_path), "with the guard")
    # A process that has just begun may have no command yet.
    wait_until(lambda: all(map(command_of, processes)))
    assert marked(f"{tmp_path}/other") == []
    with apart(str(tmp_path)):
        assert not any(map(command_of, processes)) and marked(str(tmp_path)) == []


def test_a_command_that_is_not_there_is_an_error_of_its_file():
    with pytest.raises(FileNotFoundError) as why:
        asyncio.run(run(["/none", "one"]))
    assert why.value.filename == "/none"


def test_a_process_whose_time_is_over_is_ended():
    done = asyncio.run(run(["sh", "-c", "echo one; sleep 600"], seconds=0.2))
    assert (done.status, done.seconds >= 0.2) == (None, True)


def test_what_a_process_has_said_in_time_is_read_late(monkeypatch):
    """On a busy computer, the time may run out before this process has read the output that has arrived."""
    monkeypatch.setattr(children, "SOON", 60)
    done = asyncio.run(run(["echo", "one"], seconds=0))
    assert (done.status, done.output) == (0, b"one\n")


@pytest.mark.parametrize("is_starting", [False, True])
def test_a_process_that_is_cancelled_is_ended_with_what_it_has_started(tmp_path, is_starting):
    async def go():
        os.mkfifo(tmp_path / "started")
        running = asyncio.create_task(run(["bash", "-c", f"sleep 600 & echo $! > {tmp_path}/started; wait"]))
        if is_starting:
            # After this many steps of the event loop, the process runs, but its pipes are not connected yet.
            for _ in range(3):
                await asyncio.sleep(0)
            process = (tmp_path / "started").read_text()
        else:
            process = await asyncio.to_thread((tmp_path / "started").read_text)
        running.cancel()
        with pytest.raises(asyncio.CancelledError):
            await running
        return int(process)

    process = asyncio.run(go())
    wait_until(lambda: not command_of(process))


def test_the_last_words_are_printable_and_short(tmp_path):
    (tmp_path / "said").write_bytes(b"first\n" + CLEAR.encode("latin-1") + b"y" * 5_000 + b"\n")
    words = asyncio.run(run(["sh", "-c", f"cat {tmp_path}/said >&2"])).message()
    assert words.startswith("bad ?]0;title? words ?31m" + "y" * 900)
    assert len(words) == 1_002


@pytest.mark.parametrize(("status", "words"), [
    (2, "it ended with status 2"), (-9, "it was killed by signal 9 (SIGKILL)"), (-35, "it was killed by signal 35"), (-999, "it was killed by signal 999"),
])
def test_how_a_process_has_ended(status, words):
    assert ended_words(status) == words
