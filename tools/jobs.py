"""Runs commands in parallel, prints their output, and counts the tests that passed, failed and were skipped."""
import contextlib
import os
import re
import signal
import subprocess
import threading
import time
from collections.abc import Sequence
from concurrent.futures import ThreadPoolExecutor
from dataclasses import dataclass, field

from crates import spell

# The number of lines of a failed command that are printed again at the end.
LAST_LINES = 20
COUNTED = re.compile(r"\b(\d+) (passed|failed|errors?|skipped)\b")


@dataclass
class Job:
    """A command, and the name that is printed before its lines. If a needed job fails, the jobs after it do not start. Needed jobs do not
    count as tests."""

    name: str
    command: Sequence[str]
    is_needed: bool = False


@dataclass
class Counts:
    """How many tests passed, failed and were skipped."""

    passed: int = 0
    failed: int = 0
    skipped: int = 0

    def __str__(self) -> str:
        return f"{self.passed} passed, {self.failed} failed{f', {self.skipped} skipped' if self.skipped else ''}"

    def add(self, other: "Counts") -> None:
        self.passed, self.failed, self.skipped = self.passed + other.passed, self.failed + other.failed, self.skipped + other.skipped


def counts_in(last_line: str, is_well: bool) -> Counts:
    """Returns the counts in the last line of a command: `N passed`, `N failed`, `N errors` and `N skipped`. A command without such a line
    counts as one test. If the exit status of a command is not 0, the command has failed, regardless of its output."""
    numbers = {word.removesuffix("s"): int(number) for number, word in COUNTED.findall(last_line)}
    if is_well:
        # A test may also state the number of its errors.
        numbers.pop("error", None)
    if not numbers:
        return Counts(passed=int(is_well), failed=int(not is_well))
    failed = numbers.get("failed", 0) + numbers.get("error", 0)
    return Counts(numbers.get("passed", 0), failed or int(not is_well), numbers.get("skipped", 0))


@dataclass
class Jobs:
    """The running commands. Each command leads a session, so that it can be ended together with all processes that it has started. With
    `ends_early`, all commands end when one fails. `failed` contains the last lines of each command that failed."""

    ends_early: bool = False
    counts: Counts = field(default_factory=Counts)
    failed: dict[str, list[str]] = field(default_factory=dict)
    last_lines: dict[str, str] = field(default_factory=dict)
    running: set[int] = field(default_factory=set)
    lock: threading.Lock = field(default_factory=threading.Lock)
    is_ended: bool = False

    def say(self, text: str) -> None:
        with self.lock:
            print(text, flush=True)

    def run(self, job: Job) -> bool:
        """Runs a command to its end, and prints each line with the name of the job. Returns whether the exit status of the command is 0."""
        began, how = time.monotonic(), {"stdin": subprocess.DEVNULL, "stdout": subprocess.PIPE, "stderr": subprocess.STDOUT}
        with self.lock:
            if self.is_ended:
                return False
            try:
                child = subprocess.Popen(job.command, **how, text=True, errors="replace", start_new_session=True)
            except OSError as error:
                print(f"{job.name}: {job.command[0]} cannot be run: {error.strerror}", flush=True)
                self.finish(job, [], False, began)
                return False
            self.running.add(child.pid)
        lines: list[str] = []
        reader = threading.Thread(target=self.read, args=(job, child, lines), daemon=True)
        reader.start()
        status = child.wait()
        # Processes that the command has left running would keep the command's output open.
        self.kill(child.pid, signal.SIGKILL)
        reader.join()
        with self.lock:
            self.running.discard(child.pid)
            self.finish(job, lines, status == 0, began)
        if status and self.ends_early:
            self.end()
        return status == 0

    def read(self, job: Job, child: subprocess.Popen, lines: list[str]) -> None:
        for line in child.stdout:
            lines.append(line)
            self.say(f"{job.name}: {line.rstrip()}")

    def finish(self, job: Job, lines: list[str], is_well: bool, began: float) -> None:
        last_line = next((line.rstrip() for line in reversed(lines) if line.strip()), "")
        counts = Counts() if job.is_needed and is_well else counts_in(last_line, is_well)
        self.counts.add(counts)
        self.last_lines[job.name] = last_line
        if not is_well:
            self.failed[job.name] = lines[-LAST_LINES:]
        print(f"== {job.name}: {'done' if job.is_needed and is_well else counts}, in {spell(time.monotonic() - began)}", flush=True)

    def run_all(self, chain: Sequence[Job]) -> bool:
        """Runs commands in order. After a failure it continues, unless the failed command is needed. Returns whether all succeeded."""
        well = True
        for job in chain:
            passed = self.run(job)
            well = well and passed
            if job.is_needed and not passed:
                break
        return well

    def side_by_side(self, *chains: Sequence[Job]) -> bool:
        """Runs several chains of commands in parallel. Returns whether all succeeded."""
        with ThreadPoolExecutor(len(chains)) as pool:
            try:
                return all([*pool.map(self.run_all, chains)])
            except BaseException:
                self.end()
                raise

    def end(self) -> None:
        """Ends all commands, and starts no more."""
        with self.lock:
            self.is_ended = True
            for leader in self.running:
                self.kill(leader, signal.SIGTERM)

    @staticmethod
    def kill(leader: int, number: int) -> None:
        with contextlib.suppress(ProcessLookupError):
            os.killpg(leader, number)
