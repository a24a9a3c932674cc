"""Runs `rt ci` and parses its output. Reports which crates are proved, the estimated time left, and whether the number of functions that may
wait agrees with crates.txt."""
import collections
import os
import re
import signal
import subprocess
from dataclasses import dataclass, field

from budget import keep_measured, read_budget, read_measured, size_of
from crates import crate_rows, said_words
from progress import Progress, by_megabytes, processors

# The output of `rt ci` for a finished crate: it was proved now or before, or it is not proved.
ENDS = re.compile(r"rt: (\w+) (proved|is kept|NOT PROVED)\b")
# The output for each must-fail edit, and for each crate with such edits.
OF_EDITS = re.compile(r"rt: must-fail .*refused, as it must be|rt: \w+: trying its must-fail edits")
LAST_LINES = 30


class Waits:
    """Compares the number of functions that may wait, as a proof counts them, with the crate's row of crates.txt. `rt ci` does not count
    the functions of a cached crate again. So each tool that proves a crate compares the numbers."""

    def __init__(self, rows: dict[str, tuple[str, list[str]]]) -> None:
        self.stated = {name: said_words(row.partition(":")[0]).get("may_wait", "0") for name, (row, _) in rows.items()}
        self.crate, self.errors = "", []

    def read(self, line: str) -> None:
        if line.startswith("== "):
            self.crate = line[3:].strip()
        elif line.startswith("logic=proved ") and self.crate in self.stated:
            counted, stated = said_words(line).get("may-wait", "0"), self.stated[self.crate]
            if counted != stated:
                self.errors.append(f"{self.crate}: {counted} functions may wait, but crates.txt says {stated}")


@dataclass
class Proofs:
    """The output so far of `rt ci` in the directory `top`."""

    top: str
    progress: Progress
    waits: Waits
    sizes: dict[str, int] = field(default_factory=dict)
    last_line: str = ""
    result: str = "proved"
    has_failed: bool = False
    block: collections.deque[str] = field(default_factory=lambda: collections.deque(maxlen=LAST_LINES))

    def read(self, line: str) -> None:
        """Parses a line, and prints the part that people need."""
        self.last_line = line
        self.waits.read(line)
        if line.startswith("== "):
            self.block.clear()
            self.result = "proved"
        self.block.append(line)
        if line.startswith("logic=proved "):
            self.result = f"proved, {said_words(line).get('functions', '?')} functions"
        elif match := ENDS.match(line):
            self.end(match[1], match[2])
        elif line.startswith("rt: ") and not OF_EDITS.match(line):
            print(line, end="", flush=True)

    def end(self, name: str, how: str) -> None:
        if how == "NOT PROVED":
            self.print_block()
        elif (size := size_of(name, self.top)) is not None:
            self.sizes[name] = size
        self.progress.end(name, {"proved": self.result, "is kept": "proved before, and not changed since"}.get(how, how), how == "proved")

    def print_block(self) -> None:
        self.has_failed = True
        print(*self.block, sep="", end="", flush=True)


def run_ci(top: str, names: list[str]) -> tuple[bool, str]:
    """Runs `rt ci` for the crates `names` in a directory. Returns whether all crates are proved, and the last line of the output."""
    progress = Progress(by_megabytes(names, read_budget().crates), processors())
    proofs = Proofs(top, progress, Waits(crate_rows()))
    how = {"cwd": top, "stdin": subprocess.DEVNULL, "stdout": subprocess.PIPE, "stderr": subprocess.STDOUT, "text": True, "errors": "replace"}
    with subprocess.Popen(["rt", "ci"], start_new_session=True, **how) as ran:
        try:
            for line in ran.stdout:
                proofs.read(line)
        except BaseException:
            os.killpg(ran.pid, signal.SIGTERM)
            raise
    if ran.returncode and not proofs.has_failed:
        proofs.print_block()
    keep_measured({**read_measured(), **proofs.sizes})
    print(*(f"{error}\n" for error in proofs.waits.errors), sep="", end="")
    return ran.returncode == 0 and not proofs.waits.errors, proofs.last_line
