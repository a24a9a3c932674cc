"""Runs as many pieces of work in parallel as this computer can handle. Prints a line when each begins and ends, with the estimated time left."""
import os
import re
import threading
import time

from crates import spell

# The seconds of a proof, for each crate and for each megabyte of its proof cost, fitted to the times of a whole gate.
SECONDS_A_CRATE, SECONDS_A_MEGABYTE = 18.0, 1.28
# The seconds of a test crate for each line of code. Compilation takes most of this time.
SECONDS_A_LINE = 0.06


def by_lines(lines: dict[str, int]) -> dict[str, float]:
    return {name: SECONDS_A_LINE * count for name, count in lines.items()}


def by_megabytes(names: list[str], megabytes: dict[str, int]) -> dict[str, float]:
    """Returns the estimated seconds of each crate's proof, from its budget. A crate without a budget counts as an average one."""
    mean = sum(megabytes.values()) / max(len(megabytes), 1)
    return {name: SECONDS_A_CRATE + SECONDS_A_MEGABYTE * megabytes.get(name, mean) for name in names}


class Progress:
    """Pieces of work. Up to `lanes` of them run in parallel. `seconds` gives the expected time of each. As soon as one of them has ended, only the
    proportions between these times matter."""

    def __init__(self, seconds: dict[str, float], lanes: int) -> None:
        self.seconds, self.lanes, self.lock = seconds, lanes, threading.Lock()
        self.began, self.begun, self.ended, self.done = time.monotonic(), {}, set(), 0.0

    def left(self) -> float:
        """Estimates how many seconds the remaining pieces take at the pace so far."""
        rest = sum(seconds for name, seconds in self.seconds.items() if name not in self.ended)
        return rest * ((time.monotonic() - self.began) / self.done if self.done else 1 / self.lanes)

    def print(self, name: str, text: str) -> None:
        left = f"; about {spell(self.left())} left" if len(self.ended) < len(self.seconds) else ""
        print(f"[{len(self.ended):2}/{len(self.seconds)}] {name}: {text}{left}", flush=True)

    def begin(self, name: str) -> None:
        with self.lock:
            self.begun[name] = time.monotonic()
            self.print(name, "begins")

    def end(self, name: str, text: str, is_fresh: bool = True) -> None:
        """Prints that a piece has ended. Cached pieces do not affect the pace."""
        with self.lock:
            if name not in self.seconds or name in self.ended:
                return
            self.ended.add(name)
            self.done += self.seconds[name] if is_fresh else 0
            took = f", in {spell(time.monotonic() - self.begun[name])}" if name in self.begun else ""
            self.print(name, f"{text}{took}")


# ---- the processors and the free memory of this computer, or of the container if it limits them

GROUP = "/sys/fs/cgroup"


def numbers_in(file, form=r"(\d+)"):
    """Returns the numbers at the beginning of a file, or None if the file does not exist or sets no limit."""
    try:
        with open(file, encoding="ascii") as stream:
            match = re.match(form, stream.read())
    except OSError:
        return None
    return [int(word) for word in match.groups()] if match else None


def free_memory(file="/proc/meminfo", group=GROUP):
    """Returns the free memory in bytes. The file cache of a container counts as free."""
    free = 1024 * numbers_in(file, r"(?s).*?MemAvailable:\s+(\d+)")[0]
    limit, used = numbers_in(f"{group}/memory.max"), numbers_in(f"{group}/memory.stat", r"(?s).*?\banon (\d+)")
    return min(free, max(limit[0] - used[0], 0)) if limit and used else free


def processors(group=GROUP):
    """Returns the number of usable processors."""
    count, quota = len(os.sched_getaffinity(0)), numbers_in(f"{group}/cpu.max", r"(\d+) (\d+)")
    return min(count, max(quota[0] // quota[1], 1)) if quota else count


def at_once(needs, free=None, lanes=None):
    """Returns how many processes can run in parallel if each process needs `needs` bytes: at most one for each processor."""
    free = free_memory() if free is None else free
    return max(1, min(lanes or processors(), free // needs))
