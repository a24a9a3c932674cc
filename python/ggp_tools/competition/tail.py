"""Reads new lines from a growing file."""

import os
from collections.abc import Callable
from typing import BinaryIO, Generic, NamedTuple, TypeVar

from ggp_tools.competition.files import opened_file
from ggp_tools.match_log import LONGEST_LINE

# One read takes about this many bytes at most, so that a long log does not delay the others.
MOST_READ = 1 << 20
# The first bytes show whether another file has replaced this one: in the log of a match, they include the time when the match began.
HEAD = 256
T = TypeVar("T")


class Extent(NamedTuple):
    """The size of a growing file. If the live pages have a delay, also the inode number and the first bytes of the file, because another file may
    replace it in the meantime."""

    size: int
    number: int = 0
    head: bytes = b""


def extent_of(file: BinaryIO) -> Extent:
    """Returns the size, the inode number and the first bytes of a file that has just been opened."""
    status = os.fstat(file.fileno())
    return Extent(status.st_size, status.st_ino, file.read(HEAD))


class Tail(Generic[T]):
    """The parsed lines of a growing file. Each read continues where the last one ended, or at the beginning if the file was replaced or
    truncated. If the file no longer exists, reads its lines from the file `later`."""

    def __init__(self, path: str, parse: Callable[[bytes], T | None], later: str = "") -> None:
        self.path, self.parse, self.later = path, parse, later
        self.place, self.number, self.head = 0, None, b""
        # Whether lines of the extent are still unread; and whether the last read ended within a line, because the line is too long.
        self.is_behind = self.is_within = False

    def added(self, extent: Extent) -> tuple[list[T], bool]:
        """Returns the new lines in this extent of the file, and whether the file is a different one than before. If the file can't be read, or is not
        the one that the extent describes, returns no lines."""
        if self.later and not os.path.exists(self.path):
            self.path, self.later, self.number = self.later, "", None
        try:
            with opened_file(self.path) as file:
                size, number, head = extent_of(file)
                # The file `later` has another inode number.
                if self.later and extent.number not in (0, number) or not head.startswith(extent.head):
                    self.is_behind = True
                    return [], False
                is_other = self.number not in (None, number) or size < self.place or not head.startswith(self.head)
                self.place, self.is_within = (0, False) if is_other else (self.place, self.is_within)
                self.number, self.head = number, head
                return self.read_on(file, extent.size), is_other
        except OSError:
            self.is_behind = self.place < extent.size
            return [], False

    def read_on(self, file: BinaryIO, until: int) -> list[T]:
        values, begin, self.is_behind = [], file.seek(self.place), False
        while line := file.readline(LONGEST_LINE):
            is_end = line.endswith(b"\n")
            if file.tell() > until or not is_end and len(line) < LONGEST_LINE:
                break
            self.place = file.tell()
            # Lines that are too long are left out.
            if is_end and not self.is_within and (value := self.parse(line)) is not None:
                values.append(value)
            self.is_within = not is_end
            if self.place - begin >= MOST_READ:
                self.is_behind = True
                break
        return values
