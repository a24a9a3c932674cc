"""Packs the files of an archive, and unpacks an archive that may be hostile.

Different programs unpack unusual tar files differently, so `unpack` accepts only the output of `pack`: from the values of each header, it
makes a new header, and both must be equal."""

import gzip
import io
import pathlib
import re
import tarfile
import zlib
from collections.abc import Iterable, Iterator
from typing import BinaryIO

from ggp_tools.competition.competition_file import MOST_OF_COMPETITION
from ggp_tools.competition.files import MOST_OF_PLANNED, Refused
from ggp_tools.competition.schedule import MOST_MATCHES, id_in
from ggp_tools.records.lengths import LONGEST_ACCOUNT

# The names of the files of an archive, all below one directory.
FLAT, WORD = "rules|games|records|accounts|logs|earlier", "[A-Za-z0-9_.-]{1,255}"
NAME = re.compile(rf"{WORD}/(({FLAT})/{WORD}|pages/((matches|games|players)/)?{WORD}|(?!({FLAT}|pages)$){WORD})")
# A name of more than 100 bytes is in an extended header.
LONG_NAME = re.compile(rb"[0-9]+ path=([^\n]*)\n")
AT_ONCE, MOST_BYTES = 1 << 20, 8 << 30
# The maximum sizes of files that `check` reads as a whole, by the file's name or directory.
MOST_OF_FILES = {
    **dict.fromkeys(("competition.toml", "planned.toml", "earlier"), MOST_OF_COMPETITION),
    **dict.fromkeys(("schedule.tsv", "SHA256SUMS", "again.tsv", "seeds.csv", "ids.key", "rules", "games"), MOST_OF_PLANNED),
    **dict.fromkeys(("accounts", "logs", "pages"), LONGEST_ACCOUNT),
    "records": 1 << 30,
}
# These files come first, because the matches determine which other files are allowed.
FIRST = "competition.toml", "schedule.tsv"
# The names of the files of matches, and the maximum number of all other files, including those of games and players.
OF_MATCH, OTHER_FILES = re.compile(r"[^/]*/(?:records/(.+)\.json|accounts/(.+)\.txt|logs/(.+)\.jsonl|pages/matches/(.+)\.html)"), 10_000
# Higher compression levels take much longer, and save little.
LEVEL = 6
OTHERWISE = "its bytes are not those that `publish` would write: the difference is"


class Spoilt(Refused):
    """The errors of an archive, one on each line."""


class TooLarge(Exception):
    """The archive, or a file in the archive, would be larger than `check` accepts."""


def header(name: str, size: int) -> tarfile.TarInfo:
    member = tarfile.TarInfo(name)
    member.size, member.mode = size, 0o644
    return member


def pack(file: BinaryIO, contents: Iterable[tuple[str, bytes]]) -> None:
    """Writes an archive of the files in `contents`. Packing the same contents again produces the same archive."""
    size = 0
    with gzip.GzipFile(filename="", mode="wb", fileobj=file, mtime=0, compresslevel=LEVEL) as packed, tarfile.open(fileobj=packed, mode="w|") as archive:
        for name, data in contents:
            size += len(data)
            if len(data) > (most := most_of_file(name)):
                raise TooLarge(f"{name} has more than {most:,} bytes, the limit of such a file in an archive")
            if size > MOST_BYTES:
                raise TooLarge(f"it has more than {MOST_BYTES:,} bytes, the limit of an archive")
            archive.addfile(header(name, len(data)), io.BytesIO(data))


def most_of_file(name: str) -> int:
    return MOST_OF_FILES.get(name.split("/")[1], MOST_BYTES) if "/" in name else MOST_BYTES


def read_all(stream: BinaryIO, size: int) -> bytes:
    data = stream.read(size)
    if len(data) != size:
        raise EOFError("it ends too early")
    return data


def members(stream: BinaryIO) -> Iterator[tuple[str, int]]:
    """Yields the name and the size of each file in a tar file. The caller must read the bytes of a file with `copy` before it asks for the next
    one."""
    while any(head := read_all(stream, tarfile.BLOCKSIZE)):
        if head[156:157] == tarfile.XHDTYPE:
            head += read_all(stream, 2 * tarfile.BLOCKSIZE)
        long_name = LONG_NAME.match(head, tarfile.BLOCKSIZE)
        try:
            member = tarfile.TarInfo.frombuf(head[-tarfile.BLOCKSIZE :], "latin-1", "strict")
        except tarfile.HeaderError as why:
            raise Spoilt(f"it can't be unpacked: {why}") from None
        name = long_name[1].decode("latin-1") if long_name else member.name
        if head != header(name, member.size).tobuf():
            raise Spoilt(f"{OTHERWISE} at {name!r}")
        yield name, member.size
    rest = stream.read(tarfile.RECORDSIZE + 1)
    if any(rest) or not tarfile.BLOCKSIZE <= len(rest) <= tarfile.RECORDSIZE:
        raise Spoilt(f"{OTHERWISE} at its end")


def copy(stream: BinaryIO, size: int, path: pathlib.Path) -> None:
    """Writes the `size` bytes of a member to a new file at `path`, and creates the directories of the file."""
    try:
        path.parent.mkdir(parents=True, exist_ok=True)
        with open(path, "xb") as file:
            for left in range(size, 0, -AT_ONCE):
                file.write(read_all(stream, min(left, AT_ONCE)))
    except (FileExistsError, NotADirectoryError):
        raise Spoilt(f"it contains {path} twice, or has a file where a directory of {path} must be") from None
    if any(read_all(stream, -size % tarfile.BLOCKSIZE)):
        raise Spoilt(f"{OTHERWISE} after {path}")


def planned_ids(schedule: pathlib.Path) -> set[str | None]:
    """Returns the ids of the matches of a schedule, and None for the head of the schedule."""
    with open(schedule, "rb") as rows:
        if sum(1 for _ in rows) > MOST_MATCHES + 1:
            raise Spoilt(f"{schedule.name} has more than {MOST_MATCHES:,} matches")
        rows.seek(0)
        return set(map(id_in, rows))


def is_of_match(name: str, size: int, ids: set[str | None], folder: pathlib.Path) -> bool:
    """Returns whether a file belongs to a match of the schedule. Refuses an empty file, unless it is the log of a match that has a
    record."""
    found = OF_MATCH.fullmatch(name)
    match = found and found[found.lastindex]
    if not match or match not in ids:
        return False
    if not size and not (found[3] and (folder / "records" / f"{match}.json").exists()):
        raise Spoilt(f"{name} is empty")
    return True


def unpack(path: pathlib.Path, empty: pathlib.Path) -> pathlib.Path:
    """Unpacks an archive into the empty directory `empty`, and returns the path of the competition's directory below `empty`."""
    folder, count, size, others, ids = empty, 0, 0, 0, set()
    try:
        with gzip.open(path) as stream:
            for count, (name, own) in enumerate(members(stream), 1):
                size += own
                if not NAME.fullmatch(name) or {".", ".."} & set(name.split("/")):
                    raise Spoilt(f"{name!r} is not a file of a competition")
                folder = empty / name.partition("/")[0] if count == 1 else folder
                if not (empty / name).is_relative_to(folder):
                    raise Spoilt(f"{name!r} is not below {folder.name}")
                if count <= len(FIRST) and empty / name != folder / FIRST[count - 1]:
                    raise Spoilt(f"it does not begin with {' and '.join(FIRST)}")
                others += not is_of_match(name, own, ids, folder)
                if others > OTHER_FILES:
                    raise Spoilt(f"it has more than {OTHER_FILES:,} files that belong to no match of its schedule")
                if own > most_of_file(name):
                    raise Spoilt(f"{name} has more than {most_of_file(name):,} bytes, the limit of such a file in an archive")
                if size > MOST_BYTES:
                    raise Spoilt(f"with {name!r} it has more than {MOST_BYTES:,} bytes, the limit of an archive")
                copy(stream, own, empty / name)
                ids = planned_ids(empty / name) if count == len(FIRST) else ids
    except (EOFError, zlib.error, gzip.BadGzipFile) as why:
        raise Spoilt(f"it can't be unpacked: {why}") from None
    if count < len(FIRST):
        raise Spoilt(f"it does not begin with {' and '.join(FIRST)}")
    return folder
