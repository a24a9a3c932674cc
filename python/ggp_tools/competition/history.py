"""Reads the history of a competition from its directory. The directory `earlier` contains the earlier versions of competition.toml. Each one is named
after the number of matches that were planned when the next version replaced it. `again.tsv` lists the rematches with their reasons."""

import csv
import io
import re
from dataclasses import replace
from pathlib import Path

from ggp_tools.competition.competition_file import MOST_OF_COMPETITION, MOST_PLAYERS, RANDOM_IDS, Competition, Mistaken, read_competition, mistake_lines
from ggp_tools.competition.files import MOST_OF_PLANNED, UNFINISHED, Folder, Refused, file_bytes
from ggp_tools.competition.growth import Again, History
from ggp_tools.competition.table import ALL

HEAD = b"match\tinstead of\treason\n"
LINE = re.compile(rb"([A-Za-z0-9_.-]{1,60})\t([A-Za-z0-9_.-]{1,60})\t([\x20-\x7e]{1,200})\n")
KEY = re.compile(rb"[0-9a-f]{32}\n")
EARLIER = re.compile(r"([1-9][0-9]{0,5})\.toml")
# The maximum number of earlier versions, and the maximum number of bytes of all of them together. Reading a version may take seconds, and
# `plan` writes one each time that the schedule grows. The first maximum suffices to add the maximum number of players one by one.
MOST_EARLIER, MOST_OF_EARLIER = MOST_PLAYERS, 64 << 20


def again_text(orders: tuple[Again, ...]) -> bytes:
    lines = [f"{order.match}\t{order.instead_of}\t{order.reason}\n".encode("ascii") for order in orders]
    return HEAD + b"".join(lines)


def read_again(folder: Folder) -> tuple[Again, ...]:
    if not folder.again.exists():
        return ()
    text = file_bytes(folder.again, MOST_OF_PLANNED + 1)
    lines = [LINE.fullmatch(line) for line in text.removeprefix(HEAD).splitlines(keepends=True)]
    orders = tuple(Again(*(word.decode("ascii") for word in line.groups())) for line in lines if line)
    if not lines or len(text) > MOST_OF_PLANNED or again_text(orders) != text or len({order.match for order in orders}) != len(orders):
        raise Refused(f"{folder.again} is not what `ggp_competition again` writes")
    return orders


def competition_of_file(path: Path, text: bytes, seeds: Path | None = None) -> Competition:
    """Returns the competition that a competition.toml describes. If the file has the key `seeds`, and the argument `seeds` is the table of the
    other competition, the players are in the order of this table."""
    try:
        competition = read_competition(text)
    except Mistaken as why:
        raise Refused(mistake_lines(path, why.mistakes)) from None
    return seeded(competition, seeds) if seeds and competition.seeds else competition


def seeded(competition: Competition, path: Path) -> Competition:
    """Returns a competition with its players in the order of another competition's table. Players that are not in the table come last."""
    try:
        if len(text := file_bytes(path, MOST_OF_PLANNED + 1)) > MOST_OF_PLANNED:
            raise ValueError
        heads, *rows = filter(None, csv.reader(io.StringIO(text.decode("ascii"))))
        game, player = heads.index("game"), heads.index("player")
        seeds = {row[player]: at for at, row in enumerate(rows) if row[game] == ALL}
    except OSError as why:
        raise Refused(f"{path} can't be read: {why.strerror}; `seeds` needs the table.csv that `ggp_competition table` writes") from None
    except (ValueError, IndexError, csv.Error):
        raise Refused(f"{path} is not a table.csv that `ggp_competition table` writes") from None
    return replace(competition, players=tuple(sorted(competition.players, key=lambda entry: seeds.get(entry.name, len(rows)))))


def earlier_files(folder: Folder, *new: int) -> list[Path]:
    """Returns the earlier versions of competition.toml, the oldest first. Refuses too many files, or too many bytes in total. `new` gives the sizes
    of the versions that will be added."""
    files = [file for file in folder.earlier.iterdir() if not file.name.startswith(UNFINISHED)] if folder.earlier.is_dir() else []
    for file in files:
        if not EARLIER.fullmatch(file.name):
            raise Refused(f"{file} is not one of the earlier files of the competition")
    sizes = [*(file.stat().st_size for file in files), *new]
    if len(sizes) > MOST_EARLIER or sum(sizes) > MOST_OF_EARLIER:
        words = f"{folder.earlier}: expected at most {MOST_EARLIER:,} files with {MOST_OF_EARLIER:,} bytes in total"
        raise Refused(f"{words}, found {len(sizes):,} with {sum(sizes):,}", "the schedule can't grow any more; begin another competition")
    return sorted(files, key=lambda file: int(file.stem))


def read_history(folder: Folder, competition: Competition) -> History:
    earlier = tuple((int(file.stem), competition_of_file(file, file_bytes(file, MOST_OF_COMPETITION + 1), folder.seeds)) for file in earlier_files(folder))
    return History(earlier, read_again(folder), read_key(folder, competition))


def read_key(folder: Folder, competition: Competition) -> bytes:
    """Returns the key for the random ids of matches. If the ids are consecutive numbers, the key is empty."""
    if competition.ids != RANDOM_IDS:
        return b""
    if not folder.key.exists():
        raise Refused(f"{folder.key} is missing", "put it back: the ids of the matches follow from it")
    key = file_bytes(folder.key, MOST_OF_PLANNED)
    if not KEY.fullmatch(key):
        raise Refused(f"{folder.key} is damaged", "restore it from a backup: the ids of the matches follow from it")
    return key


def history_files(folder: Folder) -> list[Path]:
    return [*earlier_files(folder), *([folder.again] if folder.again.exists() else [])]
