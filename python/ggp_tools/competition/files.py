"""Defines the paths of a competition's files, and how they are read and written."""

import contextlib
import errno
import fcntl
import io
import os
import pathlib
import resource
import stat
from collections.abc import Iterator
from typing import TYPE_CHECKING, BinaryIO

from ggp_tools.match_log import Event, last_run, published

if TYPE_CHECKING:
    from ggp_tools.competition.competition_file import Game

UNFINISHED = ".unfinished-"
# The file in the directory of an open match that names the players. If no referee is playing the match, these players must be sent ABORT.
PLAYERS = "players"
# The stages of an open match. The stage is the name of an empty file in the match's directory.
STAGES = ASKING, PLAYING, CHECKING = "asking", "playing", "checking"
# The limit on open files. It suffices for the maximum number of matches at the same time, and for the maximum number of connections.
DESCRIPTORS = 16_384
# The maximum size of a plan's file that is read as a whole.
MOST_OF_PLANNED = 64 << 20
# The mode of files that only their owner may read: those of open matches, players and `play`, and the key of the ids.
PRIVATE = 0o600


class Refused(Exception):
    """The reason why a command ends, which may have several lines. `advice` applies to the directory of a competition, but not to an archive."""

    def __init__(self, words: str, advice: str | None = None) -> None:
        super().__init__(f"{words}: {advice}" if advice else words)
        self.words = words


def allow_files() -> int:
    """Raises the limit on open files to DESCRIPTORS, or as far as the system allows. Returns the new limit."""
    soft, hard = resource.getrlimit(resource.RLIMIT_NOFILE)
    most = max(soft, min(hard, DESCRIPTORS))
    resource.setrlimit(resource.RLIMIT_NOFILE, (most, hard))
    return most


@contextlib.contextmanager
def locked(path: pathlib.Path) -> Iterator[None]:
    """Locks the directory of a competition. If the process is killed, the system releases the lock."""
    path = pathlib.Path(path)
    try:
        descriptor = os.open(path, os.O_RDONLY)
    except OSError as why:
        raise Refused(f"{path} can't be read: {why.strerror}") from None
    try:
        try:
            fcntl.flock(descriptor, fcntl.LOCK_EX | fcntl.LOCK_NB)
        except BlockingIOError:
            raise Refused(f"{path}: another command is planning, playing or publishing this competition") from None
        except OSError as why:
            # Some network file systems have no locks. Without a lock, another run would go unnoticed.
            raise Refused(f"{path} can't be locked: {why.strerror}") from None
        yield
    finally:
        os.close(descriptor)


def lock_place(folder: str | pathlib.Path) -> str:
    """Returns how /proc/locks names a directory: by its device and its inode number. The device is that of the mount, because some file
    systems report a different device for their files."""
    descriptor = os.open(folder, os.O_PATH | os.O_CLOEXEC)
    try:
        mount = pathlib.Path(f"/proc/self/fdinfo/{descriptor}").read_text("ascii").partition("mnt_id:")[2].split()[0]
        status = os.fstat(descriptor)
    finally:
        os.close(descriptor)
    mounts = (line.split() for line in pathlib.Path("/proc/self/mountinfo").read_bytes().decode("ascii", "replace").splitlines())
    device = next((line[2] for line in mounts if line[0] == mount), f"{os.major(status.st_dev)}:{os.minor(status.st_dev)}")
    major, minor = map(int, device.split(":"))
    return f"{major:02x}:{minor:02x}:{status.st_ino}"


def sync(folder: pathlib.Path) -> None:
    """Waits until the names in a directory are on the disk."""
    descriptor = os.open(folder, os.O_RDONLY)
    try:
        os.fsync(descriptor)
    finally:
        os.close(descriptor)


def private(name: str, flags: int) -> int:
    """Opens a file. If the file is new, only its owner can read it."""
    return os.open(name, flags, PRIVATE)


@contextlib.contextmanager
def written_whole(path: pathlib.Path, is_lasting: bool = True, is_private: bool = False) -> Iterator[BinaryIO]:
    """Yields a file to write to. The file has a temporary name until it is complete, so a partly written file never has the final name.
    With `is_lasting`, the file is on the disk at the end. Otherwise, it may be lost if the computer crashes. If writing fails, deletes the
    temporary file."""
    path = pathlib.Path(path)
    # Two runs may write the same file, so each uses a different temporary name.
    other = path.with_name(f"{UNFINISHED}{os.getpid()}-{path.name}")
    try:
        if is_private:
            # Another user may have created a link with the temporary name.
            other.unlink(missing_ok=True)
        with open(other, "xb" if is_private else "wb", opener=private if is_private else None) as file:
            yield file
            file.flush()
            if is_lasting:
                os.fsync(file.fileno())
        os.replace(other, path)
    except BaseException as why:
        with contextlib.suppress(OSError):
            other.unlink()
        if isinstance(why, OSError) and why.filename in (None, str(other)):
            # The error of a failed write does not name the file, and the temporary name would mean nothing to the user.
            raise OSError(why.errno, why.strerror, str(path)) from None
        raise
    if is_lasting:
        sync(path.parent)


def write_whole(path: pathlib.Path, data: bytes, is_lasting: bool = True, is_private: bool = False) -> None:
    """Writes a file, completely or not at all."""
    with written_whole(path, is_lasting, is_private) as file:
        file.write(data)


def drop_unfinished(folder: pathlib.Path) -> None:
    """Deletes the unfinished files that ended processes have left in a directory. This process must not be writing files in the directory."""
    for file in folder.glob(f"{UNFINISHED}*"):
        # The name contains the id of the process that writes the file.
        number = file.name.removeprefix(UNFINISHED).partition("-")[0]
        if not (number.isdecimal() and number != str(os.getpid()) and os.path.exists(f"/proc/{number}")):
            file.unlink(missing_ok=True)


def new_file(path: str | pathlib.Path) -> BinaryIO:
    """Opens a new private file, for example the log of an open match."""
    return open(path, "wb", buffering=0, opener=private)


def opened_file(path: str | pathlib.Path, flags: int = 0) -> BinaryIO:
    """Opens a regular file for reading. Refuses all other files, for example a pipe, which would block the reader until another process writes
    to it."""
    descriptor = os.open(path, os.O_RDONLY | os.O_NONBLOCK | os.O_CLOEXEC | flags)
    kind = os.fstat(descriptor).st_mode
    if not stat.S_ISREG(kind):
        os.close(descriptor)
        code = errno.EISDIR if stat.S_ISDIR(kind) else errno.EINVAL
        raise OSError(code, os.strerror(code) if stat.S_ISDIR(kind) else "it is not a regular file", str(path))
    return open(descriptor, "rb")


def file_bytes(path: str | pathlib.Path, most: int = -1) -> bytes:
    """Returns the bytes of a regular file, or only the first `most` of them."""
    with opened_file(path) as file:
        return file.read(most)


class Folder:
    def __init__(self, path: pathlib.Path | str) -> None:
        self.path = pathlib.Path(path)
        self.competition = self.path / "competition.toml"
        self.schedule = self.path / "schedule.tsv"
        # The competition.toml that `plan` read last; the earlier versions; the matches that are played again.
        self.planned, self.earlier, self.again = self.path / "planned.toml", self.path / "earlier", self.path / "again.tsv"
        # The key for the random ids of matches.
        self.key = self.path / "ids.key"
        # The table of another competition that gives the seeds.
        self.seeds = self.path / "seeds.csv"
        self.rules, self.open = self.path / "rules", self.path / "open"
        # The checksums of the rules, and of the descriptions that `plan` made them from.
        self.rule_sums, self.description_sums = self.rules / "SHA256SUMS", self.rules / "DESCRIPTIONS.sha256"
        self.records, self.accounts, self.logs = (self.path / name for name in ("records", "accounts", "logs"))
        self.matches, self.pages = self.path / "matches.jsonl", self.path / "pages"
        # The journal lists the actions of `play` with their times. The directory `players` contains the logs of the players that `play` starts.
        self.journal, self.players = self.path / "play.log", self.path / "players"

    def rules_of(self, game: str) -> pathlib.Path:
        return self.rules / f"{game}.kif"

    def player_rules_of(self, game: str) -> pathlib.Path:
        """Returns the file of the rules that players get."""
        return self.rules / f"{game}.players"

    def rule_files(self, game: "Game") -> list[pathlib.Path]:
        """Returns the files that `plan` writes for a game: its rules and, if players get other rules, those rules too."""
        return [self.rules_of(game.name), *([self.player_rules_of(game.name)] if game.tells_variables() else [])]

    def description(self, game: "Game") -> pathlib.Path:
        """Returns the file of a game's description. If competition.toml also names ground rules, this is the GDL file with variables."""
        return self.path / (game.described or game.file)

    def record(self, match: str) -> pathlib.Path:
        return self.records / f"{match}.json"

    def account(self, match: str) -> pathlib.Path:
        return self.accounts / f"{match}.txt"

    def log(self, match: str) -> pathlib.Path:
        return self.logs / f"{match}.jsonl"

    def open_log(self, match: str) -> pathlib.Path:
        """Returns the log of an open match."""
        return self.open / match / "log.jsonl"

    def has_log(self, match: str) -> bool:
        return self.log(match).is_file()

    def whole_log(self, match: str) -> bytes:
        """Returns the log of a match. If the file is missing, the log is empty: the match counts, but its times are unknown."""
        return file_bytes(self.log(match)) if self.has_log(match) else b""

    def read_log(self, match: str) -> bytes:
        """Returns the log of a match as it is published."""
        return published(self.whole_log(match), match)

    def run_of(self, match: str) -> list[Event]:
        """Returns the events of the last run of a match."""
        return last_run(io.BytesIO(self.whole_log(match)), match)

    def part_of_log(self, match: str, most: int) -> tuple[bytes, bool]:
        """Returns the last whole lines of a match's log, with at most this many bytes in total, and whether there are more lines. If the
        log is missing, there are no lines."""
        if not self.has_log(match):
            return b"", False
        with opened_file(self.log(match)) as file:
            if is_cut := (size := os.fstat(file.fileno()).st_size) > most:
                # The part may begin within a line. Such an incomplete line is left out.
                file.seek(size - most - 1)
                file.readline(most)
            return file.read(most), is_cut

    def mark(self) -> str:
        """Returns the mark of the programs that `play` runs for this competition. `play` uses it to recognize them."""
        return os.path.realpath(self.path)

    def refuse_old_logs(self) -> None:
        """Refuses a competition that was played with a version whose logs are not JSON."""
        if old := next(self.logs.glob("*.txt"), None):
            raise Refused(f"{old} is a log of ggp_manager 0.2.0", "use that version for this competition")

    def must_be_text(self) -> None:
        """Refuses a directory whose path the referee would not accept as an argument."""
        try:
            os.fsencode(self.path.absolute()).decode("utf-8")
        except UnicodeDecodeError:
            raise Refused(f"{self.path.absolute()}: the path of a competition must be UTF-8, because the referee accepts no other") from None

    def make(self, *folders: pathlib.Path) -> None:
        """Creates missing directories, and waits until they are on the disk. Only their owner can read the directory of open matches and a new
        directory of players' logs, because other users could see from a growing log when a player has answered."""
        for folder in (self.path, *folders):
            if not folder.is_dir():
                folder.mkdir(0o700 if folder == self.players else 0o777, parents=True, exist_ok=True)
                sync(folder.parent)
            if folder == self.open:
                folder.chmod(0o700)

    def drop_unfinished(self) -> None:
        for folder in (self.path, self.rules, self.earlier, self.records, self.accounts, self.logs):
            drop_unfinished(folder)
