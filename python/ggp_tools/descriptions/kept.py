"""Manages the files of the cache directory, and caches the results of grounding. The key of a result is a checksum of everything that it
depends on: the description, the code, the grounder and the options."""

import contextlib
import hashlib
import os
import pathlib
import shutil

from ggp_tools.competition.files import opened_file, write_whole

HERE = pathlib.Path(__file__).resolve().parent
# The cache keeps this many results, and deletes the least recently used ones.
MOST_KEPT = 200
KIND = "instantiated"


def cache() -> pathlib.Path:
    """Returns the cache directory of the user."""
    parent = os.environ.get("XDG_CACHE_HOME") or pathlib.Path.home() / ".cache"
    return pathlib.Path(parent) / "ggp_manager"


def sealed(name: str, data: bytes) -> bytes:
    """Returns the contents of a cached file, with a checksum of the contents and the name. So the file is invalid under another name."""
    return hashlib.sha256(f"{name}\n".encode() + data).hexdigest().encode() + b"\n" + data


def cached(kind: str, name: str) -> bytes | None:
    """Returns what `store` has stored under this name. Returns None if the file has changed since, or if another user may have written it
    or put it there."""
    path = cache() / kind / name
    try:
        with opened_file(path, os.O_NOFOLLOW) as file:
            status = os.fstat(file.fileno())
            if status.st_uid != os.geteuid() or status.st_mode & 0o022:
                return None
            stored = file.read()
        os.utime(path)
    except (OSError, RuntimeError):
        return None
    data = stored.partition(b"\n")[2]
    return data if stored == sealed(name, data) else None


def store(kind: str, name: str, data: bytes, most: int) -> None:
    """Stores a private file, and keeps only the `most` most recently used files of this kind. Ignores errors: a missing result is computed again."""
    with contextlib.suppress(OSError, RuntimeError):
        folder = cache() / kind
        folder.mkdir(parents=True, exist_ok=True)
        write_whole(folder / name, sealed(name, data), is_lasting=False, is_private=True)
        for old in sorted(folder.iterdir(), key=lambda file: file.lstat().st_mtime)[:-most]:
            old.unlink(missing_ok=True)


def sources() -> list[pathlib.Path]:
    """Returns the files of the code that a result depends on."""
    shared = (HERE.parent / name for name in ("gdl.py", "kif.py", "printable.py"))
    return sorted([*(HERE.parent / "instantiating").glob("*.py"), *shared])


def sum_of_work(text: bytes, options: list[str]) -> str:
    """Returns a checksum of everything that a result depends on. The time limit is not included."""
    checksum = hashlib.sha256()
    # The size and the time of the grounder's file identify the grounder, because asking for its version would mean running it.
    path = shutil.which("gringo")
    grounder = f"{path} {os.stat(path).st_size} {os.stat(path).st_mtime_ns}".encode() if path else b""
    for part in (text, grounder, *(file.read_bytes() for file in sources()), *(option.encode() for option in options)):
        checksum.update(b"%d " % len(part) + part)
    return checksum.hexdigest()


def kept(key: str) -> tuple[bytes, bytes] | None:
    """Returns the cached rules and the text for players, or None."""
    result = cached(KIND, key)
    if result is None:
        return None
    size, _, data = result.partition(b"\n")
    return data[: int(size)], data[int(size) :]


def keep(key: str, rules: bytes, player_rules: bytes) -> None:
    store(KIND, key, b"%d\n" % len(rules) + rules + player_rules, MOST_KEPT)
