"""Caches facts about the files of a competition. The keys are checksums of everything that the facts depend on, so a lookup for a changed file
never returns outdated facts. The cache is in the user's cache directory, so a competition's directory that comes from somebody else cannot
contain false facts."""

import dataclasses
import hashlib
import io
import os
import pathlib
import pickle
import sys
import threading
import typing

from ggp_tools.competition.files import opened_file
from ggp_tools.descriptions.kept import cached, store

PACKAGE = pathlib.Path(__file__).resolve().parents[1]
CODE = {".py", ".html", ".css", ".js"}
# The cache keeps the facts about this many competitions, and deletes the least recently used ones.
MOST_KEPT = 20
# The facts about a competition have at most this size, which suffices for about 30,000 matches.
MOST_BYTES = 64 << 20
KIND = "known"


def sum_of_parts(*parts: bytes) -> str:
    checksum = hashlib.sha256()
    for part in parts:
        checksum.update(b"%d " % len(part) + part)
    return checksum.hexdigest()


def sum_of_file(path: str | pathlib.Path) -> str:
    with opened_file(path) as file:
        return hashlib.file_digest(file, "sha256").hexdigest()


def sum_or_none(path: str | pathlib.Path) -> str | None:
    """Returns the checksum of a file, or None if it cannot be read."""
    try:
        return sum_of_file(path)
    except OSError:
        return None


class Facts(pickle.Unpickler):
    """Reads stored facts. It accepts only dataclasses of this package and the types in TYPES, so a file that somebody else wrote cannot run
    code."""

    TYPES = {("collections", "Counter"), ("datetime", "datetime"), ("datetime", "timedelta"), ("datetime", "timezone"), ("markupsafe", "Markup")}

    def find_class(self, module: str, name: str) -> typing.Any:
        if module.startswith("ggp_tools.") and "." not in name:
            fact_type = super().find_class(module, name)
            if isinstance(fact_type, type) and dataclasses.is_dataclass(fact_type):
                return fact_type
        elif (module, name) in self.TYPES:
            return super().find_class(module, name)
        raise pickle.UnpicklingError(f"{module}.{name} is not a fact")


def facts_in(data: bytes | None) -> dict[str, typing.Any]:
    """Parses stored facts. If the bytes are not facts, returns an empty dictionary."""
    try:
        facts = Facts(io.BytesIO(data)).load() if data else {}
    except (RuntimeError, pickle.UnpicklingError):
        return {}
    return facts if isinstance(facts, dict) else {}


class Known:
    """The known facts about a competition's directory. The facts of each kind are a dictionary from checksums to values. It is stored as bytes,
    which are parsed only when the first fact of this kind is needed."""

    def __init__(self, folder: pathlib.Path) -> None:
        # The key includes the code, because another version may compute different facts, and cannot read these.
        code = [file.read_bytes() for file in sorted(PACKAGE.rglob("*")) if file.suffix in CODE]
        self.name = sum_of_parts(os.fsencode(folder.absolute()), sys.version.encode(), *code)
        # The stored facts are ignored if their file has changed since it was written, or if another user may have written it.
        self.before, self.read, self.used = facts_in(cached(KIND, self.name)), {}, {}
        # By match id: the key of its result, and the checksum of its record.
        self.checked: dict[str, tuple[str, str]] = {}
        self.lock = threading.Lock()

    def facts(self, kind: str) -> dict[str, typing.Any]:
        """Returns the stored facts of a kind. The lock ensures that only one thread parses them."""
        with self.lock:
            if kind not in self.read:
                self.read[kind] = facts_in(self.before.get(kind))
            return self.read[kind]

    def get(self, kind: str, key: str) -> typing.Any:
        """Returns the stored value of a key, or None if no value is stored."""
        value = self.facts(kind).get(key)
        if value is not None:
            self.put(kind, key, value)
        return value

    def put(self, kind: str, key: str, value: object) -> None:
        self.used.setdefault(kind, {})[key] = value

    def write(self) -> None:
        """Stores the facts. If some facts of a kind were used, all others of this kind are dropped. If the facts cannot be stored, they are
        computed again the next time."""
        new = {kind: pickle.dumps(values) for kind, values in self.used.items() if values != self.facts(kind)}
        if new and len(data := pickle.dumps(self.before | new)) <= MOST_BYTES:
            store(KIND, self.name, data, MOST_KEPT)
