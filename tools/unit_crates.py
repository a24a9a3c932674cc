"""The crates of tests/unit. They are compiled without proofs, in a directory with copies of the repository's crates."""
import os
import re
import shutil
from collections.abc import Iterator

from crates import TOP

UNIT = f"{TOP}/tests/unit"
ENDING = ".test"
# A whole test, with its documentation and its name.
TEST = re.compile(r"^(?:///.*\n)*#\[test\]\nfn (\w+)(?s:.*?)^\}\n", re.M)


def lines_of(file: str) -> list[str]:
    """Returns the lines of a file that are neither empty nor comments of crates.txt."""
    with open(file, encoding="utf-8") as lines:
        return [line for line in lines.read().splitlines() if line.partition("#")[0].strip()]


def unit_crates() -> list[str]:
    """Returns the names of the crates of tests/unit, in the order of tests.txt."""
    return [line.partition(":")[0].split()[0] for line in lines_of(f"{UNIT}/tests.txt")]


def is_program(name: str) -> bool:
    """Returns whether a crate is a program for a tool, and has no tests."""
    return os.path.exists(f"{UNIT}/{name}/src/main.rt.test")


def files_of(crate: str) -> Iterator[str]:
    """Yields the paths of a crate's sources and definitions, relative to its directory."""
    for part in ("src", "specs"):
        for at, _, files in os.walk(f"{crate}/{part}"):
            yield from (os.path.relpath(f"{at}/{file}", crate) for file in sorted(files))


def lines_in(name: str) -> int:
    """Returns how many lines a crate of tests has."""
    return sum(len(lines_of(f"{UNIT}/{name}/{file}")) for file in files_of(f"{UNIT}/{name}"))


def module_of(file: str) -> str:
    """Returns the first part of the names of the tests in a file of src/: its module, or an empty string for lib.rt."""
    module = file.removeprefix("src/").removesuffix(ENDING).removesuffix(".rt").replace("/", "::")
    return "" if module == "lib" else f"{module}::"


def without_other_tests(text: str, module: str, part: str) -> tuple[str, list[str]]:
    """Returns the text of a file without the tests whose names do not contain `part`, and the names of the remaining tests."""
    names = [name for name in (module + match[1] for match in TEST.finditer(text)) if part in name]
    return TEST.sub(lambda match: match[0] if module + match[1] in names else "", text), names


def leave_tests(top: str, name: str, part: str) -> list[str]:
    """In the copy of a crate, removes the tests whose names do not contain `part`. Returns the names of the remaining tests."""
    kept = []
    for file in files_of(f"{top}/crates/{name}"):
        path = f"{top}/crates/{name}/{file}"
        with open(path, encoding="utf-8") as stream:
            text, names = without_other_tests(stream.read(), module_of(file), part)
        kept += names
        with open(path, "w", encoding="utf-8") as stream:
            stream.write(text)
    return kept


def lay_out(top: str) -> None:
    """Fills a directory with copies of the repository's crates and of the crates of tests/unit. In the copies, file names do not have the
    ending `.test`."""
    os.makedirs(f"{top}/.git")
    shutil.copy(f"{TOP}/HANDLES", top)
    with open(f"{top}/crates.txt", "w", encoding="utf-8") as stream:
        stream.write("\n".join([*lines_of(f"{TOP}/crates.txt"), *lines_of(f"{UNIT}/tests.txt"), ""]))
    for crates in (f"{TOP}/crates", UNIT):
        for name in sorted(os.listdir(crates)):
            for file in files_of(f"{crates}/{name}"):
                copy = f"{top}/crates/{name}/{file.removesuffix(ENDING)}"
                os.makedirs(os.path.dirname(copy), exist_ok=True)
                shutil.copy(f"{crates}/{name}/{file}", copy)
