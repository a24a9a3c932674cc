"""Generates the layers and tables of crates in a document from crates.txt, tests/unit/tests.txt, and the first sentence about each crate."""
import functools
import re

from crates import TOP, below, crate_rows, crates
from unit_crates import UNIT, is_program, unit_crates

CRATES = "| Crate | Uses | Purpose |"
TESTS = "| Crate of tests | What it tests |"
# The layers are in the code block after this line.
LAYERS = "These are the crates of the program. Each crate uses only crates in rows below its own:"
LAYER_ROWS = r"\n\n(?:    .*\n)*"
# Crates that no crate of the program uses.
ANNEXES = ("worked",)
# A table is its head and the rows below it.
ROWS = r"\n(?:\|.*\n)*"
COMMENT = re.compile(r"((?:^//! .*\n)+)", re.MULTILINE)

Row = tuple[str, ...]


def first_sentence(text: str) -> str:
    """Returns the first sentence of a text on one line, without its full stop."""
    return re.split(r"(?<=\.)\s", " ".join(text.split()), maxsplit=1)[0].rstrip(".")


def purpose(readme: str) -> str:
    """Returns the purpose of a crate: the first sentence of its README.md."""
    return first_sentence(next(part for part in readme.split("\n\n") if not part.startswith("#")))


def comment_of(source: str) -> str:
    """Returns the first sentence of the comment at the top of a Rattle file."""
    comment = COMMENT.match(source)
    return first_sentence(comment[1].replace("//! ", "")) if comment else ""


def nearest(deps: list[str], known: dict[str, list[str]]) -> list[str]:
    """Returns the crates of `deps` that no other crate of `deps` uses."""
    return [dep for dep in deps if not any(dep in below(other, known) for other in deps)]


def spelled(names: list[str]) -> str:
    return ", ".join(f"`{name}`" for name in names)


def read(file: str) -> str:
    with open(file, encoding="utf-8") as source:
        return source.read()


def crate_table(known: dict[str, list[str]]) -> list[Row]:
    """Returns a row for each crate: its name, the crates that it uses directly (including crates of the toolchain), and its purpose."""
    rows = []
    for name, (_, deps) in crate_rows().items():
        stands_on = [*nearest(known[name], known), *(dep for dep in deps if dep not in known)]
        rows.append((f"`{name}`", spelled(stands_on), purpose(read(f"{TOP}/crates/{name}/README.md"))))
    return rows


def test_table() -> list[Row]:
    """Returns a row for each test crate: its name and its purpose."""
    roots = {name: "main" if is_program(name) else "lib" for name in unit_crates()}
    return [(f"`{name}`", comment_of(read(f"{UNIT}/{name}/src/{root}.rt.test"))) for name, root in roots.items()]


def layers(known: dict[str, list[str]]) -> list[list[str]]:
    """Returns the crates of the program by layer, the highest first. Each crate is one layer above the highest crate that it uses."""
    @functools.cache
    def height(name: str) -> int:
        return max((height(dep) + 1 for dep in known[name] if dep in known), default=0)

    own = [name for name in known if not name.startswith(ANNEXES)]
    return [[name for name in own if height(name) == level] for level in range(max(map(height, own)), -1, -1)]


def with_layers(text: str, new: list[list[str]]) -> str:
    """Replaces the layers in a text."""
    body = "".join(f"    {' '.join(names)}\n" for names in new)
    return re.sub(re.escape(LAYERS) + LAYER_ROWS, lambda _: f"{LAYERS}\n\n{body}", text)


def with_table(text: str, head: str, rows: list[Row]) -> str:
    """Returns the text with new rows in the table that has this head."""
    lines = ["|".join(["", *["---"] * (head.count("|") - 1), ""]), *(f"| {' | '.join(row)} |".replace("|  |", "| |") for row in rows)]
    body = "".join(f"{line}\n" for line in lines)
    return re.sub(re.escape(head) + ROWS, lambda _: f"{head}\n{body}", text)


def with_tables(text: str) -> str:
    """Returns a document with up-to-date layers and tables."""
    known = crates()
    return with_table(with_table(with_layers(text, layers(known)), CRATES, crate_table(known)), TESTS, test_table())
