"""The mutants of Python code, and which of them tests detect."""
import importlib.util
import subprocess
from importlib.machinery import SourceFileLoader
from pathlib import Path

import pytest
from crates import TOP
from mutants import mutants

loader = SourceFileLoader("mutate", f"{TOP}/tools/mutate")
mutate = importlib.util.module_from_spec(importlib.util.spec_from_loader("mutate", loader))
loader.exec_module(mutate)

SMALL = """
def is_few(number):
    return number <= 3


def count():
    found = 0
    while found < 2:
        found += 1
    return found
"""
TESTS = """
import pathlib, sys
sys.path.append(str(pathlib.Path(__file__).parents[2] / "python"))
from ggp_tools.small import count, is_few


def test_few():
    assert is_few(2) and is_few(3)


def test_count():
    assert count() == 2
"""


@pytest.mark.parametrize(
    "source, texts",
    [
        ("a < b <= c", ["a <= b <= c", "a > b <= c", "a < b < c", "a < b >= c"]),
        ("a in b", ["a not in b"]),
        ("if a:\n    b", ["if not a:\n    b"]),
        ("not a", ["a"]),
        ("a and b or c", ["c", "a and b", "b or c", "a or c"]),
        ("[a for a in b if a]", ["[a for a in b if True]"]),
        ("x = 7", ["x = 8", "x = 6"]),
        ("x = 0", ["x = 1"]),
        ("x = True", ["x = False"]),
        ("range(n)", ["pass", "range(n + 1)"]),
        ("x = a[n:]", ["x = a[n + 1:]"]),
        ("x = a == 'won'", ["x = a != 'won'", "x = a == 'wo'"]),
        ("x = a.strip()", ["x = a"]),
        ("raise E", ["pass"]),
        ("def f():\n    for a in b:\n        return a\n    return c", ["def f():\n    for a in b:\n        pass\n    return c"]),
        ("a.b = c", ["pass"]),
        ("x = f(a, b, c)", ["x = f(b, a, c)", "x = f(a, c, b)"]),
        ("x = min(a, b)", ["x = max(a, b)"]),
        ("x += a & b", ["x -= a & b", "x += a | b"]),
        ('"""Adds 1."""', []),
        ("def f(a: int = None) -> list[1]:\n    pass", []),
        ('x = f"{a - 1} of 3"', ["x = f'{a + 1} of 3'", "x = f'{a - 2} of 3'", "x = f'{a - 0} of 3'"]),
    ],
)
def test_each_mutant_changes_one_thing(source, texts):
    assert [mutant.text for mutant in mutants(source)] == texts


def test_a_mutant_is_named_by_its_function_and_what_changed():
    source = "class A:\n    def f(self):\n        def g():\n            return 0"
    assert [str(mutant) for mutant in mutants(source)] == ["A.f.g: -return 0 | +return 1"]


def test_what_no_test_finds_is_left(tmp_path: Path, monkeypatch):
    for name, text in (("python/ggp_tools/small.py", SMALL), ("tests/python/test_small.py", TESTS), ("tests/python/test_other.py", "")):
        (tmp_path / "repository" / name).parent.mkdir(parents=True, exist_ok=True)
        (tmp_path / "repository" / name).write_text(text, encoding="utf-8")
    subprocess.run(["git", "init", "-q"], cwd=tmp_path / "repository", check=True)
    monkeypatch.setattr(mutate, "TOP", str(tmp_path / "repository"))
    assert mutate.tests_of("small") == ["test_small.py"]
    room = mutate.copy_repository(tmp_path / "room")
    # The loops that do not end are left out.
    tried = [mutant for mutant in mutants(SMALL) if "found +=" not in mutant.change and "found >" not in mutant.change]
    left = [*map(str, mutate.survivors("small", tried, ["test_small.py"], [room]))]
    assert left == ["is_few: -return number <= 3 | +return number <= 4", "count: -found = 0 | +found = 1"]
    assert (room / "python/ggp_tools/small.py").read_text(encoding="utf-8") == SMALL


def test_rows_of_modules_that_have_changed_are_dropped(tmp_path: Path):
    results = tmp_path / "python.txt"
    kept = f"referee 8 1 2026-01-01 {mutate.checksum('referee')}\n"
    results.write_text(f"# old head\nkif 7 0 2026-01-01 0123456789ab\ngone 5 0 2026-01-01 0123456789ab\n{kept}", encoding="utf-8")
    mutate.write_rows({"answers": "answers 9 2 2026-01-02 0123456789ab\n"}, str(results))
    head, *rows = results.read_text(encoding="utf-8").splitlines(keepends=True)
    assert (head, rows) == (mutate.HEAD, ["answers 9 2 2026-01-02 0123456789ab\n", kept])


def test_a_checksum_is_of_the_code_alone(tmp_path: Path, monkeypatch):
    (tmp_path / mutate.PACKAGE).mkdir(parents=True)
    monkeypatch.setattr(mutate, "TOP", str(tmp_path))
    sums = []
    for text in ("a = 1\n", "# A comment.\na  =  1", "a = 2\n"):
        (tmp_path / mutate.PACKAGE / "small.py").write_text(text, encoding="utf-8")
        sums.append(mutate.checksum("small"))
    assert sums[0] == sums[1] != sums[2] and mutate.checksum("gone") == ""
