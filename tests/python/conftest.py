"""Prepares a run of pytest: the program under test, and the order of the modules."""

import os
import pathlib
import sys
from collections.abc import Iterator

import pytest
from hypothesis import HealthCheck, settings
from support import program

sys.dont_write_bytecode = True
os.environ["PYTHONDONTWRITEBYTECODE"] = "1"
# Hypothesis tries the same examples in each run. There is no deadline, because the computer may be busy.
settings.register_profile("fixed", derandomize=True, deadline=None, database=None, suppress_health_check=[HealthCheck.too_slow])
settings.load_profile("fixed")
# These modules play matches and take the longest. They begin first, so that no worker still runs one of them at the end.
LONG = ("demonstration", "slurm", "archive", "play", "whole", "launcher", "grown", "told", "why")


def pytest_addoption(parser: pytest.Parser) -> None:
    parser.addoption("--program", metavar="PATH", type=os.path.abspath, help="the program (GGP_MANAGER, or what tools/program prints)")
    parser.addoption("--no-skips", action="store_true", default="CI" in os.environ, help="a skipped test fails (on if CI is set)")


def pytest_configure(config: pytest.Config) -> None:
    """Finds the program before xdist starts its workers, which inherit the environment. Otherwise each worker would compile it."""
    if config.option.program:
        os.environ["GGP_MANAGER"] = config.option.program
    elif config.getoption("numprocesses", None) and not config.option.collectonly:
        os.environ["GGP_MANAGER"] = program()


def rank(item: pytest.Item) -> int:
    name = pathlib.Path(item.fspath).stem.removeprefix("test_")
    return LONG.index(name) if name in LONG else len(LONG)


def pytest_collection_modifyitems(items: list[pytest.Item]) -> None:
    items.sort(key=rank)


@pytest.hookimpl(hookwrapper=True)
def pytest_runtest_makereport(item: pytest.Item) -> Iterator[None]:
    report = (yield).get_result()
    if report.skipped and item.config.option.no_skips:
        report.outcome, report.longrepr = "failed", f"skipped: {report.longrepr[2] if isinstance(report.longrepr, tuple) else report.longrepr}"


@pytest.fixture(autouse=True)
def keep_recursion_limit() -> Iterator[None]:
    """Restores the recursion limit, which commands raise for their process."""
    before = sys.getrecursionlimit()
    yield
    sys.setrecursionlimit(before)
