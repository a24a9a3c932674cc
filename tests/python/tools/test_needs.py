"""The messages of the tools if Python or the Rattle toolchain is missing or too old."""
import os
import pathlib
import subprocess
import sys

import pytest
from crates import TOP
from needs import TOOLCHAINS, python_error, toolchain_error


def test_a_python_that_is_new_enough() -> None:
    assert python_error((3, 11, 0)) is None and python_error((4, 0, 0)) is None


def test_an_old_python_reads_what_to_install() -> None:
    error = python_error((3, 10, 12))
    assert all(part in error for part in ("Python 3.10", "3.11 or later", "https://www.python.org"))


@pytest.mark.parametrize("name", TOOLCHAINS)
def test_each_toolchain_of_the_gate_serves(name: str) -> None:
    assert toolchain_error(f"{name} logic 0123456789abcdef") is None


@pytest.mark.parametrize(("version", "part"), [(None, "the command rt is missing"), ("rattle-kit-12a logic 01", "is rattle-kit-12a,"), ("", "is of an unknown version,")])
def test_another_or_no_toolchain_is_reported_with_what_to_do(version: str | None, part: str) -> None:
    error = toolchain_error(version)
    assert part in error and all(name in error for name in TOOLCHAINS) and "export PATH=" in error and "\n" not in error


def test_without_the_toolchain_the_gate_prints_one_line_and_ends(tmp_path: pathlib.Path) -> None:
    for name in ("python3", "env"):
        (tmp_path / name).symlink_to(sys.executable if name == "python3" else "/usr/bin/env")
    ran = subprocess.run([f"{TOP}/tools/gate", "test"], env={**os.environ, "PATH": str(tmp_path)}, capture_output=True, text=True)
    assert (ran.returncode, ran.stdout, ran.stderr.count("\n")) == (1, "", 1)
    assert ran.stderr.startswith("ggp_manager: the command rt is missing")
