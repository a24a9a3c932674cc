"""Checks that Python is recent enough, and that the gate has passed with the installed version of the Rattle toolchain. Otherwise, each tool reports the
problem in one line before it does anything else. Any Python 3 can run this file, so an old Python can report that it is too old."""
import importlib.machinery
import importlib.util
import os
import shutil
import subprocess
import sys

PYTHON = (3, 11)
# The versions of the toolchain that have passed the gate.
TOOLCHAINS = ("rattle-kit-13b", "rattle-kit-13f")
WHAT_TO_DO = (
    "ask the person who gave you this repository for it (it is not public yet), unpack it, "
    "and put its directory bin into PATH, for example: export PATH=/opt/rattle/bin:$PATH"
)
PYTHON_ERROR = "Python %d.%d runs the tools, but they need %d.%d or later: install a later one from your system's packages or https://www.python.org/downloads"


def spell_toolchains():
    return " or ".join(TOOLCHAINS)


def python_error(version):
    """Returns the error message for this version of Python, or None."""
    if version[:2] >= PYTHON:
        return None
    return PYTHON_ERROR % (*version[:2], *PYTHON)


def toolchain_error(version):
    """Returns the error message for a toolchain, or None. `version` is the output of `rt version`, or None if there is no `rt`."""
    if version is None:
        return "the command rt is missing; it is part of the Rattle toolchain, " + spell_toolchains() + ": " + WHAT_TO_DO
    words = version.split()
    if words and words[0] in TOOLCHAINS:
        return None
    name = words[0] if words else "of an unknown version"
    return "the Rattle toolchain here is " + name + ", but this repository is proved with " + spell_toolchains() + ": " + WHAT_TO_DO


def toolchain_version():
    """Returns what `rt version` prints, or None if there is no `rt`."""
    if not shutil.which("rt"):
        return None
    return subprocess.run(["rt", "version"], stdout=subprocess.PIPE, universal_newlines=True).stdout.strip()


def require_toolchain():
    """Returns the output of `rt version`. If the toolchain is missing or has another version, prints one line and exits."""
    version = toolchain_version()
    error = toolchain_error(version)
    if error:
        sys.exit("ggp_manager: " + error)
    return version


def load_rt():
    """Loads the command `rt` as a module, to call functions that the command has no option for."""
    loader = importlib.machinery.SourceFileLoader("rt_command", os.path.realpath(shutil.which("rt")))
    rt = importlib.util.module_from_spec(importlib.util.spec_from_loader("rt_command", loader))
    loader.exec_module(rt)
    return rt


if python_error(sys.version_info):
    sys.exit("ggp_manager: " + python_error(sys.version_info))
