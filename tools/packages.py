"""The Debian packages that the tests need in addition to Python and the Rattle toolchain, and their installation."""
import contextlib
import os
import shutil
import subprocess
from collections.abc import Iterator, Sequence
from dataclasses import dataclass

# When a package with a service is installed, the service starts, unless this file forbids it.
POLICY = "/usr/sbin/policy-rc.d"
NO_SERVICES = "#!/bin/sh\nexit 101\n"
SYSTEM = ("/usr/sbin", "/sbin")
MODULES = "/usr/lib/python3/dist-packages"
LIBRARIES = "/usr/lib/x86_64-linux-gnu"


def searched() -> str:
    """Returns PATH, with the missing directories of system commands added."""
    directories = os.environ.get("PATH", os.defpath).split(os.pathsep)
    return os.pathsep.join([*directories, *(directory for directory in SYSTEM if directory not in directories)])


@dataclass(frozen=True)
class Need:
    """A Debian package, the commands and Python modules that the tests use from it, and their purpose."""

    package: str
    commands: tuple[str, ...]
    purpose: str
    is_optional: bool = False

    def lacks(self) -> list[str]:
        """Returns the commands and modules that do not exist."""
        return [command for command in self.commands if not (os.path.exists(command) or shutil.which(command, path=searched()))]


NEEDS = (
    Need("gringo", ("gringo",), "grounds games with variables"),
    Need("slurm-wlm", ("slurmctld", "slurmd", "srun", "sinfo"), "runs the cluster where tests play a competition"),
    Need("munge", ("munged",), "authenticates the nodes of this cluster to one another"),
    Need("iproute2", ("ip",), "makes networks for players and referees"),
    Need("nftables", ("nft",), "makes firewalls for a player and the referee"),
    Need("util-linux", ("unshare", "nsenter", "setpriv"), "ends matches with their competition, makes namespaces, and runs tests as another user"),
    Need("mount", ("mount", "umount"), "mounts a full disk"),
    Need("python3", ("/usr/bin/python3",), "runs the Python tests"),
    Need("python3-jinja2", (f"{MODULES}/jinja2",), "makes pages from templates"),
    Need("python3-aiohttp", (f"{MODULES}/aiohttp",), "serves the live pages of a competition"),
    Need("nginx", ("nginx",), "runs the proxy in front of live pages"),
    Need("python3-numpy", (f"{MODULES}/numpy",), "computes ratings"),
    Need("libopenblas0-serial", (f"{LIBRARIES}/openblas-serial/libblas.so.3",), "lets numpy compute the ratings of many players quickly"),
    Need("python3-bs4", (f"{MODULES}/bs4",), "reads pages in tests"),
    Need("python3-pytest", (f"{MODULES}/pytest",), "runs the Python tests"),
    Need("python3-pytest-xdist", (f"{MODULES}/xdist",), "runs the Python tests in parallel"),
    Need("python3-pytest-timeout", (f"{MODULES}/pytest_timeout.py",), "ends a Python test that hangs"),
    Need("python3-hypothesis", (f"{MODULES}/hypothesis",), "makes random input for Python tests"),
    Need("dpkg", ("dpkg-query",), "lists the packages of the system where the archive is tested"),
    Need("git", ("git",), "lists the files of the archive"),
    Need("chromium", ("chromium",), "shows pages as people see them"),
    Need("groff-base", ("groff",), "formats the pages of the manual"),
    Need("zsh", ("zsh",), "reads the completions for zsh"),
    Need("jq", ("jq",), "reads the log of a season"),
    Need("valgrind", ("valgrind",), "counts the instructions of the program"),
    Need("python3-pytest-cov", (f"{MODULES}/pytest_cov",), "measures the coverage of the Python tests", is_optional=True),
    Need("parallel", ("parallel",), "measurements (bench)", is_optional=True),
    Need("g++", ("g++",), "measurements (bench)", is_optional=True),
    Need("time", ("/usr/bin/time",), "measurements (bench)", is_optional=True),
)


def missing(needs: Sequence[Need]) -> list[Need]:
    """Returns the required packages that are missing."""
    return [need for need in needs if not need.is_optional and need.lacks()]


def spell_missing(needs: Sequence[Need]) -> str:
    return "; ".join(f"{', '.join(need.lacks())} ({need.purpose})" for need in needs)


def installing(packages: Sequence[str]) -> list[str]:
    """Returns the command that installs packages."""
    return ["apt-get", "install", "--yes", "--no-install-recommends", *packages]


def can_install() -> bool:
    return os.geteuid() == 0 and bool(shutil.which("apt-get"))


@contextlib.contextmanager
def no_services(policy: str = POLICY) -> Iterator[None]:
    """While packages are installed, keeps their services from starting. An existing policy stays."""
    if os.path.exists(policy):
        yield
        return
    with open(policy, "w", encoding="utf-8") as file:
        file.write(NO_SERVICES)
    os.chmod(policy, 0o755)
    try:
        yield
    finally:
        os.unlink(policy)


def error_of(command: Sequence[str]) -> str:
    """Runs a command of apt-get. If the command fails, returns the output of the command, otherwise an empty string."""
    how = {"stdin": subprocess.DEVNULL, "stdout": subprocess.PIPE, "stderr": subprocess.STDOUT, "text": True, "errors": "replace"}
    done = subprocess.run(command, env={**os.environ, "DEBIAN_FRONTEND": "noninteractive"}, **how)
    return f"{done.stdout}needs: {' '.join(command)}: status {done.returncode}\n" if done.returncode else ""


def install(packages: Sequence[str]) -> bool:
    """Installs packages. After a failure, updates the lists of packages and tries again. Returns whether this succeeded. If it did not,
    prints the output of apt-get."""
    with no_services():
        error = error_of(installing(packages)) and (error_of(["apt-get", "update"]) or error_of(installing(packages)))
    print(error, end="")
    return not error


def lack_of_rights() -> str | None:
    """Returns the reason why the gate's tests cannot run in this process, or None if they can. These tests make networks, mount a disk and run as
    another user."""
    if os.geteuid():
        return 'the gate needs root, because its tests make networks and mount disks: type: sudo env "PATH=$PATH" make gate'
    made = subprocess.run(["unshare", "--net", "--mount", "true"], stdin=subprocess.DEVNULL, stderr=subprocess.PIPE, text=True)
    return f"the gate's tests make networks and mount disks, which this machine refuses: {made.stderr.strip()}" if made.returncode else None


def install_missing(needs: Sequence[Need] = NEEDS) -> str | None:
    """Installs missing packages. Returns a message about packages that are still missing, and what to type, or None."""
    lacking = missing(needs)
    if not lacking:
        return None
    packages = [need.package for need in lacking]
    if not can_install():
        return f"missing: {spell_missing(lacking)}. In Debian, type: sudo {' '.join(installing(packages))}"
    print(f"needs: installing {' '.join(packages)}, because these are missing: {spell_missing(lacking)}", flush=True)
    if not install(packages):
        return f"apt-get cannot install {' '.join(packages)}; its messages are above"
    lacking = missing(needs)
    return f"missing although their packages are installed: {spell_missing(lacking)}" if lacking else None
