"""The Debian packages that are installed here, and their dependencies."""
import re
import subprocess
import typing

FIELDS = "${Package}\t${Pre-Depends}, ${Depends}\t${Provides}\n"


class Package(typing.NamedTuple):
    """An installed package: the alternatives of each dependency, and the names that the package provides."""

    needs: list[list[str]]
    provides: list[str]


def names_in(field: str) -> list[list[str]]:
    """Returns the names in a field of a package, each with its alternatives, without versions and architectures."""
    parts = [part for part in re.split(r",\s*", field.strip()) if part.strip(", ")]
    return [[re.split(r"[\s:(]", name.strip())[0] for name in part.split("|")] for part in parts]


def installed(text: str) -> dict[str, Package]:
    """Parses the packages in a text of fields."""
    packages = {}
    for line in text.splitlines():
        name, needs, provides = line.split("\t")
        packages[name] = Package(names_in(needs), [names[0] for names in names_in(provides)])
    return packages


def closure(wanted: typing.Iterable[str], known: dict[str, Package]) -> list[str]:
    """Returns the packages `wanted`, and all installed packages that these packages depend on."""
    of_name = {name: package for package, found in known.items() for name in found.provides} | {name: name for name in known}
    found, left = set(), [*wanted]
    while left:
        name = left.pop()
        if name not in found:
            found.add(name)
            left += [package for names in known[name].needs if (package := first_of(names, of_name))]
    return sorted(found)


def first_of(names: list[str], of_name: dict[str, str]) -> str | None:
    """Returns the first installed package of some alternatives, or None."""
    return next((of_name[name] for name in names if name in of_name), None)


def packages_here() -> dict[str, Package]:
    """Returns the packages that are installed here."""
    said = subprocess.run(["dpkg-query", "--show", f"--showformat={FIELDS}"], stdout=subprocess.PIPE, text=True, check=True).stdout
    return installed(said)
