"""Shared by the tools: the crates of the repository, checksums of their text, and the format of times."""
import hashlib
import os
import re

from needs import toolchain_version

TOP = os.path.dirname(os.path.dirname(os.path.realpath(__file__)))
PROGRAM = "ggp_manager"
PARTS = ("src", "specs", "proofs")


def rows(text):
    """Returns, in order, each crate in a text in the format of crates.txt, with its line and the crates that it uses."""
    result = {}
    for line in text.splitlines():
        head, colon, deps = line.partition("#")[0].partition(":")
        if colon:
            result[head.split()[0]] = line, deps.split()
    return result


def crate_rows():
    with open(f"{TOP}/crates.txt", encoding="utf-8") as file:
        return rows(file.read())


def own_deps(found):
    """Returns, for each crate in `found`, the crates that it uses and that are also in `found`."""
    return {name: [dep for dep in deps if dep in found] for name, (_, deps) in found.items()}


def crates():
    """Returns each crate with the repository's crates that it uses, in the order of crates.txt."""
    return own_deps(crate_rows())


def below(name, known=None):
    """Returns the crates that a crate uses, directly or indirectly. Each comes after the crates that it uses itself."""
    known = known or crates()
    order = []
    for dep in known[name]:
        order += [lower for lower in [*below(dep, known), dep] if lower not in order]
    return order


def with_below(names, known):
    """Returns the crates `names` and all crates that these crates use, the lower crates first."""
    order = []
    for name in names:
        order += [lower for lower in [*below(name, known), name] if lower not in order]
    return order


def texts_of(name, parts=PARTS):
    """Returns the paths of a crate's files, relative to the top."""
    paths = []
    for part in parts:
        for at, _, files in os.walk(f"{TOP}/crates/{name}/{part}"):
            paths += [os.path.relpath(f"{at}/{file}", TOP) for file in files]
    return sorted(paths)


def strays(folder, names, top=TOP):
    """Returns the non-empty subdirectories of a directory whose names are not in `names`. No tool would read these subdirectories."""
    with os.scandir(f"{top}/{folder}") as entries:
        others = sorted(entry.name for entry in entries if entry.is_dir() and entry.name not in names)
    return [other for other in others if any(files for _, _, files in os.walk(f"{top}/{folder}/{other}"))]


def sum_of(file):
    with open(file, "rb") as stream:
        return hashlib.sha256(stream.read()).hexdigest()


def text_sum(names, parts=PARTS):
    """Returns a checksum of the text of these crates: the checksum of the output of `sha256sum` for their files, crates.txt and HANDLES."""
    files = ["HANDLES", "crates.txt", *(file for name in names for file in texts_of(name, parts))]
    lines = "".join(f"{sum_of(f'{TOP}/{file}')}  {file}\n" for file in sorted(files))
    return hashlib.sha256(lines.encode()).hexdigest()


def made_from(parts=PARTS):
    """Describes what the program is made from, in lines: the toolchain, and a checksum of the text."""
    return f"kit: {toolchain_version()}\ntext: {text_sum(with_below([PROGRAM], crates()), parts)}\n"


def said_of(program, made):
    """Returns the contents of the file next to a program: what the program was made from, and the checksum of the program."""
    return f"{made}program: {sum_of(program)}\n"


def write_beside(program, ending, made):
    """Writes a file next to a program that says what the program was made from. A build writes this file last, so that an interrupted build
    does not count as current."""
    with open(f"{program}.{ending}.new", "w", encoding="utf-8") as file:
        file.write(said_of(program, made))
    os.replace(f"{program}.{ending}.new", f"{program}.{ending}")


def is_current(program, ending, made=None):
    """Returns whether a program exists and was made from the text `made` (by default the current text), according to the file next to
    it."""
    try:
        with open(f"{program}.{ending}", encoding="utf-8") as file:
            return os.access(program, os.X_OK) and file.read() == said_of(program, made or made_from())
    except OSError:
        return False


def spell(seconds):
    """Formats a time for people."""
    minutes, rest = divmod(round(seconds), 60)
    return f"{minutes} min {rest:02} s" if minutes else f"{rest} s"


def said_words(line):
    """Returns the pairs NAME=VALUE in a line of the prover."""
    return dict(re.findall(r"(\S+?)=(\S+)", line))


# ---- imports between crates

COMMENT = re.compile(r"(?<!\S)--(?!\S).*|(?<!\S)//.*")
# A module of a crate, and the names that are imported from it.
NAMED = re.compile(r"\bRattle\.(\w+)((?:\.\w+)*?\.(?:proofs|Internal)\b(?:\.\w+)*)(?:\.(\{[^}]*\}))?")


def is_within(path, crate):
    """Returns whether a file of a crate may use the crate's internal definitions. The crate's code, its proofs and the internal definitions
    themselves may."""
    return not path.startswith(f"crates/{crate}/specs/") or path.startswith(f"crates/{crate}/specs/Internal")


def reaching(path, text, known):
    """Yields the imports of non-public definitions of other crates in a file: the module, and each name or `*`."""
    own = path.split("/")[1]
    for match in NAMED.finditer(COMMENT.sub("", text)):
        crate, module, names = match[1], f"{match[1]}{match[2]}", match[3] or ""
        if crate not in known or crate == own and is_within(path, own):
            continue
        for name in [word.split()[0] for word in names.strip("{}").split(",") if word.strip()] or ["*"]:
            yield module, name


def unmentioned(deps, texts):
    """Returns the crates that a row of crates.txt lists but no text of the crate mentions."""
    words = {word for text in texts for word in re.findall(r"\w+", COMMENT.sub("", text))}
    return [dep for dep in deps if dep not in words]
