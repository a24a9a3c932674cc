"""Parses documents: the contracts that they name, code samples that come from files, and sentences that are too long."""
import functools
import glob
import re
import typing

from crates import TOP

# ---- contracts

BLOCK = re.compile(r"^(?:pub(?:\([a-z]+\))? )?(impl|trait|struct|enum)\b([^{;(]*)", re.MULTILINE)
FUNCTION = re.compile(r"^( *)(?:pub(?:\([a-z]+\))? )?(?:const )?fn (\w+)", re.MULTILINE)
GENERICS = re.compile(r"<[^<>]*>")


def read(file):
    with open(file, encoding="utf-8") as stream:
        return stream.read()


def plain(head):
    """Removes the type parameters from the head of a block: `impl<G: Game> Object for Manager<G>` becomes `Object for Manager`."""
    while GENERICS.search(head):
        head = GENERICS.sub("", head)
    return " ".join(head.split()).partition(" where ")[0].partition(":")[0].strip()


def block_from(text, at):
    """Returns a top-level block: up to its closing brace, or one line."""
    first = text[at : text.index("\n", at)]
    return first if first.endswith((";", "{}")) else text[at : text.find("\n}", at)]


def contract_from(text, at, indent):
    """Returns a function's signature with its contract, without its body."""
    lines = []
    for line in text[at:].split("\n"):
        if line.startswith(f"{indent}{{"):
            break
        lines.append(line)
        if line.endswith((" {", ";")):
            break
    return "\n".join(lines)


@functools.cache
def items(crate):
    """Returns the text of each item of a crate by each of its names, such as `load`, `Journal::call`, `Wire for RingWire`, `laws::one_fit`."""
    texts = {}

    def add(name, text):
        texts[name] = texts.get(name, "") + text

    for file in sorted(glob.glob(f"{TOP}/crates/{crate}/src/*.rt")):
        module = file.rpartition("/")[2].removesuffix(".rt")
        text = read(file)
        add(module, text)
        blocks = []
        for block in BLOCK.finditer(text):
            owner, whole = plain(block[2]), block_from(text, block.start())
            blocks.append((block.start(), block.start() + len(whole), owner))
            for name in {owner, owner.rpartition(" for ")[2]} if block[1] == "impl" else {owner}:
                add(name, whole)
        for function in FUNCTION.finditer(text):
            contract = contract_from(text, function.start(), function[1])
            owners = [owner for start, end, owner in blocks if start <= function.start() < end]
            for owner in owners or [module]:
                add(f"{owner.rpartition(' for ')[2]}::{function[2]}", contract)
            if not owners:
                add(function[2], contract)
    return texts


@functools.cache
def definitions(crate):
    """Returns the text of a crate's `specs/`."""
    files = sorted(glob.glob(f"{TOP}/crates/{crate}/specs/**/*.antt", recursive=True))
    return "\n".join(read(file) for file in files)


def spread(name):
    """Expands a short form, such as `Journal::{call, entries}`, to its names."""
    short = re.fullmatch(r"(.*::)\{(.*)\}", name)
    return [short[1] + part.strip() for part in short[2].split(",")] if short else [name]


def contract_of(crate, name):
    """Returns the contract of a name, or None if the crate has no such item."""
    name = name.removeprefix(f"{crate}::").removeprefix("impl ")
    return items(crate).get(name)


def says(crate, contracts, name):
    """Returns whether one of the contracts has a clause with this name. A name that begins with a capital letter is a
    definition instead, which must occur in the contracts or the definitions of the crate."""
    if name[0].isupper():
        return any(re.search(rf"\b{name}\b", text) for text in [*contracts, definitions(crate)])
    return any(f"ensures {name} {{" in contract for contract in contracts)


# ---- samples

# The text above a code sample.
SOURCE = re.compile(r"\b[Ff]rom `([^`]+)`.*:$")
LINK_TARGET = re.compile(r"\]\([^)]*\)")
# A contract in the index of guarantees, without the target of its link.
INDEXED = re.compile(r"\[`([^`]+)` of `(\w+)`\](.*)")


def without_targets(cell):
    """Returns a cell without the targets of its links."""
    return LINK_TARGET.sub("]", cell.strip())


def indexed(part):
    """Returns the crate that a part of a cell of the index names, and the part as the crate's own table writes it. If the part names no crate,
    returns None."""
    match = INDEXED.fullmatch(part)
    return (match[2], f"`{match[1]}`{match[3]}") if match else None


def sources(lines):
    """Yields each line of a code sample with its number and its source file. `lines` has each line's number, its text, and whether it is code."""
    source = None
    for number, line, is_code in lines:
        if is_code and source and line.strip():
            yield number, line.strip(), source
        elif not is_code and line.strip():
            match = SOURCE.search(line)
            source = match and match[1]


# ---- sentences

MOST_WORDS = 40
TEXT_LINK = re.compile(r"\[([^\]]*)\]\([^)\s]*\)")
SPAN = re.compile(r"`[^`]*`")
# A list item or a heading, which begins a paragraph.
OPENER = re.compile(r"\s*(?:[-*] |\d+\. |#+ )")
# The end of a sentence. The next sentence begins with a letter, a digit or a code span.
END = re.compile(r"(?<=[.!?])[\"')*]*\s+")
WORD = re.compile(r"\w")

Line = tuple[int, str, bool]


def paragraphs(lines: typing.Iterable[Line]) -> typing.Iterator[tuple[int, str]]:
    """Yields each paragraph, list item and table cell with the number of its first line. `lines` has each line's number, its text, and whether it is
    code."""
    first, paragraph = 0, ""
    for number, line, is_code in lines:
        ends = is_code or not line.strip() or line.startswith("|") or OPENER.match(line)
        if ends and paragraph:
            yield first, paragraph
            paragraph = ""
        if is_code or not line.strip():
            continue
        if line.startswith("|"):
            yield from ((number, cell) for cell in line.strip("|").split(" | "))
            continue
        first, paragraph = (first, f"{paragraph} {line.strip()}") if paragraph else (number, line.strip())
    if paragraph:
        yield first, paragraph


def sentences(paragraph: str) -> list[str]:
    """Splits a paragraph into sentences. A code span counts as one word, and its full stops do not end sentences."""
    spans = SPAN.findall(paragraph)
    marked = TEXT_LINK.sub(r"\1", SPAN.sub("\0", paragraph))
    return [re.sub("\0", lambda _: spans.pop(0), sentence) for sentence in END.split(marked)]


def words(sentence: str) -> int:
    """Returns the number of words of a sentence."""
    return sum(bool(WORD.search(word)) for word in SPAN.sub("code", sentence).split())


def too_long(lines: typing.Iterable[Line]) -> typing.Iterator[tuple[int, str]]:
    """Yields an error for each sentence that is too long, with the number of the first line of its paragraph."""
    for number, paragraph in paragraphs(lines):
        for sentence in sentences(paragraph):
            count = words(sentence)
            if count > MOST_WORDS:
                yield number, f"a sentence of {count} words, but at most {MOST_WORDS} are allowed: {sentence[:60]}.."
