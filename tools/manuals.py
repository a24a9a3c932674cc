"""Makes manual pages and completions for bash and zsh from the --help of commands, which use clap or argparse."""
import contextlib
import io
import os
import pathlib
import re
import runpy
import subprocess
import sys
from collections.abc import Mapping
from dataclasses import dataclass, field
from unittest import mock

ENTRY = re.compile(r" {2,}(\S(?:.*?\S)?)(?: {2,}(\S.*))?")
HEAD = re.compile(r"[A-Za-z][a-z ]*:")
OPTION = re.compile(r"--[a-z][a-z-]*")
STATUS = re.compile(r"\bstatus 0: ")
# Entries in the list of subcommands that are not subcommands.
NO_COMMANDS = ("help", "COMMAND")


@dataclass
class Help:
    """The --help of a command: its usage, its description, its arguments and options, and the text at the end. Each subcommand has its own help."""

    name: str
    usage: str
    about: list[str]
    words: list[tuple[str, str]]
    more: list[str]
    commands: list["Help"] = field(default_factory=list)

    def options(self) -> dict[str, str]:
        """Returns each long option with its description."""
        return {option: text for word, text in self.words for option in OPTION.findall(word)}


def paragraphs(text: str) -> list[list[str]]:
    """Splits a text into paragraphs, each a list of lines."""
    return [block.splitlines() for block in re.split(r"\n\s*\n", text.strip("\n")) if block.strip()]


def entries(lines: list[str]) -> list[tuple[str, str]]:
    """Returns each argument that these help lines list, with its description."""
    matches = [ENTRY.fullmatch(line) for line in lines]
    return [(entry[1], entry[2] or "") for entry in matches if entry]


def read_help(name: str, text: str) -> tuple[Help, list[str]]:
    """Parses the help of a command. Returns the parsed help and the names of the subcommands."""
    command_help, within = Help(name, "", [], [], []), []
    for lines in paragraphs(text):
        if lines[0].lower().startswith("usage:"):
            command_help.usage = " ".join(line.strip() for line in lines).split(":", 1)[1].strip()
        elif HEAD.fullmatch(lines[0]) and lines[0].lower() == "commands:":
            within = [word for word, _ in entries(lines[1:]) if word not in NO_COMMANDS]
        elif HEAD.fullmatch(lines[0]):
            command_help.words += entries(lines[1:])
        else:
            (command_help.more if command_help.words else command_help.about).append(" ".join(lines))
    return command_help, within


# ---- The manual


def roff(text: str) -> str:
    """Escapes a text for roff, without backquotes."""
    shown = text.replace("\\", "\\e").replace("-", "\\-").replace("`", "")
    return f"\\&{shown}" if shown.startswith((".", "'")) else shown


def word_lines(words: list[tuple[str, str]]) -> list[str]:
    return [line for word, text in words for line in (".TP", f".B {roff(word)}", roff(text) or "\\&")]


def more_lines(help_of: Help) -> list[str]:
    """Returns the text at the end of the help, with the exit statuses under their own heading."""
    lines = []
    for text in help_of.more:
        before, mark, after = text.partition("status 0: ")
        lines += [".PP", roff(before.strip())] if before.strip() else []
        lines += [".SS Exit status" if help_of.name.count(" ") else ".SH EXIT STATUS", roff(f"0: {after}")] if mark else []
    return lines


def command_lines(command: Help) -> list[str]:
    """Returns the section of a subcommand."""
    about = [line for text in command.about for line in (".PP", roff(text))]
    return [f'.SS "{roff(command.name)}"', f".B {roff(command.usage)}", *about, *word_lines(command.words), *more_lines(command)]


def first_sentence(help_of: Help) -> str:
    return re.split(r"[.:] ", help_of.about[0].rstrip("."))[0]


def page(help_of: Help, version: str, others: list[str]) -> str:
    """Returns the manual page of a command and its subcommands."""
    title = f'.TH {help_of.name.upper()} 1 "" "ggp_manager {version}" "User Commands"'
    lines = [title, ".SH NAME", f"{roff(help_of.name)} \\- {roff(first_sentence(help_of))}", ".SH SYNOPSIS", f".B {roff(help_of.usage)}"]
    lines += [".SH DESCRIPTION", *(line for text in help_of.about for line in (".PP", roff(text)))]
    lines += [".SH OPTIONS", *word_lines(help_of.words)]
    if help_of.commands:
        lines += [".SH COMMANDS", *(line for command in help_of.commands for line in command_lines(command))]
    lines += more_lines(help_of)
    lines += [".SH SEE ALSO", ", ".join(f"{roff(name)}(1)" for name in others if name != help_of.name)]
    return "\n".join(lines) + "\n"


# ---- Completions


def first_words(help_of: Help) -> str:
    return " ".join([*(command.name.split()[-1] for command in help_of.commands), *help_of.options()])


def bash(help_of: Help) -> str:
    """Returns the completions of a command for bash: options and subcommands, or else files."""
    name, function = help_of.name, f"_{help_of.name.replace('-', '_')}"
    arms = [f"        {command.name.split()[-1]}) words='{' '.join(command.options())}' ;;" for command in help_of.commands]
    chosen = ["    case ${COMP_WORDS[1]} in", *arms, "    esac", "    ((COMP_CWORD == 1)) && words=$first"] if arms else []
    start = "$cur == -* || $COMP_CWORD == 1" if arms else "$cur == -*"
    return "\n".join([
        f"# Completes the words of {name} in bash. Written by tools/install.",
        f"{function}() {{",
        "    local cur=${COMP_WORDS[COMP_CWORD]}",
        f"    local first='{first_words(help_of)}'",
        "    local words=$first",
        *chosen,
        f"    if [[ {start} ]]; then",
        '        mapfile -t COMPREPLY < <(compgen -W "$words" -- "$cur")',
        "    else",
        '        mapfile -t COMPREPLY < <(compgen -f -- "$cur")',
        "    fi",
        "}",
        f"complete -o filenames -F {function} {name}",
    ]) + "\n"


def quoted(word: str, text: str) -> str:
    """Returns an argument with its description, quoted for zsh."""
    described = text.replace("`", "").replace("'", "'\\''").replace(":", "\\:")
    return f"'{word}:{described}'" if text else f"'{word}'"


def described(words: dict[str, str]) -> str:
    return " ".join(quoted(word, text) for word, text in words.items())


def zsh(help_of: Help) -> str:
    """Returns the completions of a command for zsh."""
    lines = [f"#compdef {help_of.name}", "# Completes the words of a command in zsh. Written by tools/install.", "local -a commands options"]
    lines += [f"options=({described(help_of.options())})"]
    if help_of.commands:
        commands = {command.name.split()[-1]: command.about[0].rstrip(".") for command in help_of.commands}
        lines += [f"commands=({described(commands)})", "if (( CURRENT == 2 )); then", "    _describe command commands", "    return", "fi"]
        lines += ["case $words[2] in"]
        lines += [f"    {command.name.split()[-1]}) options=({described(command.options())}) ;;" for command in help_of.commands]
        lines += ["esac"]
    return "\n".join([*lines, "if [[ $PREFIX == -* ]]; then", "    _describe option options", "else", "    _files", "fi"]) + "\n"


# ---- The files that `make install` installs


def help_text(file: pathlib.Path, *command: str) -> str:
    """Returns the --help of a command, with each entry in one line. If the command is in Python, it runs in this process, so that its
    modules are imported only once."""
    words = [str(file), *command, "--help"]
    with mock.patch.dict(os.environ, COLUMNS="10000"), mock.patch.object(sys, "argv", words), mock.patch.object(sys, "path", [str(file.parent), *sys.path]):
        if not file.read_bytes().startswith(b"#!"):
            return subprocess.run(words, stdin=subprocess.DEVNULL, stdout=subprocess.PIPE, text=True, check=True).stdout
        output = io.StringIO()
        with contextlib.redirect_stdout(output), contextlib.suppress(SystemExit):
            runpy.run_path(str(file), run_name="__main__")
        return output.getvalue()


def full_help(name: str, file: pathlib.Path) -> Help:
    """Returns the help of a command and of its subcommands."""
    command_help, within = read_help(name, help_text(file))
    command_help.commands = [read_help(f"{name} {command}", help_text(file, command))[0] for command in within]
    return command_help


def manual_files(commands: Mapping[str, pathlib.Path], version: str) -> dict[pathlib.Path, str]:
    """Returns the manual page and the completions of each command, by their paths below the prefix of an installation."""
    files = {}
    for name, file in commands.items():
        command_help = full_help(name, file)
        files |= dict(zip(manual_paths(name), (page(command_help, version, [*commands]), bash(command_help), zsh(command_help))))
    return files


def manual_paths(name: str) -> tuple[pathlib.Path, ...]:
    """Returns the paths of three files of a command: the manual page, the completions for bash, and the completions for zsh."""
    return tuple(map(pathlib.Path, (f"share/man/man1/{name}.1", f"share/bash-completion/completions/{name}", f"share/zsh/site-functions/_{name}")))
