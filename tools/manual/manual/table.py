"""What a tool takes, as one table: its commands with their names and options. The man pages and the completions of the shells are made
from it."""
from __future__ import annotations

from collections import Counter
from dataclasses import dataclass

FILES = frozenset({
    'ELF', 'FILE', 'FILE1', 'FILE2', 'FILE.html', 'FILE.json', 'FILE.svg', 'FOLDER', 'GDB', 'PROGRAM', 'RUN', 'SCRIPT', 'STEER',
})
"""The names of values that are files or folders."""


@dataclass(frozen=True)
class Value:
    """A word that a person chooses: a name of a command, or what comes after an option."""

    name: str
    words: tuple[str, ...] = ()
    """All words that there are, where they are few."""
    is_file: bool = False


@dataclass(frozen=True)
class Option:
    """An option: its names (`-o`, `--out`), its value if it takes one, and what it says, in Markdown."""

    names: tuple[str, ...]
    value: Value | None
    about: str
    may_be_repeated: bool = False


@dataclass(frozen=True)
class Command:
    """A command: its word (none where the tool has one command), its usage after the tool's name, what it does, and more of that, in
    Markdown."""

    word: str
    usage: str
    about: str
    names: tuple[Value, ...]
    options: tuple[Option, ...]
    more: str = ''


@dataclass(frozen=True)
class Tool:
    """A tool, and what its man page says besides, in Markdown."""

    name: str
    line: str
    """What it does, in one line."""
    description: str
    commands: tuple[Command, ...]
    statuses: tuple[tuple[str, str], ...] = ()
    environment: tuple[tuple[str, str], ...] = ()
    examples: tuple[tuple[str, str], ...] = ()
    """Commands, each with what it does."""
    see: tuple[str, ...] = ()
    """Other man pages."""
    options: tuple[Option, ...] = ()
    """Options that stand in the place of a command, as `--version`."""

    def has_commands(self) -> bool:
        return bool(self.commands[0].word)

    def shared_options(self) -> list[Option]:
        """The options that several commands take and that say the same in each, in their order."""
        found = Counter(option for command in self.commands for option in command.options)
        return [option for option, commands in found.items() if commands > 1]


def value_of(name: str, words: tuple[str, ...] = ()) -> Value:
    """A value by its name, which says whether it is a file."""
    return Value(name, words, name in FILES)
