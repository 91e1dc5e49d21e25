"""What crates.txt says: the crates of the repository, and on which libraries each stands."""
from __future__ import annotations

from pathlib import Path

CRATES = 'crates.txt'


def rows(text: str) -> dict[str, str]:
    """The line of each crate, by its name. Each line begins with the name; behind the colon are libraries, of the repository or of the
    kit."""
    lines = [line for line in text.splitlines() if line.split('#')[0].strip()]
    return {name_of(line): line for line in lines}


def name_of(line: str) -> str:
    """The crate that a line is about: its first word. Others behind it are settings."""
    return line.partition(':')[0].split()[0]


def libraries_of(line: str) -> list[str]:
    """The libraries that a line names."""
    return line.split('#')[0].partition(':')[2].split()


def below(name: str, lines: dict[str, str]) -> set[str]:
    """The crate, and all crates of the repository that it stands on, through others too."""
    found: set[str] = set()
    open_ = [name]
    while open_:
        crate = open_.pop()
        if crate in lines and crate not in found:
            found.add(crate)
            open_ += libraries_of(lines[crate])
    return found


def lines_for(name: str, root: Path) -> list[str]:
    """The lines of crates.txt that the crate needs, in their order."""
    lines = rows((root / CRATES).read_text())
    needed = below(name, lines)
    return [line for crate, line in lines.items() if crate in needed]
