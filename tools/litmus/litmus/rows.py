"""The table of the examples of which `outcomes` visits all places, examples/all_outcomes.tsv."""
from __future__ import annotations

import re
from collections.abc import Iterator
from pathlib import Path
from typing import NamedTuple

from lens.faults import LensFault
from lens.output import outline

from .showing import Shown

EXAMPLES = Path(__file__).resolve().parents[3] / 'examples'
TABLE = EXAMPLES / 'all_outcomes.tsv'
UNKNOWN = '-'
YES, SLOW, NO = 'yes', 'slow', 'no'
KNOWN = {YES: True, NO: False, UNKNOWN: None}


class Row(NamedTuple):
    """An example on so many harts: how many outcomes it has, where that is known; whether a search ends
    within 2,000,000 places; whether some run executes instructions without end, and whether it has hopeless
    places, where that is known; and why the search doesn't end."""

    example: str
    harts: int
    outcomes: int | None
    closes: str
    is_endless: bool | None
    is_hopeless: bool | None
    why_not: str

    @property
    def elf(self) -> Path:
        return EXAMPLES / self.example / f'{self.example}.elf'

    def allows(self, shown: Shown) -> bool:
        """Whether the files of the example have an outcome."""
        consoles = (console for console, end in self.allowed() if end == shown.end)
        return any(re.fullmatch(console, shown.console) for console in consoles)

    def allowed(self) -> Iterator[tuple[bytes, str]]:
        """The consoles with which it may end, as expressions, each with its end."""
        folder = self.elf.parent
        end = end_in(folder / 'end.expected')
        yield re.escape((folder / 'console.expected').read_bytes()), end
        for path in sorted(folder.glob('outcomes/*')):
            own = path.with_suffix('.end')
            if path.suffix in ('.console', '.pattern'):
                text = path.read_bytes()
                console = re.escape(text) if path.suffix == '.console' else text
                yield console, end_in(own) if own.is_file() else end

    def worked(self) -> Iterator[tuple[str, Shown]]:
        """The outcomes of its worked runs that end, each with its name."""
        for path in sorted(self.elf.parent.glob('*.output')):
            text = path.read_bytes()
            if text.startswith(b'console '):
                run = outline(path.name, text)
                if run.end != 'open':
                    yield path.stem, Shown(run.console, run.end)


def end_in(path: Path) -> str:
    """What a file says of an end."""
    return path.read_text().removeprefix('end ').rstrip('\n')


def is_row(fields: list[str]) -> bool:
    if len(fields) not in (6, 7):
        return False
    return fields[1].isdecimal() and fields[3] in (YES, SLOW, NO) and {fields[4], fields[5]} <= set(KNOWN)


def row_of(line: str) -> Row:
    fields = line.split('\t')
    if not is_row(fields):
        raise LensFault(f'{TABLE.name}: {line[:60]!r} is no row')
    outcomes = None if fields[2] == UNKNOWN else int(fields[2])
    is_endless, is_hopeless = KNOWN[fields[4]], KNOWN[fields[5]]
    return Row(fields[0], int(fields[1]), outcomes, fields[3], is_endless, is_hopeless, ''.join(fields[6:]))


def rows() -> list[Row]:
    lines = TABLE.read_text().splitlines()
    return [row_of(line) for line in lines if not line.startswith('#')]
