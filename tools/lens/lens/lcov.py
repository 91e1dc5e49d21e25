"""What some runs came by as a tracefile of lcov, which genhtml shows (geninfo(1), "TRACEFILE FORMAT"): how often each source
line and each function ran."""
from __future__ import annotations

from collections.abc import Iterator

from .covered_lines import CoveredLines
from .source import Place


def tracefile(lines: CoveredLines) -> Iterator[str]:
    """Its lines, file by file."""
    functions = functions_by_file(lines)
    yield 'TN:'
    for (folder, file), times in lines.files().items():
        path = lines.program.lines.path_of(Place(folder, file, 1))
        if path is None:
            continue
        yield f'SF:{path.resolve()}'
        own = functions.get((folder, file), [])
        yield from (f'FN:{line},{name}' for line, name, _ in own)
        yield from (f'FNDA:{count},{name}' for _, name, count in own)
        yield f'FNF:{len(own)}'
        yield f'FNH:{sum(count > 0 for _, _, count in own)}'
        yield from (f'DA:{line},{count}' for line, count in times.items())
        yield f'LF:{len(times)}'
        yield f'LH:{sum(count > 0 for count in times.values())}'
        yield 'end_of_record'


def functions_by_file(lines: CoveredLines) -> dict[tuple[str, str], list[tuple[int, str, int]]]:
    """Of each file the line, the name, and how often it was entered, of each function."""
    found: dict[tuple[str, str], list[tuple[int, str, int]]] = {}
    for function in lines.functions:
        first = function.addresses[0]
        place = lines.program.outer_place(first)
        if place:
            entry = place.line, function.symbol.name, lines.covered.executed[first]
            found.setdefault((place.folder, place.file), []).append(entry)
    return found


def left_out(lines: CoveredLines) -> list[str]:
    """The source files that aren't in it, since they aren't found: genhtml shows none without them."""
    path_of = lines.program.lines.path_of
    return [file for folder, file in lines.files() if path_of(Place(folder, file, 1)) is None]
