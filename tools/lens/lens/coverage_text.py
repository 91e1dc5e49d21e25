"""What some runs came by, as text: `lens coverage`."""
from __future__ import annotations

from collections.abc import Iterable, Iterator
from pathlib import PurePosixPath

from .coverage import FORMS, SIZE, Coverage, Range, SequenceCounts
from .covered_lines import CoveredLines, Function
from .program import Program

HEADS = f'{"instructions":>14}  {"ran":>6}  {"switches":>8}  function'


def list_coverage(program: Program, covered: Coverage, words: str) -> Iterator[str]:
    """The runs, their restartable sequences, where switches came, and which source lines ran."""
    lines = CoveredLines(program, covered)
    ends = ', '.join(f'{end} in {runs}' for end, runs in covered.ends.most_common())
    yield f'{counted(covered.runs, "run")} of {program.path} ({words}), {counted(covered.steps, "step")}: {ends}'
    yield ''
    yield from of_sequences(program, covered)
    yield ''
    yield from of_switches(lines)
    yield ''
    yield from of_lines(lines)


def counted(number: int, word: str) -> str:
    return f'{number} {word}' if number == 1 else f'{number} {word}s'


def of_sequences(program: Program, covered: Coverage) -> Iterator[str]:
    """Each restartable sequence of the file or of the runs: how often it was entered and how it ended, and before which
    of its instructions it was cut."""
    of_file = {Range(one.start, one.end, one.abort) for one in program.descriptors}
    every = sorted(of_file | covered.sequences.keys(), key=lambda range_: (range_.start, range_.end))
    yield 'restartable sequences' if every else 'no restartable sequence'
    for range_ in every:
        counts = covered.sequences.get(range_, SequenceCounts())
        yield f'    {sequence_name(program, range_)}: {endings(counts)}'
        yield from of_cuts(program, range_, counts) if counts.forms else ()


def sequence_name(program: Program, range_: Range) -> str:
    place = program.line_name(range_.start)
    where = f', {place}' if place else ''
    if not range_.is_known:
        return f'one that no descriptor of the file names, begun at {program.where(range_.start)}{where}'
    first, last = program.where(range_.start), program.where(range_.end - SIZE)
    return f'{first} to {last}, {(range_.end - range_.start) // SIZE} instructions{where}'


def endings(counts: SequenceCounts) -> str:
    if not counts.forms:
        return 'never entered'
    parts = [f'{form} {counts.forms[form]}' for form in FORMS if counts.forms[form]]
    return f'entered {counts.forms.total()}, {", ".join(parts)}'


def of_cuts(program: Program, range_: Range, counts: SequenceCounts) -> Iterator[str]:
    """How often it was cut before each instruction. It begins with its first one, before which it can't be cut."""
    inside = range(range_.start + SIZE, range_.end, SIZE)
    yield f'        {"cut":>8}  before'
    for pc in sorted({*inside, *counts.cuts}):
        instruction = program.instruction(pc)
        text = instruction.text if instruction else '?'
        never = '' if counts.cuts[pc] else '   never'
        yield f'        {counts.cuts[pc]:>8}  {program.where(pc)}  {text}{never}'


def of_switches(lines: CoveredLines) -> Iterator[str]:
    """Of each function that ran how many of its instructions ran, and before how many of them another hart or thread went
    on; and those that ran, and before which none did."""
    covered, ran = lines.covered, []
    yield HEADS
    for function in lines.functions:
        if any(covered.executed[address] for address in function.addresses):
            ran.append(function)
            yield function_row(covered, function)
    never = len(lines.functions) - len(ran)
    yield f'{counted(never, "function")} never ran' if never else 'each function ran'
    yield ''
    own = [address for function in ran for address in function.addresses if covered.executed[address]]
    left = [address for address in own if not covered.switches[address]]
    yield f'ran, and no switch came before: {len(left)} of {len(own)} instructions'
    for first, last in stretches(lines.program, left):
        yield f'    {stretch_words(lines.program, first, last)}'
    yield from of_signals(lines.program, covered)


def function_row(covered: Coverage, function: Function) -> str:
    ran = sum(covered.executed[address] > 0 for address in function.addresses)
    switched = sum(covered.switches[address] > 0 for address in function.addresses)
    return f'{len(function.addresses):>14}  {ran:>6}  {switched:>8}  {function.symbol.name}'


def of_signals(program: Program, covered: Coverage) -> Iterator[str]:
    """Where signals were delivered, the most frequent place first."""
    if covered.signals:
        yield ''
        yield f'signals were delivered before {counted(len(covered.signals), "instruction")}'
        for pc, times in covered.signals.most_common():
            yield f'    {times:>8}  {program.spot(pc)}'


def stretches(program: Program, addresses: Iterable[int]) -> Iterator[tuple[int, int]]:
    """Instructions in a row of one source line and one function, by the first and the last of them."""
    first = last = None
    for address in addresses:
        if last is not None and first is not None:
            if address == last + SIZE and place_of(program, address) == place_of(program, first):
                last = address
                continue
            yield first, last
        first = last = address
    if first is not None and last is not None:
        yield first, last


def place_of(program: Program, address: int) -> tuple[str, str]:
    return program.function(address), own_line(program, address)


def own_line(program: Program, address: int) -> str:
    """The outermost source line of an instruction."""
    place = program.outer_place(address)
    return place.name if place else ''


def stretch_words(program: Program, first: int, last: int) -> str:
    name = own_line(program, first)
    line = f'  {name}' if name else ''
    if first == last:
        instruction = program.instruction(first)
        return f'{program.where(first)}  {instruction.text if instruction else "?"}{line}'
    return f'{program.where(first)} to {program.where(last)}, {(last - first) // SIZE + 1} instructions{line}'


def of_lines(lines: CoveredLines) -> Iterator[str]:
    """Of each source file how many lines ran of those that have instructions, and the numbers of the others."""
    files = lines.files()
    if not files:
        yield 'the file has no source lines: build it with -g'
        return
    yield 'source lines that ran'
    for (_, file), times in files.items():
        left = [line for line, count in times.items() if not count]
        ran = len(times) - len(left)
        rest = f'; not {", ".join(in_ranges(left, sorted(times)))}' if left else ''
        yield f'    {PurePosixPath(file).name}: {ran} of {len(times)}{rest}'


def in_ranges(left: list[int], every: list[int]) -> Iterator[str]:
    """Numbers of lines, those between which no other line has instructions as `FIRST-LAST`."""
    at = {line: index for index, line in enumerate(every)}
    first = last = left[0]
    for line in [*left[1:], None]:
        if line is not None and at[line] == at[last] + 1:
            last = line
            continue
        yield f'{first}' if first == last else f'{first}-{last}'
        if line is not None:
            first = last = line
