"""An example: what `solo` prints, its scripts, its sessions, and its runs with seeds."""
from __future__ import annotations

from collections.abc import Iterator
from functools import partial
from pathlib import Path

from .programs import DONE, HERE, STEPS, Check, expect_play, passes, run, want
from .scripts import check_replay, check_script
from .seeds import HARTS, check_draws, check_runs, outcomes
from .sessions import check_session
from .texts import check_taken, parts_of


def check_examples(program: Path, names: list[str]) -> tuple[int, int]:
    """How many examples fail, and how many there are."""
    folders = sorted(it.parent for it in HERE.glob('*/console.expected') if not names or it.parent.name in names)
    failed = sum(not passes(folder.name, checks(program, folder)) for folder in folders)
    print(f'{len(folders) - failed} examples passed' + (f', {failed} failed' if failed else ''))
    return failed, len(folders)


def checks(program: Path, folder: Path) -> Iterator[Check]:
    """The checks of one example, each with its name."""
    elf = folder / f'{folder.name}.elf'
    text: bytes | None = None

    def solo() -> None:
        nonlocal text
        text = check_solo(program, folder, elf)

    yield 'solo', solo
    yield from of_text(program, elf, text)
    for script in sorted(folder.glob('*.script')):
        yield script.name, partial(check_script, program, elf, script)
    for session in sorted(folder.glob('*.session')):
        yield session.name, partial(check_session, program, session)
    allowed = list(outcomes(folder))
    for harts in HARTS:
        yield f'run on {harts}', partial(check_runs, program, allowed, elf, harts)
        yield f'draw on {harts}', partial(check_draws, program, allowed, elf, harts)
    explored = folder / 'explored.expected'
    if explored.is_file():
        yield 'explored', partial(check_explored, program, elf, explored.read_text().strip())


def of_text(program: Path, elf: Path, text: bytes | None) -> Iterator[Check]:
    """The checks of the text of `solo`, where it is as it should be."""
    if text is not None:
        yield 'replay', partial(check_replay, program, elf, text, '1')
        yield 'on hart 1', partial(check_other_hart, program, elf, text)


def check_solo(program: Path, folder: Path, elf: Path) -> bytes:
    """The text of `solo`, which has the console and the end that stand beside the example."""
    status, text = run(program, 'solo', elf, '--steps', STEPS)
    want('its status', status, DONE)
    output = parts_of(text)
    want('its console', output.console, (folder / 'console.expected').read_bytes())
    want('its end', output.end, (folder / 'end.expected').read_bytes())
    check_taken(text)
    return text


def check_other_hart(program: Path, elf: Path, text: bytes) -> None:
    """The log lines of a text of one hart give the same text on hart 1 of two, but for the number of the hart."""
    log = parts_of(text).log
    moved = [b'1' + line[1:] for line in log]
    played = text[:text.rindex(b''.join(log))] + b''.join(moved) + parts_of(text).end
    expect_play(program, elf, b''.join(moved), '2', DONE, played)


def check_explored(program: Path, elf: Path, runs: str) -> None:
    """So many runs of an example that are drawn from seeds come to one outcome."""
    status, text = run(program, 'explore', elf, '--runs', runs)
    want('the status of explore', status, DONE)
    want('its first line', text.split(b'\n')[0], b'outcomes 1')
