"""The scripts of an example, and what the commands that take one print of them."""
from __future__ import annotations

from pathlib import Path

from .places import asked, check_place
from .programs import DONE, SCRIPT_REFUSED, STEPS, Difference, Word, expect_play, run, want
from .texts import check_taken, parts_of


def check_script(program: Path, elf: Path, script: Path) -> None:
    """A script on two harts gives the text beside it, and so do the log lines of that text; `blocks` gives its summary, `gather` its
    gathered log, and `trace` its lines; and `inspect` says what may come behind it."""
    text, summary = script.with_suffix('.output').read_bytes(), script.with_suffix('.summary')
    lines = script.read_bytes().splitlines(keepends=True)
    if text.startswith(b'fault script '):
        expect_play(program, elf, script.read_bytes(), '2', SCRIPT_REFUSED, text)
        expect_blocks(program, elf, script, SCRIPT_REFUSED, text)
        refused = int(text.split()[2]) - 1
        may_not = check_place(program, elf, lines[:refused], b'end open\n')
        if asked(lines[refused]) not in may_not:
            raise Difference(f'`inspect` doesn\'t say that line {refused + 1} may not come')
        return
    expect_play(program, elf, script.read_bytes(), '2', DONE, text)
    check_replay(program, elf, text, '2')
    check_taken(text)
    if summary.is_file():
        expect_blocks(program, elf, script, DONE, summary.read_bytes())
    check_gathered(program, elf, script, text)
    check_trace(program, elf, script, text)
    check_place(program, elf, lines, parts_of(text).end)
    check_place(program, elf, lines[:len(lines) // 2], b'end open\n')


def expect_blocks(program: Path, elf: Path, script: Path, status: int, text: bytes) -> None:
    """Wants this status and this summary of a script on two harts."""
    got = run(program, 'blocks', elf, script, '--harts', '2', '--steps', STEPS)
    want('the status of its summary', got[0], status)
    want('its summary', got[1], text)


def check_gathered(program: Path, elf: Path, script: Path, text: bytes) -> None:
    """The gathered log of a script on two harts has the lines of each hart in the order of this text, with the same console and end, and
    is what stands beside the script, if that does; its lines, played, give the same text."""
    status, gathered = run(program, 'gather', elf, script, '--harts', '2', '--steps', STEPS)
    want('the status of its gathered log', status, DONE)
    found, due = parts_of(gathered), parts_of(text)
    want('the console and the end of its gathered log', found.console + found.end, due.console + due.end)
    for hart in range(2):
        want(f'what hart {hart} has in its gathered log', own_lines(found.log, hart), own_lines(due.log, hart))
    if script.with_suffix('.gathered').is_file():
        want('its gathered log', gathered, script.with_suffix('.gathered').read_bytes())
    check_replay(program, elf, gathered, '2')


def own_lines(log: list[bytes], hart: int) -> bytes:
    """The lines of a hart in a log."""
    return b''.join(line for line in log if line.startswith(b'%d ' % hart))


def check_trace(program: Path, elf: Path, script: Path, text: bytes) -> None:
    """The trace of a script on two harts has the log lines and the end of this text, and below each line its number; from a line in the
    middle on it is what `--from` gives."""
    status, trace = run(program, 'trace', elf, script, '--harts', '2', '--steps', STEPS)
    want('the status of its trace', status, DONE)
    due, rows = parts_of(text), trace.splitlines(keepends=True)
    log = [row for row in rows if row[:1].isdigit()]
    want('the log in its trace', b''.join(log), b''.join(due.log))
    want('the end of its trace', rows[-1], due.end)
    numbers = [row for row in rows if row.startswith(b'  line ')]
    want('the numbers in its trace', b''.join(numbers), b''.join(b'  line %d\n' % number for number in range(1, len(log) + 1)))
    middle = len(log) // 2 + 1
    begin = rows.index(b'  line %d\n' % middle) - 1 if middle <= len(log) else len(rows) - 1
    status, half = run(program, 'trace', elf, script, '--harts', '2', '--steps', STEPS, '--from', str(middle))
    want('the status of its half', status, DONE)
    want('the half of its trace', half, b''.join(rows[begin:]))


def check_replay(program: Path, elf: Word, text: bytes, harts: str) -> None:
    """The log lines of a text, played, give the text."""
    expect_play(program, elf, b''.join(parts_of(text).log), harts, DONE, text)
