"""What `explore` and `outcomes` say of their runs, and where their texts go."""
from __future__ import annotations

import subprocess
import sys
import tempfile
from functools import partial
from pathlib import Path
from typing import IO, cast

from .programs import DONE, ENDED_OTHERWISE, HERE, SAID, SECONDS, UNWRITTEN, Check, Word, passes, run, run_whole, want
from .worked import ROWS

sys.path.append(str(HERE))

import interrupted  # noqa: E402 (found by the line above)
from overtaken import overtaken_line  # noqa: E402

INTERRUPTED = [str(HERE / name / f'{name}.elf') for name in ('peterson', 'ring_wake_lost')]
"""The files of which an `explore` and an `outcomes` are broken off."""
EXPLORED = {'peterson': 40, 'peterson_fenced': 40, 'dekker': 20, 'hazard': 20, 'litmus': 40, 'percpu_counter': 5}
"""The examples whose overtaken stores are counted again, and in how many runs."""
EXITS_BY_HART = ROWS / 'explores' / 'two_outcomes' / 'F'
"""The program of a worked run that exits with the number of its hart; GOES_ROUND makes it go round for ever on each hart but 0."""
NUMBER_READ = bytes.fromhex('93050000 9308800a 73000000 37040200 03250400')
GOES_ROUND = bytes.fromhex('37040200 9308800a 73000000 03250400 63100500')
LIMITED = (b'rseq_run: 97 of 300 runs ended at the limit of 1000000 steps; the longest that ended otherwise has 13: '
           b'--steps 130 would cut them shorter\n')
OTHERWISE = b'rseq_run: a run ended otherwise: exit 1, seed 3\n'
"""What is said of an end that isn't the one that is expected."""
FULL = b"rseq_run: standard output can't be written: no storage space\n"


def check_explorations(program: Path, names: list[str]) -> int:
    """How many checks of explorations, and of where their texts are written, fail."""
    if names and 'explorations' not in names:
        return 0
    checks: list[Check] = [(example, partial(check_overtaken, program, example, runs)) for example, runs in EXPLORED.items()]
    checks += [('interrupted', partial(check_interrupted, program)), ('limited', partial(check_limited, program))]
    checks += [('expected', partial(check_expected, program)), ('sinks', partial(check_sinks, program))]
    failed = sum(not passes(name, [('explore', check)]) for name, check in checks)
    print(f'{len(checks) - failed} explorations passed' + (f', {failed} failed' if failed else ''))
    return failed


def check_overtaken(program: Path, example: str, runs: int) -> None:
    """What `explore` says of overtaken stores is what the logs of its runs say."""
    elf = HERE / example / f'{example}.elf'
    status, text = run(program, 'explore', elf, '--seed', '1', '--runs', str(runs))
    want('the status of explore', status, DONE)
    want('its overtaken stores', text.splitlines(keepends=True)[-1], overtaken_line(str(program), str(elf), 1, runs, []).encode())


def check_interrupted(program: Path) -> None:
    """An exploration and a search that are broken off have said what they found."""
    want('what an interrupted explore or outcomes left', '; '.join(interrupted.faults_of(str(program), *INTERRUPTED)), '')


def check_limited(program: Path) -> None:
    """An exploration that takes long since runs meet the limit says so, and proposes another."""
    file = EXITS_BY_HART.read_bytes()
    want('how often its program reads the number of its hart', file.count(NUMBER_READ), 1)
    with tempfile.NamedTemporaryFile(suffix='.elf') as elf:
        elf.write(file.replace(NUMBER_READ, GOES_ROUND))
        elf.flush()
        status, text, said = run_whole(program, 'explore', elf.name, '--runs', '300', '--steps', '1000000', '--jobs', '1')
    want('the status of explore', status, DONE)
    want('its ends', [line for line in text.splitlines() if line.startswith(b'end ')], [b'end limit', b'end exit 0'])
    want('what it says at its end', said.splitlines(keepends=True)[-1:], [LIMITED])


def check_expected(program: Path) -> None:
    """An end that is expected changes the status alone, and standard error: it is 1 where a run ended otherwise."""
    for name, due, said_due in [('peterson', ENDED_OTHERWISE, OTHERWISE), ('peterson_fenced', DONE, b'')]:
        words = 'explore', HERE / name / f'{name}.elf', '--runs', '100'
        status, text, said = run_whole(program, *words, '--expect', 'exit 0')
        want(f'the status of {name}', status, due)
        want(f'what it says of {name}', SAID.sub(b'', said), said_due)
        want(f'its text of {name}', text, run(program, *words)[1])


def left_by_head(program: Path, *words: Word) -> tuple[int, bytes]:
    """The status and the standard error of a call whose standard output is closed behind its first line."""
    with subprocess.Popen([program, *words], stdin=subprocess.DEVNULL, stdout=subprocess.PIPE, stderr=subprocess.PIPE) as running:
        output, errors = cast(IO[bytes], running.stdout), cast(IO[bytes], running.stderr)
        output.readline()
        output.close()
        said = errors.read()
    return running.returncode, said


def on_full_disk(program: Path, *words: Word) -> tuple[int, bytes]:
    """The status and the standard error of a call that can write no byte of standard output."""
    with open('/dev/full', 'wb') as full:
        ran = subprocess.run([program, *words], stdin=subprocess.DEVNULL, stdout=full, stderr=subprocess.PIPE, timeout=SECONDS)
    return ran.returncode, ran.stderr


def check_sinks(program: Path) -> None:
    """Of a pipe that its reader has closed nothing is said; of a full disk it is, and first what was to be said."""
    want('what is left by head', left_by_head(program, 'draw', HERE / 'threads' / 'threads.elf'), (UNWRITTEN, b''))
    expected = 'explore', HERE / 'peterson' / 'peterson.elf', '--runs', '100', '--expect', 'exit 0'
    status, said = on_full_disk(program, *expected)
    want('the status on a full disk', status, UNWRITTEN)
    want('what it says there', SAID.sub(b'', said), OTHERWISE + FULL)
