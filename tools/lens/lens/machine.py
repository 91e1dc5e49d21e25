"""Calls the program `rseq_run` to play scripts and to draw runs."""
from __future__ import annotations

import os
import subprocess
import tempfile
from collections.abc import Iterable, Iterator
from contextlib import contextmanager
from dataclasses import dataclass, replace
from io import BufferedReader
from pathlib import Path
from typing import IO, cast

from .faults import LensFault
from .output import Outline, Output, outline
from .place import Place, parse_place
from .stopping import Stop
from .trace_text import Trace, parse_trace

REPOSITORY = Path(__file__).resolve().parents[3]
BUILT = Path(os.environ.get('RSEQ_RUN', REPOSITORY / 'crates' / 'rseq_run' / 'out' / 'rseq_run'))
"""The program that is called where no other is named: that of the repository, or what RSEQ_RUN says."""
DONE, USAGE, ELF_REFUSED, SCRIPT_REFUSED = 0, 2, 3, 4
ADVICE = {ELF_REFUSED: ' (examples/common/rvcc builds a file that is taken: docs/PROGRAMS.md)'}
UNKNOWN = 'there is no such command'
SECONDS = 120
PIECE = 1 << 20
"""So many bytes of a stream are read at once."""
FAULT = b'fault '
"""How the one line begins that the program prints where it refuses."""
NAME = 'rseq_run'
"""Stands in what the program says of its version."""
OUTSIDE_SEQUENCES = (b'step', b'kernel')
CALM = 4_096
"""After so many events of the rule the rest of a run is drawn fairly, so that a thread that waits for
another one doesn't fill the log."""
MOST_CALM = 1_000_000


@dataclass(frozen=True)
class Answer:
    """The status of a call, its text, and what it says on standard error."""

    status: int
    text: bytes
    said: str

    def refused_line(self) -> int | None:
        """The number of the line of the script that is refused, where one is."""
        words = self.text.decode('ascii', 'replace').split()
        return int(words[2]) if self.status == SCRIPT_REFUSED and len(words) == 3 else None

    def words(self) -> str:
        """The status, the text and the first line on standard error, on one line."""
        text = ' '.join(self.text.decode('ascii', 'replace').split())
        return f'status {self.status}, "{text}"{said(self.said.encode())}'


class LineRefused(LensFault):
    """A line of a script is refused."""

    def __init__(self, words: str, line: int):
        super().__init__(words)
        self.line = line


@dataclass(frozen=True)
class Act:
    """A restartable sequence of a run: its hart, its first and last step, its thread, how it ended, and the
    abort handler at which its thread goes on where it was cut."""

    hart: int
    first: int
    last: int
    thread: int
    form: str
    abort: int | None


@dataclass(frozen=True)
class Machine:
    """A built program, the file that it runs, and the limits that it is given."""

    program: str
    elf: str
    options: tuple[str, ...]

    def play(self, lines: list[str]) -> Output | int:
        """The run of a script, or the number of the first of its lines that is refused."""
        answer = self.play_outline(lines)
        return answer if isinstance(answer, int) else answer.output()

    def play_outline(self, lines: list[str]) -> Outline | int:
        """The same, its log not yet taken apart."""
        return self.outline_of('play', self.call('play', text_of(lines)))

    def finish(self, lines: list[str], calm: int = CALM) -> Output | int:
        """The run that the rule makes after a script, or the number of the first line that is refused."""
        answer = self.finish_outline(text_of(lines), calm)
        return answer if isinstance(answer, int) else answer.output()

    def finish_outline(self, script: bytes, calm: int) -> Outline | int:
        """The same, its log not yet taken apart."""
        return self.outline_of('draw', self.call('draw', script, words=('--policy=rule', f'--calm={calm}')))

    def outline_of(self, command: str, answer: Answer) -> Outline | int:
        """The run of an answer, or the number of the line that is refused."""
        if answer.status == DONE:
            return outline(self.elf, answer.text)
        refused = answer.refused_line()
        if refused is None:
            raise self.fault(command, answer)
        return refused

    def call(
        self, command: str, script: bytes, name: str | None = None, words: tuple[str, ...] = ()
    ) -> Answer:
        """What a command answers to a script, and to further words. Where it is given a name, standard error
        has that in place of a file's."""
        with tempfile.NamedTemporaryFile('wb', suffix='.script') as file:
            file.write(script)
            file.flush()
            given = ['--after', file.name] if command == 'draw' else [file.name]
            answer = self.answer([command, self.elf, *given, *words, *self.options])
            return answer if name is None else replace(answer, said=answer.said.replace(file.name, name))

    def acts(self, lines: list[str]) -> list[Act]:
        """The restartable sequences of a script, each line of which is allowed."""
        answer = self.call('acts', text_of(lines))
        if answer.status != DONE:
            raise self.fault('acts', answer)
        return parse_acts(answer.text)

    def trace(self, lines: list[str]) -> Trace:
        """What each line of a script does, each line of which is allowed."""
        answer = self.call('trace', text_of(lines))
        if answer.status == DONE:
            return parse_trace(f'the trace of {self.elf}', answer.text)
        if answer.status == USAGE and UNKNOWN in answer.said:
            raise LensFault(
                f'{self.program} has no command `trace`, by which this knows what a run read and wrote'
            )
        raise self.fault('trace', answer)

    def inspect(self, lines: list[str]) -> Place:
        """The place that a script comes to, each line of which is allowed."""
        return self.inspect_script(text_of(lines))

    def inspect_script(self, script: bytes) -> Place:
        """The same, the lines in one text."""
        answer = self.call('inspect', script)
        if answer.status == DONE:
            return parse_place(answer.text)
        raise self.fault('inspect', answer)

    def place_of(self, script: bytes, words: tuple[str, ...] = ()) -> Place:
        """The place that a script comes to, with what further words ask for; LineRefused where one of its lines
        is."""
        answer = self.call('inspect', script, words=words)
        if answer.status == DONE:
            return parse_place(answer.text)
        raise self.refusal('inspect', answer)

    def text_of(self, command: str, script: bytes, words: tuple[str, ...] = ()) -> str:
        """What a command prints of a script, each line of which is allowed."""
        answer = self.call(command, script, words=words)
        if answer.status != DONE:
            raise self.fault(command, answer)
        return answer.text.decode('ascii', 'replace')

    @contextmanager
    def stream(self, command: str, script: bytes) -> Iterator[Iterable[bytes]]:
        """The lines that a command prints of a script, each as it comes, so that they needn't all be kept;
        LineRefused where a line of the script is."""
        with tempfile.NamedTemporaryFile('wb', suffix='.script') as file, tempfile.TemporaryFile() as said_there:
            file.write(script)
            file.flush()
            text = b''
            with self.started([command, self.elf, file.name, *self.options], said_there) as ran:
                lines = cast(BufferedReader, ran.stdout)
                if lines.peek(1).startswith(FAULT):
                    text = lines.read()
                else:
                    yield lines
            said_there.seek(0)
            answer = Answer(ran.returncode, text, said_there.read().decode('utf-8', 'replace'))
        if answer.status != DONE:
            raise self.refusal(command, answer)

    def refusal(self, command: str, answer: Answer) -> LensFault:
        """Why a script has no answer."""
        refused = answer.refused_line()
        fault = self.fault(command, answer)
        return fault if refused is None else LineRefused(f'{fault}', refused)

    def draw(self, seed: int) -> Output:
        """The run that a seed draws."""
        return self.draw_outline(seed).output()

    def draw_outline(self, seed: int, words: tuple[str, ...] = ()) -> Outline:
        """The same, under further words, its log not yet taken apart."""
        answer = self.answer(['draw', self.elf, f'--seed={seed}', *words, *self.options])
        if answer.status == DONE:
            return outline(f'the run of seed {seed}', answer.text)
        raise self.fault('draw', answer)

    def fault(self, command: str, answer: Answer) -> LensFault:
        """Why a command gave no output."""
        told = f'{answer.words()}{ADVICE.get(answer.status, "")}'
        return LensFault(f'{self.program} can\'t {command} {self.elf}: {told}')

    def check_name(self) -> None:
        """A fault where the program is another one than rseq_run."""
        told = self.answer(['--version'])
        if NAME not in told.text.decode('utf-8', 'replace') + told.said:
            named = 'RSEQ_RUN or --program names the one that is called'
            raise LensFault(f'{self.program} is another program than rseq_run ({named})')

    def started(self, words: list[str], said_there: IO[bytes]) -> subprocess.Popen[bytes]:
        """The program while it answers some words."""
        try:
            return subprocess.Popen(
                [self.program, *words],
                stdin=subprocess.DEVNULL,
                stdout=subprocess.PIPE,
                stderr=said_there,
                bufsize=PIECE,
                start_new_session=True,
            )
        except OSError as error:
            raise self.absent(error) from None

    def absent(self, error: OSError) -> LensFault:
        """Why the program can't be called."""
        return LensFault(f'{self.program}: {error.strerror} (`rt ci` builds it; --program names another)')

    def answer(self, words: list[str]) -> Answer:
        """What the program answers to some words."""
        try:
            ran = subprocess.run(
                [self.program, *words],
                stdin=subprocess.DEVNULL,
                capture_output=True,
                timeout=SECONDS,
                start_new_session=True,  # (Ctrl-C on a terminal is for this program, which says what it has)
            )
        except OSError as error:
            raise self.absent(error) from None
        except subprocess.TimeoutExpired:
            raise LensFault(f'{self.program} had not ended after {SECONDS} seconds') from None
        return Answer(ran.returncode, ran.stdout, ran.stderr.decode('utf-8', 'replace'))


@dataclass(frozen=True)
class TimedMachine(Machine):
    """The same for as long as a search isn't to stop; then Stopped is raised."""

    stop: Stop

    def answer(self, words: list[str]) -> Answer:
        self.stop.check()
        return super().answer(words)


def parse_acts(text: bytes) -> list[Act]:
    """The sequences among the lines HART FIRST LAST TID FORM of `acts`; only behind `cut` another field
    stands."""
    acts = []
    for line in text.splitlines():
        hart, first, last, thread, form, *abort = line.split(b' ')
        if form not in OUTSIDE_SEQUENCES:
            handler = int(abort[0], 16) if abort else None
            acts.append(Act(int(hart), int(first), int(last), int(thread), form.decode('ascii'), handler))
    return acts


def text_of(lines: list[str]) -> bytes:
    return ''.join(f'{line}\n' for line in lines).encode('ascii')


def said(reason: bytes) -> str:
    """The first line of what a program says on standard error, behind a colon; nothing where it says nothing.
    """
    lines = reason.decode('utf-8', 'replace').splitlines()
    return f': {lines[0].removeprefix("rseq_run: ")}' if lines else ''
