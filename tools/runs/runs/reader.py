"""Takes a text of rseq_run apart."""
from __future__ import annotations

from .faults import RunsFault


class Reader:
    """Takes an output text apart from its beginning, and says where it isn't one."""

    def __init__(self, name: str, text: bytes):
        self.name = name
        self.rest = text

    def fault(self, words: str) -> RunsFault:
        return RunsFault(f'{self.name}: {words}')

    def line(self, due: str) -> str:
        line, newline, rest = self.rest.partition(b'\n')
        if not newline:
            raise self.fault(f'it is cut off: {due} is due where it ends')
        self.rest = rest
        return line.decode('ascii', 'replace')

    def number(self, word: str) -> int:
        """The number of a line `WORD N`."""
        line = self.line(f'a line "{word} N"')
        found, _, digits = line.partition(' ')
        if found != word or not digits.isdecimal():
            raise self.fault(
                f'it is no output of rseq_run: a line "{word} N" is due, and {line[:40]!r} came'
            )
        return int(digits)

    def console(self) -> bytes:
        length = self.number('console')
        console, newline = self.rest[:length], self.rest[length : length + 1]
        if newline != b'\n':
            raise self.fault(
                f'it is cut off or changed: {length} bytes of the console and a newline are due'
            )
        self.rest = self.rest[length + 1 :]
        return console

    def log(self) -> bytes:
        if self.rest.startswith(b'console '):
            raise self.fault('it is an output of `pair`, and the run of one process is wanted here')
        length = self.number('log')
        last = self.rest.rfind(b'\n', 0, -1) + 1
        if self.rest.count(b'\n', 0, last) != length:  # (else all but the last line is the log)
            return self.lines(length)
        found, self.rest = self.rest[:last], self.rest[last:]
        return found

    def lines(self, count: int) -> bytes:
        """The next lines, so many of them."""
        lines = self.rest.split(b'\n', count)
        if len(lines) <= count:
            raise self.fault(f'it is cut off: line {len(lines)} of the {count} of its log is due where it ends')
        last = len(self.rest) - len(lines[-1])
        found, self.rest = self.rest[:last], self.rest[last:]
        return found

    def end(self) -> str:
        line = self.line('the line of its end')
        if not line.startswith('end ') or self.rest:
            raise self.fault(f'a line "end REASON" is due behind the log, and {line[:40]!r} came')
        return line.removeprefix('end ')
