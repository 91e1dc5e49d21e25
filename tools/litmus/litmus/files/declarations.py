"""The initial state of a file: its variables with their types, and the first values of registers. And what
the rest of the file says of registers and variables: whatever names a variable makes it one, which holds 0 at
first."""
from __future__ import annotations

from .lexer import NAME, NUMBER, Word, refusal
from .parts import DOUBLE, WORD, Kind, Observed, Register, Value, Variable
from .reader import Reader

UNSIGNED_WORD, UNSIGNED_DOUBLE = Kind(4, False), Kind(8, False)
KINDS = {
    **dict.fromkeys(('int', 'int32_t'), WORD),
    'uint32_t': UNSIGNED_WORD,
    **dict.fromkeys(('long', 'int64_t', 'intptr_t'), DOUBLE),
    **dict.fromkeys(('uint64_t', 'uintptr_t'), UNSIGNED_DOUBLE),
}


class Declarations:
    """What is known so far of the variables and registers of a file."""

    def __init__(self, reader: Reader):
        self.reader = reader
        self.variables: dict[str, Variable] = {}
        self.initial: dict[Register, Value] = {}
        self.threads: list[tuple[int, Word]] = []
        """Which threads were named, and where."""

    def read_initial(self) -> None:
        """`{ x=1; int y; 0:x5=x; }`."""
        self.reader.expect('{')
        while not self.reader.takes('}'):
            if not self.reader.takes(';'):
                self.read_entry()
                if not self.reader.next.is_mark('}'):
                    self.reader.expect(';')

    def read_entry(self) -> None:
        kind, word = self.read_kind(), self.reader.next
        observed = self.observed()
        value: Value = self.value() if self.reader.takes('=') else 0
        if isinstance(observed, Register):
            self.set_register(observed, value, word)
        else:
            self.set_variable(observed, Variable(value, kind), word)

    def read_kind(self) -> Kind | None:
        """The type before a register or a variable, where one is there."""
        word, after = self.reader.next, self.reader.after
        if word.kind != NAME or not (after.kind in (NAME, NUMBER) or after.is_mark('*')):
            return None
        if word.text not in KINDS:
            raise refusal(word, f'this type isn\'t taken: {", ".join(KINDS)} are')
        self.reader.take()
        return DOUBLE if self.reader.takes('*') else KINDS[word.text]

    def observed(self) -> Observed:
        """`0:x5`, `x` or `[x]`."""
        if self.reader.next.kind == NUMBER:
            return self.register()
        is_bracketed = self.reader.takes('[')
        name = self.variable('a register, as 0:x5, or a variable')
        if is_bracketed:
            self.reader.expect(']')
        return name

    def register(self) -> Register:
        """`0:x5`."""
        word = self.reader.take()
        if not word.text.isdecimal():
            raise refusal(word, 'the number of a thread is due here')
        self.reader.expect(':')
        self.threads.append((int(word.text), word))
        return Register(int(word.text), self.reader.register())

    def variable(self, due: str) -> str:
        """The name of a variable, which there is from now on."""
        word = self.reader.of_kind(NAME, due)
        if '.' in word.text:
            raise refusal(word, 'the name of a variable has no full stop')
        self.variables.setdefault(word.text, Variable())
        return word.text

    def value(self) -> Value:
        """A number, or the name of a variable, which stands for its address."""
        if self.reader.next.kind == NUMBER:
            return self.reader.number()
        return self.variable('a number or the name of a variable')

    def set_register(self, register: Register, value: Value, word: Word) -> None:
        if register in self.initial:
            raise refusal(word, f'{register} has a value already')
        if register.number == 0 and value != 0:
            raise refusal(word, 'x0 is always 0')
        self.initial[register] = value

    def set_variable(self, name: str, variable: Variable, word: Word) -> None:
        if self.variables[name] != Variable():
            raise refusal(word, f'{name} has a value or a type already')
        size = DOUBLE.size if variable.kind is None else variable.kind.size
        if isinstance(variable.initial, str):
            if size < DOUBLE.size:
                raise refusal(word, f'the address of {variable.initial} has {DOUBLE.size} bytes')
        elif not -(1 << 8 * size - 1) <= variable.initial < 1 << 8 * size:
            raise refusal(word, f'{variable.initial} has more than {size} bytes')
        self.variables[name] = variable

    def check_threads(self, threads: int) -> None:
        """Refuses a register of a thread that there isn't."""
        for number, word in self.threads:
            if number >= threads:
                raise refusal(word, f'there is no thread {number}')


