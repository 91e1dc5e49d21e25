"""The words of a file, taken one after the other."""
from __future__ import annotations

from .lexer import NAME, NUMBER, Word, refusal

REGISTERS = {
    **{f'x{number}': number for number in range(32)},
    **{name: number for number, name in enumerate(('zero', 'ra', 'sp', 'gp', 'tp', 't0', 't1', 't2'))},
    **{'s0': 8, 'fp': 8, 's1': 9}, **{f'a{at}': 10 + at for at in range(8)},
    **{f's{at}': 16 + at for at in range(2, 12)}, **{f't{at}': 25 + at for at in range(3, 7)},
}


class Reader:
    """The words of a text, one after the other; the last one is of the kind END, and never taken."""

    def __init__(self, words: list[Word]):
        self.words = words
        self.at = 0

    @property
    def next(self) -> Word:
        return self.words[self.at]

    @property
    def after(self) -> Word:
        """The word behind the next one."""
        return self.words[min(self.at + 1, len(self.words) - 1)]

    @property
    def last(self) -> Word:
        """The word that was taken last."""
        return self.words[self.at - 1]

    def take(self) -> Word:
        word = self.next
        self.at = min(self.at + 1, len(self.words) - 1)
        return word

    def takes(self, *marks: str) -> bool:
        """Takes the next word where it is one of these marks."""
        found = self.next.is_mark(*marks)
        if found:
            self.take()
        return found

    def expect(self, mark: str) -> Word:
        if not self.next.is_mark(mark):
            raise refusal(self.next, f'{mark!r} is due here')
        return self.take()

    def of_kind(self, kind: str, due: str) -> Word:
        if self.next.kind != kind:
            raise refusal(self.next, f'{due} is due here')
        return self.take()

    def number(self, bits: int = 64) -> int:
        """A number; at most so large that so many bits hold it, with a sign or without."""
        word = self.of_kind(NUMBER, 'a number')
        number = value_of(word)
        if not -(1 << bits - 1) <= number < 1 << bits:
            raise refusal(word, f'this number has more than {bits} bits')
        return number

    def register(self) -> int:
        word = self.of_kind(NAME, 'a register')
        if word.text not in REGISTERS:
            raise refusal(word, 'there is no such register')
        return REGISTERS[word.text]


def value_of(word: Word) -> int:
    """What a number says, in decimal or hexadecimal digits."""
    digits = word.text.lower()
    return int(digits, 16) if 'x' in digits else int(digits)
