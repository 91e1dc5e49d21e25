"""Agent expressions: each operation, jumps, and what can't be worked out."""
from __future__ import annotations

import unittest

from lens.agent import ALL, Expression, Unknown, read_expressions

MEMORY = bytes(range(0x80, 0x100))
AT = 0x1000


class Sight:
    """Registers that have their number and 5, and 128 bytes of memory."""

    def register(self, number: int) -> int:
        return number + 5

    def memory(self, at: int, size: int) -> bytes:
        return MEMORY[at - AT : at - AT + size] if at >= AT else b''


def value(*parts: int) -> int:
    """The value of some bytes, with the end after them."""
    return Expression(bytes([*parts, 0x27])).value(Sight())


def words(*values: int) -> list[int]:
    """The bytes that push some words."""
    return [byte for value in values for byte in (0x25, *(value & ALL).to_bytes(8, 'big'))]


TWO = {
    0x02: (7, ALL, 6),
    0x03: (7, 9, -2),
    0x04: (7, -3, -21),
    0x05: (-7, 2, -3),
    0x06: (-7, 2, (2**64 - 7) // 2),
    0x07: (-7, 2, -1),
    0x08: (-7, 16, 9),
    0x09: (3, 62, 3 << 62),
    0x0A: (-8, 1, -4),
    0x0B: (-8, 1, 2**63 - 4),
    0x0F: (6, 3, 2),
    0x10: (6, 3, 7),
    0x11: (6, 3, 5),
    0x13: (6, 6, 1),
    0x14: (-1, 1, 1),
    0x15: (-1, 1, 0),
}
"""Of each operation on two words these and its result."""


class Expressions(unittest.TestCase):
    def test_two_words(self) -> None:
        for code, (left, right, due) in TWO.items():
            with self.subTest(code=hex(code)):
                self.assertEqual(value(*words(left, right), code), due & ALL)

    def test_shifts_out_of_a_word(self) -> None:
        for code, due in {0x09: 0, 0x0A: -1, 0x0B: 0}.items():
            with self.subTest(code=hex(code)):
                self.assertEqual(value(*words(-8, 64), code), due & ALL)

    def test_one_word(self) -> None:
        self.assertEqual(value(*words(0), 0x0E), 1)
        self.assertEqual(value(*words(5), 0x0E), 0)
        self.assertEqual(value(*words(5), 0x12), ~5 & ALL)
        self.assertEqual(value(*words(0x1FF), 0x16, 8), ALL)
        self.assertEqual(value(*words(0x17F), 0x16, 8), 0x7F)
        self.assertEqual(value(*words(0x1FF), 0x2A, 8), 0xFF)

    def test_numbers(self) -> None:
        """They are read highest byte first, and have no sign."""
        self.assertEqual(value(0x22, 0xFE), 0xFE)
        self.assertEqual(value(0x23, 0x12, 0x34), 0x1234)
        self.assertEqual(value(0x24, 0x80, 0, 0, 1), 0x8000_0001)

    def test_what_is_there(self) -> None:
        self.assertEqual(value(0x26, 0, 8), 13)
        for code, size in {0x17: 1, 0x18: 2, 0x19: 4, 0x1A: 8}.items():
            with self.subTest(size=size):
                self.assertEqual(value(*words(AT + 2), code), int.from_bytes(MEMORY[2 : 2 + size], 'little'))

    def test_the_stack(self) -> None:
        self.assertEqual(value(*words(9, 4), 0x28, 0x02, 0x03), 1)  # 9 - (4 + 4)
        self.assertEqual(value(*words(9, 4), 0x29), 9)
        self.assertEqual(value(*words(9, 4), 0x2B, 0x03), -5 & ALL)
        self.assertEqual(value(*words(9, 4), 0x32, 1, 0x03), -5 & ALL)  # 9 4 9
        self.assertEqual(value(*words(1, 2, 7), 0x33, 0x03, 0x03), 7 - (1 - 2))  # 7 1 2

    def test_jumps(self) -> None:
        """`a ? 11 : 22` as gdb writes it."""
        for asked, due in {1: 11, 0: 22}.items():
            code = [0x22, asked, 0x20, 0, 10, 0x22, 22, 0x21, 0, 12, 0x22, 11]
            with self.subTest(asked=asked):
                self.assertEqual(value(*code), due)

    def test_what_cannot_be_worked_out(self) -> None:
        """No page, a division by 0, no words, an operation of floating point, a loop, a jump elsewhere."""
        for name, code in {
            'page': [*words(0x10), 0x1A],
            'zero': [*words(1, 0), 0x05],
            'words': [0x02],
            'float': [0x01],
            'loop': [0x21, 0, 0],
            'elsewhere': [0x21, 0, 99],
        }.items():
            with self.subTest(name=name), self.assertRaises(Unknown):
                value(*code)

    def test_packets(self) -> None:
        """The conditions of a breakpoint come one after another."""
        first, second = read_expressions('X3,220127X3,220027')
        self.assertEqual((first.value(Sight()), second.value(Sight())), (1, 0))
        self.assertEqual(read_expressions(''), [])
        for wrong in ('X', 'X3', 'X3,2201', '3,220127', 'X3,2z0127'):
            with self.subTest(wrong=wrong), self.assertRaises(ValueError):
                read_expressions(wrong)


if __name__ == '__main__':
    unittest.main()
