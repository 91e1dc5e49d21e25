"""The texts that worked runs of `make` and `trial` want, made again; and what the readers refuse."""
from __future__ import annotations

import unittest
from pathlib import Path

from guests.listing import GUESTS, ListingFault, instruction, lines, number, steps_of
from guests.choosing import Generator
from guests.instructions import UnknownWord, step_of
from guests.making import Part, assembled, file_of, made
from guests.trial import Trial

ROWS = Path(__file__).resolve().parents[3] / 'crates' / 'worked_runs' / 'data'
# What a trial takes where its words say nothing else (README.md, "Options").
HARTS, SEED = 2, 1


class TestFiles(unittest.TestCase):
    """The file of each guest."""

    def test_worked_runs_have_the_files(self) -> None:
        rows = sorted(ROWS.glob('guests/file_of_*'))
        self.assertEqual(sorted(GUESTS), [row.name.removeprefix('file_of_') for row in rows])
        for row in rows:
            command, guest, size = (row / 'words').read_text().split()
            with self.subTest(row=row.name):
                self.assertEqual((command, guest), ('make', row.name.removeprefix('file_of_')))
                self.assertEqual(made(guest, int(size)), (row / 'stdout').read_bytes())

    def test_a_file_has_its_parts_at_the_lowest_places(self) -> None:
        parts = [Part(0x10000, 5, b'\1' * 4, 0x1000), Part(0x20004, 6, b'\2', 0x1000)]
        file = file_of(parts, 0x10000, 16)
        self.assertEqual(len(file), 0x1005)
        self.assertEqual((file[0x1000:0x1004], file[0x1004:]), (b'\1' * 4, b'\2'))
        self.assertEqual(file[64 + 8 : 64 + 16], (0x1000).to_bytes(8, 'little'))
        self.assertEqual(file[120 + 8 : 120 + 16], (0x1004).to_bytes(8, 'little'))


def option(words: list[str], name: str, otherwise: int) -> int:
    """The number behind an option."""
    return int(words[words.index(name) + 1]) if name in words else otherwise


class TestTrials(unittest.TestCase):
    """The trials of the counter, by the rule of rounds."""

    def test_worked_runs_have_the_texts(self) -> None:
        rows = sorted(ROWS.glob('trials/counter*'))
        self.assertEqual([row.name for row in rows], ['counter', 'counter_on_three_harts'])
        for row in rows:
            for line in (row / 'words').read_text().splitlines():
                words = line.split()
                harts, seed = option(words, '--harts', HARTS), option(words, '--seed', SEED)
                trial = Trial(made('counter', int(words[2])), harts, seed)
                with self.subTest(line=line):
                    self.assertEqual(trial.text(), (row / 'stdout').read_bytes())

    def test_the_generator_is_xoshiro256(self) -> None:
        # The first words from the state 1, 2, 3, 4, by the reference in C (Blackman and Vigna).
        generator = Generator(0)
        generator.state = [1, 2, 3, 4]
        self.assertEqual([generator.word() for _ in range(3)], [41943041, 58720359, 3588806011781223])

    def test_an_unknown_word_is_refused(self) -> None:
        self.assertEqual(step_of(0xFFDFF06F, 0x10004, [0] * 32).pc, 0x10000)
        with self.assertRaises(UnknownWord):
            step_of(0, 0x10000, [0] * 32)


class TestListings(unittest.TestCase):
    """What is read of a listing."""

    def test_numbers_are_sums_of_constants(self) -> None:
        names = {'DATA': '0x20000', 'NEXT': 'DATA + 8'}
        self.assertEqual(number('NEXT + 1', names), 0x20009)
        self.assertEqual(number('-0x100', names), -0x100)

    def test_steps_are_counted(self) -> None:
        text = 'const A: [Step; 2] = [\n    label!(X),\n    ecall!(),\n];'
        self.assertEqual(list(lines(steps_of(text, 'A'), {'X': '3'})), ['L3:', 'ecall'])
        with self.assertRaises(ListingFault):
            steps_of(text.replace('2', '3'), 'A')
        with self.assertRaises(ListingFault):
            steps_of(text.replace('ecall!()', 'ebreak!()'), 'A')
        with self.assertRaises(ListingFault):
            steps_of(text, 'B')

    def test_an_unknown_instruction_is_refused(self) -> None:
        self.assertEqual(instruction('Lui rd = 5, imm = -0xebff000', {}), f'lui x5, {0xF1401}')
        with self.assertRaises(ListingFault):
            instruction('Xor rd = 5, rs1 = 5, rs2 = 5', {})

    def test_labels_have_addresses(self) -> None:
        code = assembled('    .option norvc\nL1: nop\nL2: j L1\nL3: nop\n')
        self.assertEqual(code.words[4:8], (0xFFDFF06F).to_bytes(4, 'little'))
        self.assertEqual(code.descriptor(0), [0, 0x10000, 4, 0x10008])
        self.assertEqual(code.descriptor(8), [0, 0, 0, 0])


if __name__ == '__main__':
    unittest.main()
