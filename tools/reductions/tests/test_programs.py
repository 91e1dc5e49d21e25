"""What the programs of seeds and names are like, and that they can be built."""
from __future__ import annotations

import re
import tempfile
import unittest
from collections import Counter
from pathlib import Path

from litmus.building import build, toolchains
from reductions.generator import KINDS, random_program
from reductions.named import NAMED
from reductions.program import CALL_RSEQ, DESCRIPTORS, OWN, RUNNING, SHARED, Lines, Program, assembler

SEEDS = range(200)
LABEL = re.compile(r'^(\w+):$', re.MULTILINE)
PLACE = re.compile(r' (\d+)\(s7\)$')
needs_toolchain = unittest.skipUnless(toolchains(), 'there is no assembler of RISC-V')


def programs() -> list[Program]:
    return [*map(random_program, SEEDS), *NAMED.values()]


def touched(lines: Lines) -> set[int]:
    """The places of the words that some lines load or store."""
    return {int(place) for line in lines for place in PLACE.findall(line)}


class Programs(unittest.TestCase):
    def test_a_seed_gives_one_program(self) -> None:
        self.assertEqual([random_program(seed) for seed in SEEDS], [random_program(seed) for seed in SEEDS])
        texts = {assembler(random_program(seed)).partition('\n')[2] for seed in SEEDS}
        self.assertGreater(len(texts), 180)

    def test_each_kind_comes(self) -> None:
        kinds = Counter(random_program(seed).name.partition(': ')[2] for seed in SEEDS)
        self.assertEqual(set(kinds), set(KINDS))

    def test_what_they_have(self) -> None:
        """Among the programs is each thing that the reduction has to heed."""
        texts = [assembler(random_program(seed)) for seed in SEEDS]
        for thing in (
            'lr.w', 'amoadd.w', 'fence', 'beqz t0', f'li a7, {CALL_RSEQ}', 'j retry', 'bne t4, t5, abort',
            'handler:', 'sd zero', 'li a0, 8\n', 'li a0, 128\n', 'li a7, 124', 'li a7, 98', 'li a7, 130',
            'li a7, 168',
        ):
            with self.subTest(thing=thing):
                self.assertGreater(sum(thing in text for text in texts), 2)

    def test_labels_and_words(self) -> None:
        """No label stands twice, each sequence has its descriptor, and no thread touches the other's own
        word."""
        for program in programs():
            with self.subTest(name=program.name):
                labels = LABEL.findall(assembler(program))
                self.assertEqual(len(labels), len(set(labels)))
                self.assertEqual(sum(label.startswith('start') for label in labels), program.sequences)
                for own, other in zip(OWN, reversed(program.threads)):
                    self.assertNotIn(own, touched(other))

    def test_the_data_lies_where_the_code_has_it(self) -> None:
        self.assertTrue(max(*SHARED, *OWN) + 8 <= RUNNING)
        text = assembler(random_program(3))
        zeros = sum(map(int, re.findall(r'\.zero (\d+)', text.partition('.quad')[0])))
        self.assertEqual(zeros + 4 + 24, DESCRIPTORS)

    @needs_toolchain
    def test_they_can_be_built(self) -> None:
        with tempfile.TemporaryDirectory() as folder:
            for program in programs()[::7]:
                with self.subTest(name=program.name):
                    self.assertTrue(build(assembler(program), Path(folder) / 'program.elf').is_file())
