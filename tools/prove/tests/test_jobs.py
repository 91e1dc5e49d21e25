"""How many crates are proved at a time."""
from __future__ import annotations

import tempfile
import unittest
from pathlib import Path

from prove.jobs import JOBS, environment, free_memory, jobs_for

GB = 1_000_000_000


class Jobs(unittest.TestCase):
    def test_one_proof_a_processor_where_memory_suffices(self) -> None:
        self.assertEqual(jobs_for(4, 23 * GB), 4)

    def test_as_many_as_memory_holds(self) -> None:
        self.assertEqual(jobs_for(4, 9 * GB), 2)
        self.assertEqual(jobs_for(16, 23 * GB), 5)

    def test_one_at_least(self) -> None:
        self.assertEqual(jobs_for(4, 0), 1)


class Memory(unittest.TestCase):
    def setUp(self) -> None:
        self.folder = tempfile.TemporaryDirectory()
        self.addCleanup(self.folder.cleanup)
        self.free = Path(self.folder.name) / 'meminfo'
        self.limit = Path(self.folder.name) / 'memory.max'
        self.free.write_text('MemTotal:       24000000 kB\nMemAvailable:   20000000 kB\n')

    def test_what_is_free(self) -> None:
        self.assertEqual(free_memory(self.free, (self.limit,)), 20_480_000_000)

    def test_a_control_group_has_less(self) -> None:
        self.limit.write_text('8000000000\n')
        self.assertEqual(free_memory(self.free, (self.limit,)), 8 * GB)

    def test_a_control_group_without_a_limit(self) -> None:
        self.limit.write_text('max\n')
        self.assertEqual(free_memory(self.free, (self.limit,)), 20_480_000_000)

    def test_a_system_that_does_not_say(self) -> None:
        self.assertEqual(free_memory(self.limit, ()), 0)


class Environment(unittest.TestCase):
    def test_the_number_is_added(self) -> None:
        self.assertGreaterEqual(int(environment({'HOME': '/root'})[JOBS]), 1)

    def test_a_number_that_is_given_stays(self) -> None:
        self.assertEqual(environment({JOBS: '2'}), {JOBS: '2'})


if __name__ == '__main__':
    unittest.main()
