#!/usr/bin/env python3
"""Runs the examples and the worked runs on the built program, and compares what it prints with what stands beside them.

    examples/check.py [PROGRAM [NAME..]]

PROGRAM is crates/rseq_run/out/rseq_run where it isn't given: `rt ci` leaves it there. Where names are given, those alone are run: a
name of an example, `pairs`, `blocks`, `headers`, `explorations`, `real`, or of a group of worked runs (barriers/), or of one of them (barriers/taken_by_an_idle_hart).

For each example NAME:
- `solo` prints the console of console.expected and the end of end.expected;
- its log lines, played, give the same text;
- the same log lines on hart 1 of two give the same text but for the number of the hart;
- each NAME/*.script, played on two harts, gives the *.output beside it (with status 4 where that is a fault line), and the log
  lines that it prints, played, give the same text again;
- `blocks` on the script gives the *.summary beside it, where there is one, and the fault line, where that is its output;
- `gather` on the script gives the *.gathered beside it, where there is one. It has the same console and end, and of each hart the same
  log lines in the same order; and the log lines that it prints, played, give its text again;
- `trace` on the script has the log lines and the end of its output where its facts are left out, and each line's number below it;
  and from the middle on it is what `--from` gives;
- `inspect` on the script, and on the first half of its lines, tells how many lines there are and the end; lines that it says may
  come next are played behind them, and lines that it says may not are refused there; where the script is refused, it says so of the
  refused line, on the lines before that; and where stores wait, `--memory` tells of their bytes that each hart sees its own stores
  over what memory has;
- TAKE_SCRIPT, a line of sed, takes exactly the log lines from what `solo` and the scripts print, and from a text whose
  console looks like a log;
- each NAME/*.session is what its commands print, one behind the other, in a copy of the example's folder. A line that begins with
  `$ ` is a command, one with `# ` is a remark, and all others are what the command before them prints: standard output, standard
  error, and `status N` where that isn't 0;
- `run`, with each of SEEDS on 1, 2, 4 and 8 harts, prints the same console and end, or those of NAME/outcomes/*.console with the
  *.end beside it (else the example's), where they hang on the interleaving (a *.pattern there is a regular expression for the
  whole console); and the log lines that it prints, played on as many harts, give the same text;
- `draw`, with each of DRAWN_SEEDS on as many harts, does so too, and prints the same text at a second call.

For each NAME/*.pair `pair` on the two programs that it names, with the *.script beside it, gives the *.output beside that (with status 4
where it is a fault line). The log lines that it prints, played by `pair`, give the same text, and TAKE_PAIR_SCRIPT, a line of
sed for such a text, takes exactly these.

For each of GUESTS the file that `make` prints runs so by `run` and by `draw`, with its number on the console, and `trial` on so many
harts has that console too, and prints the same text at a second call. The guest urcu has one outcome in many drawn runs, and more than
one where its sync block makes no call.

For each of BLOCKS the text of common/percpu_blocks.h, as GCC and its assembler make it with the registers of the guests, stands once, byte
for byte, in the file that `make` prints of the guest. The headers of common/ are compiled without a warning, all of them twice, with each
of them first. Where the toolchain of the Makefile lacks, both are left out, and said.

For each worked run crates/worked_runs/data/GROUP/NAME, each line of its file `words`, given to the program in that folder, gives its
`status` and its `stdout` (or its `any-hart`, where that is there), or a text that begins with its `begins` and ends with its `ends`.
Standard error says what its `stderr` has, or begins with the line of its `told` at the place of the command line. Those whose devices
fail (a file `fails`) only crates/worked_runs can make. And crates/worked_runs/data/rows lists just these folders, in order.

Of each line of real/ends.expected so many drawn runs of the program have just these ends.

For each of EXPLORED the line `overtaken N of M` of `explore` is counted again from the logs of its runs (overtaken.py). A long `explore`
that SIGINT or SIGTERM breaks off has said what it found, and a seed of each; on a terminal a line says how far one is. A long `outcomes`
that is broken off has said what it found too (interrupted.py). And one of whose runs a quarter go round for ever says at its end how many ended at the limit, and which limit would be
enough. With `--expect` its text is the same; the status is 1 where a run of Peterson's lock ended otherwise, and 0 of its twin with fences.

Where the reader of a pipe closes it, the program ends with status 6 and says nothing; where a disk is full, it says so, and first what it
was about to say.

In each call standard error is empty exactly where the status is 0, but for what an `explore` or an `outcomes` that takes long says there.
"""
from __future__ import annotations

import sys
from pathlib import Path

from checks.compiled import check_blocks, check_headers
from checks.examples import check_examples
from checks.explorations import check_explorations
from checks.guests import check_guests
from checks.pairs import check_pairs
from checks.programs import HERE, Difference
from checks.real import check_all_real
from checks.texts import LOOKS_LIKE_A_LOG, check_taken
from checks.worked import are_listed, check_worked

BUILT = HERE.parent / 'crates' / 'rseq_run' / 'out' / 'rseq_run'
PARTS = {'blocks', 'headers', 'explorations', 'real'}
"""The names of checks that are none of an example, a guest or a worked run."""


def main() -> int:
    program = Path(sys.argv[1]).resolve() if len(sys.argv) > 1 else BUILT
    if not program.is_file():
        sys.exit(f'{program} is no file: build it with `rt ci` first')
    try:
        check_taken(LOOKS_LIKE_A_LOG)
    except Difference as difference:
        sys.exit(f'a console that looks like a log: {difference}')
    names = sys.argv[2:]
    failed, folders = check_examples(program, names)
    unpaired, pairs = check_pairs(program, names)
    broken, guests = check_guests(program, names)
    changed = check_blocks(program, names) + check_headers(names) + check_explorations(program, names) + check_all_real(program, names)
    is_listed = are_listed()
    differ, worked = check_worked(program, names)
    some = folders or pairs or guests or worked or PARTS & set(names)
    is_well = not (failed or unpaired or broken or changed or differ) and is_listed and bool(some) and bool(names or worked)
    return 0 if is_well else 1


if __name__ == '__main__':
    sys.exit(main())
