"""Reads the words of a command line and ends a command, for `lens` and `sweep`: what is wrong is one line on
standard error."""
from __future__ import annotations

import argparse
import difflib
import sys
from collections.abc import Callable, Iterable, Sequence
from typing import NoReturn

from .faults import LensFault

FAULT_STATUS, INTERRUPTED_STATUS = 2, 130
VERSION = '0.4.0'
"""That of the program beside which the tools stand."""
SIMILAR = 0.5
"""From which likeness on a word is proposed, as difflib measures it."""


class Parser(argparse.ArgumentParser):
    """A parser whose faults are one line, with status 2. Help and version go to standard output, with status
    0."""

    def error(self, message: str) -> NoReturn:
        wrong = message.removeprefix('argument ').removeprefix('COMMAND: ')
        print(f'{self.prog}: {wrong} (`{self.prog} --help` says the words)', file=sys.stderr)
        sys.exit(FAULT_STATUS)

    def parse_known_args(
        self, args: Sequence[str] | None = None, namespace: argparse.Namespace | None = None
    ) -> tuple[argparse.Namespace, list[str]]:
        """As the library has it. But words that are left over are refused here, where it is known which
        command they were for."""
        found, left = super().parse_known_args(args, namespace)
        if left:
            self.error(self.left_over(left))
        return found, left

    def left_over(self, words: list[str]) -> str:
        """What is wrong with words that the command doesn't take."""
        option = next((word for word in words if word.startswith('-') and len(word) > 1), None)
        if option is None:
            return f'{words[0]!r} is one word too many'
        return no_such('option', option.partition('=')[0], self._option_string_actions)

    def _check_value(self, action: argparse.Action, value: str) -> None:
        """Refuses a word that is none of those that there are."""
        if action.choices is not None and value not in action.choices:
            what = 'word' if action.option_strings else 'command'
            raise argparse.ArgumentError(action, no_such(what, value, action.choices))


def no_such(what: str, word: str, known: Iterable[str]) -> str:
    """That a word is none of those that there are, and the nearest one; else all, where they are few."""
    names = [name for name in known if len(name) > 2]
    near = difflib.get_close_matches(word, names, 1, SIMILAR)
    others = f'; the nearest is {near[0]}' if near else '' if what == 'option' else f': {", ".join(names)} are there'
    return f'there is no {what} {word!r}{others}'


def add_version(parser: argparse.ArgumentParser) -> None:
    version = f'{parser.prog} (rseq_run) {VERSION}'
    parser.add_argument('--version', action='version', version=version, help='says the version')


def positive(words: str) -> int:
    """A number from 1 on."""
    return number_from(1, words)


def natural(words: str) -> int:
    """A number from 0 on."""
    return number_from(0, words)


def number_from(least: int, words: str) -> int:
    if not (words.isascii() and words.isdecimal()) or int(words) < least:
        raise argparse.ArgumentTypeError(f'{words!r} is no number from {least} on')
    return int(words)


def end(name: str, command: Callable[[], int]) -> int:
    """Does what a command is asked: its status; 2 and one line on standard error where it can't. Where nobody
    reads on (`.. | head`), it ends in silence, with the command's status if that was known by then, and with 0
    else."""
    status = 0
    try:
        status = command_status(command)
        sys.stdout.flush()
        sys.stderr.flush()
    except LensFault as fault:
        print(f'{name}: {fault}', file=sys.stderr)
        status = fault.status
    except BrokenPipeError:
        sys.stderr.close()
    except OSError as error:
        print(f'{name}: {error.filename or "standard output"}: {error.strerror}', file=sys.stderr)
        status = FAULT_STATUS
    except KeyboardInterrupt:
        print(f'{name}: interrupted', file=sys.stderr)
        status = INTERRUPTED_STATUS
    return status


def command_status(command: Callable[[], int]) -> int:
    """The status of a command, also where that ends it itself, as for `--help`."""
    try:
        return command()
    except SystemExit as ended:
        return int(ended.code or 0)
