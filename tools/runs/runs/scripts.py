"""The script that is in a text: the log of an output, of one process or of a pair; or the text itself."""
from __future__ import annotations

from .output import outline
from .pair import is_pair, pair_outline

OUTPUT_BEGINS = (b'console ', b'fault ')


def is_output(text: bytes) -> bool:
    """Whether a text is an output, or what is printed in place of one; else it is a script."""
    return text.startswith(OUTPUT_BEGINS)


def script_of(name: str, text: bytes) -> bytes:
    """The script in a text; a fault that names it where it is an output that isn't whole."""
    if not is_output(text):
        return text
    if text.startswith(b'console ') and is_pair(name, text):
        return pair_outline(name, text).log
    return outline(name, text).log
