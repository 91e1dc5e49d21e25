"""Packets of gdb's remote protocol ("Overview" of that appendix in gdb's manual): `$CONTENT#SUM`, the escapes
in them, and their acknowledgement."""
from __future__ import annotations

import re
from collections.abc import Callable

ESCAPE, ESCAPED = 0x7D, 0x20
SPECIAL = re.compile(rb'[#$}*]')
AFTER_ESCAPE = re.compile(rb'}(.)', re.DOTALL)
TAKEN, AGAIN = b'+', b'-'
SUM_DIGITS = 2


def escaped(content: bytes) -> bytes:
    """Content without the bytes that mean something in a packet."""
    return SPECIAL.sub(lambda found: bytes([ESCAPE, found[0][0] ^ ESCAPED]), content)


def unescaped(content: bytes) -> bytes:
    return AFTER_ESCAPE.sub(lambda found: bytes([found[1][0] ^ ESCAPED]), content)


def check_sum(content: bytes) -> bytes:
    """The digits after a packet's content."""
    return b'%02x' % (sum(content) & 0xFF)


def packet(content: bytes) -> bytes:
    """The packet that has a content."""
    body = escaped(content)
    return b'$' + body + b'#' + check_sum(body)


class Link:
    """A connection with one gdb. `get` gives bytes as they come, and none at the end; `put` takes some."""

    def __init__(self, get: Callable[[], bytes], put: Callable[[bytes], None]):
        self.get, self.put = get, put
        self.rest = b''
        self.last = b''
        self.is_acknowledged = True
        """Whether each packet is acknowledged, as from the beginning, until gdb wants that no more."""

    def send(self, content: bytes) -> None:
        self.last = packet(content)
        self.put(self.last)

    def receive(self) -> bytes | None:
        """The content of the next packet; None where no more come. What stands between packets is passed
        over: acknowledgements, and the byte 3, which asks a running program to stop, and here none runs."""
        while True:
            content = self.whole_packet()
            if content is not None:
                return unescaped(content)
            more = self.get()
            if not more:
                return None
            self.rest += more

    def whole_packet(self) -> bytes | None:
        """Takes a packet from what has come, where a whole one has."""
        while True:
            self.skip()
            body, hash_sign, rest = self.rest[1:].partition(b'#')
            if not hash_sign or len(rest) < SUM_DIGITS:
                return None
            self.rest = rest[SUM_DIGITS:]
            if not self.is_acknowledged:
                return body
            is_whole = rest[:SUM_DIGITS].lower() == check_sum(body)
            self.put(TAKEN if is_whole else AGAIN)
            if is_whole:
                return body

    def skip(self) -> None:
        """Passes over what stands before a packet. A packet that gdb wants again is sent again."""
        start = self.rest.find(b'$')
        before = self.rest if start < 0 else self.rest[:start]
        self.rest = b'' if start < 0 else self.rest[start:]
        if self.is_acknowledged and AGAIN in before and self.last:
            self.put(self.last)
