"""Packets of gdb's protocol, as bytes: their sums, their escapes, and how they are acknowledged."""
from __future__ import annotations

import unittest

from lens.packets import Link, escaped, packet, unescaped


class Talk:
    """A connection whose other side has sent some pieces; `sent` is what it gets."""

    def __init__(self, *pieces: bytes):
        self.pieces, self.sent = list(pieces), b''
        self.link = Link(lambda: self.pieces.pop(0) if self.pieces else b'', self.put)

    def put(self, content: bytes) -> None:
        self.sent += content

    def received(self) -> list[bytes]:
        """The content of each packet that comes."""
        return list(iter(self.link.receive, None))


class Packets(unittest.TestCase):
    def test_a_packet(self) -> None:
        self.assertEqual(packet(b'OK'), b'$OK#9a')
        self.assertEqual(packet(b''), b'$#00')

    def test_escapes(self) -> None:
        self.assertEqual(escaped(b'a#b$c}d*e'), b'a}\x03b}\x04c}]d}\ne')
        every = bytes(range(256))
        self.assertEqual(unescaped(escaped(every)), every)
        self.assertNotRegex(escaped(every), rb'[#$*]')

    def test_what_comes(self) -> None:
        """Packets in pieces, acknowledgements and interrupts between them."""
        talk = Talk(b'+$g#67', b'+\x03$m100', b'00,4#', b'be', b'\x03+')
        self.assertEqual(talk.received(), [b'g', b'm10000,4'])
        self.assertEqual(talk.sent, b'++')

    def test_a_wrong_sum(self) -> None:
        """It is asked for again, and what comes then counts."""
        talk = Talk(b'$g#00$g#67')
        self.assertEqual(talk.received(), [b'g'])
        self.assertEqual(talk.sent, b'-+')

    def test_a_packet_is_wanted_again(self) -> None:
        talk = Talk(b'-')
        talk.link.send(b'OK')
        self.assertEqual(talk.received(), [])
        self.assertEqual(talk.sent, b'$OK#9a$OK#9a')

    def test_without_acknowledgements(self) -> None:
        talk = Talk(b'+$g#00$?#3f')
        talk.link.is_acknowledged = False
        self.assertEqual(talk.received(), [b'g', b'?'])
        self.assertEqual(talk.sent, b'')

    def test_a_packet_that_is_cut(self) -> None:
        for cut in (b'$', b'$g', b'$g#', b'$g#6'):
            with self.subTest(cut=cut):
                self.assertEqual(Talk(cut).received(), [])


if __name__ == '__main__':
    unittest.main()
