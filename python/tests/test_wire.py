"""The wire of a live network: frames and messages of hosts are read by their rules; whatever isn't one is refused."""

from __future__ import annotations

import struct
import unittest

from dorydate.export.leaders import body, leader
from dorydate.live.frames import LAST, MOST_WORDS, READY, Assembly, Frame, WireFault
from dorydate.live.messages import Said, nop, read
from dorydate.network import Host
from dorydate.script import Text

OWN = Host(0, 3)
RST = bytes.fromhex("00010000" + "00080001000C")


def read_by_hand(octets: bytes) -> str:
    """What the page says of a datagram, read another way: `ok`, or why it is refused."""
    if len(octets) < 12:
        return "short"
    if octets[:4] != b"H316":
        return "magic"
    words, odd = divmod(len(octets) - 12, 2)
    count, flags = octets[8] * 256 + octets[9], octets[10] * 256 + octets[11]
    if odd or words != count:
        return "length"
    return "flags" if flags not in range(4) else "long" if count > 506 else "ok"


def read_by_code(octets: bytes) -> str:
    try:
        return "ok" if Frame.read(octets).octets() == octets else "changed"
    except WireFault as why:
        return str(why)


def fault(words: bytes, marked: bool = False) -> str:
    try:
        read(OWN, words, marked)
    except WireFault as why:
        return str(why)
    return "ok"


class Frames(unittest.TestCase):
    def test_each_octet_changed_and_each_cut(self) -> None:
        whole = Frame(0x01020304, LAST | READY, RST).octets()
        self.assertEqual(whole, b"H316\1\2\3\4\0\5\0\3" + RST)
        for at in range(len(whole) + 1):
            for octets in (whole[:at], *(whole[:at] + bytes([it]) + whole[at + 1 :] for it in (0x00, 0x7F, 0xFF))):
                self.assertEqual(read_by_code(octets), read_by_hand(octets))

    def test_the_longest(self) -> None:
        for count, flags in ((MOST_WORDS, 3), (MOST_WORDS + 1, 3), (0, 2), (0, 4)):
            octets = struct.pack(">4sIHH", b"H316", 0, count, flags) + bytes(2 * count)
            self.assertEqual(read_by_code(octets), read_by_hand(octets))

    def test_numbers(self) -> None:
        it = Assembly()
        self.assertEqual(it.add(Frame(7, LAST | READY, RST)), RST)
        for late in (7, 6, (7 - (1 << 30)) % (1 << 32)):
            with self.assertRaisesRegex(WireFault, "late"):
                it.add(Frame(late, LAST | READY, RST))
        self.assertIsNone(it.add(Frame(8, READY, RST[:4])))
        self.assertEqual(it.add(Frame(9, LAST | READY, RST[4:])), RST)
        self.assertIsNone(it.add(Frame(10, READY, RST[:4])))
        self.assertEqual((it.add(Frame(12, LAST | READY, RST)), it.gaps), (RST, 1))
        self.assertEqual((it.add(Frame(0, LAST | READY, RST)), it.gaps), (RST, 2))
        self.assertIsNone(it.add(Frame(1, READY, bytes(1012))))
        with self.assertRaisesRegex(WireFault, "long"):
            it.add(Frame(2, LAST | READY, bytes(2)))


class Messages(unittest.TestCase):
    def test_what_hosts_say(self) -> None:
        said = read(OWN, RST, False)
        self.assertEqual(str(said.event), "out 0/3 0/1 0 48 00080001000C")
        self.assertEqual(str(read(OWN, RST + b"\x80\0", True).event), "out 0/3 0/1 0 48 00080001000C")
        self.assertEqual(str(read(OWN, leader(0, Host(3, 63), 255) + b"\xf8\0", True).event), "out 0/3 3/63 255 4 F0")
        self.assertEqual(read(OWN, nop(OWN), False), Said())
        self.assertEqual(read(OWN, b"\2\0\0\0", False).note, "0/3 says that it goes down")

    def test_what_is_refused(self) -> None:
        rows = [(b"\0\1\0", "leader"), (b"\x0f\1\0\0", "long leader"), (b"\5\1\0\0", "type 5"), (b"\0\x40\0\0", "imp")]
        rows += [(bytes.fromhex("00010000") + bytes(2 * count), why) for count, why in ((503, "ok"), (504, "text"))]
        for words, why in rows:
            self.assertEqual(fault(words), why)
        self.assertEqual(fault(b"\0\1\0\0" + bytes(8), True), "mark")

    def test_each_length_is_read_again(self) -> None:
        for bits in (0, 1, 15, 16, 17, 8063):
            text = Text(((1 << bits) - 1 << -bits % 8).to_bytes(-(-bits // 8), "big"), bits)
            event = read(OWN, leader(0, Host(0, 1), 5) + body(text), True).event
            self.assertEqual(event and event.text, text)


if __name__ == "__main__":
    unittest.main()
