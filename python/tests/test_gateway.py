"""A live network: hosts speak to it over UDP and TCP, its record is the replay, and it continues after an end."""

from __future__ import annotations

import argparse
import asyncio
import contextlib
import errno
import io
import os
import socket
import tempfile
import time
import unittest
from collections.abc import Awaitable, Callable
from pathlib import Path
from typing import Any
from unittest import mock

from dorydate.live import command
from dorydate.live.command import opened, parser, serve
from dorydate.live.engine import Ended
from dorydate.live.frames import LAST, READY, Frame
from dorydate.live.gateway import Gateway
from dorydate.live.interface import Allowance, Interface
from dorydate.live.record import Record, read
from dorydate.live.services import Served
from dorydate.live.session import Session, Wish
from dorydate.network import Host
from dorydate.replay import output_of
from dorydate.script import octets_of, read_event
from dorydate.where import found

THREE = """[[imp]]
id = 1 # UCLA
hosts = 1
[[imp]]
id = 2 # SRI
hosts = 1
foreign = [0]
[[imp]]
id = 3 # MINE
hosts = 1
foreign = [0]
[[line]]
a = 1
b = 2
[[line]]
a = 2
b = 3
"""
PACKED = """<html><meta charset="utf-8"><meta content="default-src 'none'; base-uri 'none'"></html>"""
RST, RRP = bytes.fromhex("00080001000C"), bytes.fromhex("00080001000D")
TO_HERE = bytes.fromhex("00010000")


class Killed(BaseException):
    """As a kill: nothing comes after it."""


def free_port() -> int:
    with socket.socket(socket.AF_INET, socket.SOCK_DGRAM) as it:
        it.bind(("127.0.0.1", 0))
        return int(it.getsockname()[1])


class Peer(asyncio.DatagramProtocol):
    """A host that says what a test says, over UDP."""

    def __init__(self) -> None:
        self.heard: asyncio.Queue[bytes] = asyncio.Queue()
        self.sequence = 0

    def datagram_received(self, data: bytes, addr: tuple[str, int]) -> None:
        self.heard.put_nowait(Frame.read(data).words)

    def connection_made(self, transport: Any) -> None:
        self.transport = transport

    def say(self, words: bytes = b"", ready: bool = True) -> None:
        flags = (LAST if words else 0) | (READY if ready else 0)
        self.transport.sendto(Frame(self.sequence, flags, words).octets())
        self.sequence += 1

    async def hears(self, count: int) -> list[str]:
        return [(await asyncio.wait_for(self.heard.get(), 20)).hex() for _ in range(count)]


async def peer_at(port: int) -> Peer:
    _, peer = await asyncio.get_running_loop().create_datagram_endpoint(Peer, remote_addr=("127.0.0.1", port))
    return peer


class Live(unittest.TestCase):
    def setUp(self) -> None:
        room = tempfile.TemporaryDirectory()
        self.addCleanup(room.cleanup)
        self.folder = Path(room.name)
        (self.folder / "three").write_text(THREE)
        self.ports = free_port(), free_port()

    def session(self, *words: str, folder: str = "record", **talk: Callable[[], Awaitable[None]]) -> str:
        """Runs a session until what is said in it is over. Its comments, and why it ended."""
        ends = [f"0/2={self.ports[0]}", f"0/3={self.ports[1]}"]
        asked = [str(self.folder / "three"), "--bind", *ends, "--record", str(self.folder / folder), *words]
        chosen: argparse.Namespace = parser().parse_args(asked)

        async def both() -> str:
            running = asyncio.create_task(serve(session, chosen))
            await asyncio.sleep(0.1)
            try:
                for it in talk.values():
                    await it()
            finally:
                os.kill(os.getpid(), 2)
                why = await running
            return why

        said = io.StringIO()
        with contextlib.redirect_stderr(said):
            session = opened(chosen)
            why = asyncio.run(both())
            session.engine.end()
        self.is_the_replay(folder)
        return f"{said.getvalue()}{why}"

    def is_the_replay(self, folder: str) -> None:
        script = (self.folder / folder / "script").read_bytes()
        printed = (self.folder / folder / "printed").read_text()
        self.assertEqual(output_of(found(), script), f"{printed}end\n")

    async def over_udp(self) -> None:
        peer = await peer_at(self.ports[1])
        peer.say()
        self.assertEqual(await peer.hears(3), ["04030000"] * 3)
        peer.say(TO_HERE + RST)
        self.assertEqual(await peer.hears(2), ["05010000", (TO_HERE + RRP).hex() + "8000"])
        peer.say()
        self.assertEqual(await peer.hears(1), ["04030000"])
        peer.say(ready=False)
        await asyncio.sleep(0.1)
        peer.transport.close()

    async def over_tcp(self) -> None:
        reader, writer = await asyncio.open_connection("127.0.0.1", self.ports[0])
        self.assertEqual(await reader.readexactly(18), b"\0\4\4\2\0\0" * 3)
        writer.write(b"\0\x0a" + TO_HERE + RST)
        both = await asyncio.wait_for(reader.readexactly(20), 20)
        self.assertEqual(both, b"\0\4\5\1\0\0\0\x0c" + TO_HERE + RRP + b"\x80\0")
        writer.write(b"\0\3abc")
        self.assertEqual(await asyncio.wait_for(reader.read(), 20), b"")
        writer.close()

    async def hostile(self) -> None:
        peer, other = await peer_at(self.ports[1]), await peer_at(self.ports[1])
        peer.say()
        await peer.hears(3)
        other.say(TO_HERE + RST)
        for words in (b"\0\0", bytes.fromhex("0f010000"), bytes.fromhex("00400000"), TO_HERE + bytes(1008)):
            peer.say(words)
        peer.transport.sendto(b"H317")
        peer.transport.sendto(b"H316" + bytes(8) + b"more")
        await asyncio.sleep(0.3)
        peer.transport.close()
        other.transport.close()

    async def asked(self, request: str, until: bytes) -> str:
        """What the page's server answers to a request, up to some octets."""
        reader, writer = await asyncio.open_connection("127.0.0.1", self.page)
        writer.write(request.replace("\n", "\r\n").encode())
        said = b""
        while until not in said and (piece := await asyncio.wait_for(reader.read(4096), 20)):
            said += piece
        writer.close()
        return said.decode()

    async def in_a_browser(self) -> None:
        host, own = f"Host: localhost:{self.page}\n", "X-Dorydate: deed\n"
        self.assertIn("connect-src 'self'", await self.asked(f"GET / HTTP/1.1\n{host}\n", b"</html>"))
        self.assertIn("403 Forbidden", await self.asked("GET / HTTP/1.1\nHost: elsewhere\n\n", b"name"))
        for path, fields in (("GET /other", own), ("POST /deed", "")):
            self.assertIn("404 Not Found", await self.asked(f"{path} HTTP/1.1\n{host}{fields}\n", b"else"))
        following = asyncio.create_task(self.asked(f"GET /events HTTP/1.1\n{host}\n", b"enddown 1 0"))
        await asyncio.sleep(0.2)
        deeds = [("enddown 1 0", "200 OK"), ("enddown 1 0", "IsDown"), ("calm 4000000000", "at most 100 rounds")]
        deeds += [("take 0/3", "a real host speaks for 0/3"), ("jump 0/1", "`jump` is no event")]
        for line, words in deeds:
            body = f"POST /deed HTTP/1.1\n{host}{own}Content-Length: {len(line)}\n\n{line}"
            self.assertIn(words, await self.asked(body, b"nothing more"))
        said = await following
        self.assertTrue(said.index("event: script") < said.index("hostdown 0/3") < said.index("event: lines"))

    def test_a_browser_follows_and_asks(self) -> None:
        self.page = free_port()
        with mock.patch("dorydate.live.page.packed_page", lambda: PACKED):
            self.session("--page", str(self.page), browser=self.in_a_browser)
        self.assertIn("\nenddown 1 0\n", (self.folder / "record" / "script").read_text())

    def test_hosts_over_udp_and_tcp(self) -> None:
        said = self.session(udp=self.over_udp, tcp=self.over_tcp)
        for words in ("0/3 is ready", "0/3 is gone: it says so", "0/2 is gone: what it sends is no message: length"):
            self.assertIn(words, said)

    def test_what_is_refused_is_counted_and_changes_nothing(self) -> None:
        said = self.session(hostile=self.hostile)
        for why in ("sender", "leader", "long leader", "imp", "text", "short", "length"):
            self.assertIn(f"0/3: refused: {why} (1)", said)
        self.assertNotIn("\nout ", (self.folder / "record" / "script").read_text())

    def test_a_session_continues(self) -> None:
        self.session(udp=self.over_udp)
        script = self.folder / "record" / "script"
        whole = script.read_bytes()
        script.write_bytes(whole + b"calm 1")  # a kill cut the last line off
        said = self.session("--resume", str(self.folder / "record"), folder="longer", udp=self.over_udp)
        self.assertIn("continues; up: 0/1", said)
        self.assertTrue((self.folder / "longer" / "script").read_bytes().startswith(whole))
        said = self.session("--resume", str(self.folder / "record"), tcp=self.over_tcp)
        self.assertTrue(script.read_bytes().startswith(whole))

    def test_a_full_disk_leaves_the_record_whole(self) -> None:
        self.session()
        topology, lines = read(self.folder / "record")
        printed = output_of(found(), octets_of(topology) + b"%\n" + b"".join(it + b"\n" for it in lines)).splitlines()
        record = Record(self.folder / "other", topology, lines, printed[:-1])
        before = (self.folder / "other" / "script").read_bytes()
        real = os.write

        def half(file: int, octets: bytes) -> int:
            if len(octets) < 3:
                raise OSError(errno.ENOSPC, "No space left on device")
            return real(file, octets[: len(octets) // 2])

        with mock.patch("os.write", half), self.assertRaisesRegex(Ended, "No space left"):
            record.say("something")
        self.assertEqual((self.folder / "other" / "script").read_bytes(), before)

    def rounds(self, folder: str, resumed: bool = False) -> tuple[Session, Gateway]:
        """A session without a wire."""
        asked = ["--record", str(self.folder / folder)]
        asked += ["--resume", str(self.folder / folder)] if resumed else [str(self.folder / "three")]
        session = opened(parser().parse_args(asked))
        self.addCleanup(session.engine.end)
        session.say = session.record.say
        return session, Gateway(session)

    def test_a_kill_at_each_write(self) -> None:
        """Whatever was written last, what was printed is a prefix of the replay, and the session continues there."""
        real, left = os.write, 0

        def until_a_kill(file: int, octets: bytes) -> int:
            nonlocal left
            left -= 1
            if left < 0:
                real(file, octets[: len(octets) // 2])
                raise Killed
            return real(file, octets)

        for writes in range(4, 12):
            folder, left = f"killed-{writes}", writes
            with mock.patch("os.write", until_a_kill), self.assertRaises(Killed):
                session, gateway = self.rounds(folder)
                gateway.begin()
                for line in ("hostup 0/2", "contact 0/1 0/2", "calm 1", "take 0/2", "calm 2", "take 0/2", "calm 3"):
                    session.happen([Wish(read_event(line))])
            printed = (self.folder / folder / "printed").read_text()
            again, _ = self.rounds(folder, resumed=True)
            script = (self.folder / folder / "script").read_bytes()
            whole = output_of(found(), script).removesuffix("end\n")
            self.assertTrue(whole.startswith(printed))
            self.assertEqual((self.folder / folder / "printed").read_text(), whole)
            again.happen([Wish(read_event("calm 1"))])
            self.assertTrue((self.folder / folder / "script").read_bytes().startswith(script))

    def test_a_ready_line_that_flaps(self) -> None:
        session, gateway = self.rounds("flaps")
        gateway.begin()
        interface = Interface(session, Host(0, 3), gateway.wake)
        gateway.parts.append(interface)
        sent: list[bytes] = []
        wire = mock.Mock(send=lambda words, ready=True: sent.append(words), has_room=lambda: True, where=lambda: "udp")
        for _ in range(100):
            interface.comes(wire)
            gateway.round()
            interface.goes("it says so")
            gateway.round()
        script = (self.folder / "flaps" / "script").read_text()
        self.assertLessEqual(script.count("\ncalm"), 1 + 9 * gateway.enough())
        self.assertLessEqual(script.count(" is gone: "), 5)
        self.assertLessEqual(script.count("\nhostup 0/3") + script.count("\nhostdown 0/3"), 1 + 4 + 5)
        self.assertGreaterEqual(script.count("\nhostup 0/3"), 2)

    def test_a_ready_line_that_has_turned_too_often_is_looked_at_again(self) -> None:
        session, gateway = self.rounds("often")
        gateway.begin()
        interface = Interface(session, Host(0, 3), gateway.wake)
        gateway.parts.append(interface)
        interface.turns.left = 0

        async def comes() -> None:
            running = asyncio.create_task(gateway.run())
            await asyncio.sleep(0.3)
            interface.comes(mock.Mock(has_room=lambda: True, where=lambda: "udp"))
            for _ in range(100):
                if not interface.up:
                    await asyncio.sleep(0.05)
            gateway.stop("over")
            await running

        asyncio.run(comes())
        self.assertIn("\nhostup 0/3\n", (self.folder / "often" / "script").read_text())

    def test_a_server_whose_socket_is_in_use_is_not_begun_in_each_round(self) -> None:
        session, gateway = self.rounds("served")
        gateway.begin()
        session.happen([Wish(read_event("server 0/1 1 300"))])
        gateway.tenders.append(Served(gateway, Host(0, 1), 1, []))
        for _ in range(20):
            gateway.round()
        script, printed = ((self.folder / "served" / it).read_text() for it in ("script", "printed"))
        self.assertEqual((script.count("\nserver "), printed.count("failed server 0/1 local")), (2, 1))

    def test_a_host_that_is_silent_and_one_that_floods(self) -> None:
        session, gateway = self.rounds("silent")
        gateway.begin()
        interface = Interface(session, Host(0, 3), gateway.wake, silence=0.01)
        gateway.parts.append(interface)
        interface.comes(mock.Mock(has_room=lambda: True, where=lambda: "udp"))
        gateway.round()
        time.sleep(0.05)
        gateway.round()
        script = (self.folder / "silent" / "script").read_text()
        self.assertIn("0/3 is gone: it has said nothing for 0.01 seconds", script)
        allowance = Allowance(2, 0)
        self.assertEqual([allowance.take() for _ in range(4)], [True, True, False, False])

    def test_what_a_session_is_asked_for(self) -> None:
        (self.folder / "plain").write_text('carrier = "plain"\n[[imp]]\nid = 1\nhosts = 2\n')
        three, record = str(self.folder / "three"), str(self.folder / "new")
        rows = [
            ([str(self.folder / "plain"), "--record", record], "no host of this topology is a stranger"),
            ([three], "needs a folder for its record"),
            ([three, "--record", record, "--bind", "0/1=2301"], "0/1 is no stranger"),
            ([three, "--record", record, "--bind", "0/3"], "HOST=PORT or HOST=PORT:PEER"),
            ([three, "--record", record, "--bind", "0/3=70000"], "70000 is no port"),
            ([three, "--record", record, "--server", "0/3:1"], "no host of this network with a program"),
            ([three, "--record", record, "--shell", "0/1:1=bc", "--listen", "0.0.0.0"], "local only"),
            (["--resume", record], "No such file"),
        ]
        for number, (words, why) in enumerate(rows):
            said = io.StringIO()
            words = [it.replace("/new", f"/new{number}") for it in words]
            with contextlib.redirect_stderr(said):
                status = command.main(words)
            self.assertEqual(status, 1, words)
            self.assertIn(why, said.getvalue())


if __name__ == "__main__":
    unittest.main()
