"""What people have of a live network: a server that stays, a terminal by TCP, a program of this machine."""

from __future__ import annotations

import asyncio
import time
from collections.abc import Callable, Iterator, Sequence

from dorydate.live.gateway import Gateway
from dorydate.live.record import highest
from dorydate.live.session import Wish
from dorydate.network import Host
from dorydate.printed import refusal
from dorydate.script import BadLine, Close, Contact, Event, Grant, Listen, Send, Server, Text, Type, User

FIRST_BASE, FIRST_SHELL, FIRST_OWN = 100, 1_000, 8  # sockets of servers, of programs, and of terminals
ICP_SIZE, BYTE = 32, 8  # bits of a byte on the first connection and on the others
MOST_TYPED = 900  # characters of a line
PATIENCE = 20.0  # seconds for a contact and for an initial connection
LINGERS = 0.5  # seconds in which what is under way may still come, when the input of a terminal has ended
PIECE = 700  # octets that a program's output is sent in
GRANTED = 4, 8_192  # messages and bits that a program's input may have
AGAIN = 1.0  # seconds until a server is begun again that couldn't begin, as its socket is in use


class Served:
    """A server of the script, which serves one user: here another begins when one is done or has failed."""

    def __init__(self, gateway: Gateway, host: Host, listens: int, earlier: Sequence[bytes]) -> None:
        self.gateway, self.host, self.listens = gateway, host, listens
        self.base = highest(earlier, rf"server {host} \d+ (\d+)", FIRST_BASE)
        self.waits = False
        self.tried = -AGAIN  # when it couldn't begin
        gateway.session.hears.append(self.hear)

    def wishes(self) -> Iterator[Wish]:
        held = self.waits or time.monotonic() - self.tried < AGAIN
        if not held and self.host in self.gateway.session.known.up:
            self.waits = True
            self.base += 2
            yield Wish(Server(self.host, self.listens, self.base), self._begun)

    def _begun(self, said: Sequence[str]) -> None:
        self.waits = refusal(said) is None and not any(it.startswith("failed ") for it in said)
        if not self.waits:
            self.tried = time.monotonic()

    def hear(self, said: Sequence[str]) -> None:
        over = (f"done server {self.host} ", f"failed server {self.host} ", f"down {self.host}")
        if any(it.startswith(over) for it in said):
            self.waits, self.tried = False, -AGAIN
            self.gateway.wake()


class Asks:
    """Wishes that wait for the next round."""

    def __init__(self, gateway: Gateway) -> None:
        self.gateway = gateway
        self.asked: list[Wish] = []

    def ask(self, event: Event, heard: Callable[[Sequence[str]], None] | None = None) -> None:
        self.asked.append(Wish(event, heard or (lambda said: self._refused(event, said))))
        self.gateway.wake()

    def _refused(self, event: Event, said: Sequence[str]) -> None:
        if name := refusal(said):
            self.gateway.session.say(f"{str(event)[:40]}: refused {name}")

    def wishes(self) -> Iterator[Wish]:
        asked, self.asked = self.asked, []
        yield from asked


class Terminal(Asks):
    """A line terminal of a host with a program, for one at a time who comes by TCP."""

    def __init__(self, gateway: Gateway, user: Host, server: Host, socket: int, earlier: Sequence[bytes]) -> None:
        super().__init__(gateway)
        self.user, self.server, self.socket = user, server, socket
        self.own = highest(earlier, rf"user {user} \S+ \d+ (\d+)", FIRST_OWN)
        self.ready = False
        self.writer: asyncio.StreamWriter | None = None
        self.awaited: tuple[tuple[str, ...], asyncio.Future[str]] | None = None
        gateway.session.hears.append(self.hear)

    def say(self, words: str) -> None:
        if self.writer:
            self.writer.write(words.encode("latin-1", "replace") + b"\r\n")

    def hear(self, said: Sequence[str]) -> None:
        pair = f"{self.user} {self.server}"
        for line in said:
            if line == f"ready {pair}":
                self.ready = True
            elif line.startswith((f"pairreset {pair}", f"contactfailed {pair}", f"down {self.user}")):
                self.ready = False
                self.say(f"*** {line}")
            elif line.startswith(f"line {self.user} "):
                self.say(line.split(" ", 2)[2])
            elif line.startswith(f"ended {self.user} {self.own + 2} ") and self.writer:
                self.say("*** the connection is over")
                self.writer.close()
            if self.awaited and line.startswith(self.awaited[0]) and not self.awaited[1].done():
                self.awaited[1].set_result(line)

    async def until(self, event: Event, *starts: str) -> str:
        """Asks for an event, and waits for a line that begins with one of these words."""
        self.awaited = starts, asyncio.get_running_loop().create_future()
        self.ask(event, lambda said: self._hears_no(starts, said))
        try:
            return await asyncio.wait_for(self.awaited[1], PATIENCE)
        except asyncio.TimeoutError:
            return f"nothing came in {PATIENCE:g} seconds"

    def _hears_no(self, starts: tuple[str, ...], said: Sequence[str]) -> None:
        if refusal(said) and self.awaited and not self.awaited[1].done():
            self.awaited[1].set_result(said[-1])

    async def serve(self, reader: asyncio.StreamReader, writer: asyncio.StreamWriter) -> None:
        """Serves one who came."""
        if self.writer:
            writer.write(b"*** the terminal is in use\r\n")
            writer.close()
            return
        self.writer = writer
        try:
            if await self.opened():
                await self.typed(reader)
                await asyncio.sleep(LINGERS)
                for socket in (self.own + 3, self.own + 2):
                    self.ask(Close(self.user, socket), lambda said: None)
        except OSError:
            pass
        finally:
            self.writer = None
            writer.close()

    async def opened(self) -> bool:
        """Whether a terminal begins at the server."""
        pair = f"{self.user} {self.server}"
        if not self.ready:
            self.say(f"*** {self.user} contacts {self.server}")
            said = await self.until(Contact(self.user, self.server), f"ready {pair}", f"contactfailed {pair}")
            if not said.startswith("ready"):
                self.say(f"*** {said}")
                return False
        self.own += 8
        begun = User(self.user, self.server, self.socket, self.own)
        said = await self.until(begun, f"done user {self.user} {self.own + 2} ", f"failed user {self.user} ")
        self.say(f"*** {said}")
        return said.startswith("done")

    async def typed(self, reader: asyncio.StreamReader) -> None:
        """Types each line that comes, until there are no more."""
        while True:
            try:
                line = await reader.readline()
            except ValueError:
                return self.say("*** a line is too long")
            if not line:
                return
            try:
                event = Type(self.user, line.decode("latin-1").rstrip("\r\n"))
                if len(event.text) > MOST_TYPED:
                    raise BadLine(f"at most {MOST_TYPED} characters")
            except BadLine as why:
                self.say(f"*** {why}")
                continue
            self.ask(event, lambda said: self.say(f"*** {said[-1]}") if refusal(said) else None)


class Shell(Asks):
    """A program of this machine at a socket of a host with a program, for each user of the initial connection."""

    def __init__(self, gateway: Gateway, host: Host, listens: int, command: str, earlier: Sequence[bytes]) -> None:
        super().__init__(gateway)
        self.host, self.listens, self.command = host, listens, command
        self.base = highest(earlier, rf"listen {host} (\d*[02468]) {BYTE}", FIRST_SHELL)
        self.listening = False
        self.peers: dict[int, str] = {}  # of users that were given a base
        self.half: dict[int, set[int]] = {}  # which of their two sockets are open
        self.running: dict[int, asyncio.subprocess.Process] = {}
        self.tasks: set[asyncio.Task[None]] = set()
        self.text = ""  # of the message that came last
        gateway.session.hears.append(self.hear)

    def wishes(self) -> Iterator[Wish]:
        if not self.listening and self.host in self.gateway.session.known.up:
            self.listening = True
            yield Wish(Listen(self.host, self.listens, ICP_SIZE), self._listens)
        yield from super().wishes()

    def _listens(self, said: Sequence[str]) -> None:
        self.listening = refusal(said) is None

    def hear(self, said: Sequence[str]) -> None:
        for line in said:
            match line.split(" "):
                case ["in", _, host, _, _, text] if host == str(self.host):
                    self.text = text
                case ["opened", host, socket, peer, _] if host == str(self.host):
                    self.opened(int(socket), peer)
                case ["arrived", host, socket, bits] if host == str(self.host) and int(socket) in self.running:
                    self.arrived(int(socket), int(bits))
                case ["ended", host, socket, *_] if host == str(self.host):
                    self.over(int(socket))
                case ["pairreset", host, peer] if host == str(self.host):
                    for base in [it for it, whose in self.peers.items() if whose == peer]:
                        self.end(base)
                case ["down", host] if host == str(self.host):
                    self.listening = False
                    for base in [*self.peers]:
                        self.end(base)

    def opened(self, socket: int, peer: str) -> None:
        """A user came to the socket that listens, or opened one of the two that it was given."""
        if socket == self.listens:
            self.base += 2
            self.peers[self.base], self.half[self.base] = peer, set()
            text = Text.of(self.base.to_bytes(4, "big"))
            for event in (Listen(self.host, self.base, BYTE), Listen(self.host, self.base + 1, BYTE),
                          Send(self.host, socket, text), Close(self.host, socket)):  # fmt: skip
                self.ask(event)
            return
        base = socket & ~1
        if self.peers.get(base) == peer:
            self.half[base].add(socket)
            if len(self.half[base]) == 2:
                task = asyncio.get_running_loop().create_task(self.run(base))
                self.tasks.add(task)
                task.add_done_callback(self.tasks.discard)

    def arrived(self, base: int, bits: int) -> None:
        """Data came: they are after the 40 bits of the header, and as much may come again."""
        octets = bytes.fromhex(self.text)[5 : 5 + bits // 8]
        stdin = self.running[base].stdin
        if stdin is not None:
            stdin.write(octets.replace(b"\r\n", b"\n"))
        self.ask(Grant(self.host, base, 1, bits), lambda said: None)

    async def run(self, base: int) -> None:
        """Runs the program for a user, until it ends."""
        pipe = asyncio.subprocess.PIPE
        process = await asyncio.create_subprocess_shell(
            self.command, stdin=pipe, stdout=pipe, stderr=asyncio.subprocess.STDOUT
        )
        self.running[base] = process
        self.ask(Grant(self.host, base, *GRANTED))
        assert process.stdout is not None
        while octets := await process.stdout.read(PIECE):
            self.ask(Send(self.host, base + 1, Text.of(octets.replace(b"\n", b"\r\n"))), lambda said: None)
        await process.wait()
        if process.stdin is not None:
            process.stdin.close()
        for socket in (base + 1, base):
            self.ask(Close(self.host, socket), lambda said: None)

    def over(self, socket: int) -> None:
        if socket == self.listens:
            self.listening = False
            self.gateway.wake()
        self.end(socket & ~1)

    def end(self, base: int) -> None:
        """A user is gone: its program is ended, and both sockets closed."""
        process = self.running.pop(base, None)
        if self.peers.pop(base, None) is None:
            return
        self.half.pop(base, None)
        if process is not None and process.returncode is None:
            process.kill()
        for socket in (base + 1, base):
            self.ask(Close(self.host, socket), lambda said: None)

    async def close(self) -> None:
        """Ends all that still runs."""
        for process in self.running.values():
            if process.returncode is None:
                process.kill()
        await asyncio.gather(*self.tasks)
