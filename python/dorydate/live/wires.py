"""How hosts reach their interfaces: frames over UDP, and messages over TCP for networks that lose datagrams."""

from __future__ import annotations

import asyncio
import socket
from contextlib import AsyncExitStack
from typing import Any

from dorydate.live.frames import LAST, MOST_WORDS, READY, Assembly, Frame, WireFault
from dorydate.live.interface import Allowance, Interface
from dorydate.live.messages import LEADER
from dorydate.live.record import FROM_HOST, TCP, TO_HOST, UDP, Address

LENGTH = 2  # octets before each message over TCP
MOST_UNREAD = 1 << 18  # octets that a host's TCP may leave unread before it is handed no more
IP_RECVERR = getattr(socket, "IP_RECVERR", 11)  # Linux: errors that ICMP reports are handed to the socket
MSG_ERRQUEUE = getattr(socket, "MSG_ERRQUEUE", 0x2000)


class Udp(asyncio.DatagramProtocol):
    """The interface over UDP. Its host is at the address asked for, else the first that says that it is ready."""

    def __init__(self, interface: Interface, bound: socket.socket, peer: Address | None) -> None:
        self.interface, self.bound, self.fixed, self.peer = interface, bound, peer, peer
        self.assembly = Assembly()
        self.sequence = 0
        self.probes = Allowance(1, 1)
        self.transport: asyncio.DatagramTransport | None = None
        try:
            bound.setsockopt(socket.IPPROTO_IP, IP_RECVERR, 1)
        except OSError:
            pass  # elsewhere a closed port isn't noticed

    def connection_made(self, transport: Any) -> None:
        self.transport = transport

    def error_received(self, exc: Exception) -> None:
        """Its host's port is closed. The queue of errors is emptied, or it is reported again and again."""
        try:
            while True:
                self.bound.recvmsg(1, 512, MSG_ERRQUEUE)
        except OSError:
            pass
        if self.interface.wire is self:
            self.interface.goes("its port is closed")
            self.left()

    def resume(self, peer: Address) -> None:
        """Its host was up when an earlier session ended, and needs not notice."""
        if self.interface.up and self.peer in (None, peer):
            self.peer = peer
            self.interface.comes(self)

    def left(self) -> None:
        self.peer, self.assembly = self.fixed, Assembly()

    def datagram_received(self, data: bytes, addr: Address) -> None:
        it = self.interface
        if not it.datagrams.take():
            return it.faults.add("flood")
        try:
            self.frame(data, addr)
        except WireFault as why:
            it.faults.add(str(why))

    def frame(self, data: bytes, addr: Address) -> None:
        it = self.interface
        if (self.peer is not None and addr != self.peer) or (it.said and it.wire is not self):
            if self.probes.take():
                it.asks()  # is its host there? If it isn't, its port is closed
            raise WireFault("sender")
        frame = Frame.read(data)
        words = self.assembly.add(frame)
        it.session.record.crossed(UDP, FROM_HOST, it.host, data)
        ready = bool(frame.flags & READY)
        if ready and not it.said:
            self.peer = addr
            it.comes(self)
        elif not ready and it.said:
            it.goes("it says so")
            self.left()
        elif ready and not frame.words:
            it.asks()
        if words and ready:
            it.message(words)

    def send(self, words: bytes, ready: bool = True) -> None:
        if self.transport is None or self.peer is None:
            return
        frame = Frame(self.sequence, (LAST if words else 0) | (READY if ready else 0), words).octets()
        self.sequence += 1
        self.interface.session.record.crossed(UDP, TO_HOST, self.interface.host, frame)
        self.transport.sendto(frame, self.peer)

    def has_room(self) -> bool:
        return True

    def where(self) -> str:
        return f"{UDP} {self.peer[0]}:{self.peer[1]}" if self.peer else UDP


class Tcp:
    """The interface over TCP: a connection is the ready line of both sides, and a message comes after its length."""

    def __init__(self, interface: Interface) -> None:
        self.interface = interface
        self.writer: asyncio.StreamWriter | None = None

    async def serve(self, reader: asyncio.StreamReader, writer: asyncio.StreamWriter) -> None:
        """Serves a connection to its end."""
        it = self.interface
        if it.said:
            it.faults.add("sender")
            writer.close()
            return
        self.writer = writer
        it.comes(self)
        why = "its connection is closed"
        try:
            while True:
                await self.message(reader)
        except WireFault as fault:
            it.faults.add(str(fault))
            why = f"what it sends is no message: {fault}"
        except (asyncio.IncompleteReadError, OSError):
            pass
        finally:
            writer.close()
            if self.writer is writer:
                self.writer = None
                it.goes(why)

    async def message(self, reader: asyncio.StreamReader) -> None:
        """Reads a message, and waits until there is room for it. A length that none has ends the connection."""
        it = self.interface
        head = await reader.readexactly(LENGTH)
        length = int.from_bytes(head, "big")
        if length and (length % 2 or not LEADER <= length <= 2 * MOST_WORDS):
            raise WireFault("length")
        words = await reader.readexactly(length)
        while not it.datagrams.take() or not it.has_room() or not it.up:
            await asyncio.sleep(0.01)
            if self.writer is None:
                raise ConnectionResetError
        it.session.record.crossed(TCP, FROM_HOST, it.host, head + words)
        try:
            if length:
                it.message(words)
            else:
                it.asks()
        except WireFault as fault:
            it.faults.add(str(fault))

    def send(self, words: bytes, ready: bool = True) -> None:
        if self.writer is None:
            return
        if not ready:
            self.writer.close()
            return
        message = len(words).to_bytes(LENGTH, "big") + words
        self.interface.session.record.crossed(TCP, TO_HOST, self.interface.host, message)
        self.writer.write(message)

    def where(self) -> str:
        return TCP

    def close(self) -> None:
        if self.writer is not None:
            self.writer.close()

    def has_room(self) -> bool:
        return self.writer is not None and self.writer.transport.get_write_buffer_size() < MOST_UNREAD


async def listen(interface: Interface, address: str, port: int, peer: Address | None, stack: AsyncExitStack) -> Udp:
    """Listens for an interface's host over UDP and over TCP, on the same port, until the stack is closed."""
    bound = socket.socket(socket.AF_INET, socket.SOCK_DGRAM)
    stack.callback(bound.close)
    bound.setblocking(False)
    bound.bind((address, port))
    loop = asyncio.get_running_loop()
    transport, udp = await loop.create_datagram_endpoint(lambda: Udp(interface, bound, peer), sock=bound)
    stack.callback(transport.close)
    tcp = Tcp(interface)
    stack.callback((await asyncio.start_server(tcp.serve, address, port)).close)
    stack.callback(tcp.close)
    return udp
