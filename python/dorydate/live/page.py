"""A live map: the workbench follows a session as it happens, and what is tapped there becomes a line of the session.

The page replays the session's script in the browser, by the program that is in it. It comes as server-sent events: at
first the whole, so that a late browser has what the others have, and then each piece as it is written.
"""

from __future__ import annotations

import asyncio
import json
from collections.abc import Sequence

from dorydate.explain.page import packed_page
from dorydate.live.engine import Ended
from dorydate.live.gateway import Gateway
from dorydate.live.services import Asks
from dorydate.network import Host
from dorydate.printed import refusal
from dorydate.script import BadLine, Calm, Event, Out, Take, read_event

POLICY = "default-src 'none'; "
FOLLOWS = "default-src 'none'; connect-src 'self'; "  # the page may ask where it came from, and nowhere else
HEAD = '<meta charset="utf-8">'
LIVE = '<meta name="live" content="events">'
MOST_HEAD, MOST_DEED = 1 << 14, 1 << 16  # octets of a request's head, and of what is asked for
MOST_UNREAD = 1 << 22  # octets that a browser may leave unread; then it has to ask for the whole again
MOST_ROUNDS = 100  # of a calm that is asked for
ALIVE = 15.0  # seconds of silence after which a browser gets a comment
OWN_HEADER = "x-dorydate"  # which no form of another site sends


class Refused(Exception):
    """Why a deed is not done."""


def followed(page: str) -> str:
    """The workbench that follows a session."""
    if page.count(POLICY) != 1 or HEAD not in page:
        raise Ended("the page can't be made to follow a session")
    return page.replace(POLICY, FOLLOWS).replace(HEAD, HEAD + LIVE, 1)  # (slides have a head of their own)


def message(kind: str, text: str) -> bytes:
    """A server-sent event."""
    return f"event: {kind}\ndata: {json.dumps(text)}\n\n".encode()


class Page(Asks):
    """The page of a session, for any number of browsers."""

    def __init__(self, gateway: Gateway, real: Sequence[Host], address: str, port: int) -> None:
        super().__init__(gateway)
        packed = packed_page()
        if packed is None:
            raise Ended("there is no page (tools/keep-wasm --any makes it)")
        self.page = followed(packed).encode()
        self.real = set(real)  # strangers that are real hosts
        self.names = {f"{it}:{port}" for it in (address, "localhost", "127.0.0.1")}
        self.is_local = address.startswith("127.")
        self.browsers: set[asyncio.StreamWriter] = set()
        gateway.session.record.grows.append(self.grown)

    def grown(self, piece: bytes) -> None:
        """Hands a piece of the script to all browsers."""
        text = message("lines", piece.decode("utf-8", "replace"))
        for writer in [*self.browsers]:
            if writer.transport.get_write_buffer_size() > MOST_UNREAD:
                self.browsers.discard(writer)
                writer.close()
            else:
                writer.write(text)

    def close(self) -> None:
        for writer in self.browsers:
            writer.close()

    async def serve(self, reader: asyncio.StreamReader, writer: asyncio.StreamWriter) -> None:
        """Answers one request."""
        try:
            head = (await reader.readuntil(b"\r\n\r\n"))[:MOST_HEAD].decode("latin-1").split("\r\n")
            method, path, _ = head[0].split(" ", 2)
            fields = {name.strip().lower(): value.strip() for name, _, value in (it.partition(":") for it in head[1:])}
            if self.is_local and fields.get("host", "") not in self.names:
                self.answer(writer, "403 Forbidden", b"this page is asked for by another name")
            elif (method, path) == ("GET", "/"):
                self.answer(writer, "200 OK", self.page, "text/html; charset=utf-8")
            elif (method, path) == ("GET", "/events"):
                await self.follow(reader, writer)
            elif (method, path) == ("POST", "/deed") and OWN_HEADER in fields:
                length = min(int(fields.get("content-length", "0")), MOST_DEED)
                await self.deed(writer, (await reader.readexactly(length)).decode("utf-8", "replace"))
            else:
                self.answer(writer, "404 Not Found", b"there is nothing else here")
            await writer.drain()
        except (ValueError, OSError, asyncio.IncompleteReadError, asyncio.LimitOverrunError):
            pass  # it was no request, or whoever asked is gone
        finally:
            self.browsers.discard(writer)
            writer.close()

    def answer(self, writer: asyncio.StreamWriter, status: str, body: bytes, kind: str = "text/plain") -> None:
        head = f"HTTP/1.1 {status}\r\nContent-Type: {kind}\r\nContent-Length: {len(body)}\r\nConnection: close\r\n\r\n"
        writer.write(head.encode() + body)

    async def follow(self, reader: asyncio.StreamReader, writer: asyncio.StreamWriter) -> None:
        """Sends the whole script, and lets a browser have each piece, until it is gone."""
        writer.write(b"HTTP/1.1 200 OK\r\nContent-Type: text/event-stream\r\nCache-Control: no-store\r\n\r\n")
        whole = self.gateway.session.record.script.path.read_bytes()
        writer.write(message("script", whole.decode("utf-8", "replace")))
        self.browsers.add(writer)
        while writer in self.browsers:
            try:
                if not await asyncio.wait_for(reader.read(1), ALIVE):
                    return
            except asyncio.TimeoutError:
                writer.write(b": alive\n\n")
                await writer.drain()

    async def deed(self, writer: asyncio.StreamWriter, text: str) -> None:
        """Lets what was tapped happen in the next round. The answer says what was refused."""
        answered: asyncio.Future[str] = asyncio.get_running_loop().create_future()

        def heard(said: Sequence[str]) -> None:
            if not answered.done():
                answered.set_result(refusal(said) or "")

        try:
            for line in text.splitlines():
                self.ask(self.event_of(line), heard)
            name = await asyncio.wait_for(answered, ALIVE) if text.strip() else ""
        except (Refused, BadLine) as why:
            return self.answer(writer, "400 Bad Request", str(why).encode())
        except asyncio.TimeoutError:
            name = "no answer"
        self.answer(writer, "200 OK", name.encode())

    def event_of(self, line: str) -> Event:
        """The event of a line, if the page may ask for it."""
        event = read_event(line, self.gateway.session.network)
        if isinstance(event, Calm) and event.rounds > MOST_ROUNDS:
            raise Refused(f"a calm of at most {MOST_ROUNDS} rounds is asked for here")
        host = event.flow.source if isinstance(event, Out) else event.host if isinstance(event, Take) else None
        if host in self.real:
            raise Refused(f"a real host speaks for {host}")
        return event
