"""The command dorydate live: a network whose strangers are real hosts, over UDP and TCP (docs/live.md)."""

from __future__ import annotations

import argparse
import asyncio
import re
import signal
import sys
from collections.abc import Sequence
from contextlib import AsyncExitStack
from pathlib import Path
from typing import NamedTuple

from dorydate import ending
from dorydate.given import Input
from dorydate.live import record as records
from dorydate.live.engine import Ended, engine_of
from dorydate.live.gateway import Gateway
from dorydate.live.interface import Interface
from dorydate.live.page import Page
from dorydate.live.record import Address, Record
from dorydate.live.reverse import FarImp, network_of
from dorydate.live.services import Served, Shell, Terminal
from dorydate.live.session import Session
from dorydate.live.weather import Weather
from dorydate.live.wires import listen
from dorydate.network import BadNetwork, Host, Network
from dorydate.program import NoProgram
from dorydate.where import found

MOST_NAMED = 63  # hosts in a comment
LOCAL = "127.0.0.1"
BINDING = re.compile(r"(?P<host>[^=]+)=(?P<port>[0-9]+)(:((?P<address>[0-9.]+):)?(?P<peer>[0-9]+))?")
TERMINAL = re.compile(r"(?P<port>[0-9]+)=(?P<user>[^,]+),(?P<server>[^:]+)(:(?P<socket>[0-9]+))?")
FAR = re.compile(r"(?P<address>[0-9.]+):(?P<port>[0-9]+)")
PATIENT = 30.0  # seconds after which a message to another network is given up
SERVICE = re.compile(r"(?P<host>[^:=]+):(?P<socket>[0-9]+)(=(?P<command>.+))?")


class Refused(Exception):
    """Why a session doesn't begin."""


class Binding(NamedTuple):
    """A stranger, the port at which its IMP listens, and where its host speaks from, if that is asked for."""

    host: Host
    port: int
    peer: Address | None


def port_of(word: str) -> int:
    if not 1 <= int(word) <= 65_535:
        raise Refused(f"{word} is no port: these are 1 to 65535")
    return int(word)


def matched(pattern: re.Pattern[str], word: str, form: str) -> re.Match[str]:
    if not (match := pattern.fullmatch(word)):
        raise Refused(f"`{word}`: {form} is expected")
    return match


def binding_of(network: Network, word: str) -> Binding:
    it = matched(BINDING, word, "HOST=PORT or HOST=PORT:PEER, as in 0/3=2303,")
    host = network.host(it["host"])
    if host not in network.strangers():
        known = ", ".join(map(str, network.strangers())) or "none"
        raise Refused(f"{it['host']} is no stranger of this network; these are: {known}")
    peer = (it["address"] or LOCAL, port_of(it["peer"])) if it["peer"] else None
    return Binding(host, port_of(it["port"]), peer)


def with_a_program(network: Network, word: str) -> Host:
    host = network.host(word)
    if host in network.strangers() or host not in network.hosts():
        raise Refused(f"{word} is no host of this network with a program")
    return host


def parser() -> argparse.ArgumentParser:
    said = "Runs a network whose strangers are real hosts (docs/live.md)."
    made = argparse.ArgumentParser(prog="dorydate live", description=said)
    made.add_argument("topology", nargs="?", metavar="TOPOLOGY", help="a file with a topology that has strangers")

    def several(option: str, form: str, said: str) -> None:
        made.add_argument(option, nargs="+", default=[], metavar=form, help=said)

    several("--bind", "HOST=PORT[:PEER]", "where a stranger's IMP listens, over UDP and over TCP")
    made.add_argument("--record", metavar="FOLDER", help="where the session is written")
    made.add_argument("--resume", metavar="FOLDER", help="continue the session that this folder has")
    made.add_argument("--pace", type=float, default=0, metavar="MS", help="so long a round takes at least")
    made.add_argument("--wild", type=int, metavar="SEED", help="weather: frames get lost, lines are cut, IMPs stop")
    several("--server", "HOST:SOCKET", "an echo service that stays")
    several("--terminal", "PORT=USER,SERVER[:SOCKET]", "a terminal, for nc")
    several("--shell", "HOST:SOCKET=COMMAND", "a program of this machine as a service; local only")
    made.add_argument("--listen", default=LOCAL, metavar="ADDRESS", help="listen there: who reaches it can be a host")
    made.add_argument("--page", type=int, metavar="PORT", help="the workbench follows it at http://localhost:PORT")
    made.add_argument("--marked", action="store_true", help="bodies from hosts end in a bit 1 and zeros")
    made.add_argument("--silence", type=float, metavar="S", help="a host that says nothing for S seconds is gone")
    made.add_argument("--as", dest="own", metavar="HOST", help="be this host of another network, whose IMP --imp names")
    made.add_argument("--imp", metavar="ADDRESS:PORT", help="where that IMP listens, over UDP")
    made.add_argument("--seconds", type=float, metavar="S", help="end after S seconds")
    return made


def opened(chosen: argparse.Namespace) -> Session:
    """The session that is asked for, with all that an earlier one had."""
    if not chosen.record and not chosen.resume:
        raise Refused("a session needs a folder for its record: --record FOLDER")
    lines: list[bytes] = []
    topology = None
    if chosen.resume:
        topology, lines = records.read(Path(chosen.resume))
    if chosen.topology or chosen.own:
        own = network_of(Host.read(chosen.own)).toml() if chosen.own else ""
        given = own or topology_of(Path(chosen.topology).read_bytes())
        if topology is not None and given != topology:
            raise Refused(f"{chosen.topology} is another topology than that of {chosen.resume}")
        topology = given
    if topology is None:
        raise Refused("which topology? dorydate live TOPOLOGY --bind .. --record FOLDER")
    network = Network.read(topology)
    if not network.strangers():
        raise Refused("no host of this topology is a stranger: an IMP names them as in `foreign = [0]`")
    engine = engine_of(found(), topology, network)
    printed = engine.resumed([it for it in lines if it and not it.startswith(b"#")]) if chosen.resume else []
    chosen.lines, chosen.printed = lines, printed
    folder = Path(chosen.record or chosen.resume)
    if not chosen.resume and (folder / records.SCRIPT).exists():
        raise Refused(f"{folder} has a session already: --resume {folder} continues it")
    record = Record(folder, topology, lines, printed)

    def say(words: str) -> None:
        record.say(words)
        print(f"live: {words}", file=sys.stderr, flush=True)

    session = Session(network, engine, record, say)
    for line in printed:
        session.known.see(line)
    return session


def topology_of(octets: bytes) -> str:
    """The topology of a file, which may have a script after it."""
    given = Input(octets)
    text = (octets if given.marker is None else given.topology()).decode("utf-8", "surrogateescape")
    return text if text.endswith("\n") else text + "\n"


async def serve(session: Session, chosen: argparse.Namespace) -> str:
    """Runs a session, and answers why it ended."""
    gateway = Gateway(session, chosen.pace / 1000)
    gateway.idle = chosen.silence
    async with AsyncExitStack() as stack:
        if chosen.own:
            await call(gateway, chosen, stack)
        for it in [binding_of(session.network, word) for word in chosen.bind]:
            interface = Interface(session, it.host, gateway.wake, chosen.marked, chosen.silence)
            gateway.parts.append(interface)
            udp = await listen(interface, chosen.listen, it.port, it.peer, stack)
            if it.host in (peers := records.peers(chosen.lines)):
                udp.resume(peers[it.host])
        await add_services(gateway, chosen, stack)
        begin(gateway, chosen)
        await gateway.run()
    return gateway.ended


async def call(gateway: Gateway, chosen: argparse.Namespace, stack: AsyncExitStack) -> None:
    """Calls the IMP of another network, whose host the own program is."""
    it = matched(FAR, chosen.imp or "", "--imp ADDRESS:PORT beside --as")
    address = it["address"], port_of(it["port"])
    imp = FarImp(gateway.session, gateway.session.network.host(chosen.own), gateway.wake)
    imp.hear(chosen.printed)
    gateway.parts.append(imp)
    gateway.upkeep.after = PATIENT
    here = "0.0.0.0", records.calling_port(chosen.lines)
    loop = asyncio.get_running_loop()
    transport, _ = await loop.create_datagram_endpoint(lambda: imp, local_addr=here, remote_addr=address)
    stack.callback(transport.close)
    gateway.session.say(f"calls {chosen.imp} from port {transport.get_extra_info('sockname')[1]}")
    calling = asyncio.create_task(imp.call())
    stack.callback(calling.cancel)


def begin(gateway: Gateway, chosen: argparse.Namespace) -> None:
    """Begins or continues a session, and says so."""
    session = gateway.session
    if chosen.wild is not None:
        gateway.weather = Weather(session, chosen.wild)
    loop = asyncio.get_running_loop()
    for number in (signal.SIGINT, signal.SIGTERM):
        loop.add_signal_handler(number, gateway.stop, "it was asked to")
    if chosen.seconds is not None:
        loop.call_later(chosen.seconds, gateway.stop, "its time is over")
    if chosen.resume:
        up = sorted(session.known.up, key=Host.order)
        session.say(f"continues; up: {' '.join(map(str, up)) if len(up) <= MOST_NAMED else f'{len(up)} hosts'}")
    elif not chosen.own:
        gateway.begin()
    session.say(f"listens at {chosen.listen}: {', '.join(chosen.bind)}".rstrip(" :"))
    if chosen.listen != LOCAL:
        session.say(f"whoever reaches {chosen.listen} can be these hosts, and type at these terminals")


async def add_services(gateway: Gateway, chosen: argparse.Namespace, stack: AsyncExitStack) -> None:
    """Begins the servers, terminals and programs that are asked for, until the stack is closed."""
    network, lines = gateway.session.network, chosen.lines
    for word in chosen.server:
        it = matched(SERVICE, word, "HOST:SOCKET, as in 0/1:1,")
        gateway.tenders.append(Served(gateway, with_a_program(network, it["host"]), int(it["socket"]), lines))
    for word in chosen.terminal:
        it = matched(TERMINAL, word, "PORT=USER,SERVER, as in 2323=0/1,0/2,")
        user, server = with_a_program(network, it["user"]), network.host(it["server"])
        terminal = Terminal(gateway, user, server, int(it["socket"] or 1), lines)
        gateway.tenders.append(terminal)
        stack.callback((await asyncio.start_server(terminal.serve, chosen.listen, port_of(it["port"]))).close)
    if chosen.page is not None:
        real = [binding_of(network, it).host for it in chosen.bind]
        page = Page(gateway, real, chosen.listen, port_of(str(chosen.page)))
        gateway.tenders.append(page)
        stack.callback((await asyncio.start_server(page.serve, chosen.listen, chosen.page)).close)
        stack.callback(page.close)
        gateway.session.say(f"the page is at http://{chosen.listen}:{chosen.page}")
    for word in chosen.shell:
        it = matched(SERVICE, word, "HOST:SOCKET=COMMAND")
        if not it["command"]:
            raise Refused(f"`{word}`: HOST:SOCKET=COMMAND is expected")
        if chosen.listen != LOCAL:
            raise Refused("--shell runs programs of this machine for whoever comes, so it is local only")
        shell = Shell(gateway, with_a_program(network, it["host"]), int(it["socket"]), it["command"], lines)
        gateway.tenders.append(shell)
        stack.push_async_callback(shell.close)


def main(words: Sequence[str] | None = None) -> int:
    """The status: 0 where it was ended from outside."""
    chosen = parser().parse_args(words)
    try:
        session = opened(chosen)
        why = asyncio.run(serve(session, chosen))
        session.say(f"ends after {session.events} events: {why}")
        session.record.end()
        session.engine.end()
    except (Refused, Ended, BadNetwork, NoProgram) as fault:
        print(f"live: {fault}", file=sys.stderr)
        return 1
    return 0 if why in ("it was asked to", "its time is over") else 1


def run() -> int:
    return ending.run("live", main)


if __name__ == "__main__":
    sys.exit(run())
