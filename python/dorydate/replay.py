"""A replay that one talks to: each call lets an event happen and answers what it printed.

What was done is a plain script at any time (`net.script`), with the reason of each event as a comment, so that whatever was
tried here can be replayed, explained and audited without this package.
"""

from __future__ import annotations

from collections.abc import Callable, Iterable, Sequence
from dataclasses import dataclass

from dorydate import script as events
from dorydate.deeds import Deed, Octets, Step, Stopped, text_of, together
from dorydate.drawing import drawn
from dorydate.inside import CannotFollow, state_of, trace_of
from dorydate.marks import LAST, Marked, Unmarked, each_printed, mark_for
from dorydate.network import Host, HostName, ImpName, Network
from dorydate.printed import kind_of, matches, may_match, without_text
from dorydate.program import Program
from dorydate.where import found
from dorydate.script import BadLine, Entry, Event, Flow, Script, octets_of
from dorydate.state import Frame, State
from dorydate.unanswered import Unanswered, before_a_start, reached

MOST_ROUNDS = 200  # of one `settle`, `run_until` or `restart` where nothing else is said


def output_of(program: Program, octets: bytes) -> str:
    """What an input prints, with the octets of messages."""
    ran = program.run(octets, "--texts")
    if ran.status:
        raise Stopped(f"the program says: {ran.said.strip()} (status {ran.status})")
    if ran.output.splitlines()[-1:] != [LAST]:
        raise Stopped(f"{program.path} printed no last line `{LAST}`, so it is not arpasim")
    return ran.output


def attributed(program: Program, network: Network, happened: Sequence[Event]) -> list[list[str]]:
    """The lines that each event prints, with the octets of messages."""
    lines = [str(it).encode("latin-1") for it in happened]
    marked = Marked(octets_of(network.toml()), lines, mark_for(map(str, network.hosts()), lines))
    parts = [*marked.parts()]
    try:
        return each_printed(parts, (output_of(program, marked.input(it)) for it in parts))
    except Unmarked as why:
        raise Stopped(str(why)) from None


def step_of(event: Event, texts: Sequence[str], why: str) -> Step:
    """An event that printed these lines, which have the octets of messages."""
    return Step(event, tuple(map(without_text, texts)), tuple(texts), why)


class Replay:
    """A network in which events happen one after another.

    >>> net = Replay(two)
    >>> net.calm(2) and net.out("UCLA", "SRI", text=b"LO")
    out 0/1 0/2 0 16 4C4F
        out 0/1 0/2 0 16
    >>> net.settle()
    calm 2
        in 0/1 0/2 0 16
        answer rfnm 0/1 0/2 0
    """

    def __init__(self, network: Network, program: Program | None = None, heading: Sequence[str] = ()) -> None:
        self.network = network
        self.program = program or found()
        self.heading = tuple(heading)
        self.steps: tuple[Step, ...] = ()
        self._states: dict[tuple[Event, ...], State] = {}

    @staticmethod
    def of(script: Script, program: Program | None = None) -> Replay:
        """The replay of a script, all of whose events have happened.

        >>> net = Replay.of(Script.read(two.toml() + "%\\ncalm 2\\nout 0/1 0/2 5 0 -\\n"))
        >>> net.printed
        ['out 0/1 0/2 5 0']
        """
        net = Replay(script.network, program, script.heading)
        for event in script.events:
            net._has_to_fit(event)
        printed = attributed(net.program, script.network, script.events)
        net.steps = tuple(step_of(entry.event, its, "; ".join(entry.comments)) for entry, its in zip(script.entries, printed))
        return net

    # ---- one event after another

    def do(self, event: Event, why: str = "") -> Deed:
        """Lets a plain event happen.

        >>> from dorydate.script import Calm
        >>> net.do(Calm(2))
        calm 2
        """
        step = self._try(event, why)
        self.steps += (step,)
        return Deed((step,))

    def _try(self, event: Event, why: str = "") -> Step:
        """What an event would print."""
        self._has_to_fit(event, why)
        texts = self._printed([*(it.event for it in self.steps), event])
        before = sum(len(it.printed) for it in self.steps)
        return step_of(event, texts[before:], why)

    def _has_to_fit(self, event: Event, why: str = "") -> None:
        """Raises `BadLine` for what is no event, and `Stopped` for one that networks of this kind don't have."""
        if not isinstance(event, Event):
            raise BadLine(f"{event!r} is no event; `read_event` reads one from a line of a script")
        if not isinstance(why, str):
            raise BadLine(f"{why!r} is no comment, which is a string")
        if event.word not in events.words_in(self.network):
            raise Stopped(events.not_here(event.word, self.network))

    def _printed(self, happened: Sequence[Event]) -> list[str]:
        """All lines that these events print, with the octets of messages."""
        return output_of(self.program, Script.of(self.network, happened).octets()).splitlines()[:-1]

    def _perform(self, wanted: Iterable[Event], why: str) -> tuple[list[Step], list[Step]]:
        """Lets those of some events happen that are not refused: these, and the others."""
        done: list[Step] = []
        tried: list[Step] = []
        for event in wanted:
            step = self._try(event, why)
            (tried if step.refused else done).append(step)
            if not step.refused:
                self.steps += (step,)
        return done, tried

    def back(self, count: int = 1) -> None:
        """Takes back the last plain events.

        >>> net.cut("UCLA", "SRI") and net.back(2)
        >>> net.steps
        (Step(event=Calm(rounds=2), printed=(), texts=(), why=''),)
        """
        if not isinstance(count, int) or not 0 <= count <= len(self.steps):
            raise Stopped(f"{len(self.steps)} events have happened, so {count} can't be taken back")
        self.steps = self.steps[: len(self.steps) - count]

    def branch(self) -> Replay:
        """Another replay that has come as far as this, and continues in its own way.

        >>> other = net.branch()
        >>> other.cut("UCLA", "SRI") and (len(net.steps), len(other.steps))
        (1, 3)
        """
        other = Replay(self.network, self.program, self.heading)
        other.steps, other._states = self.steps, dict(self._states)
        return other

    # ---- messages, with names in the place of numbers

    def flow(self, source: HostName, destination: HostName, link: int = 0) -> Flow:
        """The flow from one host to another on a link.

        >>> str(net.flow("UCLA", "SRI", 5))
        '0/1 0/2 5'
        """
        return Flow(self.network.host(source), self.network.host(destination), link)

    def out(self, source: HostName, destination: HostName, link: int = 0, text: Octets = b"", why: str = "") -> Deed:
        """A host hands its IMP a message, in a raw network; where hosts have programs, a stranger.

        >>> net.out("UCLA", "SRI", link=5, text=b"LO")
        out 0/1 0/2 5 16 4C4F
            out 0/1 0/2 5 16
        """
        return self.do(events.Out(self.flow(source, destination, link), text_of(text)), why)

    def take(self, host: HostName, why: str = "") -> Deed:
        """A host takes what waits for it.

        >>> from dorydate.script import Deliver
        >>> net.out("UCLA", "SRI", 5) and net.do(Deliver(0, "+", 0)) and net.take("SRI")
        take 0/2
            in 0/1 0/2 5 0
        """
        return self.do(events.Take(self.network.host(host)), why)

    def offer(self, host: HostName, why: str = "") -> Deed:
        """A host's program hands over the next message that it has.

        >>> world.type("UCLA", "HELLO") and world.offer("UCLA")
        offer 0/1
            out 0/1 0/2 2 96
            sent 0/1 19 56
        """
        return self.do(events.Offer(self.network.host(host)), why)

    def give_up(self, source: HostName, destination: HostName, link: int = 0, why: str = "") -> Deed:
        """The network gives up the message that is outstanding on a flow: its source is informed that it is incomplete.

        >>> net.out("UCLA", "SRI", 5) and net.give_up("UCLA", "SRI", 5).refused
        'StillAlive'
        """
        return self.do(events.GiveUp(self.flow(source, destination, link)), why)

    def ask(self, source: HostName, destination: HostName, link: int = 0, why: str = "") -> Deed:
        """The source's IMP asks what became of the message that is outstanding on a flow.

        >>> net.out("UCLA", "SRI", 5) and net.ask("UCLA", "SRI", 5)
        ask 0/1 0/2 5
        """
        return self.do(events.Ask(self.flow(source, destination, link)), why)

    def host_down(self, host: HostName, why: str = "") -> Deed:
        """A host stops: its program forgets everything.

        >>> net.host_down("SRI")
        hostdown 0/2
            down 0/2
        """
        return self.do(events.HostDown(self.network.host(host)), why)

    def host_up(self, host: HostName, why: str = "") -> Deed:
        """A host starts.

        >>> net.host_up("SRI").refused
        'IsUp'
        """
        return self.do(events.HostUp(self.network.host(host)), why)

    def foreign(self, host: HostName) -> Stranger:
        """A host that runs no program of this project's: one says oneself what it sends and when it takes.

        >>> other = Replay(mixed)
        >>> other.foreign("MINE").host
        Host(host=0, imp=2)
        >>> other.foreign("UCLA")
        Traceback (most recent call last):
            ..
        dorydate.deeds.Stopped: UCLA is no stranger; these are: MINE
        """
        named = self.network.host(host)
        if named not in (strangers := self.network.strangers()):
            known = ", ".join(map(self.network.title, strangers)) or "none"
            raise Stopped(f"{self.network.title(named)} is no stranger; these are: {known}")
        return Stranger(self, named)

    # ---- users of hosts with programs

    def contact(self, host: HostName, peer: HostName, why: str = "") -> Deed:
        """A host's program begins to reset with another host's, as it must before connections are opened.

        >>> world.contact("UCLA", "SRI") and world.settle().printed[-2:]
        ['ready 0/1 0/2', 'answer rfnm 0/2 0/1 0']
        """
        return self.do(events.Contact(self.network.host(host), self.network.host(peer)), why)

    def listen(self, host: HostName, socket: int, size: int = 8, why: str = "") -> Deed:
        """A user waits on a socket for a request, with the size of bytes that it wants.

        >>> world.listen("SRI", 32)
        listen 0/2 32 8
        """
        return self.do(events.Listen(self.network.host(host), socket, size), why)

    def open_send(self, host: HostName, peer: HostName, own: int, foreign: int, size: int = 8, why: str = "") -> Deed:
        """A user opens a connection that sends, from an odd socket of its own.

        >>> world.open_receive("SRI", "UCLA", 50, 33) and world.open_send("UCLA", "SRI", 33, 50) and world.settle().printed[-1]
        'answer rfnm 0/2 0/1 0'
        """
        return self.do(events.OpenSend(self.network.host(host), self.network.host(peer), own, foreign, size), why)

    def open_receive(self, host: HostName, peer: HostName, own: int, foreign: int, why: str = "") -> Deed:
        """A user opens a connection that receives, on an even socket of its own.

        >>> world.open_receive("SRI", "UCLA", 50, 33)
        openrecv 0/2 0/1 50 33
        """
        return self.do(events.OpenReceive(self.network.host(host), self.network.host(peer), own, foreign), why)

    def send(self, host: HostName, socket: int, text: Octets, why: str = "") -> Deed:
        """A user hands bits over to be sent on a connection, which go out as they are granted.

        >>> world.send("UCLA", 19, b"HI") and "sent 0/1 19 16" in world.settle().printed
        True
        """
        return self.do(events.Send(self.network.host(host), socket, text_of(text)), why)

    def grant(self, host: HostName, socket: int, messages: int, bits: int, why: str = "") -> Deed:
        """A user that receives grants the sender a number of messages and of bits.

        >>> world.grant("UCLA", 18, 2, 800)
        grant 0/1 18 2 800
        """
        return self.do(events.Grant(self.network.host(host), socket, messages, bits), why)

    def close(self, host: HostName, socket: int, why: str = "") -> Deed:
        """A user closes a connection.

        >>> world.close("UCLA", 19) and "ended 0/2 100 0/1 19" in world.settle().printed
        True
        """
        return self.do(events.Close(self.network.host(host), socket), why)

    def type(self, host: HostName, text: str, why: str = "") -> Deed:
        """A line is typed at the terminal of a host.

        >>> world.type("UCLA", "HELLO") and world.run_until("line").printed[-2]
        'line 0/1 HELLO'
        """
        return self.do(events.Type(self.network.host(host), text), why)

    def session(self, user: HostName, server: HostName, socket: int = 7, base: int = 100, own: int = 16) -> Deed:
        """A user's host contacts a server's, and a line terminal is joined to an echo service there.

        >>> other = Replay(pair)
        >>> other.session(user="UCLA", server="SRI") and other.reports
        ['done server 0/2 100 101', 'done user 0/1 18 19']
        """
        done = [self.do(events.Server(self.network.host(server), socket, base), "a session"), self.contact(user, server), self.settle()]
        done += [self.do(events.User(self.network.host(user), self.network.host(server), socket, own)), self.settle()]
        return together(done)

    # ---- time

    def calm(self, rounds: int = 1, why: str = "") -> Deed:
        """Quiet rounds pass.

        >>> net.calm(3)
        calm 3
        """
        return self.do(events.Calm(rounds), why)

    def settle(self, limit: int = MOST_ROUNDS, why: str = "") -> Deed:
        """As many rounds pass as print anything, `limit` at most: more of them print no more. They are at least as many as there
        are IMPs, so that each knows the ways to all others.

        >>> net.out("UCLA", "SRI") and net.settle().steps[0].event
        Calm(rounds=2)
        """
        happened = [it.event for it in self.steps]
        whole = self._printed([*happened, events.Calm(limit)])
        least, most = 0, limit
        while least < most:
            middle = (least + most) // 2
            if len(self._printed([*happened, events.Calm(middle)])) == len(whole):
                most = middle
            else:
                least = middle + 1
        deed = self.do(events.Calm(max(least, min(len(self.network.imps), limit))), why or "until nothing more is printed")
        return Deed(deed.steps, (), f"after {limit} rounds the network had not come to rest" if least == limit else "")

    def run_until(self, wanted: str | Callable[[Replay], object], limit: int = MOST_ROUNDS, why: str = "") -> Deed:
        """Rounds pass until a line that begins with these words is printed, or until something holds of the replay.

        >>> net.out("UCLA", "SRI", 5) and net.run_until("answer rfnm 0/1")
        calm 2
            in 0/1 0/2 5 0
            answer rfnm 0/1 0/2 5
        """
        if isinstance(wanted, str) and not may_match(wanted):
            raise Stopped(f"no printed line begins with `{wanted}`: its words are compared with a line's first words, as in `answer rfnm 0/1`")
        before = self.steps
        said = why or (f"until `{wanted}`" if isinstance(wanted, str) else "until what was wanted")
        for rounds in range(1, limit + 1):
            self.steps = before
            step = self.calm(rounds, said).steps[0]
            if any(matches(it, wanted) for it in step.printed) if isinstance(wanted, str) else wanted(self):
                return Deed((step,))
        return Deed(self.steps[len(before) :], (), f"not {said} in {limit} rounds")

    # ---- what breaks

    def frames_of(self, message: Deed | Flow) -> list[Frame]:
        """The live frames that carry a piece of the message that is outstanding on a flow, or that a call sent.

        >>> [str(it) for it in net.frames_of(net.out("UCLA", "SRI", 5))]
        ['line 0 + 0: message 0 of flow 0/1 0/2 5']
        """
        flow = message if isinstance(message, Flow) else message.flow
        state = self.state
        return [it for it in state.frames() if it.packet and it.packet.kind == "data" and (it.packet.flow, it.packet.number) == (flow, state.outstanding().get(it.packet.flow))]

    def lose(self, message: Deed | Flow, why: str = "") -> Deed:
        """All live frames of a message are lost. Its IMP sends it again, until it is acknowledged.

        >>> net.lose(net.out("UCLA", "SRI", 5))
        drop 0 + 0
        """
        frames = sorted(self.frames_of(message), key=lambda it: -it.place)
        done, tried = self._perform([events.Drop(it.line, it.way, it.place) for it in frames], why or "the frames of a message are lost")
        return Deed(tuple(done), tuple(tried), "" if done else "no live frame carries it")

    def cut(self, a: ImpName, b: ImpName, why: str = "") -> Deed:
        """The line between two IMPs goes down at both ends.

        >>> net.cut("UCLA", "SRI")
        enddown 1 0
        enddown 2 0
        """
        return self._ends(events.EndDown, a, b, why or f"the line {self.network.imp(a)} - {self.network.imp(b)} is cut")

    def mend(self, a: ImpName, b: ImpName, why: str = "") -> Deed:
        """The line between two IMPs comes up at both ends.

        >>> net.cut("UCLA", "SRI") and net.mend("UCLA", "SRI")
        endup 1 0
        endup 2 0
        """
        return self._ends(events.EndUp, a, b, why or f"the line {self.network.imp(a)} - {self.network.imp(b)} is mended")

    def _ends(self, kind: Callable[[int, int], Event], a: ImpName, b: ImpName, why: str) -> Deed:
        line = self.network.line(a, b)
        done, tried = self._perform([kind(self.network.imp(it).number, line) for it in (a, b)], why)
        return Deed(tuple(done), tuple(tried))

    def crash(self, imp: ImpName, why: str = "") -> Deed:
        """An IMP stops, and its neighbours notice: their ends of its lines go down.

        >>> net.crash("SRI")
        enddown 1 0
        impdown 2
            down 0/2
        """
        if self.network.carrier == "plain":
            raise Stopped("plain mailboxes have no IMPs that stop")
        number = self.network.imp(imp).number
        ends = [events.EndDown(self.network.lines[line].far(number), line) for line in self.network.lines_of(number)]
        done, tried = self._perform([*ends, events.ImpDown(number)], why or f"{self.network.imp(imp)} stops")
        return Deed(tuple(done), tuple(tried))

    def restart(self, imp: ImpName, limit: int = MOST_ROUNDS, why: str = "") -> Deed:
        """An IMP stops, starts once nothing of its past is left, and its lines and hosts come up.

        Before it may start, each other IMP forgets the last numbers of its flows, and what is outstanding to it is given up.
        Where something of it is still alive, rounds pass; `tried` has what was refused, and the note what was in the way.

        >>> str(net.restart("SRI").steps[-1].event)
        'hostup 0/2'
        """
        number, said = self.network.imp(imp).number, why or f"{self.network.imp(imp)} restarts"
        before = len(self.steps)
        tried, note = list(self.crash(imp, said).tried), ""
        for _ in range(limit + 1):
            done, tried = self._perform([*self._forgets(number), events.ImpUp(number)], said)
            if done and isinstance(done[-1].event, events.ImpUp):
                break
            note = note or self._in_the_way(number)
            self._one_more_round(said)
        else:
            return Deed(self.steps[before:], tuple(tried), f"after {limit} rounds it can't start. {note}")
        ends = [events.EndUp(self.network.lines[line].far(number), line) for line in self.network.lines_of(number)]
        hosts = [events.HostUp(it) for it in self.network.hosts() if it.imp == number]
        _, tried = self._perform([*ends, *hosts], said)
        return Deed(self.steps[before:], tuple(tried), note)

    def _one_more_round(self, why: str) -> None:
        """A round passes; a calm that has just passed is one round longer."""
        rounds = 0
        if self.steps and isinstance(last := self.steps[-1].event, events.Calm) and self.steps[-1].why == why:
            rounds = last.rounds
            self.back()
        self.calm(rounds + 1, why)

    def _forgets(self, number: int) -> list[Event]:
        """What has to be forgotten and given up so that an IMP may start: nothing twice."""
        asked = before_a_start(number, self.unanswered(), reached(number, self.printed))
        since = max((at for at, it in enumerate(self.steps) if it.event == events.ImpDown(number)), default=0)
        forgotten = {it.event for it in self.steps[since:] if isinstance(it.event, events.Forget)}
        return [it for it in asked if it not in forgotten]

    def _in_the_way(self, number: int) -> str:
        """What is alive of an IMP's past."""
        try:
            alive = [str(it) for it in self.state.alive() if number in (it.flow.source.imp, it.flow.destination.imp)]
        except CannotFollow:
            return ""
        return f"Still alive: {'; '.join(alive[:4])}{f'; and {len(alive) - 4} more' if len(alive) > 4 else ''}." if alive else ""

    # ---- what there is

    @property
    def events(self) -> tuple[Event, ...]:
        """The plain events that have happened.

        >>> net.cut("UCLA", "SRI") and [str(it) for it in net.events]
        ['calm 2', 'enddown 1 0', 'enddown 2 0']
        """
        return tuple(it.event for it in self.steps)

    @property
    def script(self) -> Script:
        """What was done, as a plain script; the reason of an event is a comment.

        >>> net.calm(1, why="one more") and net.script.entries[1].comments
        ('one more',)
        """
        entries, before = [], ""
        for step in self.steps:
            entries.append(Entry(step.event, (step.why,) if step.why and step.why != before else ()))
            before = step.why
        return Script(self.network, tuple(entries), self.heading)

    @property
    def text(self) -> str:
        """The input that replays all this.

        >>> net.text.splitlines()[-2:]
        ['%', 'calm 2']
        """
        return self.script.text()

    @property
    def printed(self) -> list[str]:
        """All lines so far.

        >>> net.host_down("SRI") and net.printed
        ['down 0/2']
        """
        return [line for step in self.steps for line in step.printed]

    def lines(self, kind: str) -> list[str]:
        """The lines of a kind: `crossing`, `notice`, `report` or `refused`.

        >>> len(world.lines("crossing")), world.lines("refused")
        (30, [])
        """
        return [it for it in self.printed if kind_of(it) == kind]

    @property
    def crossings(self) -> list[str]:
        """What crossed between hosts and their IMPs.

        >>> net.out("UCLA", "SRI") and net.settle() and net.crossings
        ['out 0/1 0/2 0 0', 'in 0/1 0/2 0 0', 'answer rfnm 0/1 0/2 0']
        """
        return self.lines("crossing")

    @property
    def notices(self) -> list[str]:
        """What hosts' programs were informed of.

        >>> world.notices[:2]
        ['ready 0/2 0/1', 'ready 0/1 0/2']
        """
        return self.lines("notice")

    @property
    def reports(self) -> list[str]:
        """What users were informed of.

        >>> world.reports
        ['done server 0/2 100 101', 'done user 0/1 18 19']
        """
        return self.lines("report")

    @property
    def lives(self) -> list[str]:
        """The lives of the book.

        >>> len(world.lives), world.lives[0].split(" ")[:5]
        (6, ['life', '0/2', '7', '0/1', '16'])
        """
        ran = self.program.run(octets_of(self.text), "--book")
        return [it for it in ran.output.splitlines() if it.startswith("life ")]

    @property
    def log(self) -> str:
        """The log of the book.

        >>> net.out("UCLA", "SRI", 5, b"LO") and net.log.splitlines()
        ['out 0/1 0/2 5 16 4C4F', 'end']
        """
        return self.program.run(octets_of(self.text), "--log").output

    def audit(self) -> str:
        """What the proved audit says of the log.

        >>> net.out("UCLA", "SRI") and net.settle() and net.audit()
        'kept'
        """
        ran = self.program.run(self.log.encode("latin-1"), "--audit")
        return ran.output.strip() or ran.said.strip()

    @property
    def trace(self) -> str:
        """The trace.

        >>> len(net.trace.splitlines()) > 2
        True
        """
        return trace_of(self.program, self.network, self._kept())

    def _kept(self) -> tuple[Event, ...]:
        """The events that were not refused: the others changed nothing."""
        return tuple(it.event for it in self.steps if not it.refused)

    @property
    def state(self) -> State:
        """The state inside the network, folded from the trace.

        >>> net.state.distances(1)
        {2: 1}
        """
        kept = self._kept()
        if kept not in self._states:
            self._states = {kept: state_of(self.program, self.network, kept)}
        return self._states[kept]

    def unanswered(self) -> list[Flow]:
        """The flows whose last message has no answer yet, by what crossed.

        >>> net.out("UCLA", "SRI", 5) and [str(it) for it in net.unanswered()]
        ['0/1 0/2 5']
        """
        seen = Unanswered()
        for line in self.crossings:
            seen.see(line)
        return [*seen.flows]

    def expect(self, *wanted: str) -> None:
        """Raises `Stopped` unless the last event printed exactly these lines.

        >>> net.calm(1) and net.expect()
        """
        printed = self.steps[-1].printed if self.steps else ()
        if printed != wanted:
            raise Stopped(f"`{self.steps[-1].event if self.steps else 'nothing'}` printed {list(printed)}, and {list(wanted)} were expected")

    def __str__(self) -> str:
        return "\n".join(map(str, self.steps))

    def _repr_svg_(self) -> str:
        """A map of the network as it is now, for a notebook."""
        try:
            state = self.state
        except CannotFollow:
            state = State(self.network, {})
        return drawn(self.network, state, self.unanswered())


@dataclass(frozen=True)
class Stranger:
    """A host that runs no program of this project's, in a replay: it sends what one likes and takes when one likes.

    Here it makes contact by RST, and takes the RRP of the proved host. [Hosts](hosts.md) has the rules.

    >>> other = Replay(mixed)
    >>> mine = other.foreign("MINE")
    >>> other.calm(2) and mine.out("UCLA", text=bytes.fromhex("00080001000C")) and other.calm(2).printed
    ['in 0/2 0/1 0 48', 'ready 0/1 0/2', 'out 0/1 0/2 0 48']
    >>> mine.take() and mine.take()
    take 0/2
        in 0/1 0/2 0 48
    """

    net: Replay
    host: Host

    def out(self, destination: HostName, link: int = 0, text: Octets = b"", why: str = "") -> Deed:
        """It hands its IMP a message.

        >>> other = Replay(mixed)
        >>> other.calm(2) and other.foreign("MINE").out("UCLA", text=bytes.fromhex("00080001000C"))
        out 0/2 0/1 0 48 00080001000C
            out 0/2 0/1 0 48
        """
        return self.net.out(self.host, destination, link, text, why)

    def take(self, why: str = "") -> Deed:
        """It takes what waits for it: the oldest answer, or else the oldest message.

        >>> other = Replay(mixed)
        >>> other.contact("UCLA", "MINE") and other.calm(2) and other.foreign("MINE").take().text.octets.hex()
        '00080001000c'
        """
        return self.net.take(self.host, why)
