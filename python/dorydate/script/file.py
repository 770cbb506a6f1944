"""Scripts as files: a network, events with their comments, and what each event is expected to print."""

from __future__ import annotations

from collections.abc import Iterator, Sequence
from dataclasses import dataclass

from dorydate.given import Input, short
from dorydate.network import BadNetwork, Network
from dorydate.script.event import Event
from dorydate.script.lines import read_event
from dorydate.script.values import BadLine

EXPECTED = "#="  # begins a comment with a line that the event before it has to print


@dataclass(frozen=True)
class Entry:
    """A line of a script that asks for an event, with the comments before it, the lines that it is expected to
    print (None where nothing is said), and its number in the file (0 where it is from none)."""

    event: Event
    comments: tuple[str, ...] = ()
    expected: tuple[str, ...] | None = None
    number: int = 0

    def lines(self) -> Iterator[str]:
        for comment in self.comments:
            yield from (f"# {it}".rstrip() for it in comment.split("\n"))
        yield str(self.event)
        if self.expected is not None:
            yield from (f"{EXPECTED} {it}".rstrip() for it in self.expected or ("",))


@dataclass(frozen=True)
class Script:
    """A network and the events that happen in it.

    >>> from dorydate.script import Calm
    >>> script = Script.of(two, [Calm(1)])
    """

    network: Network
    entries: tuple[Entry, ...] = ()
    heading: tuple[str, ...] = ()  # comments at the head of the file

    @staticmethod
    def of(network: Network, events: Sequence[Event], heading: Sequence[str] = ()) -> Script:
        """The script of some events.

        >>> Script.of(two, [], heading=["A test."]).text().splitlines()[0]
        '# A test.'
        """
        return Script(network, tuple(Entry(it) for it in events), tuple(heading))

    @property
    def events(self) -> tuple[Event, ...]:
        """Its events, without comments.

        >>> Script.read(two.toml() + "%\\n# go\\ncalm 1\\n").events
        (Calm(rounds=1),)
        """
        return tuple(it.event for it in self.entries)

    def text(self) -> str:
        """The whole input, as the program reads it.

        >>> Script.of(two, []).text() == two.toml() + "%\\n"
        True
        """
        head = [f"# {it}".rstrip() for it in self.heading]
        lines = [line for entry in self.entries for line in entry.lines()]
        return "\n".join([*head, self.network.toml() + "%", *lines]) + "\n"

    def octets(self) -> bytes:
        """The whole input as octets.

        >>> len(Script.of(two, []).octets())
        116
        """
        return octets_of(self.text())

    @staticmethod
    def of_octets(octets: bytes) -> Script:
        """The script of an input's octets, which in comments may be any. A comment that begins with `#=` is what the event before it is
        expected to print.

        >>> Script.of_octets(two.toml().encode() + b"%\\ncalm 1\\n#=\\n").entries[0].expected
        ()
        """
        given = Input(octets)
        if given.marker is None:
            raise BadLine("no line is `%`, which separates the topology from the script")
        head = decoded(given.topology())
        network = Network.read(head)
        entries: list[Entry] = []
        comments: list[str] = []
        for number, line in ((number, decoded(octets)) for number, octets in given.script):
            if line.startswith(EXPECTED):
                expect(entries, line, number)
            elif line.startswith("#"):
                comments.append(line[1:].strip())
            elif line:
                try:
                    entries.append(Entry(read_event(line, network), tuple(comments), None, number))
                except (BadLine, BadNetwork) as why:
                    raise BadLine(f"line {number}, `{short(line)}`: {why}") from None
                comments = []
        heading = tuple(it[1:].strip() for it in head.split("\n") if it.startswith("#"))
        return Script(network, tuple(entries), heading)

    @staticmethod
    def read(text: str) -> Script:
        """The script of an input.

        >>> Script.read(two.toml() + "%\\ncalm 1\\n").entries[0].number
        13
        """
        return Script.of_octets(octets_of(text))


def octets_of(text: str) -> bytes:
    """An input as octets: in UTF-8, and what `decoded` found to be none as it was."""
    return text.encode("utf-8", "surrogateescape")


def decoded(octets: bytes) -> str:
    """Octets of an input as a text, from which `octets_of` makes the same octets."""
    return octets.decode("utf-8", "surrogateescape")


def expect(entries: list[Entry], line: str, number: int) -> None:
    """Adds a line to what the last event is expected to print; an empty one says that it prints nothing."""
    if not entries:
        raise BadLine(f"line {number}, `{short(line)}`: no event comes before it")
    last, printed = entries[-1], line[len(EXPECTED) :].strip(" ")
    if last.expected == () or (last.expected and not printed):
        raise BadLine(f"line {number}, `{short(line)}`: the event of line {last.number} can't print nothing and something")
    entries[-1] = Entry(last.event, last.comments, (*(last.expected or ()), *([printed] if printed else [])), last.number)
