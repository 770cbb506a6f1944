"""A log as the values that definitions speak of, and the line of the log by which each may be called."""

from __future__ import annotations

from collections.abc import Iterable, Sequence
from dataclasses import dataclass, field

from dorydate.definitions.values import FALSE, NIL, TRUE, Data, Struct, Value, data, items_of, listed, struct, truth
from dorydate.model.bits import Bits
from dorydate.model.book import Life
from dorydate.model.crossings import Answered, Crossing, Passed
from dorydate.model.log import Book
from dorydate.model.names import Flow, HostName

ANSWERS = {"rfnm": "Rfnm", "dead": "Dead", "incomplete": "Incomplete", "nottaken": "NotTaken"}


def host_value(host: HostName) -> Struct:
    return struct({"imp": host.imp, "host": host.number})


def flow_value(flow: Flow) -> Struct:
    ends = {"source": host_value(flow.source), "destination": host_value(flow.destination)}
    return struct({**ends, "link": struct({"0": flow.link})})


def bits_value(bits: Bits) -> Data:
    return listed(TRUE if it == "1" else FALSE for it in bits)


def crossing_value(crossing: Crossing) -> Data:
    if isinstance(crossing, Passed):
        message = struct({"flow": flow_value(crossing.flow), "text": bits_value(crossing.text)})
        return data("Out" if crossing.kind == "out" else "In", message)
    if isinstance(crossing, Answered):
        return data("Answer", data(ANSWERS[crossing.answer]), flow_value(crossing.flow))
    return data("Down" if crossing.kind == "down" else "Up", host_value(crossing.host))


def amount_value(amounts: Sequence[int]) -> Struct:
    return struct({"messages": amounts[0], "bits": amounts[1]})


def life_value(life: Life) -> Struct:
    return struct(
        {
            "host": host_value(life.host),
            "socket": life.socket,
            "peer": host_value(life.peer),
            "foreign": life.foreign,
            "own_stamp": life.own,
            "partner_stamp": life.partner,
            "bits": bits_value(life.bits),
            "messages": life.messages,
            "granted": amount_value(life.granted),
            "returned": amount_value(life.returned),
            "ended": truth(life.has_ended),
        }
    )


@dataclass
class Logged:
    """The book of a log, the newest crossing first, without the notices and reports that no log has."""

    book: Book
    log: Data = NIL
    lives: Data = NIL
    handed: Data = NIL
    fates: tuple[Data, ...] = ()
    labels: dict[Value, str] = field(default_factory=dict)

    def __post_init__(self) -> None:
        lines: dict[Value, list[int]] = {}
        for place, crossing in enumerate(self.book.log):
            value = crossing_value(crossing)
            self.log = listed([value], self.log)
            lines.setdefault(value, []).append(self.book.crossing_line(place))
            self.labels[self.log] = f"the log up to line {self.book.crossing_line(place)}"
        lives = [life_value(it) for it in self.book.lives]
        for place, life in enumerate(lives):
            lines.setdefault(life, []).append(self.book.life_line(place))
        self.lives, self.handed = listed(lives), listed(map(bits_value, self.book.handed))
        self.fates = tuple(data(it.fate.capitalize()) for it in self.book.lives)
        self.labels |= {value: f"line{'s' * (len(its) > 1)} {', '.join(map(str, its))}" for value, its in lines.items()}
        self.labels |= {
            it: name for it, name in ((self.lives, "all lives"), (self.handed, "all lists")) if it is not NIL
        }

    @property
    def hosts(self) -> Data:
        """The hosts that the log names, each once."""
        of_lives = (host for it in self.book.lives for host in (it.host, it.peer))
        named = [*self.book.strangers, *hosts_in(self.book.log), *of_lives]
        return listed(map(host_value, dict.fromkeys(named)))

    @property
    def flows(self) -> list[Value]:
        """The flows that the log names, each once."""
        flows = dict.fromkeys(it.flow for it in self.book.log if isinstance(it, (Passed, Answered)))
        return [flow_value(it) for it in flows]

    @property
    def strangers(self) -> Data:
        return listed(map(host_value, self.book.strangers))

    def kept(self, fates: Iterable[Value], contacts: Iterable[Value]) -> Struct:
        """What a world has kept, if these are its fates and contacts."""
        book = struct({"crossings": self.log, "lives": self.lives, "contacts": listed(contacts)})
        return struct({"book": book, "handed": self.handed, "fates": listed(fates)})

    def each_life(self) -> list[tuple[Value, Data]]:
        """The lives, each with the fate that its line names."""
        return [*zip(items_of(self.lives), self.fates)]


def hosts_in(log: Iterable[Crossing]) -> Iterable[HostName]:
    for it in log:
        if isinstance(it, (Passed, Answered)):
            yield from (it.flow.source, it.flow.destination)
        else:
            yield it.host
