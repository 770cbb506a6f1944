"""Networks: IMPs with names, hosts and lines, read from and written as the topologies of docs/program.md."""

from __future__ import annotations

import re
from collections.abc import Iterable, Mapping
from dataclasses import dataclass, replace
from typing import Any, Union

from dorydate.given import short
from dorydate.sentences.table import filled, sentences
from dorydate.sites import Site
from dorydate.toml import MOST_NUMBER, document_of, line_of_key, line_of_table

MOST_IMPS = MOST_NUMBER
MOST_HOSTS = 4
MOST_LINES = 5  # of one IMP
TOPOLOGIES = sentences("topologies")


class BadNetwork(ValueError):
    """Why something describes no network, or names nothing in one.

    >>> Network.joined("UCLA-SRI-UCLA").line("UCLA", "MIT")
    Traceback (most recent call last):
        ..
    dorydate.network.BadNetwork: the network has no IMP MIT; it has UCLA, SRI
    """


@dataclass(frozen=True)
class Host:
    """A host: its number at its IMP, 0 to 3, and that IMP's number. It is written `host/imp`.

    >>> str(Host(0, 1)), Host(0, 1) == two.host("UCLA")
    ('0/1', True)
    """

    host: int
    imp: int

    def __str__(self) -> str:
        return f"{self.host}/{self.imp}"

    def order(self) -> tuple[int, int]:
        """The order of hosts: by IMP, then by host.

        >>> sorted([Host(0, 2), Host(1, 1)], key=Host.order)[0]
        Host(host=1, imp=1)
        """
        return self.imp, self.host

    @staticmethod
    def read(word: str) -> Host:
        """The host that a word names.

        >>> Host.read("3/63")
        Host(host=3, imp=63)
        """
        found = re.fullmatch(r"([0-3])/([1-9]|[1-5][0-9]|6[0-3])", word)
        if not found:
            raise BadNetwork(f"`{word}` is not a host: that is its number from 0 to 3, a slash, and its IMP's number from 1 to 63")
        return Host(int(found[1]), int(found[2]))


@dataclass(frozen=True)
class Imp:
    """An IMP: its number, how many hosts it has, and the name of its site.

    >>> str(two.imps[0]), str(Imp(7))
    ('UCLA', 'IMP 7')
    """

    number: int
    hosts: int = 1
    name: str = ""
    more: str = ""  # what the comment after its number says beside the name: machines, and where it is (dorydate.sites)
    foreign: tuple[int, ...] = ()  # the numbers of its hosts that are strangers and run no program

    def __str__(self) -> str:
        return self.name or f"IMP {self.number}"


@dataclass(frozen=True)
class Line:
    """A line between two IMPs. Frames go `+` from the first to the second, and `-` the other way.

    >>> two.lines
    (Line(a=1, b=2),)
    """

    a: int
    b: int

    def far(self, imp: int) -> int:
        """The IMP at its other end.

        >>> Line(1, 2).far(1)
        2
        """
        return self.a + self.b - imp

    def way(self, imp: int) -> str:
        """The way that frames from an IMP go.

        >>> Line(1, 2).way(2)
        '-'
        """
        return "+" if imp == self.a else "-"


HostName = Union[Host, str]
ImpName = Union[Imp, int, str]


@dataclass(frozen=True)
class Network:
    """A network. `raw` says that a script itself sends and takes messages; otherwise the hosts have programs.

    >>> two = Network.joined("UCLA-SRI", raw=True)
    >>> two == Network((Imp(1, 1, "UCLA"), Imp(2, 1, "SRI")), (Line(1, 2),), raw=True)
    True
    """

    imps: tuple[Imp, ...]
    lines: tuple[Line, ...] = ()
    raw: bool = False
    carrier: str = "subnet"

    def __post_init__(self) -> None:
        check(self)

    @staticmethod
    def joined(
        *chains: str,
        hosts: int | Mapping[str, int] = 1,
        raw: bool = False,
        carrier: str = "subnet",
        foreign: Iterable[str] = (),
    ) -> Network:
        """The network of these chains of sites, as in `UCLA-SRI-UTAH`, `UCLA-UCSB`. IMPs are numbered as they first come.

        `hosts` is how many each has, or a mapping from names; those that it doesn't name have one. A line that comes again, as
        between two chains, is one line. `foreign` names the hosts that are strangers and run no program, as `host`
        reads them.

        >>> four = Network.joined("UCLA-SRI-UTAH", "SRI-UCSB-UCLA", hosts={"UTAH": 2})
        >>> len(four.imps), len(four.lines), len(four.hosts())
        (4, 4, 5)
        >>> Network.joined("UCLA-SRI", hosts=2, foreign=["SRI", "1 at SRI"]).imps[1].foreign
        (0, 1)
        """
        names: list[str] = []
        pairs: list[tuple[str, str]] = []
        for chain in chains:
            if not isinstance(chain, str):
                raise BadNetwork(f"{chain!r} is no chain of sites, as `UCLA-SRI` is")
            sites = [it.strip() for it in chain.split("-")]
            if not all(sites):
                raise BadNetwork(f"the chain {chain!r} has a site without a name")
            names += [it for it in dict.fromkeys(sites) if it not in names]
            for pair in zip(sites, sites[1:]):
                if pair not in pairs and pair[::-1] not in pairs:
                    pairs.append(pair)
        if not isinstance(hosts, int) and (unknown := [it for it in hosts if it not in names]):
            raise BadNetwork(f"no chain has the site {unknown[0]}")
        counts = {it: hosts if isinstance(hosts, int) else hosts.get(it, 1) for it in names}
        imps = tuple(Imp(number, counts[name], name) for number, name in enumerate(names, 1))
        number = {name: at for at, name in enumerate(names, 1)}
        network = Network(imps, tuple(Line(number[a], number[b]) for a, b in pairs), raw, carrier)
        if foreign is None or isinstance(foreign, str):
            raise BadNetwork(f"{foreign!r} is no list of the hosts that are strangers")
        strangers = [(it.host, network.imp(it.imp)) for it in map(network.host, foreign)]
        named = {imp: tuple(number for number, of in strangers if of == imp) for imp in imps}
        return replace(network, imps=tuple(replace(imp, foreign=named[imp]) for imp in imps))

    # ---- names

    def imp(self, name: ImpName) -> Imp:
        """The IMP of a name or a number.

        >>> two.imp("SRI").number, two.imp(1).name
        (2, 'UCLA')
        """
        for it in self.imps:
            if it == name or it.number == name or (isinstance(name, str) and name in (it.name, str(it.number))):
                return it
        raise BadNetwork(f"the network has no IMP {name}; it has {', '.join(it.name or str(it.number) for it in self.imps)}")

    def host(self, name: HostName) -> Host:
        """The host of a name: `0/1`, the site's name for its host 0, or `1 at UCLA`.

        A host that is written with numbers need not be there: a message to one that isn't is answered Dead.

        >>> two.host("SRI"), two.host("3 at SRI"), two.host("0/9")
        (Host(host=0, imp=2), Host(host=3, imp=2), Host(host=0, imp=9))
        """
        if isinstance(name, Host):
            return name
        if not isinstance(name, str):
            raise BadNetwork(f"{name!r} is not a host: write `0/1`, or the site's name for its host 0, or `1 at` and that name")
        if re.fullmatch(r"[0-9]+/[0-9]+", name):
            return Host.read(name)
        number, at, site = name.partition(" at ")
        if not at:
            return Host(0, self.imp(name).number)
        if not re.fullmatch("[0-3]", number):
            raise BadNetwork(f"`{name}` is not a host: an IMP has hosts 0 to 3")
        return Host(int(number), self.imp(site).number)

    def line(self, a: ImpName, b: ImpName) -> int:
        """The number of the line between two IMPs.

        >>> two.line("SRI", "UCLA")
        0
        """
        ends = {self.imp(a).number, self.imp(b).number}
        for number, line in enumerate(self.lines):
            if {line.a, line.b} == ends:
                return number
        raise BadNetwork(f"no line joins {self.imp(a)} and {self.imp(b)}")

    def lines_of(self, imp: int) -> list[int]:
        """The numbers of an IMP's lines, in order.

        >>> two.lines_of(2)
        [0]
        """
        return [number for number, line in enumerate(self.lines) if imp in (line.a, line.b)]

    def hosts(self) -> list[Host]:
        """All hosts, in order of IMP and host.

        >>> [str(it) for it in two.hosts()]
        ['0/1', '0/2']
        """
        return [Host(host, imp.number) for imp in sorted(self.imps, key=lambda it: it.number) for host in range(imp.hosts)]

    def strangers(self) -> list[Host]:
        """The hosts that run no program, in order.

        >>> mixed.strangers()
        [Host(host=0, imp=2)]
        """
        return [it for it in self.hosts() if it.host in self.imp(it.imp).foreign]

    def title(self, host: Host) -> str:
        """How a host is called: its site's name where that is known.

        >>> two.title(Host(0, 2)), two.title(Host(1, 2))
        ('SRI', '1 at SRI')
        """
        name = next((it.name for it in self.imps if it.number == host.imp), "")
        return (name if host.host == 0 else f"{host.host} at {name}") if name else str(host)

    # ---- topologies

    def toml(self) -> str:
        """The topology, as the program reads it. A site's name is a comment.

        >>> print(two.toml().split("[[line]]")[0], end="")
        carrier = "subnet"
        raw = true
        [[imp]]
        id = 1 # UCLA
        hosts = 1
        [[imp]]
        id = 2 # SRI
        hosts = 1
        """
        head = [f'carrier = "{self.carrier}"', f"raw = {'true' if self.raw else 'false'}"]
        imps = [written(imp) for imp in self.imps]
        lines = [f"[[line]]\na = {line.a}\nb = {line.b}" for line in self.lines]
        return "\n".join([*head, *imps, *lines]) + "\n"

    @staticmethod
    def read(text: str) -> Network:
        """The network of a topology. The comment after an IMP's number is the name of its site.

        >>> Network.read(two.toml()) == two
        True
        """
        return read(text)


def written(imp: Imp) -> str:
    """The table of an IMP."""
    strangers = f"\nforeign = [{', '.join(map(str, imp.foreign))}]" if imp.foreign else ""
    return f"[[imp]]\nid = {imp.number}{f' # {imp.name}{imp.more}' if imp.name else ''}\nhosts = {imp.hosts}{strangers}"


def imp_of(table: Mapping[str, Any], comment: str) -> Imp:
    """An IMP, by its table and the comment after its number."""
    name = Site.read(comment).name
    return Imp(table["id"], table["hosts"], name, comment[len(name) :], tuple(table.get("foreign", ())))


def check(network: Network) -> None:
    """Refuses what is no network, as the program does."""
    if network.carrier not in ("plain", "subnet"):
        raise BadNetwork('there are two carriers, "plain" and "subnet"')
    if not 1 <= len(network.imps) <= MOST_IMPS:
        raise BadNetwork(f"a network has 1 to {MOST_IMPS} IMPs")
    numbers = [imp.number for imp in network.imps]
    for imp in network.imps:
        if type(imp.number) is not int or type(imp.hosts) is not int:
            raise BadNetwork(f"IMP {imp.number!r} with {imp.hosts!r} hosts: these are whole numbers")
        if not 1 <= imp.number <= MOST_IMPS or not 0 <= imp.hosts <= MOST_HOSTS:
            raise BadNetwork(f"{imp} has a number from 1 to {MOST_IMPS} and 0 to {MOST_HOSTS} hosts")
        if numbers.count(imp.number) > 1:
            raise BadNetwork(f"two IMPs have the number {imp.number}")
        if imp.foreign and (why := "foreign raw" if network.raw else wrong_with_numbers([*imp.foreign], imp.hosts)):
            raise BadNetwork(filled(TOPOLOGIES[why], imp=imp.number, hosts=imp.hosts))
        if not imp.name.isprintable():
            raise BadNetwork("a site's name has one line of characters that can be printed")
    check_lines(network.lines, numbers)


def wrong_with_numbers(numbers: object, hosts: int) -> str:
    """Which rule of the numbers of an IMP's strangers these break, by its sentence's name; nothing where they keep all."""
    if not isinstance(numbers, list) or not all(type(it) is int for it in numbers):
        return "foreign list"
    if not all(0 <= it < hosts for it in numbers):
        return "foreign host"
    if len({*numbers}) < len(numbers):
        return "foreign twice"
    return "" if numbers == sorted(numbers) else "foreign order"


def check_lines(lines: Iterable[Line], numbers: list[int]) -> None:
    """Refuses lines that join no two different IMPs, that come twice, and more than five at an IMP."""
    seen: list[set[int]] = []
    for line in lines:
        ends = {line.a, line.b}
        if len(ends) < 2 or not ends <= {*numbers}:
            raise BadNetwork(f"the line from {line.a} to {line.b} does not join two different IMPs")
        if ends in seen:
            raise BadNetwork(f"two lines join the IMPs {line.a} and {line.b}")
        seen.append(ends)
        for number in ends:
            if sum(number in it for it in seen) > MOST_LINES:
                raise BadNetwork(f"IMP {number} has more than {MOST_LINES} lines")


# ---- topologies

KEYS = {"imp": {"id", "hosts"}, "line": {"a", "b"}}
OPTIONAL: dict[str, set[str]] = {"imp": {"foreign"}, "line": set()}
NAME = re.compile(r"^[ \t]*id[ \t]*=[ \t]*(\d+)[ \t]*#[ \t]*(\S.*)$", re.MULTILINE)  # a comment after an IMP's number is the name of its site


def read(text: str) -> Network:
    """The network of a topology."""
    text = text.removeprefix("\ufeff").replace("\r\n", "\n")
    try:
        document = document_of(text)
    except ValueError as why:
        raise BadNetwork(f"the topology is not read: {why}") from None
    if further := sorted({*document} - {"carrier", "raw", *KEYS}):
        lines = text.split("\n")
        number = line_of_table(lines, further[0], 0) or line_of_key(lines, further[0])
        where = f"line {number} of the topology, `{short(lines[number - 1].strip())}`: " if number else ""
        raise BadNetwork(f"{where}a topology has no key `{further[0]}`")
    raw, carrier = document.get("raw", False), document.get("carrier", "subnet")
    if not isinstance(raw, bool) or not isinstance(carrier, str):
        raise BadNetwork("`raw` is true or false, and `carrier` is \"plain\" or \"subnet\"")
    comments = {int(number): printable(comment) for number, comment in NAME.findall(text)}
    imps = tuple(imp_of(it, comments.get(it["id"], "")) for it in tables(document, "imp"))
    return Network(imps, tuple(Line(it["a"], it["b"]) for it in tables(document, "line")), raw, carrier)


def has_keys(table: object, name: str) -> bool:
    """Whether a table has the keys of those of a name, and none that they can't have."""
    return isinstance(table, dict) and {*table} - OPTIONAL[name] == KEYS[name]


def tables(document: Mapping[str, Any], name: str) -> list[dict[str, Any]]:
    """The tables of a name, each of which has just its keys, with whole numbers. An IMP may list its strangers, too."""
    found = document.get(name, [])
    if not isinstance(found, list) or not all(has_keys(it, name) for it in found):
        raise BadNetwork(f"a table [[{name}]] has exactly the keys {' and '.join(sorted(KEYS[name]))}")
    if not all(type(value) is int for it in found for key, value in it.items() if key not in OPTIONAL[name]):
        raise BadNetwork("numbers of IMPs, hosts and ends of lines are whole")
    listed = [it["foreign"] for it in found if "foreign" in it]
    if not all(isinstance(it, list) for it in listed):
        raise BadNetwork(TOPOLOGIES["foreign list"])
    return found


def printable(name: str) -> str:
    """A site's name with a space in place of each character that can't be printed."""
    return "".join(it if it.isprintable() else " " for it in name).strip()
