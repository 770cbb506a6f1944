"""Several hosts over mailboxes: each that keeps the contract is its own log's fold, and the others are strangers."""

from __future__ import annotations

from collections.abc import Collection, Mapping

from dorydate.contract.acts import Act, Answered, Comes, Goes, Starts, Stops
from dorydate.contract.fold import Own
from dorydate.contract.worlds.mailboxes import Network
from dorydate.contract.worlds.promise import Life, broken
from dorydate.model.names import HostName, Refused, spell_host

CROSSING = (Goes, Comes, Answered, Stops, Starts)


class World:
    """A network with hosts, some of which keep the contract, or all of it but some rules."""

    def __init__(self, keepers: Mapping[HostName, Collection[str]], strangers: Collection[HostName] = ()) -> None:
        self.net = Network([*keepers, *strangers])
        self.own = {host: Own(spell_host(host), lacks) for host, lacks in keepers.items()}
        self.done: list[tuple[HostName, Act]] = []

    def do(self, host: HostName, act: Act) -> None:
        """Something happens. Raises Refused where the network doesn't allow it, Broken where a contract doesn't."""
        if isinstance(act, CROSSING):
            act = self.net.cross(host, act)
        elif not self.net.is_up[host]:
            raise Refused("IsDown")
        self.done.append((host, act))
        if host in self.own:
            self.own[host].step(len(self.net.log) - 1, act)

    def lives(self) -> list[Life]:
        return [Life(spell_host(host), end) for host, own in self.own.items() for end in own.lives]

    def broken(self) -> set[str]:
        """The clauses of the promise that don't hold."""
        return broken(self.net.log, self.lives(), {spell_host(it) for it in self.own})
