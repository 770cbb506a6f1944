"""A dialogue with a program: what is done, what the program says, and what is wrong with that."""

from __future__ import annotations

from collections.abc import Iterable, Sequence
from typing import NamedTuple

from dorydate.conformance.steps import HERE, MINE, OTHER, Dialogue, Step, fits, in_words, joined
from dorydate.coupling import Coupled, Mute, Silent, Speaks, settle
from dorydate.deeds import Stopped
from dorydate.explore.pattern import Names
from dorydate.model.bits import octets, read_bits
from dorydate.network import Host, Network
from dorydate.program import Program
from dorydate.replay import Replay
from dorydate.script import Flow, Out, Text, read_event

NETWORK = Network.joined("HERE-MINE-OTHER-HERE", foreign=["MINE", "OTHER"])
MOST_TURNS = 12  # of one step: a network that isn't at rest then never will be


class Finding(NamedTuple):
    """What is wrong with a program: after which step of a dialogue, and why."""

    dialogue: Dialogue
    step: Step
    why: str

    def __str__(self) -> str:
        return f"after `{self.step.does}` {self.why}. The rule: {self.dialogue.rule}"


class Trial:
    """A network with a program in it, and how far a dialogue has come."""

    def __init__(self, program: Speaks, dialogue: Dialogue, simulator: Program | None = None) -> None:
        self.net = Replay(NETWORK, simulator, [f"The dialogue `{dialogue.name}`: {dialogue.rule}."])
        self.mine = Coupled(self.net.foreign("MINE"), program)
        self.hosts = [self.mine, Coupled(self.net.foreign("OTHER"), Silent())]  # it takes what comes, and no more
        self.dialogue = dialogue
        self.names: Names = ()

    def finding(self) -> Finding | None:
        """The first thing that is wrong; None where nothing is."""
        self.net.calm(len(NETWORK.imps), "each IMP learns the ways to the others")
        for step in self.dialogue.steps:
            if why := self.wrong(step):
                return Finding(self.dialogue, step, why)
        return None

    def wrong(self, step: Step) -> str | None:
        """What is wrong after a step, in words."""
        before = len(self.net.steps)
        try:
            self.do(step)
            settle(self.net, self.hosts, MOST_TURNS)
        except (Mute, Stopped) as why:
            return str(why)
        if self.mine.refused:
            return f"a message of its own is refused: {self.mine.refused[0]}"
        return self.misread(step, [it for one in self.net.steps[before:] for it in one.texts])

    def do(self, step: Step) -> None:
        """Somebody does something."""
        if step.who == "user":
            self.mine.ask(step.does)
        elif step.who == "here":
            self.net.do(read_event(step.does, NETWORK))
        else:
            link = int(dict(self.names).get(step.link, step.link))
            text = Text(octets(step.text), len(step.text))
            flow = Flow(Host.read(OTHER), Host.read(MINE), link)
            self.net.do(Out(flow, text), f"the second stranger says {step.does}")

    def misread(self, step: Step, printed: Sequence[str]) -> str | None:
        """What the program said that isn't right, or what should be printed and isn't."""
        said = {peer: joined([*said_in(printed, MINE, peer)]) for peer in (HERE, OTHER)}
        bound = [fits(said[step.peer], right, self.names) for right in step.right]
        found = next((it for it in bound if it is not None), None)
        if found is None:
            right = " or ".join(spelled(it) for it in step.right)
            return f"it says {spelled(', '.join(said[step.peer]))}, and right is {right}"
        self.names = found
        if stray := next((it for it, words in said.items() if it != step.peer and words), None):
            return f"it says {spelled(', '.join(said[stray]))} to {stray}, who said nothing"
        if errors := [it for it in said_in(printed, HERE, MINE) if it.startswith("ERR ")]:
            return f"the proved host answers it by `{errors[0]}`"
        lacking = [it for it in step.seen if it not in printed]
        return f"`{lacking[0]}` isn't printed" if lacking else None


def said_in(printed: Iterable[str], source: str, destination: str) -> Iterable[str]:
    """What one host says to another in these lines."""
    for words in (it.split(" ") for it in printed if it.startswith(f"out {source} {destination} ")):
        yield from in_words(int(words[3]), read_bits(*words[4:]))


def spelled(said: str) -> str:
    return f"`{said}`" if said else "nothing"


def tried(program: Speaks, dialogue: Dialogue, simulator: Program | None = None) -> Finding | None:
    """Has a dialogue with a program that has just started: the first thing that is wrong, None where nothing is."""
    return Trial(program, dialogue, simulator).finding()
