"""What messages do, and what hosts and IMPs do that stop and start: sentences about the inside of a network."""

from __future__ import annotations

from dorydate.explain.frames import answer_waits
from dorydate.explain.in_the_way import Sending, hops
from dorydate.explain.view import INSIDE, Sentences, View, Ways, host_in_words, imp_in_words
from dorydate.model.alive import of_imp
from dorydate.model.crossings import ANSWERS, Reply
from dorydate.model.names import Flow, HostName, spell_flow
from dorydate.model.packets import body
from dorydate.sentences import SILENT
from dorydate.sentences.table import count, filled, listed


def sent(view: View, message: Sending) -> list[str]:
    """What is said of a message that went out."""
    flow, text = message
    source, destination, _ = flow
    imp = view.subnet.up(source.imp)
    if Reply("dead", flow) in imp.hosts[source.number].answers:
        return [dead_at_once(view, source.imp, destination)]
    if destination.imp == source.imp:
        return [filled(INSIDE["one imp"], imp=imp_in_words(source.imp), host=host_in_words(destination))]
    pieces = -(-len(body(text)) // 1008)
    number = imp.outstanding.get(flow)
    cut = f"message {number} of this flow, {'one packet' if pieces == 1 else f'{pieces} packets'}"
    waits = sum(it.flow == flow for it in imp.store)
    left = f"{waits} of them wait for a free channel." if waits else ""
    return [f"For IMP {source.imp} it is {cut}.", view.sendings(source.imp), left]


def dead_at_once(view: View, number: int, destination: HostName) -> str:
    """Why Dead waits for a source at once."""
    far = destination.imp
    ends = {"imp": imp_in_words(number), "to": imp_in_words(far)}
    if far not in view.subnet.sites:
        return filled(INSIDE["no imp, dead"], number=far)
    if far == number:
        return filled(INSIDE["no host, dead"], host=host_in_words(destination))
    steps = hops(view.subnet, number, far)
    if steps is None:
        return filled(INSIDE["no way, dead"], ends)
    if any(any(view.ways(it).values()) for it in view.subnet.sites):
        return filled(INSIDE["no route yet, dead"], ends, rounds=steps)
    return f"No IMP knows a route yet: put `calm {steps}` first. So Dead waits for the source at once."


def taken(view: View, host: HostName) -> Sentences | None:
    """What is said of a host that takes what waits for it."""
    waits = view.waiting_for(host)
    if waits is None:
        return None if view.answers_of(host) else lambda: nothing_waits(view, host)
    source = waits.flow.source

    def said() -> list[str]:
        if source.imp == host.imp:
            return [f"Its source is at the same IMP, so the RFNM waits for {host_in_words(source)} at once."]
        if frames := view.sendings(host.imp):
            return [frames]
        if view.leads(host.imp, source.imp):
            return [f"The RFNM waits in the store of IMP {host.imp}."]
        return [filled(INSIDE["no rfnm"], imp=imp_in_words(host.imp), to=imp_in_words(source.imp))]

    return said


def nothing_waits(view: View, host: HostName) -> list[str]:
    """What is still in transit to a host for which nothing waits."""
    said = [filled(SILENT["take"], host=host_in_words(host))]
    if what := view.coming(host):
        said.append(f"In transit to it {'is' if len(what) == 1 else 'are'} {listed(what)}.")
    return said


def given_up(view: View, flow: Flow) -> Sentences:
    """What is said of a message that is given up."""
    imp = view.imp(flow.source.imp)
    number = imp.outstanding.get(flow) if imp is not None else None

    def said() -> list[str]:
        here = view.subnet.up(flow.source.imp)
        start = filled(INSIDE["given up"], message=f"message {number} of flow {spell_flow(flow)}", imp=imp_in_words(here.number))
        return [f"{start} {answer_waits(here, ANSWERS['incomplete'], flow)}"]

    return said


def asked(view: View, flow: Flow) -> Sentences:
    """What is said of a question what became of a message."""
    imp = view.imp(flow.source.imp)
    number = imp.outstanding.get(flow) if imp is not None else None
    far = flow.destination.imp
    ends = {"imp": imp_in_words(flow.source.imp), "to": imp_in_words(far)}

    def said() -> list[str]:
        here = view.subnet.up(flow.source.imp)
        if far == here.number:
            return [filled(INSIDE["nobody to ask"], ends)]
        if here.route(far) is None:
            return [filled(INSIDE["nothing asked"], ends)]
        start = filled(INSIDE["asks"], ends, message=f"message {number} of flow {spell_flow(flow)}")
        return [start, view.sendings(here.number) or f"The question waits in the store of IMP {here.number}."]

    return said


def forgotten(view: View, number: int, other: int) -> Sentences | None:
    """What is said of an IMP that forgets the numbers of another one's flows."""
    imp = view.imp(number)
    if imp is None:
        return None
    flows = [spell_flow(flow) for flow in imp.kept if flow.source.imp == other]
    what = f"the last numbers of flow{'s' if len(flows) > 1 else ''} {listed(flows)}" if flows else "nothing, since it noted no flow from there"
    return lambda: [f"IMP {number} forgets {what}."]


def abandoned(view: View, flow: Flow) -> Sentences | None:
    """What is said of pieces that are thrown away."""
    imp = view.imp(flow.destination.imp)
    if imp is None or flow not in imp.slots:
        return None
    number, pieces = imp.slots[flow]
    return lambda: [filled(INSIDE["thrown away"], imp=imp_in_words(flow.destination.imp), pieces=len(pieces), message=f"message {number}")]


# ---- stops and starts


def imp_down(view: View, number: int) -> Sentences | None:
    """What is said of an IMP that stops."""
    imp = view.imp(number)
    if imp is None:
        return None
    held = [it.what for it in of_imp(number, imp)]
    return lambda: [filled(INSIDE["stops"], imp=imp_in_words(number)), filled(INSIDE["goes with it"], what=listed(held)) if held else INSIDE["held nothing"]]


def imp_up(view: View, number: int) -> Sentences:
    return lambda: [filled(INSIDE["starts"], imp=imp_in_words(number))]


def host_down(view: View, host: HostName) -> Sentences | None:
    """What is said of a host that stops."""
    imp = view.imp(host.imp)
    if imp is None or host.number >= len(imp.hosts):
        return None
    waited = [f"message {it.number} of flow {spell_flow(it.flow)}" for it in imp.hosts[host.number].messages]
    return lambda: [filled(INSIDE["waited"], what=listed(waited)), view.sendings(host.imp)] if waited else []


# ---- rounds


def rounds_passed(view: View, rounds: int) -> Sentences:
    """What is said of rounds of a calm."""
    before = {number: view.ways(number) for number in view.subnet.sites}

    def said() -> list[str]:
        if rounds == 0:
            return []
        frames = sum(len(way) for ways in view.subnet.live for way in ways.values())
        left = f"{count(frames, 'frame')} {'are' if frames > 1 else 'is'} live on the lines now." if frames else "No frame is live on a line now."
        return [known_ways(view, before), left]

    return said


def known_ways(view: View, before: dict[int, Ways]) -> str:
    """Which routes the IMPs know that they did not know before."""
    now = {number: view.ways(number) for number in view.subnet.sites}
    if now == before:
        return ""
    if all(all(ways.values()) for ways in now.values()):
        return "Now every IMP knows a route to every other."
    changed = [(number, it) for number in now for it in now[number] if now[number][it] != before[number][it]]
    said = [f"IMP {number} {'now knows a route' if now[number][it] else 'no longer knows a route'} to IMP {it}" for number, it in changed]
    return f"{listed(said)}."
