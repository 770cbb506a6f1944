"""Dialogues with things under way: a program and a peer over mailboxes, of which each moment is chosen.

The peer says what it likes, when it likes; an answer comes when a step says so, and may say that a message was lost. So
a program is asked what no network at rest asks: what it says while data or an RST are without an answer, after a message
that failed, or when an RRP is for an older RST. What it says is right if it is among what a step expects, and if its own
log keeps the contract (dorydate.contract); a rule that it breaks is named.
"""

from __future__ import annotations

from collections.abc import Iterator

from dorydate.conformance.steps import HERE, MINE, Dialogue, Step, fits, in_words, joined
from dorydate.conformance.trial import Finding, spelled
from dorydate.contract import Known
from dorydate.contract.hears import Hears, Wrong
from dorydate.coupling import Mute, Speaks
from dorydate.explore.pattern import Names
from dorydate.model.bits import Bits, bits_of, spell_bits
from dorydate.model.commands import (
    ALL, CLS, ECO, RRP, RST, RTS, STR, alone, control_message, header, of_counts, of_sockets,
)  # fmt: skip


def user(does: str, *right: str) -> Step:
    """The user of the program asks for something: the words of a script's line without the host."""
    word, _, rest = does.partition(" ")
    return Step("user", f"{word} {MINE} {rest}", HERE, right or ("",))


def peer(does: str, *right: str, link: str = "0", text: Bits = "") -> Step:
    """The peer's message comes in: commands in words, or another text."""
    return Step("peer", does, HERE, right or ("",), (), link, text or control_message(map(octets_of, does.split(", "))))


def data(bits: bytes, *right: str, link: str = "L") -> Step:
    """Data of the peer come in."""
    return peer(f"{8 * len(bits)} bits", *right, link=link, text=header(8, len(bits)) + bits_of(bits))


def answer(kind: str, link: str, *right: str) -> Step:
    """An answer about a message of the program comes in."""
    return Step("answer", f"{kind} on link {link}", HERE, right or ("",), (), link)


def octets_of(words: str) -> bytes:
    """A command by its words."""
    name, *numbers = words.split(" ")
    code = {"ALL": ALL, "CLS": CLS, "ECO": ECO, "RRP": RRP, "RST": RST, "RTS": RTS, "STR": STR}[name]
    given = [int(it) for it in numbers]
    if code in (RTS, STR, CLS):
        return of_sockets(code, *given)
    return of_counts(code, *given) if code == ALL else alone(code) + bytes(given)


RFNM = answer("rfnm", "0")
RESET = peer("RST", "RRP"), RFNM
SENDS = (*RESET, user("listen 33 8"), peer("RTS 16 33 2", "STR 33 16 8"), RFNM)
GRANTED = (*SENDS, peer("ALL 2 10 1000"))
BUSY = (*GRANTED, user("send 33 16 4C4F", "data 2 8 4C4F"))
TAKES = (*RESET, user("listen 32 8"), peer("STR 17 32 8", "RTS 32 17 L"), RFNM)
ROUND = (
    user("listen 32 8"), peer("STR 17 32 8", "RTS 32 17 _"), RFNM, peer("CLS 17 32", "CLS 32 17"), RFNM,
)  # fmt: skip
AWAY = "", "RST"  # what may be said of a pair that was lost: nothing, or that it be reset

UNDERWAY = (
    Dialogue("fails", "after Dead the connections are over, and nothing goes before a reset", (
        *BUSY, answer("dead", "2", *AWAY), user("send 33 8 21", *AWAY), user(f"echo {HERE} 5", *AWAY),
    )),
    Dialogue("fails half way", "after Incomplete nothing is sent again: it may have been taken", (
        *BUSY, answer("incomplete", "2", *AWAY), user("send 33 8 21", *AWAY),
    )),
    Dialogue("a command fails", "a control message that is lost ends the connections too", (
        *GRANTED, user(f"echo {HERE} 5", "ECO 5"), answer("incomplete", "0", *AWAY), user("send 33 8 21", *AWAY),
    )),
    Dialogue("a reply fails", "an RRP that is lost ends the stay that its RST began", (
        peer("RST", "RRP"), answer("dead", "0", *AWAY), user(f"echo {HERE} 5", *AWAY),
    )),
    Dialogue("a reset fails", "an RST that is lost resets nothing", (
        user(f"contact {HERE}", "RST"), answer("dead", "0", *AWAY), peer("RRP", *AWAY), user(f"echo {HERE} 5", *AWAY),
    )),
    Dialogue("early reply", "an RRP that comes before the RFNM of one's own RST doesn't count", (
        user(f"contact {HERE}", "RST"), peer("RRP"), answer("rfnm", "0", *AWAY), user(f"echo {HERE} 5", *AWAY),
    )),
    Dialogue("reset while data are out", "an RST waits until nothing is without an answer", (
        *BUSY, user(f"contact {HERE}"), answer("rfnm", "2", "RST"), answer("rfnm", "0"), peer("RRP"),
        user(f"echo {HERE} 5", "ECO 5"),
    )),
    Dialogue("is reset while data are out", "so does an RRP", (
        *BUSY, peer("RST"), answer("rfnm", "2", "RRP"), answer("rfnm", "0"), user(f"echo {HERE} 5", "ECO 5"),
    )),
    Dialogue("talk before the reply", "nothing goes before an RRP that is owed", (
        *RESET, user(f"echo {HERE} 1", "ECO 1"), peer("RST"), user(f"echo {HERE} 2"), answer("rfnm", "0", "RRP"),
        answer("rfnm", "0", "ECO 2", ""),
    )),
    Dialogue("resets that cross", "an RST that comes while one's own is out is answered, and both need an RRP", (
        user(f"contact {HERE}", "RST"), peer("RST"), answer("rfnm", "0", "RRP"), answer("rfnm", "0"),
        peer("RRP"), user(f"echo {HERE} 6", "ECO 6"),
    )),
    Dialogue("one reset after another", "each RST is answered by one RRP, however many there are", (
        *RESET * 5, user(f"echo {HERE} 5", "ECO 5"),
    )),
    Dialogue("closes before the answer", "a CLS waits until all data are answered", (
        *BUSY, user("close 33"), answer("rfnm", "2", "CLS 33 16"), RFNM, peer("CLS 16 33"),
    )),
    Dialogue("closes with data waiting", "what was handed over and granted goes before the CLS", (
        *BUSY, user("send 33 8 21"), user("close 33"), answer("rfnm", "2", "data 2 8 21"),
        answer("rfnm", "2", "CLS 33 16"), RFNM, peer("CLS 16 33"),
    )),
    Dialogue("is closed while data are out", "so does the CLS that answers one", (
        *BUSY, user("send 33 8 21"), peer("CLS 16 33"), answer("rfnm", "2", "CLS 33 16"), RFNM,
    )),
    Dialogue("data amid a close", "what comes after one's own CLS isn't answered, and a CLS is said once", (
        *TAKES, user("grant 32 2 64", "ALL L 2 64"), RFNM, data(b"A"), user("close 32", "CLS 32 17"), data(b"B"),
        RFNM, data(b"C"), peer("CLS 17 32"),
    )),
    Dialogue("what came", "a user gets what came, once, and all of it", (
        *TAKES, user("grant 32 2 64", "ALL L 2 64"), RFNM, data(b"AB"), data(b"CD"),
    )),
    Dialogue("asked again before the close", "a request for an end that waits for the partner's CLS opens nothing", (
        *GRANTED, user("close 33", "CLS 33 16"), RFNM, peer("RTS 16 33 3", "", "ERR _ _"),
    )),
    Dialogue("two ends at once", "two receiving ends of a pair have two links", (
        *TAKES, user("listen 34 8"), peer("STR 19 34 8", "RTS 34 19 M"), RFNM,
    )),
    Dialogue("listens once", "a socket that listens stops listening when it is asked for", (
        *SENDS, peer("RTS 18 33 3", "CLS 33 18"), RFNM, peer("CLS 18 33"),
    )),
    Dialogue("thirty-one connections", "an end that is over has no link any more", (*RESET, *ROUND * 31)),
    Dialogue("a grant past the counter", "a counter stays at its greatest value, 65,535 messages", (
        *SENDS, peer("ALL 2 65535 1000"), peer("ALL 2 1 1000"), user("send 33 16 4C4F", "data 2 8 4C4F"),
    )),
)  # fmt: skip


class UnderWay:
    """A program and a peer, and how far a dialogue is. Its own log is judged by what is known of it."""

    def __init__(self, program: Speaks, dialogue: Dialogue, known: Known = Known()) -> None:
        self.dialogue = dialogue
        self.mine = Hears(program, MINE, known)
        self.names: Names = ()

    def finding(self) -> Finding | None:
        """The first thing that is wrong; None where nothing is."""
        for step in self.dialogue.steps:
            if why := self.wrong(step):
                return Finding(self.dialogue, step, why)
        why = self.mine.at_its_end()
        return Finding(self.dialogue, self.dialogue.steps[-1], why) if why else None

    def wrong(self, step: Step) -> str | None:
        """What is wrong after a step, in words."""
        try:
            said = self.mine.hears(self.line(step))
        except (Mute, Wrong) as why:
            return str(why)
        words = joined([*self.in_words(said)])
        bound = [fits(words, right, self.names) for right in step.right]
        found = next((it for it in bound if it is not None), None)
        if found is None:
            right = " or ".join(spelled(it) for it in step.right)
            return f"it says {spelled(', '.join(words))}, and right is {right}"
        self.names = found
        return None

    def line(self, step: Step) -> str:
        """What the program hears."""
        link = dict(self.names).get(step.link, step.link)
        if step.who == "user":
            return step.does
        if step.who == "answer":
            return f"answer {step.does.split(' ')[0]} {MINE} {HERE} {link}"
        return f"in {HERE} {MINE} {link} {spell_bits(step.text)}"

    def in_words(self, said: list[tuple[int, Bits]]) -> Iterator[str]:
        for link, text in said:
            yield from in_words(link, text)


def tried_underway(program: Speaks, dialogue: Dialogue) -> Finding | None:
    """Has a dialogue with things under way with a program that has just started: what is wrong, if anything is."""
    return UnderWay(program, dialogue).finding()
