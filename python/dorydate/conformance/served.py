"""Dialogues with a server, whose user nobody can ask for anything: each moment is chosen, as in `underway`.

The server listens on socket 1 and says a socket to whoever asks it, by the initial connection. So it can be tried at
the far end of a wire too (dorydate.live.heard).
"""

from __future__ import annotations

from dorydate.conformance.steps import Dialogue, Step
from dorydate.conformance.underway import AWAY, RESET, RFNM, answer, data, peer

ASKED = (*RESET, peer("RTS 16 1 5", "STR 1 16 32"))
TOLD = (*ASKED, RFNM, peer("ALL 5 1 32", "data 5 32 _"))
OVER = (*AWAY, "ERR _ _")  # what may be said where no connection is left


def told_over(kind: str, link: str) -> tuple[Step, Step]:
    """A message fails, and then an allocation comes for what was a connection."""
    return answer(kind, link, *AWAY), peer("ALL 5 1 32", *OVER)


SERVED = (
    Dialogue("serves", "a socket is said in one message, and the CLS waits until that is answered", (
        *TOLD, answer("rfnm", "5", "CLS 1 16"), RFNM, peer("CLS 16 1"),
    )),
    Dialogue("serves while its request is out", "data wait for the partner's allocation, not for an RFNM of link 0", (
        *ASKED, peer("ALL 5 1 32", "data 5 32 _", ""), answer("rfnm", "0", "", "data 5 32 _"),
    )),
    Dialogue("serves without an allocation", "no data go before an allocation for them", (
        *ASKED, RFNM, peer("ALL 5 0 32"), peer("ALL 5 1 0", "data 5 32 _"), answer("rfnm", "5", "CLS 1 16"),
    )),
    Dialogue("is closed before it served", "a CLS that comes is answered by one", (
        *ASKED, RFNM, peer("CLS 16 1", "CLS 1 16"), RFNM, peer("ALL 5 1 32", *OVER),
    )),
    Dialogue("is closed while its socket is out", "the CLS that answers one waits until the data are answered", (
        *TOLD, peer("CLS 16 1"), answer("rfnm", "5", "CLS 1 16"), RFNM,
    )),
    Dialogue("is reset while its socket is out", "an RRP waits until nothing is without an answer", (
        *TOLD, peer("RST"), answer("rfnm", "5", "RRP"), RFNM, peer("ALL 5 1 32", *OVER),
    )),
    Dialogue("is reset while its request is out", "an RRP waits for the RFNM of what was said before it", (
        *ASKED, peer("RST"), answer("rfnm", "0", "RRP"), RFNM, peer("RTS 16 1 5", "STR 1 16 32"),
    )),
    Dialogue("is reset twice", "each RST has an RRP, and the second waits for the RFNM of the first", (
        peer("RST", "RRP"), peer("RST"), answer("rfnm", "0", "RRP"), RFNM, peer("RTS 16 1 5", "STR 1 16 32"),
    )),
    Dialogue("its socket fails", "after Dead the connections are over, and nothing goes before a reset", (
        *TOLD, *told_over("dead", "5"),
    )),
    Dialogue("its socket fails half way", "after Incomplete nothing is sent again: it may have been taken", (
        *TOLD, *told_over("incomplete", "5"),
    )),
    Dialogue("its request fails", "a control message that is lost ends the connections too", (
        *ASKED, *told_over("incomplete", "0"),
    )),
    Dialogue("serves again after a failure", "after a reset everything begins anew", (
        *TOLD, answer("dead", "5", ""), *ASKED, RFNM, peer("ALL 5 1 32", "data 5 32 _"),
    )),
    Dialogue("data for a sender", "data on a link that has no receiving end open nothing and close nothing", (
        *ASKED, RFNM, data(b"A", "", "ERR _ _", link="7"), RFNM, peer("ALL 5 1 32", "data 5 32 _"),
    )),
)  # fmt: skip
