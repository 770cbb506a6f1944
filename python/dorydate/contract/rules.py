"""The rules of the contract: what each asks of a host, where the standard has it, and what breaks if one host lacks it.

A rule looks at one host's own log only. `without/contract` has a script for each of the first twenty-four, in which one
host lacks it and the promise breaks. Of the three others none was seen to break anything that is promised, or they are
the ranges of this profile, within which the promise is proved.
"""

from __future__ import annotations

from typing import NamedTuple

STANDARD = "NIC 8246"  # the Host/Host Protocol


class Rule(NamedTuple):
    """A rule by its name."""

    name: str
    says: str
    section: str  # of the standard
    why: str  # what comes of it where a host lacks the rule
    is_needed: bool = True  # whether the promise breaks without it

    @property
    def script(self) -> str:
        """The stored script of what breaks, as a path from the top; none where nothing does."""
        return f"without/contract/{self.name}" if self.is_needed else ""


RESETS = (
    Rule("alone", "RST and RRP each go in a message of their own.", "RST, RRP",
         "a request beside an RRP is taken where its peer has just forgotten it, and opens an end"),
    Rule("idle", "RST and RRP go only while no message to that host is without an answer.", "RST, RRP",
         "a message of data from before the reset is taken in the next connection"),
    Rule("through", "Data and all other commands go only after a reset of the two hosts.", "RST, RRP",
         "a request is counted at one end and dropped at the other, and then requests match other requests"),
    Rule("early",
         "An RRP that comes before the RFNM of one's own RST doesn't count: it may answer an older one.", "RRP",
         "the host continues while its peer still forgets what it hears"),
    Rule("failed",
         "After Dead, Incomplete or NotTaken all with that host is over, and a reset comes first.", "RST; BBN 1822",
         "a receiver counts the next message in place of the lost one"),
    Rule("stopped", "A host that stops has no connections any more.", "RST",
         "it counts data in a connection that is over"),
    Rule("forgets", "An RST that goes out or comes in drops all connections and requests with that host.", "RST",
         "an end opens with a request from before the reset"),
)  # fmt: skip

REQUESTS = (
    Rule("once",
         "An end asks once: by an RTS with a link if it receives, by an STR with a byte size if it sends.", "RTS, STR",
         "the two ends open with different requests"),
    Rule("link", "An RTS names a link that none of the host's receiving ends with that peer has.", "RTS",
         "a message is counted in another connection than it was sent in"),
    Rule("closes", "A CLS is sent once for an end, and only where one of its two hosts has asked.", "CLS",
         "a CLS ends the next connection of the same sockets at one host only"),
    Rule("over", "An end is over when both CLS have crossed, and before that its sockets ask for nothing.", "CLS",
         "the answer to the older request opens the newer connection"),
    Rule("drained", "A sender's CLS waits until all its data are answered.", "CLS",
         "the next connection on that link counts the last message of the one before"),
    Rule("willed",
         "The CLS of an end that opened is sent only if its user closed it, or its partner's CLS came.", "CLS",
         "a user is notified that its partner ended the connection, and what was sent is lost"),
    Rule("opens",
         "A user is notified once that an end is open, when both requests have crossed and no CLS has.", "RTS, STR",
         "a life has no request of a partner"),
)  # fmt: skip

DATA = (
    Rule("sends",
         "Data go only on the link of a sending end that is open, and whose user knows it.", "messages of data",
         "a receiver counts a message that no life of the sender has"),
    Rule("size", "Data are in whole bytes of the size that the STR names.", "messages of data; STR",
         "a message is answered by RFNM and counted by nobody, and the next one in its place"),
    Rule("within", "What goes out is within what ALLs have granted, in messages and in bits.", "ALL",
         "more is sent than was granted"),
    Rule("handed", "Data are the bits that a user handed over, in order, each once.", "messages of data",
         "what is sent isn't what was handed over"),
    Rule("grants", "An ALL says what a user granted, and no more than that.", "ALL",
         "the partner sends more than was granted"),
    Rule("returns", "What RETs give back is not sent any more.", "RET, GVB",
         "more is sent than was granted, less what was returned"),
    Rule("takes",
         "A user is notified of what came on its link: in order, without a gap, within the grants.", "ALL",
         "a life counts other messages than those that its partner counts"),
    Rule("all", "An end that nobody has closed counts all that comes within its grants.", "messages of data",
         "data are answered by RFNM and lost"),
    Rule("returned", "A user is notified of returns as far as RETs have said them, of what isn't used.", "RET",
         "more is taken and returned than was granted"),
    Rule("ended", "A user is notified that a connection is over when both CLS have crossed.", "CLS",
         "a user believes that it has all that was sent"),
)  # fmt: skip

BESIDE = (
    Rule("reply", "An RRP goes where one is owed for an RST, and nothing else goes before it.", "RRP",
         "the peer ignores what is said before the RRP; no book was seen to break", False),
    Rule("links", "Connections have the links 2 to 31.", "links (this profile's range)",
         "a host of this profile ignores the request", False),
    Rule("waits", "An ALL, and so data, wait until both requests have crossed.", "ALL (this profile's range)",
         "a host of this profile counts no data before the partner's request", False),
)  # fmt: skip

NEEDED = RESETS + REQUESTS + DATA
RULES = {it.name: it for it in NEEDED + BESIDE}
