"""The dialogues: what is tried, and what a right program may answer.

Of the numbers of sockets the first is that of who says a command. An ERR may always be left out, since a host that
drops what is wrong breaks no rule; its kind isn't looked at, since programs count differently.
"""

from __future__ import annotations

from dorydate.conformance.steps import HERE, MINE, OTHER, Dialogue, Step
from dorydate.model.bits import Bits, bits_of
from dorydate.model.commands import (
    ALL, CLS, ECO, ERR, INS, NOP, RRP, RST, RTS, STR, alone, control_message, header, of_counts, of_sockets,
)  # fmt: skip

ERROR = "", "ERR _ _"


def user(does: str, *right: str, seen: tuple[str, ...] = (), peer: str = HERE) -> Step:
    """The user of the program asks for something at its host: the words of a script's line without the host."""
    word, _, rest = does.partition(" ")
    return Step("user", f"{word} {MINE} {rest}", peer, right or ("",), seen)


def here(does: str, *right: str, seen: tuple[str, ...] = ()) -> Step:
    """The user of the proved host asks for something."""
    word, _, rest = does.partition(" ")
    return Step("here", f"{word} {HERE} {rest}", HERE, right or ("",), seen)


def other(does: str, *right: str, link: str = "0", commands: tuple[bytes, ...] = (), text: Bits = "") -> Step:
    """The second stranger says something: commands, or another text."""
    return Step("other", does, OTHER, right or ("",), (), link, text or control_message(commands))


def data(does: str, bits: bytes, *right: str, size: int = 8, link: str = "L") -> Step:
    """The second stranger sends data on a link, or on the one that has this name."""
    text = header(size, 8 * len(bits) // size) + bits_of(bits)
    return other(does, *right, link=link, text=text)


READY = here(f"contact {MINE}", "RRP", seen=(f"ready {HERE} {MINE}",))
RESET = other("RST", "RRP", commands=(alone(RST),))
SENDS = (
    READY,
    user("listen 33 8"),
    here(f"openrecv {MINE} 16 33", "STR 33 16 8", seen=(f"opened {HERE} 16 {MINE} 33",)),
)
TAKES = (
    READY,
    user("listen 32 8"),
    here(f"opensend {MINE} 17 32 8", "RTS 32 17 L", seen=(f"opened {HERE} 17 {MINE} 32",)),
)
LISTENS = (
    RESET,
    user("listen 32 8"),
    other("STR 17 32 8", "RTS 32 17 L", commands=(of_sockets(STR, 17, 32, 8),)),
)

RESETS = (
    Dialogue("reset", "RST is answered by RRP, in a message of its own", (READY,)),
    Dialogue("reset again", "each RST is answered", (READY, here(f"contact {MINE}", "RRP"))),
    Dialogue("reset twice at once", "one RRP answers all RSTs before it, and two answer two", (
        other("RST, RST", "RRP", "RRP, RRP", commands=(alone(RST), alone(RST))),
    )),
    Dialogue("own reset", "RST goes out once, and after RRP the pair is ready", (
        user(f"contact {HERE}", "RST", seen=(f"ready {HERE} {MINE}",)),
        user(f"echo {HERE} 5", "ECO 5"),
    )),
    Dialogue("own reset again", "a pair that is ready is reset again", (
        READY,
        user(f"contact {HERE}", "RST", seen=(f"pairreset {HERE} {MINE}",)),
    )),
    Dialogue("reply unasked", "an RRP that nobody waits for does nothing", (
        RESET,
        other("RRP", commands=(alone(RRP),)),
        other("ECO 3", "ERP 3", commands=(bytes([ECO, 3]),)),
    )),
    Dialogue("before a reset", "before a reset commands are dropped; a host may ask for one", (
        other("ECO 3", "", "RST", commands=(bytes([ECO, 3]),)),
    )),
    Dialogue("reset in mid-stream", "after a reset nothing of a connection is left", (
        *SENDS,
        user("send 33 16 4C4F"),
        here(f"contact {MINE}", "RRP", seen=(f"pairreset {HERE} {MINE}", f"ready {HERE} {MINE}")),
        user("listen 33 8"),
        here(f"openrecv {MINE} 16 33", "STR 33 16 8"),
        here("grant 16 10 1000"),
    )),
)  # fmt: skip

CONNECTIONS = (
    Dialogue("nobody listens", "a request is refused by CLS, and no ERR", (
        READY,
        here(f"openrecv {MINE} 16 33", "CLS 33 16", seen=(f"ended {HERE} 16 {MINE} 33",)),
        here(f"opensend {MINE} 17 32 8", "CLS 32 17", seen=(f"ended {HERE} 17 {MINE} 32",)),
    )),
    Dialogue("sends", "nothing goes out before it is granted, and no more than that", (
        *SENDS,
        user("send 33 48 4C4F47494E21"),
        here("grant 16 1 16", "data 2 8 4C4F"),
        here("grant 16 0 1000"),
        here("grant 16 10 0", "data 2 8 47494E21", seen=(f"arrived {HERE} 16 32",)),
    )),
    Dialogue("sends whole bytes", "a grant that ends within a byte leaves that byte", (
        *SENDS,
        user("send 33 24 4C4F47"),
        here("grant 16 10 15", "data 2 8 4C"),
        here("grant 16 10 1", "data 2 8 4F"),
    )),
    Dialogue("sends much", "a message waits for the answer to the one before it on its link", (
        *SENDS,
        here("grant 16 10 10000"),
        user(f"send 33 9600 {'4C' * 1200}", f"data 2 8 {'4C' * 1200}", seen=(f"arrived {HERE} 16 8016",)),
    )),
    Dialogue("takes", "a sender is granted what its receiver's user grants", (
        *TAKES,
        user("grant 32 2 64", "ALL L 2 64"),
        here("send 17 16 4F4B", seen=(f"sent {HERE} 17 16",)),
        here("close 17", "CLS 32 17", seen=(f"ended {HERE} 17 {MINE} 32",)),
    )),
    Dialogue("asks", "the program's own requests, each answered", (
        READY,
        here("listen 17 8"),
        user(f"openrecv {HERE} 32 17", "RTS 32 17 L", seen=(f"opened {HERE} 17 {MINE} 32",)),
        here("listen 16 8"),
        user(f"opensend {HERE} 33 16 8", "STR 33 16 8", seen=(f"opened {HERE} 16 {MINE} 33",)),
    )),
    Dialogue("closes", "a close is said once all that was handed over and granted is out", (
        *SENDS,
        here("grant 16 10 1000"),
        user("send 33 16 4C4F", "data 2 8 4C4F"),
        user("close 33", "CLS 33 16", seen=(f"ended {HERE} 16 {MINE} 33",)),
    )),
    Dialogue("is closed", "a CLS is answered by CLS, and then the sockets are free", (
        *SENDS,
        here("close 16", "CLS 33 16", seen=(f"ended {HERE} 16 {MINE} 33",)),
        user("listen 33 8"),
        here(f"openrecv {MINE} 16 33", "STR 33 16 8", seen=(f"opened {HERE} 16 {MINE} 33",)),
    )),
    Dialogue("gives back", "GVB takes back what isn't used, and RET says how much", (
        *SENDS,
        here("grant 16 10 1000"),
        here("askback 16 64 128", "RET 2 5 1000", seen=(f"returned {HERE} 16 5 1000",)),
        user("send 33 8 4C"),
        here("grant 16 0 8", "data 2 8 4C"),
    )),
    Dialogue("is interrupted", "INR and INS are answered by nothing", (
        *SENDS,
        here("interrupt 16"),
        user("interrupt 33", "INS 2", seen=(f"interrupt {HERE} 16",)),
    )),
    Dialogue("echo", "ECO is answered by ERP with its octet", (
        READY,
        here(f"echo {MINE} 170", "ERP 170", seen=(f"echoed {HERE} {MINE} 170",)),
        user(f"echo {HERE} 85", "ECO 85"),
    )),
)  # fmt: skip

WRONGS = (
    Dialogue("commands together", "a message may have many commands, and NOP does nothing", (
        RESET,
        other("NOP, ECO 1, ECO 2", "ERP 1, ERP 2", commands=(alone(NOP), bytes([ECO, 1]), bytes([ECO, 2]))),
    )),
    Dialogue("no such code", "after an illegal code nothing more of the message is read", (
        RESET,
        other("code 14, ECO 1", *ERROR, commands=(bytes([14]), bytes([ECO, 1]))),
        other("ECO 2", "ERP 2", commands=(bytes([ECO, 2]),)),
    )),
    Dialogue("cut", "a command without all its octets does nothing", (
        RESET,
        other("CLS, cut", *ERROR, commands=(of_sockets(CLS, 16, 33)[:5],)),
        other("ECO 2", "ERP 2", commands=(bytes([ECO, 2]),)),
    )),
    Dialogue("too long", "commands have 120 octets at most in a message", (
        RESET,
        other("121 NOP", *ERROR, commands=(alone(NOP),) * 121),
        other("ECO 2", "ERP 2", commands=(bytes([ECO, 2]),)),
    )),
    Dialogue("no header", "a text that is shorter than its header does nothing", (
        RESET,
        other("8 bits", *ERROR, text="00000001"),
        other("ECO 2", "ERP 2", commands=(bytes([ECO, 2]),)),
    )),
    Dialogue("wrong sockets", "a request between two sockets that send is no request", (
        RESET,
        user("listen 33 8"),
        other("RTS 17 33 2", *ERROR, commands=(of_sockets(RTS, 17, 33, 2),)),
        other("RTS 16 33 2", "STR 33 16 8", commands=(of_sockets(RTS, 16, 33, 2),)),
    )),
    Dialogue("wrong link", "links 2 to 31 are connected, and each once", (
        RESET,
        user("listen 33 8"),
        other("RTS 16 33 1", *ERROR, commands=(of_sockets(RTS, 16, 33, 1),)),
        other("RTS 16 33 2", "STR 33 16 8", commands=(of_sockets(RTS, 16, 33, 2),)),
        user("listen 35 8"),
        other("RTS 18 35 2", *ERROR, commands=(of_sockets(RTS, 18, 35, 2),)),
    )),
    Dialogue("no connection", "what is about no connection does nothing", (
        RESET,
        other("CLS 16 33", *ERROR, commands=(of_sockets(CLS, 16, 33),)),
        other("ALL 2 1 8", *ERROR, commands=(of_counts(ALL, 2, 1, 8),)),
        other("INS 2", *ERROR, commands=(bytes([INS, 2]),)),
        data("data on link 2", b"A", *ERROR, link="2"),
    )),
    Dialogue("errors", "an ERR is never answered", (
        RESET,
        other("ERR 1", commands=(bytes([ERR, 1]) + b"\x0e" + bytes(9),)),
        other("ERR 77", commands=(bytes([ERR, 77]) + bytes(10),)),
    )),
    Dialogue("past the grant", "data past the grant aren't counted, and the rest of the grant holds", (
        *LISTENS,
        user("grant 32 2 16", "ALL L 2 16", peer=OTHER),
        data("24 bits", b"ABC", *ERROR),
        data("16 bits", b"DE"),
        data("8 bits", b"F", *ERROR),
    )),
    Dialogue("another byte size", "data of another byte size than the connection's aren't counted", (
        *LISTENS,
        user("grant 32 1 16", "ALL L 1 16", peer=OTHER),
        data("bytes of 16 bits", b"AB", *ERROR, size=16),
        data("bytes of 8 bits", b"AB"),
    )),
    Dialogue("stolen socket", "a CLS closes no connection of another host", (
        *SENDS,
        RESET,
        other("CLS 16 33", *ERROR, commands=(of_sockets(CLS, 16, 33),)),
        user("send 33 16 4C4F"),
        here("grant 16 10 1000", "data 2 8 4C4F", seen=(f"arrived {HERE} 16 16",)),
    )),
    Dialogue("storm of resets", "a reset by one host touches no connection of another", (
        *SENDS,
        *[RESET] * 3,
        user("send 33 16 4C4F"),
        here("grant 16 10 1000", "data 2 8 4C4F", seen=(f"arrived {HERE} 16 16",)),
    )),
)  # fmt: skip

DIALOGUES = (*RESETS, *CONNECTIONS, *WRONGS)
